// What crates/conformance is to print.
use crate::calls::{convert, decode, open, Answer};
use crate::cases;
use crate::record::Record;
use crate::records::{case, Case};
use std::fmt::Write;

// The checksum that crates/conformance has, too: of numbers below 2^32.
fn sum(before: u64, numbers: impl IntoIterator<Item = u32>) -> u64 {
    numbers.into_iter().fold(before, |sum, n| (sum * 2_654_435_761 + n as u64) % 4_294_967_311)
}

fn sum_bytes(bytes: &[u8]) -> u64 {
    sum(1, bytes.iter().map(|&b| b as u32))
}

// The bits of a float. There is one NaN.
fn bits(x: f64) -> u64 {
    if x.is_nan() { 0x7ff8_0000_0000_0000 } else { x.to_bits() }
}

// The high half of a number, and the low one.
fn halves(n: u64) -> [u32; 2] {
    [(n >> 32) as u32, n as u32]
}

// The four parts of a record, as they lie in memory.
fn sum_record(record: &Record) -> u64 {
    let numbers = record.numbers.into_iter().flat_map(|n| halves(n as u64));
    let integers = record.integers.into_iter().map(|n| n as u32);
    let matrices = record.matrices.into_iter().map(|b| b as u32);
    sum(1, numbers.chain(integers).chain(matrices).chain(record.clock.into_iter().flat_map(|x| halves(bits(x)))))
}

// What a store is filled with before a case: crates/answer_lists has the same rule.
fn filled(length: usize) -> Vec<u8> {
    (0..length).map(|place| { let x = (place % 65536 + 7) as u64; (x * x * 40503 / 4096 % 256) as u8 }).collect()
}

fn show(out: &mut String, record: &Record, answer: &Answer, store: &[u8]) {
    let Answer::Picture(k, time) = *answer else {
        let Answer::Number(number) = *answer else { unreachable!() };
        writeln!(out, "{number} {:08x} {:08x}", sum_record(record), sum_bytes(store)).unwrap();
        return;
    };
    let n = record.macroblocks();
    let planes = [(0, 256), (256, 320), (320, 384)].map(|(from, to)| sum_bytes(&store[(384 * k + from) * n..(384 * k + to) * n]));
    let mut area = vec![0; 1073];
    let number = convert(record, store, k, &mut area, 37, 29);
    write!(out, "0 {:08x} {:08x} {k} {:016x}", sum_record(record), sum_bytes(store), bits(time)).unwrap();
    writeln!(out, " {:08x} {:08x} {:08x} {number} {:08x}", planes[0], planes[1], planes[2], sum(1, area)).unwrap();
}

// Opening and hand-outs, until a number other than 5 comes twice.
fn show_stream(out: &mut String, name: &str, stream: &[u8]) {
    let mut store = filled(55296);
    let (mut record, number) = open(stream, &mut store);
    writeln!(out, "= {name}").unwrap();
    show(out, &record, &Answer::Number(number), &store);
    let mut last = 0;
    for _ in 0..64 {
        let (next, answer) = decode(&record, stream, &mut store);
        record = next;
        show(out, &record, &answer, &store);
        let number = if let Answer::Number(number) = answer { number } else { 0 };
        if number != 0 && number != 5 && number == last {
            return;
        }
        last = number;
    }
    panic!("{name}: more than 64 hand-outs");
}

// The conversion, and then the hand-out, of a record made by hand.
fn show_case(out: &mut String, stream: &[u8], case: &Case) {
    let [bytes, k, w, h, length, calls] = case.settings;
    let mut store = filled(bytes);
    let mut area: Vec<u32> = vec![7; length];
    let number = convert(&case.record, &store, k, &mut area, w, h);
    writeln!(out, "= {}", case.name).unwrap();
    writeln!(out, "{number} {:08x}", sum(1, area)).unwrap();
    let mut record = case.record.clone();
    for _ in 0..calls {
        let (next, answer) = decode(&record, stream, &mut store);
        record = next;
        show(out, &record, &answer, &store);
    }
}

pub fn answers(streams_file: &[u8], records_file: &[u8]) -> String {
    std::panic::set_hook(Box::new(|_| {}));
    let mut out = String::new();
    for (name, stream) in cases(streams_file).1 {
        show_stream(&mut out, &name, &stream);
    }
    let (stream, records) = cases(records_file);
    for (name, text) in records {
        show_case(&mut out, &stream, &case(name, &text));
    }
    out
}

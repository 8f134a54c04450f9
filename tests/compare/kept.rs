// A case as a file that runs it again, line by line.
use crate::case::{Case, Conversion, ROOM};
use crate::record::Record;
use std::fmt::Write;

fn hex(bytes: &[u8]) -> String {
    bytes.iter().fold(String::new(), |mut text, byte| {
        write!(text, "{byte:02x}").expect("a string grows");
        text
    })
}

fn bytes(text: &str) -> Vec<u8> {
    text.as_bytes().chunks(2).map(|two| u8::from_str_radix(std::str::from_utf8(two).expect("hex"), 16).expect("hex")).collect()
}

fn joined<T: ToString>(values: &[T]) -> String {
    values.iter().map(T::to_string).collect::<Vec<_>>().join(" ")
}

pub fn text(case: &Case, difference: &str) -> String {
    let mut text = format!("difference {difference}\nstream {}\nstore {}\nmost {}\n", hex(&case.stream), hex(&case.store), case.most);
    writeln!(text, "noise {}\nlent {}", case.noise, joined(&case.lent)).expect("a string grows");
    if let Some(record) = &case.begin {
        let clock = record.clock.map(|value| format!("{:016x}", value.to_bits())).join(" ");
        let (numbers, integers, matrices) = (joined(&record.numbers), joined(&record.integers), hex(&record.matrices));
        writeln!(text, "clock {clock}\nintegers {integers}\nmatrices {matrices}\nnumbers {numbers}").expect("a string grows");
    }
    for Conversion { after, index, width, height, area } in &case.conversions {
        writeln!(text, "conversion {after} {index} {width} {height} {area}").expect("a string grows");
    }
    text
}

fn numbers<T: std::str::FromStr>(text: &str) -> Vec<T> {
    text.split(' ').map(|number| number.parse().ok().expect("a number")).collect()
}

fn all<T, const N: usize>(values: Vec<T>) -> [T; N] {
    values.try_into().unwrap_or_else(|values: Vec<T>| panic!("{N} values where {} are", values.len()))
}

pub fn case(text: &str) -> Case {
    let mut case = Case { begin: None, stream: Vec::new(), store: Vec::new(), most: 0, conversions: Vec::new(), noise: 0, lent: ROOM };
    let mut record = Record::fresh();
    for line in text.lines() {
        match line.split_once(' ').expect("a name and a value") {
            ("stream", value) => case.stream = bytes(value),
            ("store", value) => case.store = bytes(value),
            ("most", value) => case.most = value.parse().expect("a number"),
            ("noise", value) => case.noise = value.parse().expect("a number"),
            ("lent", value) => case.lent = all(numbers(value)),
            ("clock", value) => {
                for (at, bits) in value.split(' ').enumerate() {
                    record.clock[at] = f64::from_bits(u64::from_str_radix(bits, 16).expect("hex"));
                }
            }
            ("integers", value) => record.integers = all(numbers(value)),
            ("matrices", value) => record.matrices = all(bytes(value)),
            ("numbers", value) => {
                record.numbers = all(numbers(value));
                case.begin = Some(record.clone());
            }
            ("conversion", value) => {
                let n = numbers(value);
                case.conversions.push(Conversion { after: n[0], index: n[1], width: n[2], height: n[3], area: n[4] });
            }
            _ => (),
        }
    }
    case
}

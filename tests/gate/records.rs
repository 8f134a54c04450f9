// The file of records made by hand: the stream that they are used on, the number of cases, and for each two texts: its name, and six numbers (bytes of the
// store, store converted, width and height of the output, length of the area, and how often the hand-out is asked for) and the record, in the order of its
// memory: 21 numbers and 73 integers, each 32 bits, 128 bytes of the matrices, and the clock. A float is a fraction here, numerator and denominator, so that a
// file can be read without the bits of floats.
use crate::calls::{decode, open};
use crate::record::*;
use crate::{cases, number};

// What a line of the changes calls the fields, in their order.
const NUMBER_FIELDS: [&str; NUMBERS] = [
    "position", "header", "width", "height", "mb_width", "mb_height", "mb_size", "type", "cur", "fwd", "bwd", "scale", "ff", "fs", "fr", "bf", "bs", "br", "held",
    "handed", "stop",
];
const INTEGER_FIELDS: [&str; BLOCK] = ["code", "address", "fh", "fv", "bh", "bv", "dc0", "dc1", "dc2"];
const FRACTION_FIELDS: [&str; 2 * FLOATS] = ["rate", "rate_low", "aspect", "aspect_low", "next", "next_low", "shown", "shown_low"];

// Where the parts of a record begin in the text of a case.
const INTEGERS_AT: usize = 24 + 4 * NUMBERS;
const MATRICES_AT: usize = INTEGERS_AT + 4 * INTEGERS;
const CLOCK_AT: usize = MATRICES_AT + MATRICES;

pub struct Case {
    pub name: String,
    pub settings: [usize; 6],
    pub record: Record,
}

// What the cases are when a line of the changes says nothing else.
const SETTINGS: [(&str, u32); 6] = [("store", 13824), ("k", 0), ("w", 37), ("h", 29), ("area", 1073), ("calls", 1)];

// Each line of `changes` begins with the fields that differ from the record after the third hand-out of the stream 7_chance_0.
pub fn make(streams_file: &[u8], changes: &str) -> Vec<u8> {
    let (_, stream) = cases(streams_file).1.into_iter().find(|(name, _)| name == "7_chance_0").expect("the stream is there");
    let mut store = vec![0; 55296];
    let mut base = open(&stream, &mut store).0;
    for _ in 0..3 {
        base = decode(&base, &stream, &mut store).0;
    }
    let lines: Vec<&str> = changes.lines().filter(|line| !line.is_empty() && !line.starts_with('#')).collect();
    let mut out = Vec::new();
    out.extend((stream.len() as u32).to_be_bytes());
    out.extend(&stream);
    out.extend((lines.len() as u32).to_be_bytes());
    for line in lines {
        add(&mut out, line, &base);
    }
    out
}

fn place(fields: &[&str], field: &str) -> Option<usize> {
    fields.iter().position(|f| *f == field)
}

fn add(out: &mut Vec<u8>, line: &str, base: &Record) {
    let mut record = base.clone();
    // rate 25, aspect 1, and three pictures handed out
    let mut fractions: [u32; 2 * FLOATS] = [25, 1, 1, 1, 3, 25, 2, 25];
    let mut settings = SETTINGS;
    for change in line.split_whitespace() {
        let (field, value) = change.split_once('=').expect("field=value");
        let value = value.parse::<i64>().expect("a number");
        if let Some(setting) = settings.iter_mut().find(|s| s.0 == field) {
            setting.1 = value as u32;
        } else if let Some(coefficient) = field.strip_prefix("left") {
            record.integers[BLOCK + coefficient.parse::<usize>().unwrap()] = value as i32;
        } else if let Some(at) = place(&NUMBER_FIELDS, field) {
            record.numbers[at] = value as usize;
        } else if let Some(at) = place(&INTEGER_FIELDS, field) {
            record.integers[at] = value as i32;
        } else {
            fractions[place(&FRACTION_FIELDS, field).expect("a field")] = value as u32;
        }
    }
    let numbers = settings.iter().map(|s| s.1).chain(record.numbers.into_iter().map(|n| n as u32)).chain(record.integers.into_iter().map(|n| n as u32));
    let text: Vec<u8> = numbers.flat_map(u32::to_be_bytes).chain(record.matrices).chain(fractions.into_iter().flat_map(u32::to_be_bytes)).collect();
    for text in [line.as_bytes(), &text] {
        out.extend((text.len() as u32).to_be_bytes());
        out.extend(text);
    }
}

// The case of a name and a text.
pub fn case(name: String, text: &[u8]) -> Case {
    let settings = std::array::from_fn(|i| number(text, 4 * i) as usize);
    let numbers = std::array::from_fn(|i| number(text, 24 + 4 * i) as usize);
    let integers = std::array::from_fn(|i| number(text, INTEGERS_AT + 4 * i) as i32);
    let matrices = text[MATRICES_AT..CLOCK_AT].try_into().unwrap();
    let clock = std::array::from_fn(|i| number(text, CLOCK_AT + 8 * i) as f64 / number(text, CLOCK_AT + 8 * i + 4) as f64);
    Case { name, settings, record: Record { numbers, integers, matrices, clock } }
}

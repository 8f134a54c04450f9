// The material of crates/conformance, by the Rust: records made by hand, and what each call is to print.
// usage: gate records STREAMS CHANGES OUT      writes the records
//        gate answers STREAMS RECORDS          prints the answers
mod calls;
mod lines;
#[allow(dead_code)]
#[path = "../compare/record.rs"]
mod record;
mod records;

use calls::premultiplier;

// The Rust's reader as it stands in docs/src, with its place at hand.
#[allow(dead_code)]
mod buffer {
    include!("../../docs/src/crates/native32emu-core/src/mpeg/buffer.rs");
    include!("../compare/place.rs");
}

// The number at a place of a file, and the bytes behind it, as many as it says.
pub fn number(bytes: &[u8], at: usize) -> u32 {
    u32::from_be_bytes(bytes[at..at + 4].try_into().unwrap())
}

pub fn text<'a>(bytes: &'a [u8], at: &mut usize) -> &'a [u8] {
    let length = number(bytes, *at) as usize;
    *at += 4 + length;
    &bytes[*at - length..*at]
}

// What a file begins with, and the names and texts of its cases.
pub fn cases(bytes: &[u8]) -> (Vec<u8>, Vec<(String, Vec<u8>)>) {
    let mut at = 0;
    let first = text(bytes, &mut at).to_vec();
    let count = number(bytes, at);
    at += 4;
    (first, (0..count).map(|_| (String::from_utf8_lossy(text(bytes, &mut at)).into_owned(), text(bytes, &mut at).to_vec())).collect())
}

fn main() {
    let given: Vec<String> = std::env::args().skip(1).collect();
    let read = |at: usize| std::fs::read(&given[at]).expect("the file is read");
    match given[0].as_str() {
        "records" => std::fs::write(&given[3], records::make(&read(1), &String::from_utf8(read(2)).unwrap())).expect("the records are written"),
        _ => print!("{}", lines::answers(&read(1), &read(2))),
    }
}

// Streams of 16,777,216 bytes and of one more, the largest pictures, and the largest outputs.
use crate::case::{Case, Conversion, ROOM};
use crate::codes::Codes;
use crate::made;
use crate::random::Random;
use crate::record::*;
use crate::reference::{store_for, LONGEST};

// A stream that is filled up: behind its end, or before its beginning.
fn filled(stream: &[u8], length: usize, byte: u8, before: bool) -> Vec<u8> {
    let filling = vec![byte; length - stream.len()];
    if before {
        [&filling, stream].concat()
    } else {
        [stream, &filling].concat()
    }
}

fn lengths(codes: &Codes, random: &mut Random) -> Vec<Case> {
    let mut cases = Vec::new();
    for (byte, before) in [(0, false), (0xff, false), (0, true), (0xff, true)] {
        let made = made::stream(codes, Random::new(random.wide() | 1));
        for length in [LONGEST, LONGEST + 1] {
            let stream = filled(&made, length, byte, before);
            cases.push(Case { begin: None, store: vec![9; store_for(&stream)], stream, most: 6, conversions: Vec::new(), noise: 0, lent: ROOM });
        }
    }
    cases
}

// A hand-out from places at and beyond the end of the longest stream, with a header or without.
fn places(random: &mut Random) -> Vec<Case> {
    let end = 8 * LONGEST;
    let mut cases = Vec::new();
    for (length, place, header) in [(LONGEST, end, 1), (LONGEST, end - 40, 1), (LONGEST, end - 1, 0), (LONGEST, 0, 0), (LONGEST + 1, 0, 1)] {
        let mut record = Record::fresh();
        let n = &mut record.numbers;
        n[HEADER] = header;
        n[PLACE] = place;
        n[TYPE] = 1;
        n[HELD] = 1;
        if header == 1 {
            n[WIDTH..=MB_SIZE].copy_from_slice(&[16, 16, 1, 1, 1]);
        }
        let store = vec![3; 1152];
        cases.push(Case { begin: Some(record), stream: vec![0; length], store, most: 2, conversions: Vec::new(), noise: random.next(), lent: ROOM });
    }
    cases
}

// Pictures of the largest sizes, with a store that is just enough and one that lacks a byte.
fn sizes(random: &mut Random) -> Vec<Case> {
    let mut cases = Vec::new();
    for (width, height) in [(4095, 4095), (4095, 1), (1, 4095), (4080, 2800)] {
        let mut header = vec![0, 0, 1, 0xb3, (width >> 4) as u8, (width << 4 | height >> 8) as u8, height as u8, 0x13];
        header.extend([0; 4]);
        header.extend([0xff; 140]);
        let picture = [0, 0, 1, 0, 0, 0x0f, 0xff, 0xf8, 0, 0, 1, 1, 0x12, 0x34, 0x56, 0x78];
        let stream = [&header[..], &picture, &picture, &picture, &picture].concat();
        for missing in [0, 1] {
            let store = vec![random.next() as u8 | 1; store_for(&stream) - missing];
            let conversions = vec![
                Conversion { after: 1, index: 0, width: 4096, height: 3, area: 3 * 4096 },
                Conversion { after: 2, index: 2, width: 3, height: 4096, area: 3 * 4096 },
            ];
            cases.push(Case { begin: None, stream: stream.clone(), store, most: 5, conversions, noise: 0, lent: ROOM });
        }
    }
    let mut whole = made_picture();
    whole.conversions = vec![
        Conversion { after: 0, index: 1, width: 4096, height: 4096, area: 4096 * 4096 },
        Conversion { after: 0, index: 1, width: 4096, height: 4096, area: 4096 * 4096 - 1 },
        Conversion { after: 0, index: 1, width: 4096, height: 4097, area: 4096 * 4097 },
        Conversion { after: 0, index: 1, width: 4097, height: 4096, area: 4096 * 4097 },
    ];
    cases.push(whole);
    cases
}

fn made_picture() -> Case {
    let mut record = Record::fresh();
    record.numbers[HEADER..=MB_SIZE].copy_from_slice(&[1, 31, 17, 2, 2, 4]);
    let store = (0..4 * 1152u32).map(|at| (at.wrapping_mul(2_654_435_761) >> 24) as u8).collect();
    Case { begin: Some(record), stream: Vec::new(), store, most: 0, conversions: Vec::new(), noise: 0, lent: ROOM }
}

pub fn cases(codes: &Codes, random: &mut Random) -> Vec<Case> {
    let mut cases = lengths(codes, random);
    cases.extend(places(random));
    cases.extend(sizes(random));
    cases
}

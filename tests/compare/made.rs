// Random streams: headers, pictures and slices around the macroblocks of writer.rs.
use crate::codes::{Bits, Codes};
use crate::random::Random;
use crate::writer::Writer;

// RULES O.3: one matrix, loaded or not; an entry of 0 is rare.
fn matrix(w: &mut Writer) {
    let loaded = w.rarely(4);
    w.bits.put(1, loaded as u32);
    for _ in 0..if loaded { 64 } else { 0 } {
        let any = w.random.next() & 255;
        let small = 1 + (w.random.next() & 31);
        let entry = w.random.one_of(&[any, small, small, 16]);
        w.bits.put(8, entry);
    }
}

// Macroblocks across and down, few most often.
fn sizes(w: &mut Writer) {
    (w.across, w.down) = match w.random.below(40) {
        0 => w.random.one_of(&[(40, 1), (1, 12), (8, 6), (5, 4), (1, 40), (70, 1), (1, 180)]),
        _ => w.random.one_of(&[(1, 1), (1, 1), (2, 1), (1, 2), (2, 2), (3, 1), (3, 2), (2, 3)]),
    };
}

fn sequence_header(w: &mut Writer) {
    sizes(w);
    w.bits.start_code(0xb3);
    // tries that are refused by 5
    while w.rarely(30) {
        let (width, height) = w.random.one_of(&[(0, 0), (0, 16), (16, 0)]);
        w.bits.put(12, width);
        w.bits.put(12, height);
    }
    for samples in [16 * w.across, 16 * w.down] {
        let less = if w.rarely(2) { 0 } else { w.random.below(16) as u32 };
        w.bits.put(12, samples as u32 - less);
    }
    for length in [4, 4, 30] {
        let value = w.random.next() & ((1 << length) - 1);
        w.bits.put(length, value);
    }
    matrix(w);
    matrix(w);
}

// RULES 7.1.
fn direction(w: &mut Writer, way: usize) {
    let full = w.rarely(4);
    let mut code = w.random.one_of(&[1, 1, 2, 2, 3, 4, 5, 6, 7]);
    if w.is_wild() && w.rarely(4) {
        code = 0;
    }
    w.bits.put(1, full as u32);
    w.bits.put(3, code);
    w.directions[way] = (full, code.max(1) as usize - 1);
}

fn picture_header(w: &mut Writer, kind: u32) {
    w.bits.start_code(0);
    let (reference, delay) = (w.random.next() & 1023, w.random.next() & 65535);
    w.bits.put(10, reference);
    w.bits.put(3, kind);
    w.bits.put(16, delay);
    w.kind = kind;
    for way in 0..match kind {
        2 => 1,
        3 => 2,
        _ => 0,
    } {
        direction(w, way);
    }
    while w.rarely(8) {
        w.bits.put(1, 1);
        let extra = w.random.next() & 255;
        w.bits.put(8, extra);
    }
}

fn junk(w: &mut Writer, most: usize) -> Vec<u8> {
    (0..w.random.below(most)).map(|_| w.random.one_of(&[0, 0, 1, 0xff, 0xb3, 0x5a])).collect()
}

// A start code with bytes behind it, between the parts of a stream.
fn other_unit(w: &mut Writer) {
    let any = w.random.next() & 255;
    let code = w.random.one_of(&[0xb2, 0xb2, 0xb5, 0xb8, 0xb4, 0xb7, any]);
    w.bits.start_code(code);
    let bytes = junk(w, 8);
    w.bits.extend(&bytes);
}

// RULES 7.5: a slice from the beginning of a row to an address.
fn slice_head(w: &mut Writer, row: i32) {
    w.bits.start_code(row as u32);
    let scale = w.random.next() & 31;
    w.bits.put(5, scale);
    while w.rarely(12) {
        let extra = w.random.next() & 255;
        w.bits.put(9, 256 + extra);
    }
    w.bits.put(1, 0);
    (w.address, w.first) = ((row - 1) * w.across - 1, true);
    (w.dc, w.vectors) = ([128; 3], [[0; 2]; 2]);
}

fn slice(w: &mut Writer, row: i32, last: i32) {
    slice_head(w, row);
    if w.is_wild() && w.rarely(3) {
        let bytes: Vec<u8> = (0..w.random.below(60)).map(|_| w.random.next() as u8).collect();
        w.bits.extend(&bytes);
        return;
    }
    for _ in 0..2 * (last - w.address) {
        w.macroblock(last);
        if w.address >= last || w.is_wild() && w.rarely(8) {
            break;
        }
    }
}

fn slices(w: &mut Writer) {
    let rows = 1 + w.random.below(w.down as usize) as i32;
    let mut row = 1;
    while row <= w.down {
        let end = (row + rows - 1).min(w.down);
        let named = if w.is_wild() { w.random.one_of(&[1, w.down, w.down + 1, 175]) } else { row };
        slice(w, named, end * w.across - 1);
        row = end + 1;
        if w.is_wild() {
            other_unit(w);
        }
    }
}

fn picture(w: &mut Writer) {
    let kind = if w.is_wild() { w.random.next() & 7 } else { w.random.one_of(&[1, 2, 2, 3, 3]) };
    picture_header(w, kind);
    while w.rarely(6) {
        let code = w.random.one_of(&[0xb2, 0xb5]);
        w.bits.start_code(code);
        let bytes = junk(w, 8);
        w.bits.extend(&bytes);
    }
    if (1..=3).contains(&kind) && !w.rarely(30) {
        slices(w);
    }
}

// A picture that is decoded though no other follows: its first block holds a picture start code. The stream ends with it, or inside it.
fn last_picture(w: &mut Writer) -> usize {
    let kind = w.random.one_of(&[1, 1, 2, 3]);
    picture_header(w, kind);
    slice_head(w, 1);
    w.bits.put(1, 1);
    match kind {
        1 => w.bits.put(1, 1),
        _ => w.bits.put(5, 0b00011),
    }
    w.dc_value(0);
    w.hidden_code();
    let blocks = w.random.below(8);
    for block in 1..=blocks {
        w.block(block.min(5), true);
    }
    if w.rarely(2) {
        0
    } else {
        w.random.below(30)
    }
}

// 136 bytes behind the sequence start code pass question 4 (RULES H).
fn fill(w: &mut Writer) {
    let short = if w.rarely(200) { 139 } else { 141 + w.random.below(3) };
    let missing = short.saturating_sub(w.bits.len());
    let byte = w.random.one_of(&[0, 0xff, 0x55]);
    w.bits.extend(&vec![byte; missing]);
}

pub fn stream(codes: &Codes, random: Random) -> Vec<u8> {
    let mut w = Writer {
        bits: Bits::new(),
        codes,
        random,
        wild: 0,
        across: 1,
        down: 1,
        kind: 1,
        directions: [(false, 0); 2],
        address: -1,
        first: true,
        dc: [128; 3],
        vectors: [[0; 2]; 2],
    };
    w.wild = w.random.one_of(&[0, 0, 0, 200, 40, 12, 5]);
    if w.rarely(30) {
        let bytes = junk(&mut w, 12);
        w.bits.extend(&bytes);
    }
    sequence_header(&mut w);
    if w.rarely(8) {
        other_unit(&mut w);
    }
    if w.rarely(3) {
        fill(&mut w);
    }
    for _ in 0..1 + w.random.below(6) {
        picture(&mut w);
        if w.rarely(12) {
            other_unit(&mut w);
        }
    }
    let mut cut = 0;
    match w.random.below(6) {
        0 => {
            fill(&mut w);
            cut = last_picture(&mut w);
        }
        1 => (),
        _ => {
            for kind in [1, w.random.one_of(&[1, 2, 3])] {
                picture_header(&mut w, kind);
            }
        }
    }
    if cut == 0 && !w.rarely(4) {
        fill(&mut w);
    }
    let mut bytes = w.bits.bytes();
    bytes.truncate(bytes.len() - cut);
    bytes
}

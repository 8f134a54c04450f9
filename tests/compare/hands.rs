// Records made by hand: that of a stream after some calls, in which fields become others, up to the edges of question 2 and past them.
use crate::case::{other_room, Case, Conversion, ROOM};
use crate::codes::Codes;
use crate::damage::behind_codes;
use crate::made;
use crate::random::Random;
use crate::record::*;
use crate::reference::{store_for, Reference};
use crate::premultiplier;

// Numbers that question 2 bounds one by one: place, greatest. The least is 0.
const NATURALS: [(usize, usize); 15] = [
    (PLACE, 134_217_728),
    (WIDTH, 4095),
    (HEIGHT, 4095),
    (MB_WIDTH, 256),
    (MB_HEIGHT, 256),
    (MB_SIZE, 65536),
    (TYPE, 7),
    (STORES, 2),
    (STORES + 1, 2),
    (STORES + 2, 2),
    (SCALE, 31),
    (FORWARD + R, 6),
    (BACKWARD + R, 6),
    (HANDED, 134_217_728),
    (STOP, 9),
];

// Integers that it bounds: place, least, greatest. Those of the coefficients follow from the premultiplier.
const SIGNED: [(usize, i32, i32); 9] = [
    (START_CODE, -1, 255),
    (ADDRESS, -1, 402_700_000),
    (VECTORS, -1024, 1023),
    (VECTORS + 1, -1024, 1023),
    (VECTORS + 2, -1024, 1023),
    (VECTORS + 3, -1024, 1023),
    (DC, -256, 255),
    (DC + 1, -256, 255),
    (DC + 2, -256, 255),
];

// Numbers that are of 32 bits in a record.
const NARROW: [usize; 6] = [TYPE, SCALE, FORWARD + R, BACKWARD + R, HANDED, STOP];
const TOO_WIDE: usize = 1 << 32;

fn coefficient_bounds(k: usize) -> (usize, i32, i32) {
    let most = 2048 * premultiplier()[k];
    (BLOCK + k, -most, most)
}

fn between(random: &mut Random, least: i32, greatest: i32) -> i32 {
    least + random.below((greatest - least + 1) as usize) as i32
}

// A value at an edge, one past it, inside, or far outside.
fn edge(record: &mut Record, random: &mut Random) {
    let (number, integer, coefficient) = (random.one_of(&NATURALS), random.one_of(&SIGNED), coefficient_bounds(random.below(64)));
    match random.below(11) {
        0..=1 => integer_edge(record, random, coefficient),
        2..=5 => integer_edge(record, random, integer),
        _ => number_edge(record, random, number),
    }
}

fn number_edge(record: &mut Record, random: &mut Random, (at, greatest): (usize, usize)) {
    let any = random.wide() as usize;
    let far = random.one_of(&[usize::MAX, 1 << 63, 1 << 31, TOO_WIDE, TOO_WIDE + greatest, any]);
    let inside = random.below(greatest + 1);
    record.numbers[at] = random.one_of(&[0, greatest, 0, greatest, usize::MAX, greatest + 1, inside, far]);
    if at == WIDTH || at == HEIGHT {
        set_sizes(record, random);
    }
}

fn integer_edge(record: &mut Record, random: &mut Random, (at, least, greatest): (usize, i32, i32)) {
    let any = random.next() as i32;
    let far = random.one_of(&[i32::MIN, i32::MAX, any]);
    let inside = between(random, least, greatest);
    record.integers[at] = random.one_of(&[least, greatest, least, greatest, least - 1, greatest + 1, inside, far]);
}

// Macroblock sizes that follow from width and height, or do not.
fn set_sizes(record: &mut Record, random: &mut Random) {
    let n = &mut record.numbers;
    let (across, down) = (macroblocks_over(n[WIDTH].min(4096)), macroblocks_over(n[HEIGHT].min(4096)));
    let sizes = if n[HEADER] == 1 { [across, down, across * down] } else { [0, 0, 0] };
    if random.below(8) > 0 {
        n[MB_WIDTH..=MB_SIZE].copy_from_slice(&sizes);
    }
}

// A number that no record has, since its type there does not: a truth of 2 and more, or one of 32 bits that would be possible without those above.
fn no_value(record: &mut Record, random: &mut Random) {
    let (truth, narrow) = (random.one_of(&TRUTHS), random.one_of(&NARROW));
    let n = &mut record.numbers;
    if random.below(2) == 0 {
        n[truth] = random.one_of(&[2, 3, 256, 257, TOO_WIDE, TOO_WIDE + 1, usize::MAX]);
    } else {
        n[narrow] = random.one_of(&[TOO_WIDE - 1, TOO_WIDE, TOO_WIDE + n[narrow], 1 << 63, usize::MAX]);
    }
}

// Picture state by chance, all of it possible.
fn any_picture(record: &mut Record, random: &mut Random) {
    let (n, i) = (&mut record.numbers, &mut record.integers);
    n[TYPE] = random.below(8);
    let any = random.below(256) as i32;
    i[START_CODE] = random.one_of(&[0, 0, -1, 0xb3, any]);
    let stores = random.one_of(&[[0, 1, 2], [0, 2, 1], [1, 0, 2], [1, 2, 0], [2, 0, 1], [2, 1, 0]]);
    n[STORES..STORES + 3].copy_from_slice(&stores);
    n[SCALE] = random.below(32);
    i[ADDRESS] = between(random, -1, 402_700_000);
    for at in [FORWARD, BACKWARD] {
        n[at + FULL] = random.below(2);
        n[at + SET] = random.below(2);
        n[at + R] = random.below(7);
    }
    for component in &mut i[VECTORS..VECTORS + 4] {
        *component = between(random, -1024, 1023);
    }
    for dc in &mut i[DC..DC + 3] {
        *dc = between(random, -256, 255);
    }
}

fn any_coefficients(record: &mut Record, random: &mut Random) {
    for _ in 0..random.below(12) {
        let (at, least, greatest) = coefficient_bounds(random.below(64));
        record.integers[at] = between(random, least, greatest);
    }
}

// Every entry of a matrix is possible, and 0 among them.
fn any_matrices(record: &mut Record, random: &mut Random) {
    for _ in 0..=random.below(12) {
        let any = random.next() as u8;
        record.matrices[random.below(MATRICES)] = random.one_of(&[any, any, 0, 1, 255]);
    }
}

fn any_clock(record: &mut Record, random: &mut Random) {
    let at = random.below(4);
    let any = f64::from_bits(random.wide());
    // not a number: of any bits, quiet or signalling
    let nan = f64::from_bits(random.wide() | 0x7ff0_0000_0000_0001);
    record.clock[at] = random.one_of(&[0.0, -0.0, 25.0, 29.97, 1e300, 1e-310, f64::INFINITY, any, nan]);
    let handed = random.below(134_217_728);
    record.numbers[HANDED] = random.one_of(&[0, 1, 134_217_727, 134_217_728, handed]);
}

// A place in the stream: behind a picture's or sequence's start code, anywhere, or near the end.
fn any_place(record: &mut Record, random: &mut Random, stream: &[u8]) {
    let places = behind_codes(stream, &[0]);
    let end = 8 * stream.len();
    record.numbers[PLACE] = match random.below(8) {
        0..=3 if !places.is_empty() => {
            record.integers[START_CODE] = 0;
            8 * places[random.below(places.len())]
        }
        4 => end - random.below(64).min(end),
        5 => end + random.below(64),
        _ => random.below(end + 1),
    };
}

fn no_header(record: &mut Record, random: &mut Random) {
    let n = &mut record.numbers;
    n[HEADER] = 0;
    n[MB_WIDTH..=MB_SIZE].fill(0);
    n[WIDTH] = random.below(4096);
    n[HEIGHT] = random.below(4096);
    n[PLACE] = random.one_of(&[0, 0, 32, n[PLACE]]);
    record.integers[START_CODE] = random.one_of(&[-1, 0xb3, 0, 0xb3]);
}

// Other sizes than those of the stream's header, and few macroblocks.
fn other_sizes(record: &mut Record, random: &mut Random) {
    let n = &mut record.numbers;
    (n[WIDTH], n[HEIGHT]) = (1 + random.below(48), 1 + random.below(32));
    set_sizes(record, random);
}

fn change(record: &mut Record, random: &mut Random, stream: &[u8]) {
    match random.below(13) {
        0..=1 => edge(record, random),
        2 => any_coefficients(record, random),
        3..=4 => any_picture(record, random),
        5 => any_clock(record, random),
        6..=7 => any_place(record, random, stream),
        8 => other_sizes(record, random),
        9 => record.numbers[HELD] ^= 1,
        10 if random.below(3) == 0 => no_header(record, random),
        11 if random.below(6) == 0 => no_value(record, random),
        12 => any_matrices(record, random),
        _ => record.numbers[STOP] = random.one_of(&[0, 0, 0, 8, 9, 7, 1]),
    }
}

// The store's bytes: those given, and by chance one less or some more than the record asks for.
pub fn lent(given: &[u8], record: &Record, random: &mut Random) -> Vec<u8> {
    let needed = 1152 * record.numbers[MB_SIZE].clamp(1, 48);
    let length = match random.below(24) {
        0 => needed - 1,
        1 => random.below(needed),
        2..=6 => needed + random.below(200),
        _ => needed,
    };
    let mut store: Vec<u8> = given.iter().copied().take(length).collect();
    let mut more = Random::new(random.wide() | 1);
    store.resize_with(length, || more.next() as u8);
    store
}

// A random stream, and what the Rust has after some calls.
fn base(codes: &Codes, random: &mut Random) -> (Vec<u8>, Reference) {
    let stream = made::stream(codes, Random::new(random.wide() | 1));
    let (mut before, _) = Reference::open(&stream, vec![7; store_for(&stream).min(1152 * 80)]);
    for _ in 0..random.below(3) {
        before.hand_out(&stream);
    }
    (stream, before)
}

// Each bounded field at both edges and one past them.
fn edge_changes() -> Vec<Change> {
    let naturals = NATURALS.into_iter().flat_map(|(at, greatest)| [usize::MAX, 0, greatest, greatest + 1].map(|value| Change::Number(at, value)));
    let signed = SIGNED.into_iter().chain((0..64).map(coefficient_bounds));
    let integers = signed.flat_map(|(at, least, greatest)| [least - 1, least, greatest, greatest + 1].map(|value| Change::Integer(at, value)));
    naturals.chain(integers).collect()
}

// Numbers that a record's types do not have, beside those that they do: question 2 is asked of the number and not of some of its bits.
fn type_changes(record: &Record) -> Vec<Change> {
    let truths = TRUTHS.into_iter().flat_map(|at| [0, 1, 2, 3, TOO_WIDE, TOO_WIDE + 1, usize::MAX].map(|value| Change::Number(at, value)));
    let narrow = |at: usize| [TOO_WIDE - 1, TOO_WIDE, TOO_WIDE + record.numbers[at]].map(|value| Change::Number(at, value));
    truths.chain(NARROW.into_iter().flat_map(narrow)).collect()
}

// One thing that differs from a record that is possible.
#[derive(Clone, Copy)]
enum Change {
    Number(usize, usize),
    Integer(usize, i32),
    Lent(usize, usize),
}

// The sizes follow width and height.
fn changed(record: &Record, change: Change) -> (Record, [usize; 4]) {
    let (mut record, mut lent) = (record.clone(), ROOM);
    match change {
        Change::Number(at, value) => record.numbers[at] = value,
        Change::Integer(at, value) => record.integers[at] = value,
        Change::Lent(part, length) => lent[part] = length,
    }
    if matches!(change, Change::Number(WIDTH | HEIGHT, _)) {
        let n = &mut record.numbers;
        let (across, down) = (macroblocks_over(n[WIDTH]), macroblocks_over(n[HEIGHT]));
        n[MB_WIDTH..=MB_SIZE].copy_from_slice(&[across, down, across.wrapping_mul(down)]);
    }
    (record, lent)
}

// Each bound of question 2 by itself, on a record that is possible otherwise: of a field, of its type, and of each part of the memory.
pub fn edges(codes: &Codes, random: &mut Random) -> Vec<Case> {
    let (stream, before) = std::iter::repeat_with(|| base(codes, random))
        .find(|(_, before)| before.record.has_header() && before.record.numbers[STOP] == 0)
        .expect("a record that is possible");
    let lent = (0..4).flat_map(|part| [ROOM[part] - 1, ROOM[part] + 1].map(|length| Change::Lent(part, length)));
    let changes = edge_changes().into_iter().chain(type_changes(&before.record)).chain(lent);
    let cases = changes.map(|change| {
        let (record, lent) = changed(&before.record, change);
        let conversions = vec![Conversion { after: 0, index: 0, width: 3, height: 2, area: 6 }];
        Case { begin: Some(record), stream: stream.clone(), store: before.store.clone(), most: 2, conversions, noise: random.next(), lent }
    });
    cases.collect()
}

pub fn case(codes: &Codes, random: &mut Random) -> Case {
    let (stream, before) = base(codes, random);
    let mut record = before.record.clone();
    for _ in 0..=random.below(4) {
        change(&mut record, random, &stream);
    }
    let store = lent(&before.store, &record, random);
    let conversions = (0..(random.below(8) == 0) as usize)
        .map(|after| {
            let (width, height) = (random.below(20), random.below(20));
            Conversion { after: after + random.below(2), index: random.below(4), width, height, area: width * height + random.below(3) }
        })
        .collect();
    let lent = if random.below(32) == 0 { other_room(random) } else { ROOM };
    Case { begin: Some(record), stream, store, most: 1 + random.below(8) / 7, conversions, noise: random.next(), lent }
}

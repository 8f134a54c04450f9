// The list reader.bin: operations of the bit reader, one after the other, on many streams.
//
// A case is the operation's number (a byte, below), its argument, the Rust's answer, and the place after it in bits (three numbers).
// Behind a new stream stand its bytes, as many as the argument says; behind a peek the bytes that it gave.
// Answers: a yes is 1 and a no 0; an operation that answers nothing has 0; a peek of n bytes has n + 1, or 0 where there is none.
use crate::buffer::Buffer;
use crate::list::List;
use crate::random::Random;

#[derive(Clone, Copy)]
enum Op {
    New = 0,
    Read = 1,
    ReadBit = 2,
    Has = 3,
    HasEnded = 4,
    Skip = 5,
    Align = 6,
    Tell = 7,
    Seek = 8,
    SkipBytes = 9,
    NextStartCode = 10,
    FindStartCode = 11,
    HasStartCode = 12,
    PeekNonZero = 13,
    PeekBytes = 14,
}

use Op::*;

// A stream, the Rust's reader on it, and the list that is written.
struct Recorder {
    list: List,
    buffer: Buffer,
    bits: usize,
}

impl Recorder {
    // How many bits are left: the most of which the Rust says that it has them.
    fn left(&self) -> usize {
        let (mut low, mut high) = (0, self.bits);
        while low < high {
            let middle = (low + high + 1) / 2;
            if self.buffer.has(middle) {
                low = middle;
            } else {
                high = middle - 1;
            }
        }
        assert!(self.buffer.has(low) && !self.buffer.has(low + 1));
        low
    }

    // Past the end, where only a seek leads, the place is the beginning of a byte.
    fn place(&self) -> usize {
        if self.bits / 8 < self.buffer.tell() {
            assert!(self.left() == 0 && self.buffer.has_ended());
            return self.buffer.tell() * 8;
        }
        let place = self.bits - self.left();
        assert!(place / 8 == self.buffer.tell());
        assert!((place == self.bits) == self.buffer.has_ended());
        place
    }

    fn record(&mut self, op: Op, argument: u32, answer: u32, behind: &[u8]) {
        let place = self.place() as u32;
        self.list.case();
        self.list.byte(op as u8);
        self.list.number(argument);
        self.list.number(answer);
        self.list.number(place);
        self.list.bytes(behind);
    }

    fn stream(&mut self, bytes: &[u8]) {
        self.buffer = Buffer::new(bytes.to_vec());
        self.bits = bytes.len() * 8;
        self.record(New, bytes.len() as u32, 0, bytes);
    }

    fn run(&mut self, op: Op, argument: u32) {
        let count = argument as usize;
        let buffer = &mut self.buffer;
        let mut behind = Vec::new();
        let answer = match op {
            New => unreachable!(),
            Read => buffer.read(count),
            ReadBit => buffer.read(1),
            Has => buffer.has(count) as u32,
            HasEnded => buffer.has_ended() as u32,
            Skip => {
                buffer.skip(count);
                0
            }
            Align => {
                buffer.align();
                0
            }
            Tell => buffer.tell() as u32,
            Seek => {
                buffer.seek(count);
                0
            }
            SkipBytes => buffer.skip_bytes(argument as u8) as u32,
            NextStartCode => buffer.next_start_code() as u32,
            FindStartCode => buffer.find_start_code(argument as i32) as u32,
            HasStartCode => buffer.has_start_code(argument as i32) as u32,
            PeekNonZero => buffer.peek_non_zero(count) as u32,
            PeekBytes => match buffer.peek_bytes(count) {
                Some(bytes) => {
                    behind = bytes.to_vec();
                    bytes.len() as u32 + 1
                }
                None => 0,
            },
        };
        self.record(op, argument, answer, &behind);
    }

    // To a place of the stream.
    fn go(&mut self, place: usize) {
        self.run(Seek, (place / 8) as u32);
        if place % 8 != 0 {
            self.run(Skip, (place % 8) as u32);
        }
    }

    // What can be asked at a place with no advance.
    fn ask(&mut self) {
        let left = self.left() as u32;
        let rest = (self.bits / 8).saturating_sub(self.buffer.tell()) as u32;
        for count in around(left) {
            self.run(Has, count);
            if count <= 32 {
                self.run(PeekNonZero, count);
            }
        }
        self.run(HasEnded, 0);
        self.run(Tell, 0);
        for count in around(rest) {
            self.run(PeekBytes, count);
        }
    }
}

// 0, and a number with its neighbours.
fn around(number: u32) -> Vec<u32> {
    let mut counts = vec![0, number.saturating_sub(1), number, number + 1];
    counts.dedup();
    counts
}

const NONE: u32 = u32::MAX;
const CODES: [u32; 4] = [0, 0xB3, NONE, 300];

// Streams of 0 to 5 bytes: each question and each step at each place, with the counts around the bits left.
fn short_streams(r: &mut Recorder, random: &mut Random) {
    for length in 0..=5 {
        let bytes: Vec<u8> = (0..length).map(|_| random.next() as u8).collect();
        r.stream(&bytes);
        for place in 0..=length * 8 {
            r.go(place);
            r.ask();
            let left = (length * 8 - place) as u32;
            for count in around(left) {
                if count <= 32 {
                    r.run(Read, count);
                    r.go(place);
                }
                r.run(Skip, count);
                r.go(place);
            }
            r.run(ReadBit, 0);
            r.go(place);
            r.run(Align, 0);
        }
    }
}

// Reads of 0 to 32 bits at each place of a byte.
fn every_count(r: &mut Recorder, random: &mut Random) {
    let bytes: Vec<u8> = (0..6).map(|_| random.next() as u8).collect();
    r.stream(&bytes);
    for place in 0..8 {
        for count in 0..=32 {
            r.go(place);
            r.run(PeekNonZero, count);
            r.run(Read, count);
        }
    }
}

// The peek whether bits are 0, with a single 1 among them, before them or behind them.
fn single_bits(r: &mut Recorder) {
    for place in [0, 1, 7, 8, 31, 32, 33, 39] {
        let mut bytes = [0u8; 5];
        bytes[place / 8] = 0x80 >> (place % 8);
        r.stream(&bytes);
        for from in [0, 1, 5] {
            r.go(from);
            for count in [0, 1, 2, 7, 8, 9, 28, 31, 32] {
                r.run(PeekNonZero, count);
            }
            r.run(Read, 32);
        }
    }
}

// A search from each of three places, for each code.
fn search(r: &mut Recorder, bytes: &[u8]) {
    r.stream(bytes);
    for place in [0, 1, 8] {
        if bytes.len() * 8 < place {
            continue;
        }
        r.go(place);
        for code in CODES {
            r.run(HasStartCode, code);
        }
        for code in CODES {
            r.go(place);
            r.run(FindStartCode, code);
        }
        r.go(place);
        r.run(NextStartCode, 0);
        r.run(NextStartCode, 0);
    }
}

// Start codes that begin 1 to 8 bytes before the end, those that are cut off included, behind 0 to 3 other bytes, and with more zeros before.
fn start_codes(r: &mut Recorder) {
    for before in 0..=3 {
        for from_end in 1..=8 {
            let mut bytes = vec![0xA5; before];
            bytes.extend_from_slice(&[0, 0, 1, 0xB3, 0x11, 0x22, 0x33, 0x44][..from_end]);
            search(r, &bytes);
        }
    }
    search(r, &[]);
    search(r, &[0, 0, 0, 1, 0xB3, 0]);
    search(r, &[0, 0, 0, 1, 0xB3]);
    search(r, &[0, 0, 0, 0, 1, 0xB3, 9]);
    search(r, &[0, 0, 1, 0, 0, 1, 0xB3, 0, 0, 1, 5, 6]);
    search(r, &[0, 0, 1, 0, 0, 0, 1, 0xB3, 7]);
    search(r, &[0, 0, 1, 0xB3, 0, 0, 1, 0xB3]);
    search(r, &[0, 1, 0, 0, 2, 0, 0, 1, 0xFF, 0, 0, 1, 0, 0xFF]);
    search(r, &[0, 0, 0, 0, 0, 0, 0, 0]);
    search(r, &[1, 1, 1, 1, 1, 1]);
}

// Runs of equal bytes, in the middle and up to the end, from each place of a byte.
fn runs(r: &mut Recorder) {
    r.stream(&[0, 0, 0, 0xFF, 0xFF, 7, 0, 0, 0, 0]);
    for place in 0..=80 {
        for value in [0, 0xFF] {
            r.go(place);
            r.run(SkipBytes, value);
        }
        if place % 8 == 3 {
            r.go(place);
            r.run(SkipBytes, 7);
        }
    }
    r.stream(&[]);
    r.run(SkipBytes, 0);
    r.stream(&[0x55; 40]);
    for place in [0, 1, 160, 319, 320] {
        r.go(place);
        r.run(SkipBytes, 0x55);
    }
}

// 39, 40 and 41 bits left, at which the search and a window of five bytes end.
fn forty_bits(r: &mut Recorder, random: &mut Random) {
    for fill in 0..3 {
        let bytes: Vec<u8> = match fill {
            0 => (0..8).map(|_| random.next() as u8).collect(),
            1 => vec![0, 0, 0, 0, 0, 1, 0xB3, 0x99],
            _ => vec![0xFF, 0xFE, 0xFD, 0, 0, 1, 0xB3, 0x99],
        };
        r.stream(&bytes);
        for left in [31, 32, 33, 38, 39, 40, 41, 42, 47, 48] {
            let place = 64 - left;
            r.go(place);
            r.ask();
            for count in [1, 8, 24, 25, 31, 32] {
                r.go(place);
                r.run(Read, count);
                r.run(Read, count);
            }
            r.go(place);
            r.run(NextStartCode, 0);
        }
    }
}

// Places past the end: nothing is left there, and nothing leads on.
fn past_the_end(r: &mut Recorder) {
    for length in [0, 1, 5, 9] {
        r.stream(&vec![0; length]);
        for past in [1, 2, 7, 1000] {
            r.run(Seek, (length + past) as u32);
            r.ask();
            for count in [0, 1, 8, 32] {
                r.run(Read, count);
                r.run(Skip, count);
                r.run(PeekNonZero, count);
            }
            r.run(ReadBit, 0);
            r.run(Align, 0);
            r.run(SkipBytes, 0);
            r.run(NextStartCode, 0);
            for code in CODES {
                r.run(FindStartCode, code);
                r.run(HasStartCode, code);
            }
            r.run(Tell, 0);
        }
        r.run(Seek, length as u32);
        r.ask();
    }
}

// Any operation, with arguments that are now and then past the end.
fn any(r: &mut Recorder, random: &mut Random) {
    let left = r.left();
    let length = r.bits / 8;
    let beyond = [left as u32 + 1, left as u32 + 9, 100_000, u32::MAX];
    match random.below(32) {
        0..=8 => r.run(Read, random.below(33) as u32),
        9..=10 => r.run(ReadBit, 0),
        11 => r.run(Has, random.below(left + 9) as u32),
        12 => r.run(Has, random.one_of(&beyond)),
        13 => r.run(HasEnded, 0),
        14..=15 => r.run(Skip, random.below(20) as u32),
        16 => r.run(Skip, random.one_of(&beyond)),
        17..=18 => r.run(Align, 0),
        19 => r.run(Tell, 0),
        20..=22 => r.run(Seek, random.below(length + 1) as u32),
        23 => r.run(SkipBytes, random.one_of(&[0, 0, 1, 0xFF])),
        24..=25 => r.run(NextStartCode, 0),
        26 => r.run(FindStartCode, random.one_of(&CODES)),
        27 => r.run(HasStartCode, random.one_of(&CODES)),
        28..=29 => r.run(PeekNonZero, random.below(33) as u32),
        30 => r.run(PeekBytes, random.below(9) as u32),
        _ => r.run(PeekBytes, (length - r.buffer.tell() + random.below(3)) as u32),
    }
}

// Long random sequences on random streams: of any bytes, and of the few of which start codes are made.
fn sequences(r: &mut Recorder, random: &mut Random) {
    for turn in 0..48 {
        let length = random.below(if turn % 4 == 0 { 400 } else { 80 });
        let few = turn % 2 == 1;
        let bytes: Vec<u8> = (0..length)
            .map(|_| if few { random.one_of(&[0, 0, 0, 0, 0, 1, 1, 1, 0xB3, 0xFF]) } else { random.next() as u8 })
            .collect();
        r.stream(&bytes);
        for _ in 0..150 {
            any(r, random);
        }
    }
}

// Reads of 8 bits, and peeks of the two bytes that they lie in, at each place of a stream and past its end: beside them the replay asks for the next eight.
fn eights(r: &mut Recorder, random: &mut Random) {
    let bytes: Vec<u8> = (0..10).map(|_| random.next() as u8).collect();
    r.stream(&bytes);
    for place in (0..=80).chain([88, 96]) {
        r.go(place);
        r.run(PeekBytes, 2);
        r.run(Read, 8);
    }
}

pub fn list() -> Vec<u8> {
    let mut recorder = Recorder { list: List::new(), buffer: Buffer::new(Vec::new()), bits: 0 };
    let mut random = Random::new(0x9E37_79B9_7F4A_7C15);
    let r = &mut recorder;
    short_streams(r, &mut random);
    every_count(r, &mut random);
    single_bits(r);
    start_codes(r);
    runs(r);
    forty_bits(r, &mut random);
    past_the_end(r);
    sequences(r, &mut random);
    eights(r, &mut random);
    recorder.list.finish()
}

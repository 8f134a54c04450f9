// The codes of the Rust's tables, the ends that are no code included, and bits put together to a stream.
use crate::random::Random;
use crate::rust::unchanged::video::tables;
use std::collections::BTreeMap;

#[derive(Clone, Copy)]
pub struct Code {
    pub length: usize,
    pub bits: u32,
}

pub struct Table {
    pub valid: Vec<(i32, Code)>,
    pub invalid: Vec<Code>,
    by_value: BTreeMap<i32, Code>,
}

// The tables in the order of RULES 2.1.
pub const INCREMENT: usize = 0;
// Of the types I, P and B: this and the type.
pub const TYPE: usize = 0;
pub const PATTERN: usize = 4;
pub const MOTION: usize = 5;
pub const SIZE: usize = 6;
pub const COEFFICIENT: usize = 8;

// The value of an escape in the table of coefficients.
pub const ESCAPE: i32 = 0xffff;

pub struct Codes(Vec<Table>);

impl Codes {
    pub fn new() -> Self {
        Codes(tables().iter().map(|table| Table::new(table)).collect())
    }

    pub fn table(&self, table: usize) -> &Table {
        &self.0[table]
    }
}

impl Table {
    fn new(entries: &[(i16, i32)]) -> Self {
        let mut table = Table { valid: Vec::new(), invalid: Vec::new(), by_value: BTreeMap::new() };
        table.walk(entries, 0, Code { length: 0, bits: 0 });
        table.by_value = table.valid.iter().copied().collect();
        table
    }

    fn walk(&mut self, entries: &[(i16, i32)], at: usize, before: Code) {
        for bit in 0..2 {
            let code = Code { length: before.length + 1, bits: before.bits * 2 + bit as u32 };
            match entries[at + bit] {
                (0, value) => self.valid.push((value, code)),
                (next, _) if next < 0 => self.invalid.push(code),
                (next, _) => self.walk(entries, next as usize, code),
            }
        }
    }

    pub fn code(&self, value: i32) -> Option<Code> {
        self.by_value.get(&value).copied()
    }

    pub fn any(&self, random: &mut Random) -> (i32, Code) {
        self.valid[random.below(self.valid.len())]
    }
}

// Bits put together, highest first.
pub struct Bits {
    bytes: Vec<u8>,
    // bits in the last byte, 0 where it is full
    used: usize,
}

impl Bits {
    pub fn new() -> Self {
        Bits { bytes: Vec::new(), used: 0 }
    }

    pub fn put(&mut self, length: usize, value: u32) {
        for k in (0..length).rev() {
            if self.used == 0 {
                self.bytes.push(0);
            }
            let last = self.bytes.last_mut().expect("a byte");
            *last |= ((value >> k & 1) as u8) << (7 - self.used);
            self.used = (self.used + 1) % 8;
        }
    }

    pub fn code(&mut self, code: Code) {
        self.put(code.length, code.bits);
    }

    pub fn start_code(&mut self, code: u32) {
        self.used = 0;
        self.bytes.extend([0, 0, 1, code as u8]);
    }

    pub fn extend(&mut self, bytes: &[u8]) {
        self.used = 0;
        self.bytes.extend(bytes);
    }

    // Bits to the next byte.
    pub fn rest(&self) -> usize {
        (8 - self.used) % 8
    }

    pub fn len(&self) -> usize {
        self.bytes.len()
    }

    pub fn bytes(self) -> Vec<u8> {
        self.bytes
    }
}

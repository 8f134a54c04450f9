// Random macroblocks that follow the syntax. The writer keeps what a decoder keeps (address, vectors, DC predictors), so that the questions 8 and 9
// are answered "yes" most of the time; one choice in `wild` does not care.
use crate::codes::{Bits, Codes, COEFFICIENT, ESCAPE, INCREMENT, MOTION, PATTERN, SIZE, TYPE};
use crate::random::Random;

pub struct Writer<'a> {
    pub bits: Bits,
    pub codes: &'a Codes,
    pub random: Random,
    pub wild: usize,
    pub across: i32,
    pub down: i32,
    pub kind: u32,
    // full-pel flag and r, forward and backward
    pub directions: [(bool, usize); 2],
    pub address: i32,
    pub first: bool,
    pub dc: [i32; 3],
    pub vectors: [[i32; 2]; 2],
}

impl Writer<'_> {
    // One time in n.
    pub fn rarely(&mut self, n: usize) -> bool {
        self.random.below(n) == 0
    }

    pub fn is_wild(&mut self) -> bool {
        self.wild > 0 && self.random.below(self.wild) == 0
    }

    // The code of a value; a table that was changed may have none, and then none is put.
    fn put_code(&mut self, table: usize, value: i32) {
        if let Some(code) = self.codes.table(table).code(value) {
            self.bits.code(code);
        }
    }

    fn put_any_code(&mut self, table: usize) -> i32 {
        let table = self.codes.table(table);
        if self.is_wild() && !table.invalid.is_empty() {
            self.bits.code(table.invalid[self.random.below(table.invalid.len())]);
            return 0;
        }
        let (value, code) = table.any(&mut self.random);
        self.bits.code(code);
        value
    }

    // RULES 7.7 to 7.11. `last` is the last address that the slice is to reach.
    fn increment(&mut self, last: i32) {
        if self.is_wild() {
            match self.random.below(4) {
                0 => [35, 34].map(|value| self.put_code(INCREMENT, value)).len(),
                more => (0..more).map(|_| self.put_any_code(INCREMENT)).count(),
            };
            return;
        }
        while self.rarely(20) {
            self.put_code(INCREMENT, 34);
        }
        let most = last - self.address;
        let mut n = if self.rarely(4) { self.random.one_of(&[2, 2, 3, 4, 35, most]) } else { 1 };
        if n < 1 || n > most || self.first && !self.rarely(4) || n > 1 && !self.first && !self.may_skip(n) {
            n = 1;
        }
        for _ in 0..(n - 1) / 33 {
            self.put_code(INCREMENT, 35);
        }
        self.put_code(INCREMENT, (n - 1) % 33 + 1);
        if !self.first && n > 1 {
            self.dc = [128; 3];
            if self.kind == 2 {
                self.vectors[0] = [0, 0];
            }
        }
        self.first = false;
        self.address += n;
    }

    fn may_skip(&mut self, n: i32) -> bool {
        self.kind != 3 || (1..n).all(|k| (0..2).all(|way| !self.reaches(way, self.vectors[way], self.address + k).0))
    }

    // RULES 6.4 to 6.6, 6.9: whether a vector is refused in a plane, and whether it copies samples in one.
    fn reaches(&self, way: usize, [h, v]: [i32; 2], address: i32) -> (bool, bool) {
        let (row, column) = (address / self.across, address % self.across);
        let times = 1 + self.directions[way].0 as i32;
        let mut found = (false, false);
        for (b, part) in [(16, 1), (8, 2)] {
            let (h, v) = (h * times / part, v * times / part);
            let dw = self.across * b;
            let start = (b * row + (v >> 1)) * dw + b * column + (h >> 1);
            let last = dw * (b * self.down - b + 1) - b;
            if (0..=last).contains(&start) {
                found = if start + dw * (v & 1) + (h & 1) > last { (true, found.1) } else { (found.0, true) };
            }
        }
        found
    }

    // A vector that question 9 admits, most often one that copies samples.
    fn any_vector(&mut self, way: usize) -> [i32; 2] {
        let whole = 16 << self.directions[way].1;
        for _ in 0..20 {
            let span = self.random.one_of(&[4, 4, 12, 40, whole]).min(whole);
            let to = [0, 1].map(|_| self.random.below(2 * span as usize) as i32 - span);
            let (refused, copied) = self.reaches(way, to, self.address.clamp(0, self.across * self.down - 1));
            if !refused && (copied || self.rarely(10)) || self.is_wild() {
                return to;
            }
        }
        [0, 0]
    }

    // RULES 5.4, 5.7.
    fn vector(&mut self, way: usize) {
        let to = self.any_vector(way);
        let r = self.directions[way].1;
        for axis in 0..2 {
            if self.is_wild() {
                self.put_any_code(MOTION);
                continue;
            }
            let step = (to[axis] - self.vectors[way][axis] + (16 << r)).rem_euclid(32 << r) - (16 << r);
            let size = step.abs() - 1;
            self.put_code(MOTION, if step == 0 { 0 } else { ((size >> r) + 1) * step.signum() });
            if step != 0 {
                self.bits.put(r, size as u32 & ((1 << r) - 1));
            }
            self.vectors[way][axis] = to[axis];
        }
    }

    // RULES 7.13 to 7.16.
    pub fn macroblock(&mut self, last: i32) {
        self.increment(last);
        let flags = self.put_any_code(TYPE + self.kind as usize);
        let intra = flags & 1 != 0;
        if flags & 16 != 0 {
            let scale = self.random.next() & 31;
            self.bits.put(5, scale);
        }
        if intra {
            self.vectors = [[0; 2]; 2];
        } else {
            self.dc = [128; 3];
            if flags & 8 != 0 {
                self.vector(0);
            } else if self.kind == 2 {
                self.vectors[0] = [0, 0];
            }
            if flags & 4 != 0 {
                self.vector(1);
            }
        }
        let pattern = if flags & 2 != 0 { self.put_any_code(PATTERN) } else { 63 * intra as i32 };
        for block in (0..6).filter(|block| pattern & 32 >> block != 0) {
            self.block(block, intra);
        }
    }

    // RULES 3.1, 3.2: a DC value inside -256..255, those of pictures most often.
    pub fn dc_value(&mut self, plane: usize) {
        let to = match self.random.below(40) {
            0 => self.random.one_of(&[-256, 255, -255, 254]),
            1..=3 => self.random.below(512) as i32 - 256,
            _ => self.random.below(256) as i32,
        };
        let to = if self.is_wild() && self.rarely(4) { self.random.one_of(&[256, -257, 300, -400]) } else { to };
        let step = (to - self.dc[plane]).clamp(-255, 255);
        let size = (32 - step.abs().leading_zeros()) as usize;
        self.put_code(SIZE + (plane > 0) as usize, size as i32);
        self.bits.put(size, if step < 0 { step + (1 << size) - 1 } else { step } as u32);
        self.dc[plane] += step;
    }

    // RULES 3.5, 3.6, 3.9 to 3.11.
    pub fn block(&mut self, block: usize, intra: bool) {
        let mut n = intra as usize;
        if intra {
            self.dc_value(block.max(3) - 3);
        }
        let count = self.random.one_of(&[0, 1, 1, 1, 2, 2, 3, 5, 9]).max(1 - n);
        for _ in 0..count {
            n += self.coefficient(n == 0);
            if n >= 64 {
                return;
            }
        }
        if !self.is_wild() {
            self.bits.put(2, 0b10);
        }
    }

    // A coefficient, by a code or by an escape; how many places it goes on.
    fn coefficient(&mut self, first: bool) -> usize {
        if !self.rarely(6) {
            let (value, code) = self.codes.table(COEFFICIENT).any(&mut self.random);
            if value != ESCAPE && (value & 0xff != 0) {
                self.bits.code(code);
                if value == 1 && !first {
                    self.bits.put(1, 1);
                }
                let sign = self.random.next() & 1;
                self.bits.put(1, sign);
                return (value >> 8) as usize + 1;
            }
        }
        self.put_code(COEFFICIENT, ESCAPE);
        let run = if self.rarely(8) { self.random.below(64) } else { self.random.below(6) };
        self.bits.put(6, run as u32);
        let any = self.random.next() & 255;
        let level = self.random.one_of(&[0, 128, any, any, 1, 255, 127, 129]);
        self.bits.put(8, level);
        if level & 127 == 0 {
            let more = self.random.next() & 255;
            let more = self.random.one_of(&[more, more, 0, 1, 127, 128, 255]);
            self.bits.put(8, more);
        }
        run + 1
    }

    // Coefficients whose bits have 00 00 01 00 at the beginning of a byte: a picture start code for the search ahead, none for the block (RULES 8.3).
    pub fn hidden_code(&mut self) {
        let (threes, fours) = (0..8).flat_map(|a| (0..3).map(move |b| (a, b))).find(|(a, b)| (3 * a + 4 * b) % 8 == self.bits.rest()).expect("any rest");
        for _ in 0..threes {
            self.bits.put(3, 0b110);
        }
        for _ in 0..fours {
            self.bits.put(4, 0b0110);
        }
        self.put_code(COEFFICIENT, ESCAPE);
        self.bits.put(22, 0);
        self.bits.put(17, 0b0000_0000_0001_0000_0);
        self.bits.put(7, 0b0001_10_0);
        self.bits.put(2, 0b10);
    }
}

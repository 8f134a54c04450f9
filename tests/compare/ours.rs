// Our calls, those of the archive, on memory with guards around it.
use crate::calls::*;
use crate::record::Record;

// How many values stand before and behind lent memory, which no call may change.
pub const GUARD: usize = 16;

// Values that are lent, between guards.
pub struct Lent<T> {
    values: Vec<T>,
    guard: T,
}

impl<T: Copy + PartialEq> Lent<T> {
    pub fn new(given: &[T], guard: T) -> Self {
        let values = [&[guard; GUARD], given, &[guard; GUARD]].concat();
        Lent { values, guard }
    }

    // So many of the values, or with others behind them.
    fn resized(values: &[T], length: usize, behind: T, guard: T) -> Self {
        let mut values = values.to_vec();
        values.resize(length, behind);
        Lent::new(&values, guard)
    }

    fn len(&self) -> usize {
        self.values.len() - 2 * GUARD
    }

    // Pointer and length, as a call takes them.
    fn parts(&mut self) -> (*mut T, usize) {
        let inner = self.inner();
        (inner.as_mut_ptr(), inner.len())
    }

    // With the guards.
    pub fn all(&mut self) -> &mut [T] {
        &mut self.values
    }

    pub fn inner(&mut self) -> &mut [T] {
        let end = GUARD + self.len();
        &mut self.values[GUARD..end]
    }

    pub fn guarded(&self) -> bool {
        let kept = |part: &[T]| part.iter().all(|value| *value == self.guard);
        kept(&self.values[..GUARD]) && kept(&self.values[GUARD + self.len()..])
    }
}

pub struct Ours {
    pub numbers: Lent<usize>,
    pub integers: Lent<i32>,
    pub matrices: Lent<u8>,
    pub clock: Lent<f64>,
    pub store: Lent<u8>,
    // what a hand-out tells of a picture; before it these are values that no picture has
    pub picture: Lent<usize>,
    pub time: f64,
}

// What stands for no store and no time, and behind a record in memory that is longer.
pub const NOT_SHOWN: usize = usize::MAX;
pub const NO_TIME: f64 = -1.0;
pub const BEHIND: u8 = 123;

impl Ours {
    // The parts of the memory for the record have so many elements.
    pub fn from(record: &Record, store: &[u8], lent: [usize; 4]) -> Self {
        Ours {
            numbers: Lent::resized(&record.numbers, lent[0], BEHIND as usize, 77),
            integers: Lent::resized(&record.integers, lent[1], BEHIND as i32, -77),
            matrices: Lent::resized(&record.matrices, lent[2], BEHIND, 0xa5),
            clock: Lent::resized(&record.clock, lent[3], BEHIND as f64, -7.5),
            store: Lent::new(store, 0x5a),
            picture: Lent::new(&[NOT_SHOWN], 77),
            time: NO_TIME,
        }
    }

    pub fn open(&mut self, stream: &[u8]) -> u32 {
        let ((s, m), (n, nn), (i, ni)) = (self.store.parts(), self.numbers.parts(), self.integers.parts());
        let ((q, nm), (c, nc)) = (self.matrices.parts(), self.clock.parts());
        unsafe { mpeg1_open(stream.as_ptr(), stream.len(), s, m, n, nn, i, ni, q, nm, c, nc) }
    }

    pub fn hand_out(&mut self, stream: &[u8]) -> u32 {
        let ((s, m), (n, nn), (i, ni)) = (self.store.parts(), self.numbers.parts(), self.integers.parts());
        let ((q, nm), (c, nc)) = (self.matrices.parts(), self.clock.parts());
        self.time = NO_TIME;
        self.picture.inner().fill(NOT_SHOWN);
        let (p, np) = self.picture.parts();
        let mut call = |np| unsafe { mpeg1_decode(stream.as_ptr(), stream.len(), s, m, n, nn, i, ni, q, nm, c, nc, p, np, &mut self.time) };
        // with no room for what is told of a picture: 2 behind question 1, and nothing is written, as the comparison of the next call shows
        assert_eq!(call(np - 1), if stream.len() > 16_777_216 { 1 } else { 2 }, "a hand-out with no room for a picture's numbers");
        call(np)
    }

    // The store of the picture that the last hand-out told of.
    pub fn shown(&mut self) -> &mut usize {
        &mut self.picture.inner()[0]
    }

    pub fn convert(&mut self, index: usize, area: &mut Lent<u32>, width: usize, height: usize) -> u32 {
        let ((s, m), (n, nn), (i, ni)) = (self.store.parts(), self.numbers.parts(), self.integers.parts());
        let ((q, nm), (a, na)) = (self.matrices.parts(), area.parts());
        unsafe { mpeg1_write_rgb_scaled(s, m, n, nn, i, ni, q, nm, index, a, na, width, height) }
    }
}

// Our calls, those of the archives of crates/mpeg1 and crates/count, on memory of their own.
#[path = "../../hosts/rust/src/calls.rs"]
mod calls;

use calls::*;

pub struct Ours {
    numbers: [usize; 21],
    integers: [i32; 73],
    matrices: [u8; 128],
    clock: [f64; 4],
    store: Vec<u8>,
}

impl Ours {
    // The largest store: only what a stream's pictures take of it is ever touched.
    pub fn new() -> Self {
        let bytes = unsafe { mpeg1_store_bytes(4095, 4095) };
        Ours { numbers: [0; 21], integers: [0; 73], matrices: [0; 128], clock: [0.0; 4], store: vec![0; bytes] }
    }

    pub fn open(&mut self, stream: &[u8]) -> bool {
        let Ours { numbers, integers, matrices, clock, store } = self;
        let (s, m, n, i, q, c) = (store.as_mut_ptr(), store.len(), numbers.as_mut_ptr(), integers.as_mut_ptr(), matrices.as_mut_ptr(), clock.as_mut_ptr());
        0 == unsafe { mpeg1_open(stream.as_ptr(), stream.len(), s, m, n, 21, i, 73, q, 128, c, 4) }
    }

    // The store of the picture that is handed out.
    pub fn decode(&mut self, stream: &[u8]) -> Option<usize> {
        let Ours { numbers, integers, matrices, clock, store } = self;
        let (s, m, n, i, q, c) = (store.as_mut_ptr(), store.len(), numbers.as_mut_ptr(), integers.as_mut_ptr(), matrices.as_mut_ptr(), clock.as_mut_ptr());
        let (mut shown, mut time) = ([0], 0.0);
        match unsafe { mpeg1_decode(stream.as_ptr(), stream.len(), s, m, n, 21, i, 73, q, 128, c, 4, shown.as_mut_ptr(), 1, &mut time) } {
            0 => Some(shown[0]),
            _ => None,
        }
    }

    // Opening and all hand-outs in one call: how many pictures there were, if the stream ends with no more of them.
    pub fn count(&mut self, stream: &[u8]) -> Option<usize> {
        let mut pictures = 0;
        match unsafe { mpeg1_count(stream.as_ptr(), stream.len(), self.store.as_mut_ptr(), self.store.len(), &mut pictures) } {
            7 => Some(pictures),
            _ => None,
        }
    }

    pub fn convert(&self, index: usize, area: &mut [u32], w: usize, h: usize) -> bool {
        let (s, m, n, i, q) = (self.store.as_ptr(), self.store.len(), self.numbers.as_ptr(), self.integers.as_ptr(), self.matrices.as_ptr());
        0 == unsafe { mpeg1_write_rgb_scaled(s, m, n, 21, i, 73, q, 128, index, area.as_mut_ptr(), area.len(), w, h) }
    }

    pub fn luma(&self, index: usize) -> &[u8] {
        let n = self.numbers.as_ptr();
        let (start, bytes) = unsafe { (mpeg1_plane_start(n, 21, index, 0), mpeg1_plane_bytes(n, 21, 0)) };
        &self.store[start..start + bytes]
    }
}

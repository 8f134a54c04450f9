// The Rust's reader, unchanged, which stops the decoder behind the DC value of an intra block: there question 8 is asked (RULES Q8).
use std::ops::{Deref, DerefMut};

#[path = "../../docs/src/crates/native32emu-core/src/mpeg/buffer.rs"]
mod unchanged;

pub struct Buffer {
    inner: unchanged::Buffer,
    behind_dc: bool,
    // how many intra blocks are read before the stop
    pub blocks: usize,
    pub stopped: bool,
}

// The two tables of DC sizes are the only ones with 18 entries (RULES 2.1).
const DC_SIZES: usize = 18;

impl Buffer {
    pub fn new(bytes: Vec<u8>) -> Self {
        Buffer { inner: unchanged::Buffer::new(bytes), behind_dc: false, blocks: usize::MAX, stopped: false }
    }

    pub fn read_vlc(&mut self, table: &[(i16, i16)]) -> i16 {
        self.behind_dc = table.len() == DC_SIZES;
        self.inner.read_vlc(table)
    }

    pub fn read_vlc_uint(&mut self, table: &[(i16, u16)]) -> u16 {
        if std::mem::take(&mut self.behind_dc) {
            self.stopped = self.blocks == 0;
            assert!(!self.stopped);
            self.blocks -= 1;
        }
        self.inner.read_vlc_uint(table)
    }
}

impl Deref for Buffer {
    type Target = unchanged::Buffer;

    fn deref(&self) -> &unchanged::Buffer {
        &self.inner
    }
}

impl DerefMut for Buffer {
    fn deref_mut(&mut self) -> &mut unchanged::Buffer {
        &mut self.inner
    }
}

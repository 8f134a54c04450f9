// Added to the Rust's reader, in the same module: its place, which is a private field.
impl Buffer {
    pub fn at(bytes: Vec<u8>, bit_index: usize) -> Self {
        Buffer { bytes, bit_index }
    }

    pub fn place(&self) -> usize {
        self.bit_index
    }
}

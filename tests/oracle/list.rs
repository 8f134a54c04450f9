// What every list begins with, and how it holds a number.
//
// A list is the number of its cases and then the cases. A number is 32 bits, highest byte first; a number below 0 is held as 2^32 more.

pub struct List {
    bytes: Vec<u8>,
    cases: u32,
}

impl List {
    pub fn new() -> Self {
        List { bytes: vec![0; 4], cases: 0 }
    }

    pub fn case(&mut self) {
        self.cases += 1;
    }

    pub fn byte(&mut self, value: u8) {
        self.bytes.push(value);
    }

    pub fn number(&mut self, value: u32) {
        self.bytes.extend_from_slice(&value.to_be_bytes());
    }

    pub fn bytes(&mut self, bytes: &[u8]) {
        self.bytes.extend_from_slice(bytes);
    }

    pub fn finish(mut self) -> Vec<u8> {
        self.bytes[..4].copy_from_slice(&self.cases.to_be_bytes());
        self.bytes
    }
}

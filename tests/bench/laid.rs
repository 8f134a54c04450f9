// The codes of coefficients and increments that the Rust reads in a stream, as a copy of its buffer.rs records them (recording): for each of the two tables
// one behind the other, in their order.
use std::cell::RefCell;

#[allow(dead_code)]
#[path = "target/recording.rs"]
mod buffer;

#[allow(dead_code)]
mod video {
    include!("../../docs/src/crates/native32emu-core/src/mpeg/video.rs");
    pub const COEFFICIENTS: &[(i16, u16)] = DCT_COEFF;
    pub const INCREMENTS: &[(i16, i16)] = MACROBLOCK_ADDRESS_INCREMENT;
}

pub use video::{COEFFICIENTS, INCREMENTS};

// How many codes, the sum of their values modulo 2^32, and their bits, the highest of a byte first.
#[derive(Default)]
pub struct Laid {
    pub codes: usize,
    pub sum: u32,
    pub bytes: Vec<u8>,
    bits: usize,
}

thread_local! {
    static RECORDED: RefCell<[Laid; 2]> = RefCell::default();
}

// A bit of a code, and whether the code ends there with this value. How many entries a table has tells these two from the others.
fn record(entries: usize, bit: i16, ends: bool, value: u32) {
    let table = match entries {
        n if n == COEFFICIENTS.len() => 0,
        n if n == INCREMENTS.len() => 1,
        _ => return,
    };
    RECORDED.with_borrow_mut(|recorded| {
        let laid = &mut recorded[table];
        if laid.bits % 8 == 0 {
            laid.bytes.push(0);
        }
        laid.bytes[laid.bits / 8] |= (bit as u8) << (7 - laid.bits % 8);
        laid.bits += 1;
        if ends {
            laid.codes += 1;
            laid.sum = laid.sum.wrapping_add(value);
        }
    })
}

// The codes of coefficients and those of increments, with bytes behind them, so that the last are read as the others are.
pub fn laid(stream: Vec<u8>) -> [Laid; 2] {
    RECORDED.take();
    let mut video = video::Video::new(stream);
    while video.decode().is_some() {}
    RECORDED.take().map(|mut laid| {
        laid.bytes.extend([0; 4]);
        laid
    })
}

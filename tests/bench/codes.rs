// Times the reading of codes: ours, the archive of crates/code_timing, and the Rust on the same bits in one process.
// usage: codes ROUNDS FILE ..   by the best processor times, the two in turn, codes a second: of coefficients and increments together for each file, then of
//                               each table alone. What is read are the codes that the Rust reads in the file; both sides sum up their values.
mod clock;
mod laid;

#[allow(dead_code)]
#[path = "../../docs/src/crates/native32emu-core/src/mpeg/buffer.rs"]
mod buffer;

use buffer::Buffer;
use laid::{laid, Laid, COEFFICIENTS, INCREMENTS};
use std::hint::black_box;

extern "C" {
    fn mpeg1_code_sum(stream: *const u8, n: usize, table: u32, count: usize) -> u64;
}

fn ours(bytes: &[u8], table: u32, count: usize) -> u32 {
    unsafe { mpeg1_code_sum(bytes.as_ptr(), bytes.len(), table, count) as u32 }
}

fn rust_coefficients(buffer: &mut Buffer, count: usize) -> u32 {
    (0..count).fold(0, |sum, _| sum.wrapping_add(buffer.read_vlc_uint(COEFFICIENTS) as u32))
}

fn rust_increments(buffer: &mut Buffer, count: usize) -> u32 {
    (0..count).fold(0, |sum, _| sum.wrapping_add(buffer.read_vlc(INCREMENTS) as u32))
}

// So many codes, and the times in nanoseconds in which they are read.
struct Pace {
    codes: usize,
    ours: f64,
    rust: f64,
}

impl Pace {
    fn and(&self, other: &Pace) -> Pace {
        Pace { codes: self.codes + other.codes, ours: self.ours + other.ours, rust: self.rust + other.rust }
    }

    fn print(&self, name: &str) {
        let Pace { codes, ours, rust } = *self;
        let pace = |time: f64| codes as f64 / time * 1e3;
        println!("{name} codes {codes} ours {:.1} M/s rust {:.1} M/s ratio {:.2}", pace(ours), pace(rust), rust / ours);
    }
}

// The codes of one table.
fn measure(laid: Laid, table: u32, rounds: usize, rust: fn(&mut Buffer, usize) -> u32) -> Pace {
    let Laid { codes, sum, bytes, .. } = laid;
    assert!(0 < codes && 0 < rounds, "nothing to read");
    let mut buffer = Buffer::new(bytes.clone());
    let mut pace = Pace { codes, ours: f64::MAX, rust: f64::MAX };
    for _ in 0..rounds {
        buffer.seek(0);
        let (second, time) = clock::timed(|| rust(black_box(&mut buffer), black_box(codes)));
        pace.rust = pace.rust.min(time);
        let (first, time) = clock::timed(|| ours(black_box(&bytes), table, black_box(codes)));
        pace.ours = pace.ours.min(time);
        assert_eq!([first, second], [sum; 2], "ours and the Rust give other values than were recorded");
    }
    pace
}

fn main() {
    let words: Vec<String> = std::env::args().skip(1).collect();
    let rounds = words[0].parse().expect("how many rounds");
    let mut all = Vec::new();
    for file in &words[1..] {
        let name = file.rsplit('/').next().unwrap().trim_end_matches(".m1v");
        let [coefficients, increments] = laid(std::fs::read(file).unwrap_or_else(|error| panic!("{file}: {error}")));
        let coefficients = measure(coefficients, 0, rounds, rust_coefficients);
        let increments = measure(increments, 1, rounds, rust_increments);
        coefficients.and(&increments).print(name);
        all.push((name, coefficients, increments));
    }
    for (name, coefficients, increments) in all {
        coefficients.print(&format!("{name} coefficient"));
        increments.print(&format!("{name} increment"));
    }
}

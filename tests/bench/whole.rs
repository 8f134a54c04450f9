// Times whole decoding: ours, the archives of crates/mpeg1 and crates/count, and the Rust on the same bytes in one process.
// usage: whole ROUNDS FILE ..         ratios of the best processor times, the two in turn: opening and all hand-outs, with the record in our memory between
//                                     the calls as a host has it; opening and the hand-outs, each alone; and opening and all hand-outs as calls of
//                                     `decoder`, the record by value, which is the Rust's way; and of conversions of the first picture of the first
//                                     two files
//        whole once KIND TIMES FILE   passes over the file, for a count of instructions; KIND is ours, calls, rust, ours-opening,
//                                     rust-opening, or none, which only reads the file and copies it
mod clock;
mod ours;

#[allow(dead_code)]
#[path = "../../docs/src/crates/native32emu-core/src/mpeg/buffer.rs"]
mod buffer;

#[allow(dead_code)]
#[path = "../../docs/src/crates/native32emu-core/src/mpeg/video.rs"]
mod video;

use ours::Ours;
use std::hint::black_box;
use video::Video;

// What a decoder hands out of a stream: how many pictures, and a sum over each sample of Y. Equal work gives equal sums.
#[derive(PartialEq, Debug, Default)]
struct Sum {
    pictures: u64,
    samples: u64,
}

impl Sum {
    fn add(&mut self, y: &[u8]) {
        self.pictures += 1;
        self.samples = y.iter().fold(self.samples, |sum, sample| sum.wrapping_mul(31).wrapping_add(*sample as u64));
    }
}

fn sums(stream: &[u8]) -> [Sum; 2] {
    let (mut first, mut second) = (Sum::default(), Sum::default());
    let (mut decoder, mut video) = (Ours::new(), Video::new(stream.to_vec()));
    assert!(decoder.open(stream), "the stream is refused");
    while let Some(index) = decoder.decode(stream) {
        first.add(decoder.luma(index));
    }
    while let Some(index) = video.decode() {
        second.add(&video.frame(index).y.data);
    }
    [first, second]
}

// A pass: opening, then all hand-outs or none. Both sides own the bytes and free them. The Rust allocates its pictures when it opens, and frees them; ours
// has a store from before, which opening clears.
fn rust(bytes: Vec<u8>, all: bool) {
    let mut video = Video::new(black_box(bytes));
    while all && black_box(video.decode()).is_some() {}
    black_box(&video);
}

fn ours(decoder: &mut Ours, bytes: Vec<u8>, all: bool) {
    let bytes = black_box(bytes);
    assert!(decoder.open(&bytes), "the stream is refused");
    while all && black_box(decoder.decode(&bytes)).is_some() {}
    black_box(decoder);
}

// The same of our calls with the record by value.
fn calls(decoder: &mut Ours, bytes: Vec<u8>, pictures: usize) {
    let bytes = black_box(bytes);
    assert_eq!(black_box(decoder.count(&bytes)), Some(pictures), "the calls in one give other pictures");
}

// The time of a pass, in nanoseconds, from so many of them, each with a copy of the bytes that is made before: the clock is read twice for all of them.
fn timed(stream: &[u8], times: usize, mut pass: impl FnMut(Vec<u8>)) -> f64 {
    let copies = vec![stream.to_vec(); times];
    clock::timed(|| copies.into_iter().for_each(&mut pass)).1 / times as f64
}

fn ratio(what: &str, ours: f64, rust: f64) -> String {
    format!("{what} ours {:>10.3} us, rust {:>10.3} us, ratio {:.3}", ours / 1e3, rust / 1e3, ours / rust)
}

fn measure(name: &str, stream: &[u8], rounds: usize) {
    let [first, second] = sums(stream);
    assert_eq!(first, second, "{name}: ours and the Rust give different pictures");
    let mut decoder = Ours::new();
    // passes that take 20 ms together, if one takes less
    let times = (2e7 / timed(stream, 1, |bytes| rust(bytes, true))).clamp(1.0, 10_000.0) as usize;
    let pictures = first.pictures as usize;
    let mut best = [f64::MAX; 5];
    for _ in 0..rounds {
        best[1] = best[1].min(timed(stream, times, |bytes| rust(bytes, true)));
        best[0] = best[0].min(timed(stream, times, |bytes| ours(&mut decoder, bytes, true)));
        best[3] = best[3].min(timed(stream, times, |bytes| rust(bytes, false)));
        best[2] = best[2].min(timed(stream, times, |bytes| ours(&mut decoder, bytes, false)));
        best[4] = best[4].min(timed(stream, times, |bytes| calls(&mut decoder, bytes, pictures)));
    }
    let file = name.rsplit('/').next().unwrap_or(name);
    println!("{file:<16} {:>7} bytes {pictures:>3} pictures", stream.len());
    println!("    {}", ratio("all            ", best[0], best[1]));
    println!("    {}", ratio("opening        ", best[2], best[3]));
    println!("    {}", ratio("hand-outs alone", best[0] - best[2], best[1] - best[3]));
    println!("    {}", ratio("by value       ", best[4], best[1]));
}

// The conversion of the first picture to an area of w by h, in nanoseconds a pixel.
fn convert(name: &str, stream: &[u8], rounds: usize, w: usize, h: usize) {
    let (mut decoder, mut video) = (Ours::new(), Video::new(stream.to_vec()));
    assert!(decoder.open(stream), "the stream is refused");
    let (index, other) = (decoder.decode(stream).expect("a picture"), video.decode().expect("a picture"));
    let (mut first, mut second) = (vec![0u32; w * h], vec![0u32; w * h]);
    let (mut a, mut b) = (f64::MAX, f64::MAX);
    for _ in 0..rounds {
        b = b.min(clock::timed(|| video.frame(other).write_rgb_scaled(&mut second, w, h)).1);
        a = a.min(clock::timed(|| decoder.convert(index, &mut first, w, h)).1);
    }
    assert!(first == second, "{name}: ours and the Rust give different pixels");
    let (file, pixels) = (name.rsplit('/').next().unwrap_or(name), (w * h) as f64);
    println!("{file:<24} to {w}x{h} ARGB   ours {:>7.2} ns   rust {:>7.2} ns a pixel   ratio {:.3}", a / pixels, b / pixels, a / b);
}

fn once(kind: &str, times: usize, stream: &[u8]) {
    let mut decoder = Ours::new();
    for bytes in vec![stream.to_vec(); times] {
        match kind {
            "ours" => ours(&mut decoder, bytes, true),
            "calls" => drop(black_box(decoder.count(&black_box(bytes)))),
            "rust" => rust(bytes, true),
            "ours-opening" => ours(&mut decoder, bytes, false),
            "rust-opening" => rust(bytes, false),
            _ => drop(black_box(bytes)),
        }
    }
}

fn main() {
    let words: Vec<String> = std::env::args().skip(1).collect();
    let read = |name: &String| std::fs::read(name).unwrap_or_else(|error| panic!("{name}: {error}"));
    if words.first().is_some_and(|word| word == "once") {
        return once(&words[1], words[2].parse().expect("how many times"), &read(&words[3]));
    }
    let rounds = words[0].parse().expect("how many rounds");
    for name in &words[1..] {
        measure(name, &read(name), rounds);
    }
    for (w, h) in [(720, 480), (1440, 960), (97, 61)] {
        for name in &words[1..4] {
            convert(name, &read(name), 4 * rounds, w, h);
        }
    }
}

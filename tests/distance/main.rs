// Searches for blocks on which the transform is far from the same steps in exact fractions.
// usage: distance SECONDS SEED. Prints the largest distance found, over 2^24, with its block.
use std::time::{Duration, Instant};

#[path = "step.rs"]
mod step;
use step::{exact, idct, BOUND};

struct Random(u64);

impl Random {
    fn next(&mut self) -> u64 {
        self.0 ^= self.0 << 13;
        self.0 ^= self.0 >> 7;
        self.0 ^= self.0 << 17;
        self.0
    }

    fn below(&mut self, n: u64) -> u64 {
        (self.next() >> 11) % n
    }

    fn coefficient(&mut self, place: usize) -> i64 {
        let most = 2048 * BOUND[place];
        self.below(2 * most as u64 + 1) as i64 - most
    }
}

// The largest distance of the block's 64 results, in units of 2^-24.
fn distance(block: &[i64; 64]) -> i64 {
    let (near, far) = (idct(block), exact(block));
    (0..64).map(|k| (near[k] * 16777216 - far[k]).abs()).max().unwrap()
}

// Changes one or two coefficients at a time and keeps what is not worse, until nothing better was found for a while.
fn climb(random: &mut Random) -> ([i64; 64], i64) {
    let mut block = [0i64; 64];
    for place in 0..64 {
        block[place] = random.coefficient(place);
    }
    let (mut best, mut idle) = (distance(&block), 0);
    while idle < 20000 {
        let mut next = block;
        for _ in 0..1 + random.below(2) {
            let place = random.below(64) as usize;
            next[place] = if random.below(2) == 0 {
                random.coefficient(place)
            } else {
                let most = 2048 * BOUND[place];
                (next[place] + random.below(513) as i64 - 256).clamp(-most, most)
            };
        }
        let far = distance(&next);
        idle = if far > best { 0 } else { idle + 1 };
        if far >= best {
            block = next;
            best = far;
        }
    }
    (block, best)
}

fn main() {
    let mut words = std::env::args().skip(1).map(|w| w.parse::<u64>().expect("a number"));
    let (seconds, seed) = (words.next().unwrap_or(60), words.next().unwrap_or(1));
    let (mut random, end) = (Random(seed * 2 + 1), Instant::now() + Duration::from_secs(seconds));
    let (mut best, mut block, mut blocks) = (0, [0i64; 64], 0u64);
    while Instant::now() < end {
        let found = climb(&mut random);
        blocks += 1;
        if found.1 > best {
            (block, best) = found;
        }
    }
    println!("climbs {blocks}, seed {seed}, {seconds} s");
    println!("largest distance {best} / 16777216 = {:.4}", best as f64 / 16777216.0);
    println!("block {block:?}");
}

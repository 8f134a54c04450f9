// What the headers of streams say: how many pictures of each type, f codes and full-pel flags, rates, aspects and sizes.
use crate::damage::behind_codes;
use std::collections::{BTreeMap, BTreeSet};
use std::fmt;

#[derive(Default)]
pub struct Headers {
    bytes: usize,
    counts: BTreeMap<&'static str, BTreeMap<u32, usize>>,
    sizes: BTreeSet<(u32, u32)>,
}

// Bits of the four or eight bytes behind a start code, from the first one.
fn bits(word: u64, from: usize, count: usize) -> u32 {
    (word >> (64 - from - count) & ((1 << count) - 1)) as u32
}

fn word(stream: &[u8], at: usize) -> u64 {
    (0..8).fold(0, |word, k| word << 8 | *stream.get(at + k).unwrap_or(&0) as u64)
}

impl Headers {
    fn count(&mut self, what: &'static str, value: u32) {
        *self.counts.entry(what).or_default().entry(value).or_default() += 1;
    }

    pub fn add(&mut self, stream: &[u8]) {
        self.bytes += stream.len();
        for at in behind_codes(stream, &[0xb3]).into_iter().take(1) {
            let word = word(stream, at);
            self.sizes.insert((bits(word, 0, 12), bits(word, 12, 12)));
            self.count("aspect codes", bits(word, 24, 4));
            self.count("rate codes", bits(word, 28, 4));
        }
        for at in behind_codes(stream, &[0]) {
            let word = word(stream, at);
            let kind = bits(word, 10, 3);
            self.count("picture types", kind);
            if kind == 2 || kind == 3 {
                self.count("forward full-pel", bits(word, 29, 1));
                self.count("forward f codes", bits(word, 30, 3));
            }
            if kind == 3 {
                self.count("backward f codes", bits(word, 34, 3));
            }
        }
    }
}

impl fmt::Display for Headers {
    fn fmt(&self, f: &mut fmt::Formatter) -> fmt::Result {
        let widths = self.sizes.iter().map(|size| size.0);
        let heights = self.sizes.iter().map(|size| size.1);
        let span = |from: Option<u32>, to: Option<u32>| format!("{}..{}", from.unwrap_or(0), to.unwrap_or(0));
        let (across, down) = (span(widths.clone().min(), widths.max()), span(heights.clone().min(), heights.max()));
        write!(f, "{} bytes, {} sizes, widths {across}, heights {down}", self.bytes, self.sizes.len())?;
        for (what, counts) in &self.counts {
            write!(f, "; {what}")?;
            for (value, count) in counts {
                write!(f, " {value}:{count}")?;
            }
        }
        Ok(())
    }
}

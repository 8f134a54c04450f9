// Streams, each opened and then asked for its pictures: whole, cut after each byte, made by chance, damaged.
use crate::case::{other_room, Case, Conversion, ROOM};
use crate::codes::Codes;
use crate::damage::damaged;
use crate::made;
use crate::random::Random;
use crate::reference::store_for;
use std::path::{Path, PathBuf};

pub fn files(folder: &Path) -> Vec<PathBuf> {
    let entries = std::fs::read_dir(folder).expect("the folder of streams");
    let mut paths: Vec<_> = entries.map(|entry| entry.expect("an entry").path()).filter(|path| path.extension().is_some_and(|end| end == "m1v")).collect();
    paths.sort();
    paths
}

fn any_conversion(random: &mut Random, most: usize) -> Conversion {
    let (width, height) = (random.below(most), random.below(most));
    Conversion { after: random.below(6), index: random.below(3), width, height, area: width * height + random.below(3) }
}

// All pictures of a stream, with some conversions on the way: at its own size, smaller and larger ones.
pub fn whole(stream: Vec<u8>, random: &mut Random) -> Case {
    let needed = store_for(&stream);
    let mut conversions: Vec<Conversion> = (0..4).map(|_| any_conversion(random, 400)).collect();
    for after in [1, 2, 5] {
        let (width, height) = random.one_of(&[(352, 288), (640, 480), (33, 1000), (1, 1)]);
        conversions.push(Conversion { after, index: random.below(3), width, height, area: width * height });
    }
    Case { begin: None, store: vec![0xa5; needed + 100], stream, most: usize::MAX, conversions, noise: 0, lent: ROOM }
}

// The store that a stream is given: what its header asks for, now and then less or more.
fn store_lent(stream: &[u8], random: &mut Random) -> Vec<u8> {
    let needed = store_for(stream).min(1152 * 80);
    let length = match random.below(32) {
        0 => needed.saturating_sub(1),
        1 => random.below(needed + 1),
        2..=8 => needed + random.below(300),
        _ => needed,
    };
    vec![random.next() as u8 | 1; length]
}

pub fn opened(stream: Vec<u8>, random: &mut Random) -> Case {
    let conversions = (0..(random.below(3) == 0) as usize).map(|_| any_conversion(random, 24)).collect();
    let lent = if random.below(150) == 0 { other_room(random) } else { ROOM };
    Case { begin: None, store: store_lent(&stream, random), stream, most: 40, conversions, noise: 0, lent }
}

// What random cases are made of: the codes, and streams of encoders.
pub struct Sources {
    pub codes: Codes,
    pub public: Vec<Vec<u8>>,
}

impl Sources {
    // A stream of an encoder, of which a beginning is enough.
    fn beginning(&self, random: &mut Random) -> &[u8] {
        let stream = &self.public[random.below(self.public.len())];
        &stream[..stream.len().min(300 + random.below(2000))]
    }

    fn made(&self, random: &mut Random) -> Vec<u8> {
        made::stream(&self.codes, Random::new(random.wide() | 1))
    }

    pub fn case(&self, random: &mut Random) -> Case {
        let stream = match random.below(20) {
            0..=1 => damaged(self.beginning(random), self.beginning(random), random),
            2 => {
                let (a, b) = (self.made(random), self.made(random));
                damaged(&a, &b, random)
            }
            3..=6 => {
                let made = self.made(random);
                damaged(&made, &made, random)
            }
            _ => self.made(random),
        };
        opened(stream, random)
    }
}

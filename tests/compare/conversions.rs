// Conversions of pictures with any bytes: sizes around 0, 1, odd ones, 4096 and 4097, areas around the product, and refusals.
use crate::case::{Case, Conversion, ROOM};
use crate::random::Random;
use crate::record::*;

// A record with a header and sizes that follow, or one that is refused.
fn record(random: &mut Random) -> Record {
    let mut record = Record::fresh();
    let n = &mut record.numbers;
    (n[WIDTH], n[HEIGHT]) = match random.below(12) {
        0 => random.one_of(&[(4095, 1), (1, 4095), (2048, 16), (16, 2048), (4080, 3)]),
        1 => random.one_of(&[(1, 1), (16, 16), (17, 1), (1, 17), (15, 15), (2, 2)]),
        _ => (1 + random.below(100), 1 + random.below(80)),
    };
    let (across, down) = (macroblocks_over(n[WIDTH]), macroblocks_over(n[HEIGHT]));
    n[HEADER] = 1;
    n[MB_WIDTH..=MB_SIZE].copy_from_slice(&[across, down, across * down]);
    n[STOP] = random.one_of(&[0, 0, 0, 8, 9]);
    match random.below(40) {
        0 => n[HEADER] = 0,
        1 => n[STOP] = random.one_of(&[1, 7, 10, usize::MAX]),
        2 => n[MB_SIZE] = random.one_of(&[n[MB_SIZE] - 1, n[MB_SIZE] + 1]),
        3 => {
            n[HEADER] = 0;
            n[MB_WIDTH..=MB_SIZE].fill(0);
        }
        _ => (),
    }
    record
}

fn size(random: &mut Random, sample: usize) -> usize {
    match random.below(16) {
        0 => 0,
        1 => 1,
        2 => random.one_of(&[2, 3, 5, 7, 255, 257]),
        3 => sample,
        4 => (2 * sample).min(300),
        5 => random.one_of(&[4095, 4096, 4096, 4097, 4097, 5000, usize::MAX]),
        _ => random.below(90),
    }
}

fn conversion(random: &mut Random, record: &Record) -> Conversion {
    let mut width = size(random, record.numbers[WIDTH]);
    let mut height = size(random, record.numbers[HEIGHT]);
    // one of the two is small where the other is large
    if width.min(4096) * height.min(4096) > 60_000 {
        let small = random.below(13);
        if random.below(2) == 0 {
            width = small
        } else {
            height = small
        }
    }
    let product = width.saturating_mul(height);
    let product = if product > 60_000 { random.below(60) } else { product };
    let area = match random.below(12) {
        0 => product.saturating_sub(1),
        1 => random.below(product + 1),
        2..=4 => product + 1 + random.below(9),
        _ => product,
    };
    let any = random.wide() as usize;
    let index = match random.below(24) {
        0 => random.one_of(&[3, 4, 255, 256, 1 << 32, usize::MAX, any]),
        _ => random.below(3),
    };
    Conversion { after: 0, index, width, height, area }
}

pub fn case(random: &mut Random) -> Case {
    let record = record(random);
    let needed = 1152 * macroblocks_over(record.numbers[WIDTH]) * macroblocks_over(record.numbers[HEIGHT]);
    let length = match random.below(20) {
        0 => needed - 1,
        1 => random.below(needed),
        2 => needed + random.below(50),
        _ => needed,
    };
    let extreme = random.below(4) == 0;
    let store = (0..length).map(|_| if extreme { random.one_of(&[0, 1, 15, 16, 17, 127, 128, 235, 236, 254, 255]) } else { random.next() as u8 }).collect();
    let conversions = (0..10).map(|_| conversion(random, &record)).collect();
    Case { begin: Some(record), stream: Vec::new(), store, most: 0, conversions, noise: 0, lent: ROOM }
}

// Damaged copies of streams.
use crate::random::Random;

// Places behind start codes with one of these codes.
pub fn behind_codes(stream: &[u8], codes: &[u8]) -> Vec<usize> {
    (4..=stream.len()).filter(|&at| stream[at - 4..at - 1] == [0, 0, 1] && codes.contains(&stream[at - 1])).collect()
}

fn flip_bits(stream: &mut [u8], random: &mut Random) {
    for _ in 0..=random.below(4) {
        let at = random.below(stream.len());
        stream[at] ^= 1 << random.below(8);
    }
}

fn other_bytes(stream: &mut [u8], random: &mut Random) {
    for _ in 0..=random.below(4) {
        let at = random.below(stream.len());
        let any = random.next() as u8;
        stream[at] = random.one_of(&[any, any, 0, 1, 0xff]);
    }
}

fn cut_out(stream: &mut Vec<u8>, random: &mut Random) {
    let at = random.below(stream.len());
    let end = (at + 1 + random.below(20)).min(stream.len());
    stream.drain(at..end);
}

fn put_in(stream: &mut Vec<u8>, random: &mut Random) {
    let at = random.below(stream.len());
    let from = random.below(stream.len());
    let to = (from + 1 + random.below(40)).min(stream.len());
    let part = stream[from..to].to_vec();
    stream.splice(at..at, part);
}

fn put_start_code(stream: &mut Vec<u8>, random: &mut Random) {
    let at = random.below(stream.len());
    let any = random.next() as u8;
    let code = random.one_of(&[0, 0, 1, 2, 0xaf, 0xb0, 0xb2, 0xb3, 0xb5, 0xb7, 0xb8, any]);
    let end = if random.below(2) == 0 { at } else { (at + 4).min(stream.len()) };
    stream.splice(at..end, [0, 0, 1, code]);
}

// A byte behind a start code of these codes: fields of its header.
fn other_field(stream: &mut [u8], random: &mut Random, codes: &[u8], bytes: usize) {
    let places = behind_codes(stream, codes);
    if let Some(&place) = places.get(random.below(places.len().max(1))) {
        let at = place + random.below(bytes);
        if at < stream.len() {
            let (any, near) = (random.next() as u8, stream[at] ^ 1 << random.below(8));
            stream[at] = random.one_of(&[any, near]);
        }
    }
}

fn join(stream: &mut Vec<u8>, other: &[u8], random: &mut Random) {
    stream.truncate(random.below(stream.len() + 1));
    let from = if random.below(2) == 0 { 0 } else { random.below(other.len()) };
    stream.extend(&other[from..]);
}

pub fn damaged(stream: &[u8], other: &[u8], random: &mut Random) -> Vec<u8> {
    let mut copy = stream.to_vec();
    for _ in 0..=random.below(3) {
        if copy.is_empty() {
            break;
        }
        match random.below(10) {
            0..=1 => flip_bits(&mut copy, random),
            2 => other_bytes(&mut copy, random),
            3 => copy.truncate(1 + random.below(stream.len())),
            4 => cut_out(&mut copy, random),
            5 => put_in(&mut copy, random),
            6 => put_start_code(&mut copy, random),
            7 => other_field(&mut copy, random, &[0xb3], 12),
            8 => other_field(&mut copy, random, &[0], 5),
            _ => join(&mut copy, other, random),
        }
    }
    copy
}

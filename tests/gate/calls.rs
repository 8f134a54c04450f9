// The Rust's decoder as it stands in docs/src, with a test of question 8 and one of question 9 added (target/marked.rs, which `make` writes), its state from a
// record and back, as tests/compare has them, and the three calls of docs/RULES.md around it: questions 1, 2, 6, 10, 11 and the stop mark, which the Rust does
// not have, are put here.
#![allow(dead_code)]
include!("target/marked.rs");
include!("../compare/state.rs");

use std::panic::{catch_unwind, AssertUnwindSafe};

fn video_of(record: &Record, stream: &[u8], store: &[u8]) -> Video {
    Video::from_record(record, stream, store, 0)
}

pub fn store_bytes(record: &Record) -> usize {
    1152 * record.macroblocks()
}

// The number of the first of the questions 3, 4 and 5 that is answered "no" (RULES Q3 to Q5), 0 where none is: the Rust does not tell them apart.
fn header_refusal(mut before: Video) -> u32 {
    if before.start_code != START_SEQUENCE {
        before.start_code = before.buffer.find_start_code(START_SEQUENCE);
    }
    match (before.start_code, before.buffer.has(1088), before.has_header()) {
        (-1, ..) => 3,
        (_, false, _) => 4,
        (_, _, false) => 5,
        _ => 0,
    }
}

// RULES O
pub fn open(stream: &[u8], store: &mut [u8]) -> (Record, u32) {
    if stream.len() > 16_777_216 {
        return (Record::fresh(), 1);
    }
    let video = Video::new(stream.to_vec());
    let opened = video.record();
    match header_refusal(video_of(&Record::fresh(), stream, store)) {
        0 if store_bytes(&opened) > store.len() => (Record::fresh(), 6),
        0 => {
            video.put_stores(store);
            (opened, 0)
        }
        number => (opened, number),
    }
}

pub enum Answer {
    Picture(usize, f64),
    Number(u32),
}

// RULES part 8, Q
pub fn decode(record: &Record, stream: &[u8], store: &mut [u8]) -> (Record, Answer) {
    if stream.len() > 16_777_216 {
        return (record.clone(), Answer::Number(1));
    }
    if !possible(record) {
        return (record.clone(), Answer::Number(2));
    }
    if record.numbers[STOP] != 0 {
        return (record.clone(), Answer::Number(record.numbers[STOP] as u32));
    }
    if store_bytes(record) > store.len() {
        return (record.clone(), Answer::Number(6));
    }
    let mut video = video_of(record, stream, store);
    if !video.has_sequence_header {
        let number = header_refusal(video_of(record, stream, store));
        video.has_header();
        if number != 0 {
            return (video.record(), Answer::Number(number));
        }
        if 1152 * video.mb_size > store.len() {
            return (record.clone(), Answer::Number(6));
        }
    }
    let ended = catch_unwind(AssertUnwindSafe(|| video.decode()));
    video.put_stores(store);
    match ended {
        Ok(Some(k)) => (video.record(), Answer::Picture(k, video.last_frame_time)),
        Ok(None) => (video.record(), Answer::Number(7)),
        Err(number) => {
            let number = *number.downcast::<u32>().expect("the Rust panics at question 9 only");
            let mut stopped = record.clone();
            stopped.numbers[STOP] = number as usize;
            (stopped, Answer::Number(number))
        }
    }
}

// RULES part 9, Q
pub fn convert(record: &Record, store: &[u8], k: usize, area: &mut [u32], w: usize, h: usize) -> u32 {
    if !possible(record) {
        return 2;
    }
    if store_bytes(record) > store.len() {
        return 6;
    }
    if !record.has_header() || k > 2 {
        return 10;
    }
    if w > 4096 || h > 4096 || w * h > area.len() {
        return 11;
    }
    video_of(record, &[], store).frame(k).write_rgb_scaled(area, w, h);
    0
}

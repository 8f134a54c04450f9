// The three calls as docs/RULES.md has them: the questions 1 to 6, 10 and 11 are asked here, and the rest is left to the Rust.
use crate::case::ROOM;
use crate::record::*;
use crate::rust::{asking, unchanged, Stopped};
use std::cell::Cell;
use std::panic::{catch_unwind, AssertUnwindSafe};

// RULES Q1.
pub const LONGEST: usize = 16_777_216;

// What a hand-out answers: a picture with its store and the time shown, or a number.
#[derive(Clone, Copy)]
pub enum Answer {
    Picture { shown: usize, time: f64 },
    Number(u32),
}

impl Answer {
    pub fn number(self) -> u32 {
        match self {
            Answer::Picture { .. } => 0,
            Answer::Number(number) => number,
        }
    }
}

thread_local! {
    static QUIET: Cell<bool> = const { Cell::new(false) };
}

// What the Rust says when it panics is not printed.
pub fn quiet_panics() {
    let before = std::panic::take_hook();
    std::panic::set_hook(Box::new(move |info| {
        if !QUIET.get() {
            before(info);
        }
    }));
}

// The value of a call of the Rust, or the number by which it is left: 9 where it panics.
fn caught<T>(call: impl FnOnce() -> T) -> Result<T, u32> {
    QUIET.set(true);
    let ended = catch_unwind(AssertUnwindSafe(call));
    QUIET.set(false);
    ended.map_err(|payload| payload.downcast_ref::<Stopped>().map_or(9, |stopped| stopped.0))
}

pub struct Reference {
    pub record: Record,
    pub store: Vec<u8>,
    // Decoders in the state of record and store, once there are any: the unchanged one and the copy that asks.
    videos: Option<(unchanged::video::Video, asking::video::Video)>,
    noise: u32,
    // how many elements the parts of the record's memory have
    lent: [usize; 4],
}

// The sequence header that a try at one finds: the number 3, 4 or 5, or width and height (RULES 1.9, 1.10, O.3, Q3 to Q5).
fn header(record: &Record, stream: &[u8]) -> Result<(usize, usize), u32> {
    let mut place = record.numbers[PLACE];
    if record.integers[START_CODE] != 0xb3 {
        let mut from = place.div_ceil(8);
        loop {
            let found = (from..stream.len().saturating_sub(4)).find(|&at| stream[at..at + 3] == [0, 0, 1]).ok_or(3u32)?;
            // behind the code, also where it is another one
            from = found + 4;
            if stream[found + 3] == 0xb3 {
                break;
            }
        }
        place = 8 * from;
    }
    if 8 * stream.len() < place + 1088 {
        return Err(4);
    }
    let bit = |at: usize| (stream[at / 8] >> (7 - at % 8) & 1) as usize;
    let twelve = |at: usize| (at..at + 12).fold(0, |number, at| number * 2 + bit(at));
    match (twelve(place), twelve(place + 12)) {
        (0, _) | (_, 0) => Err(5),
        sizes => Ok(sizes),
    }
}

fn store_needed((width, height): (usize, usize)) -> usize {
    1152 * macroblocks_over(width) * macroblocks_over(height)
}

// The bytes of store that the first header of a stream asks for, 0 where there is none.
pub fn store_for(stream: &[u8]) -> usize {
    header(&Record::fresh(), stream).map_or(0, store_needed)
}

impl Reference {
    // A record that is passed in. What `noise` holds goes to the fields of the Rust that no record has.
    pub fn from(record: Record, store: Vec<u8>, noise: u32) -> Self {
        Reference { record, store, videos: None, noise, lent: ROOM }
    }

    // Calls on a memory that is too short for a record change nothing.
    pub fn in_memory(mut self, lent: [usize; 4]) -> Self {
        self.lent = lent;
        self
    }

    // RULES O.2.
    pub fn open(stream: &[u8], store: Vec<u8>) -> (Self, u32) {
        let mut opened = Reference::from(Record::fresh(), store, 0);
        if stream.len() > LONGEST {
            return (opened, 1);
        }
        let header = header(&opened.record, stream);
        if header.is_ok_and(|sizes| opened.store.len() < store_needed(sizes)) {
            return (opened, 6);
        }
        let video = unchanged::video::Video::new(stream.to_vec());
        assert_eq!(video.accepted(), header.is_ok(), "the Rust accepts a header where 3, 4 and 5 are answered \"yes\"");
        opened.videos = Some((video, asking::video::Video::new(stream.to_vec())));
        opened.take();
        (opened, header.err().unwrap_or(0))
    }

    // Record and store as the unchanged Rust has them.
    fn take(&mut self) {
        let (video, _) = self.videos.as_ref().expect("a decoder");
        self.record = video.record();
        video.put_stores(&mut self.store);
    }

    // RULES Q2, where a call is lent the first `parts` of the record's memory: a conversion has no clock.
    fn is_possible(&self, parts: usize) -> bool {
        (0..parts).all(|part| self.lent[part] >= ROOM[part]) && possible(&self.record)
    }

    // RULES Q, the order of a hand-out.
    pub fn hand_out(&mut self, stream: &[u8]) -> Answer {
        if stream.len() > LONGEST {
            return Answer::Number(1);
        }
        if !self.is_possible(4) {
            return Answer::Number(2);
        }
        if self.record.numbers[STOP] != 0 {
            return Answer::Number(self.record.numbers[STOP] as u32);
        }
        let header = if self.record.has_header() { None } else { Some(header(&self.record, stream)) };
        let needed = match header {
            None => 1152 * self.record.macroblocks(),
            Some(found) => found.map_or(0, store_needed),
        };
        if self.store.len() < needed {
            return Answer::Number(6);
        }
        self.call(stream, header.and_then(Result::err).unwrap_or(7))
    }

    // The Rust's call. `none` is the number where it hands nothing out.
    fn call(&mut self, stream: &[u8], none: u32) -> Answer {
        let (record, store, noise) = (&self.record, &self.store, self.noise);
        let (video, asking) = self.videos.get_or_insert_with(|| {
            (unchanged::video::Video::from_record(record, stream, store, noise), asking::video::Video::from_record(record, stream, store, !noise))
        });
        let asked = caught(|| asking.decode());
        let given = caught(|| video.decode());
        if let Err(number) = asked {
            assert!(number == 8 || given == Err(9), "where 9 is answered the Rust panics");
            asking.put_stores(&mut self.store);
            self.record.numbers[STOP] = number as usize;
            self.videos = None;
            return Answer::Number(number);
        }
        assert_eq!(asked, given, "the Rust and the copy that asks agree, and neither panics");
        let time = video.last_frame_time();
        assert!(none == 7 || !video.accepted(), "the Rust accepts no header where 3, 4 or 5 is answered");
        self.take();
        match given {
            Ok(Some(shown)) => Answer::Picture { shown, time },
            _ => Answer::Number(none),
        }
    }

    // RULES Q, the order of a conversion.
    pub fn convert(&mut self, index: usize, area: &mut [u32], width: usize, height: usize) -> u32 {
        if !self.is_possible(3) {
            return 2;
        }
        if self.store.len() < 1152 * self.record.macroblocks() {
            return 6;
        }
        if !self.record.has_header() || index > 2 {
            return 10;
        }
        if width > 4096 || height > 4096 || area.len() < width * height {
            return 11;
        }
        match &self.videos {
            Some((video, _)) => video.frame(index).write_rgb_scaled(area, width, height),
            None => unchanged::video::Video::from_record(&self.record, &[], &self.store, 0).frame(index).write_rgb_scaled(area, width, height),
        }
        0
    }
}

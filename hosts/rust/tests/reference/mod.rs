//! What the Rust of docs/src, unchanged, hands out of a stream.
#![allow(dead_code)]

use std::sync::Mutex;

// not formatted with this package
#[rustfmt::skip]
#[path = "../../../../tests/oracle/stopping.rs"]
mod buffer;

mod video {
    include!("../../../../docs/src/crates/native32emu-core/src/mpeg/video.rs");
    include!("../../../../tests/oracle/video_pictures.rs");
    include!("../../../../tests/oracle/video_ended.rs");

    use super::{Handed, Run};
    use std::cell::RefCell;

    // The number of the first of the questions 3, 4 and 5 that is answered "no" (RULES Q3 to Q5), 0 where none is: the Rust does not tell them apart.
    fn opening_refusal(stream: &[u8]) -> u32 {
        let mut fresh = Video::new(Vec::new());
        fresh.buffer = Buffer::new(stream.to_vec());
        fresh.start_code = fresh.buffer.find_start_code(START_SEQUENCE);
        match (fresh.start_code, fresh.buffer.has(1088), fresh.has_header()) {
            (-1, ..) => 3,
            (_, false, _) => 4,
            (_, _, false) => 5,
            _ => 0,
        }
    }

    fn shown(plane: &Plane, width: usize, height: usize) -> Vec<u8> {
        plane.data.chunks(plane.width).take(height).flat_map(|row| &row[..width]).copied().collect()
    }

    fn handed(video: &Video, store: usize, sizes: &[(usize, usize)]) -> Handed {
        let frame = video.frame(store);
        let (width, height) = (frame.width, frame.height);
        let (half_width, half_height) = (width.div_ceil(2), height.div_ceil(2));
        let argb = sizes.iter().map(|&(w, h)| {
            let mut area = vec![0; w * h];
            frame.write_rgb_scaled(&mut area, w, h);
            area
        });
        Handed {
            store,
            type_last_read: video.picture_type as u32,
            time: video.last_frame_time(),
            y: shown(&frame.y, width, height),
            cr: shown(&frame.cr, half_width, half_height),
            cb: shown(&frame.cb, half_width, half_height),
            argb: argb.collect(),
        }
    }

    fn all_pictures(video: &mut Video, sizes: &[(usize, usize)], pictures: &RefCell<Vec<Handed>>) {
        pictures.borrow_mut().clear();
        while let Some(store) = video.decode() {
            pictures.borrow_mut().push(handed(video, store, sizes));
        }
    }

    pub fn run(stream: &[u8], sizes: &[(usize, usize)], with_dc: bool) -> Run {
        let opened = if stream.len() > 16_777_216 { 1 } else { opening_refusal(stream) };
        let pictures = RefCell::new(Vec::new());
        let mut video = Video::new(if opened == 0 { stream.to_vec() } else { Vec::new() });
        let number = if opened != 0 {
            opened
        } else if with_dc {
            ended(|| Video::new(stream.to_vec()), |video| all_pictures(video, sizes, &pictures)).1
        } else if panics(|| all_pictures(&mut video, sizes, &pictures)) {
            9
        } else {
            0
        };
        Run {
            width: video.width(),
            height: video.height(),
            frame_rate: video.framerate(),
            pixel_aspect_ratio: video.pixel_aspect_ratio(),
            pictures: pictures.into_inner(),
            number: if number == 0 { 7 } else { number },
        }
    }
}

/// A picture that is handed out: what is shown of its planes, and its conversion to each size.
pub struct Handed {
    pub store: usize,
    pub type_last_read: u32,
    pub time: f64,
    pub y: Vec<u8>,
    pub cr: Vec<u8>,
    pub cb: Vec<u8>,
    pub argb: Vec<Vec<u32>>,
}

/// All pictures, and the number that ends the calls.
pub struct Run {
    pub width: usize,
    pub height: usize,
    pub frame_rate: f64,
    pub pixel_aspect_ratio: f64,
    pub pictures: Vec<Handed>,
    pub number: u32,
}

// A run catches panics and keeps them from being printed, for the whole process.
static ONE_AT_A_TIME: Mutex<()> = Mutex::new(());

/// A run of a stream in which number 8 does not come up.
pub fn run(stream: &[u8], sizes: &[(usize, usize)]) -> Run {
    let _alone = ONE_AT_A_TIME.lock();
    video::run(stream, sizes, false)
}

/// A run of any stream. It begins anew for each intra block, so the stream has to be short.
pub fn run_short(stream: &[u8], sizes: &[(usize, usize)]) -> Run {
    let _alone = ONE_AT_A_TIME.lock();
    video::run(stream, sizes, true)
}

/// The streams of tests/streams, by name.
pub fn streams() -> Vec<(String, Vec<u8>)> {
    let folder = concat!(env!("CARGO_MANIFEST_DIR"), "/../../tests/streams");
    let mut paths: Vec<_> = std::fs::read_dir(folder).unwrap().map(|entry| entry.unwrap().path()).collect();
    paths.retain(|path| path.extension().is_some_and(|end| end == "m1v"));
    paths.sort();
    assert!(!paths.is_empty());
    paths.into_iter().map(|path| (path.file_name().unwrap().to_string_lossy().into_owned(), std::fs::read(&path).unwrap())).collect()
}

/// Short streams cut off at many places, and copies of them with bytes changed, by a fixed sequence of random numbers.
pub fn damaged() -> Vec<(String, Vec<u8>)> {
    let mut random = 20_u64;
    let mut below = move |n: usize| {
        random = random.wrapping_mul(6364136223846793005).wrapping_add(1442695040888963407);
        (random >> 33) as usize % n
    };
    let mut copies = Vec::new();
    for (name, stream) in streams().into_iter().filter(|(_, stream)| stream.len() < 3000) {
        for cut in [0, 1, 4, 11, 12, 139, 140, 141, 150, stream.len() / 2, stream.len() - 1].into_iter().filter(|&cut| cut < stream.len()) {
            copies.push((format!("{name} cut to {cut} bytes"), stream[..cut].to_vec()));
        }
        let mut no_width = stream.clone();
        no_width[4..6].fill(0);
        copies.push((format!("{name} of width 0"), no_width));
        for copy in 0..100 {
            let mut bytes = stream.clone();
            for _ in 0..=copy % 9 {
                let at = below(bytes.len());
                bytes[at] = below(256) as u8;
            }
            copies.push((format!("{name} damaged {copy}"), bytes));
        }
    }
    copies
}

// The Rust's decoder as it stands in docs/src, over the reader of stopping.rs, and what its calls give.
#![allow(dead_code)]
include!("../../docs/src/crates/native32emu-core/src/mpeg/video.rs");
include!("video_pictures.rs");
include!("video_ended.rs");

use crate::terms::Value;
use std::cell::RefCell;

// A picture that is handed out: its store, the type that was read last, the time shown, and the store's bytes.
pub struct Handed {
    pub store: usize,
    pub picture_type: i32,
    pub time: f64,
    pub planes: Vec<u8>,
}

// Opening and hand-outs up to the first number, which is 0 where there is none, and the stores after them.
pub struct Run {
    pub handed: Vec<Handed>,
    pub number: u32,
    pub stores: Vec<u8>,
}

pub fn hand_outs(stream: &[u8], most: usize) -> Run {
    let handed = RefCell::new(Vec::new());
    let (video, number) = ended(
        || Video::new(stream.to_vec()),
        |video| {
            handed.borrow_mut().clear();
            while handed.borrow().len() < most {
                let Some(store) = video.decode() else { break };
                let planes = stores_of(video).chunks(384 * video.mb_size).nth(store).unwrap().to_vec();
                handed.borrow_mut().push(Handed { store, picture_type: video.picture_type, time: video.last_frame_time, planes });
            }
        },
    );
    assert!(video.has_sequence_header, "the Rust accepts a header");
    let handed = handed.into_inner();
    let number = if number == 0 && handed.len() < most { 7 } else { number };
    Run { handed, number, stores: stores_of(&video) }
}

fn motion(value: &Value) -> Motion {
    Motion {
        full_px: value.field("full_px").truth(),
        is_set: value.field("is_set").truth(),
        r_size: value.field("r_size").number() as i32,
        h: value.field("h").number() as i32,
        v: value.field("v").number() as i32,
    }
}

fn numbers<T: TryFrom<i64>, const N: usize>(value: &Value) -> [T; N] {
    let numbers: Vec<T> = value.list().iter().map(|n| T::try_from(n.number()).ok().unwrap()).collect();
    numbers.try_into().ok().unwrap()
}

// A decoder whose sizes, matrices and state are those of a theorem (records of crates/picture), before a picture's header.
fn before_picture(sizes: &Value, matrices: &Value, frame: &Value, stream: &[u8]) -> Video {
    let place = Place { across: sizes.field("mb_width").number() as usize, down: sizes.field("mb_height").number() as usize, row: 0, column: 0 };
    let state = frame.field("picture");
    let (stores, slice) = (state.field("stores"), state.field("slice"));
    let mut video = video_at(place, &frame.field("store").bytes());
    video.buffer = Buffer::new(stream.to_vec());
    video.intra_quant_matrix = numbers(matrices.field("intra_quant_matrix"));
    video.non_intra_quant_matrix = numbers(matrices.field("non_intra_quant_matrix"));
    video.picture_type = state.field("picture_type").number() as i32;
    video.start_code = state.field("start_code").number() as i32;
    [video.cur, video.fwd, video.bwd] = ["cur", "fwd", "bwd"].map(|role| stores.field(role).number() as usize);
    video.quantizer_scale = slice.field("quantizer_scale").number() as i32;
    video.macroblock_address = slice.field("macroblock_address").number() as i32;
    video.motion_forward = motion(slice.field("motion_forward"));
    video.motion_backward = motion(slice.field("motion_backward"));
    video.dc_predictor = numbers(slice.field("dc_predictor"));
    video.block_data = numbers(frame.field("block_data"));
    video
}

// The stores after a picture, the number 8 or 9 by which it was left or 0, and the place there in bits.
pub fn picture(sizes: &Value, matrices: &Value, frame: &Value, stream: &[u8]) -> (Vec<u8>, u32, usize) {
    let (video, number) = ended(|| before_picture(sizes, matrices, frame, stream), |video| video.decode_picture());
    let left = (0..=stream.len() * 8).rev().find(|&n| video.buffer.has(n)).unwrap();
    (stores_of(&video), number, stream.len() * 8 - left)
}

pub fn intra_quant_matrix() -> [u8; 64] {
    INTRA_QUANT_MATRIX
}

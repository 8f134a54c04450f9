// Pictures of the Rust's decoder whose stores hold given bytes, laid out as docs/RULES.md 6.11 says.
use std::panic::{catch_unwind, AssertUnwindSafe};

// A macroblock: how many of them the picture has across and down, and its row and column among them.
#[derive(Clone, Copy)]
pub struct Place {
    pub across: usize,
    pub down: usize,
    pub row: usize,
    pub column: usize,
}

impl Place {
    pub fn macroblocks(self) -> usize {
        self.across * self.down
    }
}

fn video_at(place: Place, stores: &[u8]) -> Video {
    let n = place.macroblocks();
    let mut video = Video::new(Vec::new());
    (video.width, video.height) = (16 * place.across, 16 * place.down);
    (video.mb_width, video.mb_height, video.mb_size) = (place.across, place.down, n);
    (video.luma_width, video.luma_height) = (16 * place.across, 16 * place.down);
    (video.chroma_width, video.chroma_height) = (8 * place.across, 8 * place.down);
    (video.mb_row, video.mb_col) = (place.row, place.column);
    video.frames = stores.chunks(384 * n).map(|store| frame_of(&video, store)).collect();
    video
}

fn frame_of(video: &Video, store: &[u8]) -> Frame {
    let n = video.mb_size;
    let mut frame = video.make_frame();
    frame.y.data.copy_from_slice(&store[..256 * n]);
    frame.cr.data.copy_from_slice(&store[256 * n..320 * n]);
    frame.cb.data.copy_from_slice(&store[320 * n..]);
    frame
}

fn stores_of(video: &Video) -> Vec<u8> {
    video.frames.iter().flat_map(|frame| [&frame.y.data, &frame.cr.data, &frame.cb.data]).flatten().copied().collect()
}

// A prediction from a store to another by a vector of half samples.
#[derive(Clone, Copy)]
pub struct Prediction {
    pub from: usize,
    pub to: usize,
    pub h: i32,
    pub v: i32,
    pub interpolate: bool,
}

// The stores after a prediction, and whether it was refused (docs/RULES.md Q9): where the Rust panics, the plane concerned is as it was.
pub fn predict(place: Place, stores: &[u8], p: Prediction) -> (Vec<u8>, bool) {
    let mut video = video_at(place, stores);
    video.cur = p.to;
    let refused = panics(|| video.copy_or_interpolate_macroblock(p.from, p.h, p.v, p.interpolate));
    if refused {
        give_back(place, &mut video, &video_at(place, stores), p);
    }
    (stores_of(&video), refused)
}

fn panics(f: impl FnOnce()) -> bool {
    std::panic::set_hook(Box::new(|_| {}));
    let ended = catch_unwind(AssertUnwindSafe(f));
    let _ = std::panic::take_hook();
    ended.is_err()
}

// Gives the first plane whose prediction panics its bytes back.
fn give_back(place: Place, video: &mut Video, before: &Video, p: Prediction) {
    let (s, old, new) = (&before.frames[p.from], &before.frames[p.to], &mut video.frames[p.to]);
    let planes = [(&s.y, &old.y, &mut new.y, 1, 16), (&s.cr, &old.cr, &mut new.cr, 2, 8), (&s.cb, &old.cb, &mut new.cb, 2, 8)];
    for (s, old, new, part, size) in planes {
        let mut d = old.data.clone();
        let Place { across, down, row, column } = place;
        if panics(|| process_macroblock(&s.data, &mut d, row, column, across, down, p.h / part, p.v / part, size, p.interpolate)) {
            new.data.copy_from_slice(&old.data);
            return;
        }
    }
    unreachable!("a plane's prediction panics");
}

// The four writers of blocks, on a plane of width dw.
pub fn write_block(writer: u32, d: &mut [u8], di: usize, dw: usize, results: &[i32; 64]) {
    match writer {
        0 => block_set_const(d, di, dw, results[0] as u8),
        1 => block_set_overwrite(d, di, dw, results),
        2 => block_set_add_const(d, di, dw, results[0]),
        _ => block_set_add(d, di, dw, results),
    }
}

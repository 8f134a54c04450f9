// What a host reads of a record in memory (crates/mpeg1, views): compared with the Rust's record.
use crate::calls::*;
use crate::case::ROOM;
use crate::difference::{floats, values, Difference};
use crate::ours::Ours;
use crate::record::*;

// The archive's record is the one that record.rs describes, and its stores are those of RULES 6.11.
pub fn check_layout() {
    let parts = unsafe { [mpeg1_record_numbers(), mpeg1_record_integers(), mpeg1_record_matrices(), mpeg1_record_floats()] };
    assert_eq!(parts, ROOM, "elements in the parts of a record of the archive");
    assert_eq!(unsafe { mpeg1_picture_numbers() }, 1, "numbers that are told of a picture");
    for (width, height) in [(0, 1), (1, 0), (1, 1), (16, 17), (4095, 4095), (4096, 1), (1, 4096), (usize::MAX, usize::MAX)] {
        let inside = (1..=4095).contains(&width) && (1..=4095).contains(&height);
        let needed = if inside { 1152 * width.div_ceil(16) * height.div_ceil(16) } else { 0 };
        assert_eq!(unsafe { mpeg1_store_bytes(width, height) }, needed, "bytes of a store for {width}x{height}");
    }
}

// The things that a host reads, as a message has them.
pub const VIEWS: [&str; 9] = [
    "width as a host reads it",
    "height as a host reads it",
    "type as a host reads it",
    "bytes read of the stream",
    "bytes of a row",
    "bytes of a plane",
    "start of a plane",
    "rate as a host reads it",
    "aspect as a host reads it",
];

// The comparison of one of them; one may be turned over before.
struct Views<'a> {
    what: &'a str,
    turned: Option<usize>,
}

impl Views<'_> {
    fn number(&self, view: usize, ours: usize, rust: usize) -> Result<(), Difference> {
        values(self.what, VIEWS[view], ours ^ (self.turned == Some(view)) as usize, rust)
    }

    fn float(&self, view: usize, ours: f64, rust: f64) -> Result<(), Difference> {
        floats(self.what, VIEWS[view], f64::from_bits(ours.to_bits() ^ (self.turned == Some(view)) as u64), rust)
    }

    fn planes(&self, numbers: &[usize], rust: &[usize; NUMBERS]) -> Result<(), Difference> {
        let (at, nn) = (numbers.as_ptr(), numbers.len());
        // bytes of a plane for each macroblock, its block size, and where it begins
        for (plane, (bytes, size, begin)) in [(256, 16, 0), (64, 8, 256), (64, 8, 320), (0, 0, 0)].into_iter().enumerate() {
            let (row, whole) = unsafe { (mpeg1_row_bytes(at, nn, plane), mpeg1_plane_bytes(at, nn, plane)) };
            self.number(4, row, size * rust[MB_WIDTH])?;
            self.number(5, whole, bytes * rust[MB_SIZE])?;
            for index in 0..4 {
                let start = unsafe { mpeg1_plane_start(at, nn, index, plane) };
                let there = index < 3 && plane < 3;
                self.number(6, start, there as usize * (384 * index + begin) * rust[MB_SIZE])?;
            }
        }
        Ok(())
    }
}

// The numbers as a host reads them: 0 for those that the lines of question 2 on them refuse, and for all in a memory that is too short.
fn seen(rust: &[usize; NUMBERS], lent: usize) -> [usize; NUMBERS] {
    let mut n = if lent < NUMBERS { [0; NUMBERS] } else { *rust };
    if !sizes_possible(&n) {
        n[HEADER..=MB_SIZE].fill(0);
    }
    if n[TYPE] > 7 {
        n[TYPE] = 0;
    }
    if n[PLACE] > 134_217_728 {
        n[PLACE] = 0;
    }
    n
}

pub fn compare(what: &str, ours: &mut Ours, rust: &Record, turned: Option<usize>) -> Result<(), Difference> {
    let views = Views { what, turned };
    let numbers = ours.numbers.inner();
    let (at, nn) = (numbers.as_ptr(), numbers.len());
    let n = seen(&rust.numbers, nn);
    views.number(0, unsafe { mpeg1_width(at, nn) }, n[WIDTH])?;
    views.number(1, unsafe { mpeg1_height(at, nn) }, n[HEIGHT])?;
    views.number(2, unsafe { mpeg1_picture_type(at, nn) } as usize, n[TYPE])?;
    views.number(3, unsafe { mpeg1_position(at, nn) }, n[PLACE] / 8)?;
    views.planes(numbers, &n)?;
    let clock = ours.clock.inner();
    let [rate, aspect, ..] = if clock.len() < FLOATS { [0.0; FLOATS] } else { rust.clock };
    views.float(7, unsafe { mpeg1_frame_rate(clock.as_ptr(), clock.len()) }, rate)?;
    views.float(8, unsafe { mpeg1_pixel_aspect_ratio(clock.as_ptr(), clock.len()) }, aspect)
}

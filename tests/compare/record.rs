// The decoder's record in the four parts of its memory (`fields` of crates/memory has their order), and question 2 about it. tests/gate has it from here.
use crate::premultiplier;

// How many elements the parts have.
pub const NUMBERS: usize = 21;
pub const INTEGERS: usize = 73;
pub const MATRICES: usize = 128;
pub const FLOATS: usize = 4;

// Places in the numbers.
pub const PLACE: usize = 0;
pub const HEADER: usize = 1;
pub const WIDTH: usize = 2;
pub const HEIGHT: usize = 3;
pub const MB_WIDTH: usize = 4;
pub const MB_HEIGHT: usize = 5;
pub const MB_SIZE: usize = 6;
pub const TYPE: usize = 7;
pub const STORES: usize = 8;
pub const SCALE: usize = 11;
pub const FORWARD: usize = 12;
pub const BACKWARD: usize = 15;
pub const HELD: usize = 18;
pub const HANDED: usize = 19;
pub const STOP: usize = 20;

// Places in the three numbers of a direction.
pub const FULL: usize = 0;
pub const SET: usize = 1;
pub const R: usize = 2;

// The numbers that are truths.
pub const TRUTHS: [usize; 6] = [HEADER, FORWARD + FULL, FORWARD + SET, BACKWARD + FULL, BACKWARD + SET, HELD];

// Places in the integers. A vector is two of them: across, down.
pub const START_CODE: usize = 0;
pub const ADDRESS: usize = 1;
pub const VECTORS: usize = 2;
pub const DC: usize = 6;
pub const BLOCK: usize = 9;

// Place of the second matrix; the first one begins at 0.
pub const NON_INTRA: usize = 64;

#[derive(Clone)]
pub struct Record {
    pub numbers: [usize; NUMBERS],
    pub integers: [i32; INTEGERS],
    pub matrices: [u8; MATRICES],
    pub clock: [f64; FLOATS],
}

impl Record {
    // RULES O.1.
    pub fn fresh() -> Self {
        let mut record = Record { numbers: [0; NUMBERS], integers: [0; INTEGERS], matrices: [0; MATRICES], clock: [0.0; FLOATS] };
        record.numbers[STORES..STORES + 3].copy_from_slice(&[0, 1, 2]);
        record.integers[START_CODE] = -1;
        record.integers[DC..DC + 3].fill(128);
        record
    }

    pub fn macroblocks(&self) -> usize {
        self.numbers[MB_SIZE]
    }

    pub fn has_header(&self) -> bool {
        self.numbers[HEADER] != 0
    }
}

// RULES O.4: macroblocks that so many samples take.
pub fn macroblocks_over(samples: usize) -> usize {
    samples.div_ceil(16)
}

// Names of the elements, as a message has them.
const NUMBER_NAMES: [&str; NUMBERS] = [
    "place",
    "has_sequence_header",
    "width",
    "height",
    "mb_width",
    "mb_height",
    "mb_size",
    "picture_type",
    "cur",
    "fwd",
    "bwd",
    "quantizer_scale",
    "motion_forward.full_px",
    "motion_forward.is_set",
    "motion_forward.r_size",
    "motion_backward.full_px",
    "motion_backward.is_set",
    "motion_backward.r_size",
    "has_reference_frame",
    "frames_decoded",
    "stop",
];
const INTEGER_NAMES: [&str; DC] = ["start_code", "macroblock_address", "motion_forward.h", "motion_forward.v", "motion_backward.h", "motion_backward.v"];
const FLOAT_NAMES: [&str; FLOATS] = ["framerate", "pixel_aspect_ratio", "time of the next picture", "last_frame_time"];

fn behind(part: &str, at: usize) -> String {
    format!("element {at} of the {part}, behind the record")
}

pub fn number_name(at: usize) -> String {
    NUMBER_NAMES.get(at).map_or_else(|| behind("numbers", at), |name| name.to_string())
}

pub fn integer_name(at: usize) -> String {
    match at {
        0..DC => INTEGER_NAMES[at].to_string(),
        DC..BLOCK => format!("dc_predictor[{}]", at - DC),
        BLOCK..INTEGERS => format!("block_data[{}]", at - BLOCK),
        _ => behind("integers", at),
    }
}

pub fn matrix_name(at: usize) -> String {
    match at {
        0..NON_INTRA => format!("intra_quant_matrix[{at}]"),
        NON_INTRA..MATRICES => format!("non_intra_quant_matrix[{}]", at - NON_INTRA),
        _ => behind("matrices", at),
    }
}

pub fn float_name(at: usize) -> String {
    FLOAT_NAMES.get(at).map_or_else(|| behind("clock", at), |name| name.to_string())
}

fn within(value: i32, from: i32, to: i32) -> bool {
    (from..=to).contains(&value)
}

// The lines of RULES Q2 on the header, width, height and the macroblocks, which a host's reading of sizes asks, too.
pub fn sizes_possible(n: &[usize; NUMBERS]) -> bool {
    let (across, down) = (macroblocks_over(n[WIDTH]), macroblocks_over(n[HEIGHT]));
    let sizes = [n[MB_WIDTH], n[MB_HEIGHT], n[MB_SIZE]];
    n[WIDTH] <= 4095
        && n[HEIGHT] <= 4095
        && match n[HEADER] {
            0 => sizes == [0, 0, 0],
            1 => n[WIDTH] >= 1 && n[HEIGHT] >= 1 && sizes == [across, down, across * down],
            _ => false,
        }
}

// RULES Q2, line by line. Truths are 0 or 1; the numbers that are of 32 bits in a record are bounded far below what these hold.
pub fn possible(record: &Record) -> bool {
    let (n, i, premultiplier) = (&record.numbers, &record.integers, premultiplier());
    let mut stores = [n[STORES], n[STORES + 1], n[STORES + 2]];
    stores.sort();
    TRUTHS.iter().all(|&at| n[at] <= 1)
        && n[PLACE] <= 134_217_728
        && sizes_possible(n)
        && stores == [0, 1, 2]
        && n[FORWARD + R] <= 6
        && n[BACKWARD + R] <= 6
        && i[VECTORS..VECTORS + 4].iter().all(|&component| within(component, -1024, 1023))
        && n[SCALE] <= 31
        && i[DC..DC + 3].iter().all(|&dc| within(dc, -256, 255))
        && (0..64).all(|k| within(i[BLOCK + k], -2048 * premultiplier[k], 2048 * premultiplier[k]))
        && within(i[START_CODE], -1, 255)
        && n[TYPE] <= 7
        && within(i[ADDRESS], -1, 402_700_000)
        && n[HANDED] <= 134_217_728
        && [0, 8, 9].contains(&n[STOP])
}

// Added to the Rust's decoder, in the same module: its state from a record and a store, and back.
use crate::record::*;

fn motion(n: &[usize], vector: &[i32]) -> Motion {
    Motion { full_px: n[FULL] != 0, is_set: n[SET] != 0, r_size: n[R] as i32, h: vector[0], v: vector[1] }
}

fn motion_numbers(m: &Motion) -> [usize; 3] {
    [m.full_px as usize, m.is_set as usize, m.r_size as usize]
}

impl Video {
    // A decoder with the state of a record that is possible. `noise` sets the fields that no record has (RULES 7.21).
    pub fn from_record(record: &Record, stream: &[u8], store: &[u8], noise: u32) -> Self {
        let (n, i) = (&record.numbers, &record.integers);
        let mut video = Video::new(Vec::new());
        video.buffer = Buffer::at(stream.to_vec(), n[PLACE]);
        video.has_sequence_header = n[HEADER] != 0;
        [video.width, video.height] = [n[WIDTH], n[HEIGHT]];
        [video.mb_width, video.mb_height, video.mb_size] = [n[MB_WIDTH], n[MB_HEIGHT], n[MB_SIZE]];
        [video.luma_width, video.luma_height] = [video.mb_width * 16, video.mb_height * 16];
        [video.chroma_width, video.chroma_height] = [video.mb_width * 8, video.mb_height * 8];
        video.intra_quant_matrix.copy_from_slice(&record.matrices[..NON_INTRA]);
        video.non_intra_quant_matrix.copy_from_slice(&record.matrices[NON_INTRA..]);
        [video.picture_type, video.start_code] = [n[TYPE] as i32, i[START_CODE]];
        [video.cur, video.fwd, video.bwd] = [n[STORES], n[STORES + 1], n[STORES + 2]];
        [video.quantizer_scale, video.macroblock_address] = [n[SCALE] as i32, i[ADDRESS]];
        video.motion_forward = motion(&n[FORWARD..], &i[VECTORS..]);
        video.motion_backward = motion(&n[BACKWARD..], &i[VECTORS + 2..]);
        video.dc_predictor.copy_from_slice(&i[DC..BLOCK]);
        video.block_data.copy_from_slice(&i[BLOCK..]);
        video.has_reference_frame = n[HELD] != 0;
        video.frames_decoded = n[HANDED] as i64;
        [video.framerate, video.pixel_aspect_ratio, video.time, video.last_frame_time] = record.clock;
        video.set_dead(noise);
        if video.has_sequence_header {
            video.lend(store);
        }
        video
    }

    fn set_dead(&mut self, noise: u32) {
        self.slice_begin = noise & 1 != 0;
        self.macroblock_intra = noise & 2 != 0;
        [self.mb_row, self.mb_col] = [noise as usize >> 2 & 3, noise as usize >> 4 & 3];
        self.macroblock_type = (noise >> 6 & 31) as i32;
    }

    fn lend(&mut self, store: &[u8]) {
        let n = self.mb_size;
        self.frames = (0..3).map(|_| self.make_frame()).collect();
        for (frame, part) in self.frames.iter_mut().zip(store.chunks_exact(384 * n)) {
            frame.y.data.copy_from_slice(&part[..256 * n]);
            frame.cr.data.copy_from_slice(&part[256 * n..320 * n]);
            frame.cb.data.copy_from_slice(&part[320 * n..]);
        }
    }

    pub fn record(&self) -> Record {
        let mut record = Record::fresh();
        let (n, i) = (&mut record.numbers, &mut record.integers);
        n[PLACE] = self.buffer.place();
        n[HEADER] = self.has_sequence_header as usize;
        [n[WIDTH], n[HEIGHT]] = [self.width, self.height];
        [n[MB_WIDTH], n[MB_HEIGHT], n[MB_SIZE]] = [self.mb_width, self.mb_height, self.mb_size];
        record.matrices[..NON_INTRA].copy_from_slice(&self.intra_quant_matrix);
        record.matrices[NON_INTRA..].copy_from_slice(&self.non_intra_quant_matrix);
        (n[TYPE], i[START_CODE]) = (self.picture_type as usize, self.start_code);
        [n[STORES], n[STORES + 1], n[STORES + 2]] = [self.cur, self.fwd, self.bwd];
        (n[SCALE], i[ADDRESS]) = (self.quantizer_scale as usize, self.macroblock_address);
        n[FORWARD..FORWARD + 3].copy_from_slice(&motion_numbers(&self.motion_forward));
        n[BACKWARD..BACKWARD + 3].copy_from_slice(&motion_numbers(&self.motion_backward));
        [i[VECTORS], i[VECTORS + 1]] = [self.motion_forward.h, self.motion_forward.v];
        [i[VECTORS + 2], i[VECTORS + 3]] = [self.motion_backward.h, self.motion_backward.v];
        i[DC..BLOCK].copy_from_slice(&self.dc_predictor);
        i[BLOCK..].copy_from_slice(&self.block_data);
        n[HELD] = self.has_reference_frame as usize;
        n[HANDED] = self.frames_decoded as usize;
        record.clock = [self.framerate, self.pixel_aspect_ratio, self.time, self.last_frame_time];
        record
    }

    // Writes the three pictures to a store (RULES 6.11); bytes behind them stay.
    pub fn put_stores(&self, store: &mut [u8]) {
        let mut at = 0;
        for data in self.frames.iter().flat_map(|frame| [&frame.y.data, &frame.cr.data, &frame.cb.data]) {
            store[at..at + data.len()].copy_from_slice(data);
            at += data.len();
        }
    }

    pub fn accepted(&self) -> bool {
        self.has_sequence_header
    }
}

pub fn premultiplier() -> &'static [i32; 64] {
    &PREMULTIPLIER_MATRIX
}

// The code tables in the order of RULES 2.1, as pairs of index and value.
pub fn tables() -> [Vec<(i16, i32)>; 9] {
    let signed = |table: &[(i16, i16)]| table.iter().map(|&(index, value)| (index, value as i32)).collect();
    [
        signed(MACROBLOCK_ADDRESS_INCREMENT),
        signed(MACROBLOCK_TYPE_INTRA),
        signed(MACROBLOCK_TYPE_PREDICTIVE),
        signed(MACROBLOCK_TYPE_B),
        signed(CODE_BLOCK_PATTERN),
        signed(MOTION),
        signed(DCT_SIZE_LUMINANCE),
        signed(DCT_SIZE_CHROMINANCE),
        DCT_COEFF.iter().map(|&(index, value)| (index, value as i32)).collect(),
    ]
}

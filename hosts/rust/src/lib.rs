//! MPEG-1 video (ISO/IEC 11172-2) by the proved decoder of this repository, through its archive `libmpeg1.a`.
//!
//! A stream lies in memory, whole: a video elementary stream of at most [`LONGEST_STREAM`] bytes. [`Decoder::open`] reads its sequence header,
//! and [`Decoder::next_picture`] hands out the pictures in the order of display. No call panics, whatever the stream; what cannot be decoded is
//! a [`Refusal`].
//!
//! ```
//! # fn main() -> Result<(), Box<dyn std::error::Error>> {
//! let stream = std::fs::read("../../tests/streams/ipb2_64x48.m1v")?;
//! let mut decoder = mpeg1::Decoder::open(&stream)?;
//! assert_eq!((decoder.width(), decoder.height()), (64, 48));
//! let mut area = vec![0; 32 * 24];
//! while let Some(picture) = decoder.next_picture()? {
//!     // the samples of a plane, row by row, and the picture in half its size as ARGB
//!     let brightest = picture.samples(mpeg1::Plane::Y).rows().flatten().max();
//!     picture.write_rgb_scaled(&mut area, 32, 24)?;
//!     println!("{:.3} s: brightest sample {brightest:?}, first pixel {:08X}", picture.time(), area[0]);
//! }
//! # Ok(())
//! # }
//! ```
//!
//! A decoder is also an iterator of pictures that own their samples:
//!
//! ```
//! # fn main() -> Result<(), Box<dyn std::error::Error>> {
//! let stream = std::fs::read("../../tests/streams/ipb2_64x48.m1v")?;
//! let pictures: Vec<_> = mpeg1::Decoder::open(&stream)?.into_iter().collect::<Result<_, _>>()?;
//! assert!(pictures.iter().all(|picture| picture.y.len() == 64 * 48 && picture.cb.len() == 32 * 24));
//! # Ok(())
//! # }
//! ```
//!
//! Decoders share nothing, so any number of them may run at once, each in a thread of its own.
#![deny(unsafe_code, missing_docs)]

mod archive;
mod calls;
mod refusal;

use archive::State;
pub use refusal::Refusal;

/// The version of the archive's calls that this wrapper was written for.
pub const VERSION: u32 = 1;

/// The version of the archive that the program is linked with. A later one than [`VERSION`] may have a longer record and tell more of a picture,
/// for which the wrapper lends the memory that the archive asks for.
pub fn version() -> u32 {
    archive::version()
}

/// The most bytes that a stream may have.
pub const LONGEST_STREAM: usize = 16_777_216;

/// The most pixels that a picture may have in a row or a column after [`Picture::write_rgb_scaled`].
pub const LONGEST_SIDE: usize = 4096;

// The largest width and height that a sequence header can say: 12 bits each.
const LARGEST: usize = 4095;

/// A decoder of one stream.
///
/// Its store has room for the largest pictures, 75,497,472 bytes of zeroed memory. Of these a system that maps memory when it is first written
/// gives only as many as the stream's pictures take: 1,152 for each macroblock of 16 by 16 samples.
pub struct Decoder<'s> {
    stream: &'s [u8],
    state: State,
}

impl<'s> Decoder<'s> {
    /// Reads the sequence header of a stream.
    pub fn open(stream: &'s [u8]) -> Result<Decoder<'s>, Refusal> {
        let mut state = State::new(LARGEST, LARGEST).ok_or(Refusal::StoreTooShort)?;
        state.open(stream).map_err(Refusal::of)?;
        Ok(Decoder { stream, state })
    }

    /// The width that is shown, in samples.
    pub fn width(&self) -> usize {
        self.state.shape().width
    }

    /// The height that is shown, in samples.
    pub fn height(&self) -> usize {
        self.state.shape().height
    }

    /// Pictures a second, to three decimals; 0 where the header names no rate.
    pub fn frame_rate(&self) -> f64 {
        self.state.frame_rate()
    }

    /// The height of a sample divided by its width, to four decimals.
    pub fn pixel_aspect_ratio(&self) -> f64 {
        self.state.pixel_aspect_ratio()
    }

    /// How many bytes of the stream are read, for the progress of a long run.
    pub fn bytes_read(&self) -> usize {
        self.state.position()
    }

    /// The next picture to show, or `None` at the end of the reel. After a refusal each further call gives the same refusal.
    pub fn next_picture(&mut self) -> Result<Option<Picture<'_>>, Refusal> {
        match self.state.decode(self.stream).map_err(Refusal::of) {
            Ok(shown) => Ok(Some(Picture { state: &self.state, index: shown.index, time: shown.time })),
            Err(Refusal::NoPicture) => Ok(None),
            Err(refusal) => Err(refusal),
        }
    }
}

impl<'s> IntoIterator for Decoder<'s> {
    type Item = Result<CopiedPicture, Refusal>;
    type IntoIter = Pictures<'s>;

    fn into_iter(self) -> Pictures<'s> {
        Pictures(Some(self))
    }
}

/// The pictures of a decoder, copied; a refusal is the last item.
pub struct Pictures<'s>(Option<Decoder<'s>>);

impl Iterator for Pictures<'_> {
    type Item = Result<CopiedPicture, Refusal>;

    fn next(&mut self) -> Option<Self::Item> {
        let item = self.0.as_mut()?.next_picture().map(|picture| picture.map(|picture| picture.copied())).transpose();
        if !matches!(item, Some(Ok(_))) {
            self.0 = None;
        }
        item
    }
}

/// The planes of a picture. Cr and Cb have a sample for each two by two of Y.
#[derive(Clone, Copy, Debug, PartialEq, Eq)]
pub enum Plane {
    /// Luminance.
    Y,
    /// Red difference.
    Cr,
    /// Blue difference.
    Cb,
}

/// A picture that was handed out. It lies in the decoder's store, so it is given back before the next one is asked for.
pub struct Picture<'d> {
    state: &'d State,
    index: usize,
    time: f64,
}

impl<'d> Picture<'d> {
    /// The store in which the picture lies: 0, 1 or 2.
    pub fn store(&self) -> usize {
        self.index
    }

    /// When the picture is shown, in seconds; infinite, but for the first one, where the header names no rate.
    pub fn time(&self) -> f64 {
        self.time
    }

    /// The type that was read last: 1 is I, 2 is P, 3 is B. An I or P picture is handed out when the next one has been read, so this may be the
    /// type of that one.
    pub fn type_last_read(&self) -> u32 {
        self.state.picture_type()
    }

    /// The samples of a plane.
    pub fn samples(&self, plane: Plane) -> Samples<'d> {
        let shape = self.state.shape();
        let (width, height) = (shape.width, shape.height);
        let (number, width, height) = match plane {
            Plane::Y => (0, width, height),
            Plane::Cr => (1, width.div_ceil(2), height.div_ceil(2)),
            Plane::Cb => (2, width.div_ceil(2), height.div_ceil(2)),
        };
        Samples { width, height, row_bytes: shape.row_bytes[number], bytes: self.state.plane(self.index, number) }
    }

    /// Writes the picture in this size to the first `width` × `height` numbers of the area, row by row, as `0xFFRRGGBB`. The area may be longer;
    /// neither size may be above [`LONGEST_SIDE`].
    pub fn write_rgb_scaled(&self, area: &mut [u32], width: usize, height: usize) -> Result<(), Refusal> {
        self.state.write_rgb_scaled(self.index, area, width, height).map_err(Refusal::of)
    }

    /// A copy that outlives the next hand-out.
    pub fn copied(&self) -> CopiedPicture {
        let [y, cr, cb] = [Plane::Y, Plane::Cr, Plane::Cb].map(|plane| {
            let mut samples = Vec::new();
            self.samples(plane).append_to(&mut samples);
            samples
        });
        CopiedPicture { store: self.index, time: self.time, type_last_read: self.type_last_read(), y, cr, cb }
    }
}

/// The samples of a plane, row after row. A row in memory may be longer than what is shown of it.
#[derive(Clone, Copy)]
pub struct Samples<'d> {
    /// How many samples of a row are shown.
    pub width: usize,
    /// How many rows are shown.
    pub height: usize,
    /// From the beginning of a row to that of the next one.
    pub row_bytes: usize,
    /// All rows, those below what is shown too.
    pub bytes: &'d [u8],
}

impl<'d> Samples<'d> {
    /// The rows that are shown, each cut to the width that is shown.
    pub fn rows(self) -> impl Iterator<Item = &'d [u8]> {
        self.bytes.chunks(self.row_bytes.max(1)).take(self.height).map(move |row| row.get(..self.width).unwrap_or(row))
    }

    /// What is shown, if it lies in one piece.
    pub fn in_one_piece(self) -> Option<&'d [u8]> {
        if self.row_bytes == self.width {
            self.bytes.get(..self.width * self.height)
        } else {
            None
        }
    }

    /// Appends the rows that are shown.
    pub fn append_to(self, samples: &mut Vec<u8>) {
        samples.reserve(self.width * self.height);
        self.rows().for_each(|row| samples.extend_from_slice(row));
    }
}

/// A picture with samples of its own: the rows that are shown, one after the other.
#[derive(Clone, Debug, PartialEq)]
pub struct CopiedPicture {
    /// See [`Picture::store`].
    pub store: usize,
    /// See [`Picture::time`].
    pub time: f64,
    /// See [`Picture::type_last_read`].
    pub type_last_read: u32,
    /// Luminance.
    pub y: Vec<u8>,
    /// Red difference.
    pub cr: Vec<u8>,
    /// Blue difference.
    pub cb: Vec<u8>,
}

#[cfg(test)]
mod tests;

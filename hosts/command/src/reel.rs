//! A stream in memory, and the loop over its pictures.
use crate::failure::Failure;
use crate::files;
use crate::progress::Progress;
use mpeg1::{Decoder, Picture, Plane, Refusal};
use std::path::{Path, PathBuf};

pub struct Reel {
    file: PathBuf,
    pub stream: Vec<u8>,
}

/// How many pictures were handed out before the number that ended the calls.
pub struct Ended {
    pub pictures: usize,
    pub refusal: Refusal,
}

impl Reel {
    /// Reads a stream. Of one that is too long no more is read than shows it.
    pub fn read(file: &Path) -> Result<Reel, Failure> {
        Ok(Reel { file: file.to_path_buf(), stream: files::read(file, mpeg1::LONGEST_STREAM + 1)? })
    }

    /// Opens the stream. The packets of a program stream would be taken for video, so none is opened.
    pub fn open(&self) -> Result<Decoder<'_>, Failure> {
        if self.is_program_stream() {
            return Err(self.failure(0, Refusal::NoSequenceHeader));
        }
        Decoder::open(&self.stream).map_err(|refusal| self.failure(0, refusal))
    }

    /// A success if the reel came to its end.
    pub fn result(&self, ended: Ended) -> Result<(), Failure> {
        match ended.refusal {
            Refusal::NoPicture => Ok(()),
            refusal => Err(self.failure(ended.pictures, refusal)),
        }
    }

    fn failure(&self, pictures: usize, refusal: Refusal) -> Failure {
        let file = self.file.clone();
        if self.is_program_stream() {
            return Failure::ProgramStream { file };
        }
        Failure::Refused { file, pictures, refusal }
    }

    // It begins with the start code of a pack.
    fn is_program_stream(&self) -> bool {
        self.stream.starts_with(&[0, 0, 1, 0xba])
    }
}

/// Hands out all pictures with their numbers, from 1 on.
pub fn each_picture(
    decoder: &mut Decoder,
    mut progress: Progress,
    mut act: impl FnMut(usize, &Picture) -> Result<(), Failure>,
) -> Result<Ended, Failure> {
    let mut pictures = 0;
    let refusal = loop {
        match decoder.next_picture() {
            Ok(Some(picture)) => {
                pictures += 1;
                act(pictures, &picture)?;
            }
            Ok(None) => break Refusal::NoPicture,
            Err(refusal) => break refusal,
        }
        progress.show(pictures, decoder.bytes_read());
    };
    Ok(Ended { pictures, refusal })
}

/// The planes in the order in which video files have them.
pub const IN_FILES: [Plane; 3] = [Plane::Y, Plane::Cb, Plane::Cr];

/// Two whole numbers, the first divided by the second.
#[derive(Clone, Copy, Debug, PartialEq, Eq)]
pub struct Fraction(pub usize, pub usize);

/// What a video file says of all its pictures.
#[derive(Clone, Copy)]
pub struct Form {
    pub width: usize,
    pub height: usize,
    /// Pictures a second; 0 by 0 where the stream names no rate.
    pub rate: Fraction,
    /// The width of a sample by its height.
    pub aspect: Fraction,
}

impl Form {
    pub fn of(decoder: &Decoder) -> Form {
        let (width, height) = (decoder.width(), decoder.height());
        Form { width, height, rate: rate(decoder.frame_rate()), aspect: aspect(decoder.pixel_aspect_ratio()) }
    }
}

// The three rates that are no whole numbers are given to three decimals, and mean 1000/1001 of the whole number above.
fn rate(pictures_a_second: f64) -> Fraction {
    let whole = pictures_a_second.round();
    match whole as usize {
        0 => Fraction(0, 0),
        n if pictures_a_second == whole => Fraction(n, 1),
        n => Fraction(1000 * n, 1001),
    }
}

// The stream's ratio is height by width, and has four decimals.
fn aspect(height_by_width: f64) -> Fraction {
    Fraction(10_000, (10_000.0 * height_by_width).round() as usize)
}

#[cfg(test)]
mod tests {
    use super::*;

    #[test]
    fn rates_are_exact() {
        let rates = [0.0, 23.976, 24.0, 25.0, 29.97, 30.0, 50.0, 59.94, 60.0];
        let fractions = [(0, 0), (24000, 1001), (24, 1), (25, 1), (30000, 1001), (30, 1), (50, 1), (60000, 1001), (60, 1)];
        assert_eq!(rates.map(rate), fractions.map(|(a, b)| Fraction(a, b)));
    }

    #[test]
    fn aspects_have_four_decimals() {
        assert_eq!(aspect(1.0), Fraction(10_000, 10_000));
        assert_eq!(aspect(0.9157), Fraction(10_000, 9_157));
        assert_eq!(aspect(1.095), Fraction(10_000, 10_950));
    }
}

//! PNG files.
use crate::failure::Failure;
use crate::progress::Progress;
use crate::reel::{each_picture, Reel};
use std::fs::{create_dir_all, File};
use std::io::{self, BufWriter, Write};
use std::num::NonZeroUsize;
use std::path::Path;
use std::str::FromStr;

/// Width and height, each from 1 to the largest that the conversion takes.
#[derive(Clone, Copy)]
pub struct Size(usize, usize);

impl FromStr for Size {
    type Err = String;

    fn from_str(text: &str) -> Result<Size, String> {
        let sides = text.split_once('x').and_then(|(width, height)| Some((width.parse().ok()?, height.parse().ok()?)));
        let possible = 1..=mpeg1::LONGEST_SIDE;
        match sides {
            Some((width, height)) if possible.contains(&width) && possible.contains(&height) => Ok(Size(width, height)),
            _ => Err(format!("a size is WxH, for instance 352x288, each side from 1 to {}", mpeg1::LONGEST_SIDE)),
        }
    }
}

fn write(path: &Path, Size(width, height): Size, rgb: &[u8]) -> io::Result<()> {
    let cause = |error| match error {
        png::EncodingError::IoError(error) => error,
        other => io::Error::new(io::ErrorKind::Other, other.to_string()),
    };
    let mut file = BufWriter::new(File::create(path)?);
    let mut encoder = png::Encoder::new(&mut file, width as u32, height as u32);
    encoder.set_color(png::ColorType::Rgb);
    encoder.set_depth(png::BitDepth::Eight);
    let mut writer = encoder.write_header().map_err(cause)?;
    writer.write_image_data(rgb).map_err(cause)?;
    writer.finish().map_err(cause)?;
    file.flush()
}

pub fn run(file: &Path, folder: &Path, every: NonZeroUsize, size: Option<Size>) -> Result<(), Failure> {
    let reel = Reel::read(file)?;
    let mut decoder = reel.open()?;
    create_dir_all(folder).map_err(|error| Failure::writing(folder, &error))?;
    let progress = Progress::new(false, &reel.stream);
    let size = size.unwrap_or(Size(decoder.width(), decoder.height()));
    let Size(width, height) = size;
    let mut area = vec![0; width * height];
    let mut refused = None;
    let ended = each_picture(&mut decoder, progress, |number, picture| {
        if (number - 1) % every != 0 {
            return Ok(());
        }
        if let Err(refusal) = picture.write_rgb_scaled(&mut area, width, height) {
            refused.get_or_insert((number, refusal));
            return Ok(());
        }
        let rgb: Vec<u8> = area.iter().flat_map(|pixel| pixel.to_be_bytes().into_iter().skip(1)).collect();
        let path = folder.join(format!("{number:06}.png"));
        write(&path, size, &rgb).map_err(|error| Failure::writing(&path, &error))
    })?;
    match refused {
        Some((pictures, refusal)) => reel.result(crate::reel::Ended { pictures, refusal }),
        None => reel.result(ended),
    }
}

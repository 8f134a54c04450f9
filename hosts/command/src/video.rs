//! YUV4MPEG2 video.
use crate::failure::Failure;
use crate::files::Output;
use crate::progress::Progress;
use crate::reel::{each_picture, Form, Reel, IN_FILES};
use std::io;
use std::path::Path;
use y4m::{Colorspace, Ratio};

// What went wrong while a file was written.
fn cause(error: y4m::Error) -> io::Error {
    match error {
        y4m::Error::IoError(error) => error,
        other => io::Error::new(io::ErrorKind::Other, other.to_string()),
    }
}

// Are both names of one file that is there?
fn same_file(one: &Path, other: &Path) -> bool {
    matches!((one.canonicalize(), other.canonicalize()), (Ok(one), Ok(other)) if one == other)
}

pub fn run(file: &Path, output: Option<&Path>) -> Result<(), Failure> {
    let reel = Reel::read(file)?;
    let mut decoder = reel.open()?;
    let path = output.unwrap_or(Path::new("-"));
    if same_file(file, path) {
        return Err(Failure::Usage("OUT is FILE itself, which is not overwritten: say another file by -o OUT".to_string()));
    }
    let mut output = if crate::files::is_standard(path) { Output::standard()? } else { Output::create(path)? };
    if output.is_terminal() {
        return Err(Failure::Usage("standard output is a terminal, which shows no video: say where to write it by -o OUT".to_string()));
    }
    let progress = Progress::new(false, &reel.stream);
    let form = Form::of(&decoder);
    let (rate, aspect) = (Ratio::new(form.rate.0, form.rate.1), Ratio::new(form.aspect.0, form.aspect.1));
    // MPEG-1 has a sample of Cr and Cb in the middle of four of Y, which this format calls 420jpeg
    let header = y4m::encode(form.width, form.height, rate).with_pixel_aspect(aspect).with_colorspace(Colorspace::C420jpeg);
    let failure = |error| Failure::writing(path, &cause(error));
    let mut encoder = header.write_header(&mut output).map_err(failure)?;
    let mut planes = [Vec::new(), Vec::new(), Vec::new()];
    let ended = each_picture(&mut decoder, progress, |_, picture| {
        let samples = IN_FILES.map(|plane| picture.samples(plane));
        for (plane, samples) in planes.iter_mut().zip(samples) {
            plane.clear();
            if samples.in_one_piece().is_none() {
                samples.append_to(plane);
            }
        }
        let [y, cb, cr] = [0, 1, 2].map(|n| samples[n].in_one_piece().unwrap_or(&planes[n]));
        encoder.write_frame(&y4m::Frame::new([y, cb, cr], None)).map_err(failure)
    })?;
    output.finish()?;
    reel.result(ended)
}

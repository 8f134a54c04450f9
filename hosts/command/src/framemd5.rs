//! Lists of hashes in the form of ffmpeg's framemd5: comment lines, then a line for each picture.
use crate::failure::Failure;
use crate::files::Output;
use crate::progress::Progress;
use crate::reel::{each_picture, Form, Fraction, Reel, IN_FILES};
use md5::{Digest, Md5};
use mpeg1::Picture;
use std::path::Path;

/// The comment lines but for that of the software: what they say, and of what. The first stream of a file has number 0.
pub fn comments(form: &Form) -> Vec<(&'static str, String)> {
    let Form { width, height, aspect, .. } = form;
    // a picture's length in seconds; ffmpeg takes 25 pictures a second where a video file names no rate
    let Fraction(by, length) = if form.rate == Fraction(0, 0) { Fraction(25, 1) } else { form.rate };
    vec![
        ("#format", "frame checksums".to_string()),
        ("#version", "2".to_string()),
        ("#hash", "MD5".to_string()),
        ("#tb 0", format!("{length}/{by}")),
        ("#media_type 0", "video".to_string()),
        ("#codec_id 0", "rawvideo".to_string()),
        ("#dimensions 0", format!("{width}x{height}")),
        ("#sar 0", format!("{}/{}", aspect.0, aspect.1)),
    ]
}

/// The line of a picture: stream, two times, length, size, hash.
pub fn line(number: usize, picture: &Picture) -> String {
    let (mut hash, mut size) = (Md5::new(), 0);
    for samples in IN_FILES.map(|plane| picture.samples(plane)) {
        size += samples.width * samples.height;
        match samples.in_one_piece() {
            Some(bytes) => hash.update(bytes),
            None => samples.rows().for_each(|row| hash.update(row)),
        }
    }
    let (time, hash) = (number - 1, hash.finalize());
    format!("0, {time:>10}, {time:>10}, {:>8}, {size:>8}, {hash:x}\n", 1)
}

pub fn run(file: &Path) -> Result<(), Failure> {
    let reel = Reel::read(file)?;
    let mut decoder = reel.open()?;
    let mut output = Output::standard()?;
    let progress = Progress::new(output.is_terminal(), &reel.stream);
    for (name, value) in comments(&Form::of(&decoder)) {
        if name == "#tb 0" {
            output.print(concat!("#software: mpeg1 ", env!("CARGO_PKG_VERSION"), "\n"))?;
        }
        output.print(&format!("{name}: {value}\n"))?;
    }
    output.print("#stream#, dts,        pts, duration,     size, hash\n")?;
    let ended = each_picture(&mut decoder, progress, |number, picture| output.print(&line(number, picture)))?;
    output.finish()?;
    reel.result(ended)
}

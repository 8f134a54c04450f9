//! The lines of the listing program (RULES L.2, L.3).
use crate::failure::Failure;
use crate::files::Output;
use crate::progress::Progress;
use crate::reel::{each_picture, Ended, Reel};
use mpeg1::Decoder;
use std::path::Path;

pub fn run(file: &Path) -> Result<(), Failure> {
    let reel = Reel::read(file)?;
    let mut output = Output::standard()?;
    let progress = Progress::new(output.is_terminal(), &reel.stream);
    output.print("handed store type answer\n")?;
    let ended = match Decoder::open(&reel.stream) {
        Ok(mut decoder) => each_picture(&mut decoder, progress, |number, picture| {
            output.print(&format!("{number} {} {} 0\n", picture.store(), picture.type_last_read()))
        })?,
        Err(refusal) => Ended { pictures: 0, refusal },
    };
    output.print(&format!("{} 0 0 {}\n", ended.pictures, ended.refusal.number()))?;
    output.finish()?;
    reel.result(ended)
}

//! The command `mpeg1`: what a transfer house asks of a reel, by the proved decoder.
#![forbid(unsafe_code)]

mod check;
mod failure;
mod files;
mod framemd5;
mod list;
mod pictures;
mod progress;
mod reel;
mod video;

use clap::{Args, Parser, Subcommand};
use failure::Failure;
use std::num::NonZeroUsize;
use std::path::PathBuf;
use std::process::ExitCode;

/// Decodes MPEG-1 video elementary streams
///
/// FILE is a video elementary stream of at most 16,777,216 bytes, or - for standard input.
/// Exit status: 0 done; 1 pictures differ from the list; 2 the stream was refused, and what was decoded before is written;
/// 3 a file cannot be read or written; 4 the command line is wrong.
#[derive(Parser)]
#[command(name = "mpeg1", version)]
struct Command {
    #[command(subcommand)]
    task: Task,
}

#[derive(Subcommand)]
enum Task {
    /// Print a line for each picture: its number, store, the type last read, 0; last the count, 0, 0 and the number that ended the reel
    List(Reel),
    /// Print the MD5 of each picture, in the form of ffmpeg's framemd5
    Frames(Reel),
    /// Compare the pictures with a list that `frames` printed
    Check {
        #[command(flatten)]
        reel: Reel,
        /// The list, or - for standard input
        #[arg(value_name = "LIST")]
        list: PathBuf,
    },
    /// Write the pictures as YUV4MPEG2 video, for ffplay, mpv and ffmpeg
    Y4m {
        #[command(flatten)]
        reel: Reel,
        /// Where to write; standard output if it is not given
        #[arg(short, long, value_name = "OUT")]
        output: Option<PathBuf>,
    },
    /// Write pictures as PNG files, named by their numbers
    Png {
        #[command(flatten)]
        reel: Reel,
        /// The folder to write to, made if it is not there
        #[arg(short, long, value_name = "DIR")]
        output: PathBuf,
        /// Write picture 1 and each N-th after it
        #[arg(long, value_name = "N", default_value = "1")]
        every: NonZeroUsize,
        /// The size to write in, each side at most 4096; that of the reel if it is not given
        #[arg(long, value_name = "WxH")]
        size: Option<pictures::Size>,
    },
}

#[derive(Args)]
struct Reel {
    /// The video elementary stream, or - for standard input
    #[arg(value_name = "FILE")]
    file: PathBuf,
}

fn run(task: Task) -> Result<(), Failure> {
    match task {
        Task::List(reel) => list::run(&reel.file),
        Task::Frames(reel) => framemd5::run(&reel.file),
        Task::Check { reel, list } => check::run(&reel.file, &list),
        Task::Y4m { reel, output } => video::run(&reel.file, output.as_deref()),
        Task::Png { reel, output, every, size } => pictures::run(&reel.file, &output, every, size),
    }
}

fn main() -> ExitCode {
    let command = match Command::try_parse() {
        Ok(command) => command,
        Err(error) => {
            // help and version are no errors; that they cannot be printed is none, either
            let _ = error.print();
            return ExitCode::from(if error.use_stderr() { failure::USAGE } else { 0 });
        }
    };
    match run(command.task) {
        Ok(()) => ExitCode::SUCCESS,
        Err(failure) => failure.report(),
    }
}

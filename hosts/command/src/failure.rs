//! How a run can fail: what is said on standard error, and the exit status.
use mpeg1::Refusal;
use std::io;
use std::path::{Path, PathBuf};
use std::process::ExitCode;

pub const USAGE: u8 = 4;

pub enum Failure {
    /// Pictures differ from the list; what differs has been printed.
    Differs,
    /// The stream was refused, after so many pictures.
    Refused { file: PathBuf, pictures: usize, refusal: Refusal },
    /// The file is no video elementary stream.
    ProgramStream { file: PathBuf },
    /// A file cannot be read or written.
    File { name: String, error: String },
    /// The command line asks for something that cannot be done.
    Usage(String),
}

impl Failure {
    pub fn reading(path: &Path, error: impl ToString) -> Failure {
        Failure::file(path, "standard input", "cannot be read", error)
    }

    pub fn writing(path: &Path, error: &io::Error) -> Failure {
        if error.kind() == io::ErrorKind::BrokenPipe {
            return Failure::file(path, "standard output", "cannot be written", "what reads it has ended before all was written");
        }
        Failure::file(path, "standard output", "cannot be written", error)
    }

    fn file(path: &Path, standard: &str, what: &str, error: impl ToString) -> Failure {
        Failure::File { name: name(path, standard), error: format!("{what}: {}", error.to_string()) }
    }

    /// Says what failed, and gives the exit status.
    pub fn report(self) -> ExitCode {
        let (said, status) = match self {
            Failure::Differs => return ExitCode::from(1),
            Failure::Refused { file, pictures, refusal } => {
                let name = name(&file, "standard input");
                let after = match pictures {
                    0 => String::new(),
                    1 => " after 1 picture".to_string(),
                    _ => format!(" after {pictures} pictures"),
                };
                (format!("{name}: refused with number {}{after}: {}", refusal.number(), refusal.sentence()), 2)
            }
            Failure::ProgramStream { file } => {
                let out = "take the video out of it first, for instance with ffmpeg -i FILE -c copy -f mpeg1video OUT";
                (format!("{} is a program stream and no video elementary stream: {out}", name(&file, "standard input")), 2)
            }
            Failure::File { name, error } => (format!("{name} {error}"), 3),
            Failure::Usage(said) => (said, USAGE),
        };
        // standard error may be closed, too
        let _ = io::Write::write_all(&mut io::stderr(), format!("mpeg1: {said}\n").as_bytes());
        ExitCode::from(status)
    }
}

fn name(path: &Path, standard: &str) -> String {
    if crate::files::is_standard(path) {
        standard.to_string()
    } else {
        path.display().to_string()
    }
}

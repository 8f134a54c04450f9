//! Files, and `-` for standard input and output.
use crate::failure::Failure;
use std::fs::File;
use std::io::{self, BufWriter, IsTerminal, Read, Write};
use std::os::fd::AsFd;
use std::path::{Path, PathBuf};

pub fn is_standard(path: &Path) -> bool {
    path.as_os_str() == "-"
}

/// At most so many bytes of a file.
pub fn read(path: &Path, most: usize) -> Result<Vec<u8>, Failure> {
    let mut bytes = Vec::new();
    let read = match is_standard(path) {
        true => io::stdin().lock().take(most as u64).read_to_end(&mut bytes),
        false => File::open(path).and_then(|file| file.take(most as u64).read_to_end(&mut bytes)),
    };
    read.map_err(|error| Failure::reading(path, error))?;
    Ok(bytes)
}

/// A file to write to, which keeps its name for failures.
pub struct Output {
    path: PathBuf,
    writer: BufWriter<File>,
    terminal: bool,
}

impl Output {
    /// Standard output. It is taken as a file: `io::stdout()` would look for line ends in all that is written.
    pub fn standard() -> Result<Output, Failure> {
        let path = PathBuf::from("-");
        let file = io::stdout().as_fd().try_clone_to_owned().map_err(|error| Failure::writing(&path, &error))?;
        Ok(Output::of(path, File::from(file)))
    }

    pub fn create(path: &Path) -> Result<Output, Failure> {
        let file = File::create(path).map_err(|error| Failure::writing(path, &error))?;
        Ok(Output::of(path.to_path_buf(), file))
    }

    fn of(path: PathBuf, file: File) -> Output {
        let terminal = file.is_terminal();
        Output { path, writer: BufWriter::with_capacity(1 << 17, file), terminal }
    }

    pub fn is_terminal(&self) -> bool {
        self.terminal
    }

    /// Writes text; on a terminal it is seen at once.
    pub fn print(&mut self, text: &str) -> Result<(), Failure> {
        let written = self.writer.write_all(text.as_bytes());
        let written = if self.terminal { written.and_then(|()| self.writer.flush()) } else { written };
        written.map_err(|error| self.failure(&error))
    }

    /// Writes what is still held back. Without it, no failure of these last bytes would be seen.
    pub fn finish(mut self) -> Result<(), Failure> {
        self.writer.flush().map_err(|error| self.failure(&error))
    }

    pub fn failure(&self, error: &io::Error) -> Failure {
        Failure::writing(&self.path, error)
    }
}

impl Write for Output {
    fn write(&mut self, bytes: &[u8]) -> io::Result<usize> {
        self.writer.write(bytes)
    }

    fn flush(&mut self) -> io::Result<()> {
        self.writer.flush()
    }
}

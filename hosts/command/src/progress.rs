//! Progress on standard error, on a terminal only, and not where the results go to the same terminal.
use indicatif::{ProgressBar, ProgressDrawTarget, ProgressStyle};
use std::io::IsTerminal;
use std::time::{Duration, Instant};

pub struct Progress {
    bar: Option<ProgressBar>,
    began: Instant,
    drawn: Instant,
}

const SHOWN: &str = "{bar:30} {bytes} of {total_bytes}, {msg}, {eta} left";
const BETWEEN: Duration = Duration::from_millis(100);

impl Progress {
    pub fn new(results_on_terminal: bool, stream: &[u8]) -> Progress {
        let (began, drawn) = (Instant::now(), Instant::now());
        if results_on_terminal || !std::io::stderr().is_terminal() {
            return Progress { bar: None, began, drawn };
        }
        let bar = ProgressBar::with_draw_target(Some(stream.len() as u64), ProgressDrawTarget::stderr());
        if let Ok(style) = ProgressStyle::with_template(SHOWN) {
            bar.set_style(style);
        }
        Progress { bar: Some(bar), began, drawn }
    }

    /// So many pictures are handed out, and so many bytes of the stream are read.
    pub fn show(&mut self, pictures: usize, bytes: usize) {
        let Some(bar) = self.bar.as_ref().filter(|_| self.drawn.elapsed() >= BETWEEN) else { return };
        let rate = pictures as f64 / self.began.elapsed().as_secs_f64();
        bar.set_message(format!("{pictures} pictures, {rate:.0} a second"));
        bar.set_position(bytes as u64);
        self.drawn = Instant::now();
    }
}

impl Drop for Progress {
    fn drop(&mut self) {
        if let Some(bar) = &self.bar {
            bar.finish_and_clear();
        }
    }
}

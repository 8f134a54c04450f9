// How many cases and calls there were, by call and answer.
use std::fmt;

#[derive(Clone, Copy)]
pub enum Call {
    Opening,
    HandOut,
    Conversion,
}

#[derive(Default)]
pub struct Tally {
    pub cases: usize,
    calls: [[usize; 12]; 3],
}

impl Tally {
    pub fn add(&mut self, call: Call, number: u32) {
        self.calls[call as usize][number as usize] += 1;
    }

    pub fn calls(&self) -> usize {
        self.calls.iter().flatten().sum()
    }
}

impl fmt::Display for Tally {
    fn fmt(&self, f: &mut fmt::Formatter) -> fmt::Result {
        write!(f, "{} cases, {} calls", self.cases, self.calls())?;
        for (call, counts) in ["openings", "hand-outs", "conversions"].iter().zip(&self.calls) {
            if counts.iter().any(|&count| count > 0) {
                write!(f, "; {call}")?;
            }
            for (number, count) in counts.iter().enumerate().filter(|(_, &count)| count > 0) {
                write!(f, " {number}:{count}")?;
            }
        }
        Ok(())
    }
}

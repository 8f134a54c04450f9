// The first thing in which ours and the Rust differ, as a sentence.
use crate::ours::{Lent, Ours, BEHIND};
use crate::record::{float_name, integer_name, matrix_name, number_name, Record};

pub struct Difference(pub String);

fn differ<T: std::fmt::Display>(what: &str, thing: &str, ours: T, rust: T) -> Result<(), Difference> {
    Err(Difference(format!("{what}: {thing}: ours {ours}, the Rust {rust}")))
}

pub fn answers(what: &str, ours: u32, rust: u32) -> Result<(), Difference> {
    values(what, "answer", ours, rust)
}

pub fn values<T: PartialEq + std::fmt::Display>(what: &str, thing: &str, ours: T, rust: T) -> Result<(), Difference> {
    if ours == rust {
        Ok(())
    } else {
        differ(what, thing, ours, rust)
    }
}

// Bit by bit.
pub fn floats(what: &str, thing: &str, ours: f64, rust: f64) -> Result<(), Difference> {
    if ours.to_bits() == rust.to_bits() {
        return Ok(());
    }
    differ(what, thing, format!("{:016x}", ours.to_bits()), format!("{:016x}", rust.to_bits()))
}

fn guards<T: Copy + PartialEq>(what: &str, thing: &str, lent: &Lent<T>) -> Result<(), Difference> {
    if lent.guarded() {
        Ok(())
    } else {
        Err(Difference(format!("{what}: {thing}: ours has changed memory outside it")))
    }
}

// A part of the record's memory, with what lies behind the record.
fn parts<T>(what: &str, name: fn(usize) -> String, ours: &[T], rust: &[T]) -> Result<(), Difference>
where
    T: Copy + PartialEq + std::fmt::Display + From<u8>,
{
    if ours != rust {
        for (at, &element) in ours.iter().enumerate() {
            values(what, &name(at), element, rust.get(at).copied().unwrap_or(T::from(BEHIND)))?;
        }
    }
    Ok(())
}

pub fn records(what: &str, ours: &mut Ours, rust: &Record) -> Result<(), Difference> {
    guards(what, "numbers", &ours.numbers)?;
    guards(what, "integers", &ours.integers)?;
    guards(what, "matrices", &ours.matrices)?;
    guards(what, "clock", &ours.clock)?;
    parts(what, number_name, ours.numbers.inner(), &rust.numbers)?;
    parts(what, integer_name, ours.integers.inner(), &rust.integers)?;
    parts(what, matrix_name, ours.matrices.inner(), &rust.matrices)?;
    for (at, &float) in ours.clock.inner().iter().enumerate() {
        floats(what, &float_name(at), float, rust.clock.get(at).copied().unwrap_or(BEHIND as f64))?;
    }
    Ok(())
}

pub fn stores(what: &str, ours: &mut Ours, rust: &[u8]) -> Result<(), Difference> {
    guards(what, "store", &ours.store)?;
    let inner = ours.store.inner();
    if inner != rust {
        let at = (0..rust.len()).find(|&at| inner[at] != rust[at]).expect("a byte that differs");
        differ(what, &format!("byte {at} of {} of the store", rust.len()), inner[at], rust[at])?;
    }
    Ok(())
}

pub fn areas(what: &str, ours: &mut Lent<u32>, rust: &[u32]) -> Result<(), Difference> {
    guards(what, "area", ours)?;
    let inner = ours.inner();
    if inner != rust {
        let at = (0..rust.len()).find(|&at| inner[at] != rust[at]).expect("a pixel that differs");
        differ(what, &format!("pixel {at}"), format!("{:08x}", inner[at]), format!("{:08x}", rust[at]))?;
    }
    Ok(())
}

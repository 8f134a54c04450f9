// Writes the list of the Rust's answers that crates/reader_conformance runs our reader on, into the folder that is named.
// The Rust is compiled as it stands in docs/src.
mod list;
#[allow(dead_code)]
mod random;
mod reader;

#[allow(dead_code)]
#[path = "../../docs/src/crates/native32emu-core/src/mpeg/buffer.rs"]
mod buffer;

fn main() {
    let folder = std::env::args().nth(1).expect("usage: oracle FOLDER");
    let (path, bytes) = (std::path::Path::new(&folder).join("reader.bin"), reader::list());
    std::fs::write(&path, &bytes).expect("the list is written");
    println!("{}: {} bytes", path.display(), bytes.len());
}

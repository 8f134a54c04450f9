// A list of the pictures that the Rust hands out of each stream in a folder.
use crate::video::hand_outs;
use std::fmt::Write;
use std::path::Path;

// FNV-1a, 64 bits
fn checksum(bytes: &[u8]) -> u64 {
    bytes.iter().fold(0xcbf2_9ce4_8422_2325, |sum, &byte| (sum ^ byte as u64).wrapping_mul(0x0100_0000_01b3))
}

pub fn list(folder: &Path) -> String {
    let entries = std::fs::read_dir(folder).expect("the folder of streams");
    let mut paths: Vec<_> = entries.map(|entry| entry.unwrap().path()).filter(|path| path.extension().is_some_and(|end| end == "m1v")).collect();
    paths.sort();
    let mut list = "stream handed store type answer time planes\n".to_string();
    for path in paths {
        let name = path.file_name().unwrap().to_string_lossy();
        let run = hand_outs(&std::fs::read(&path).unwrap(), usize::MAX);
        for (n, picture) in run.handed.iter().enumerate() {
            let (time, sum) = (picture.time.to_bits(), checksum(&picture.planes));
            writeln!(list, "{name} {} {} {} 0 {time:016x} {sum:016x}", n + 1, picture.store, picture.picture_type).unwrap();
        }
        writeln!(list, "{name} {} 0 0 {} - -", run.handed.len(), run.number).unwrap();
    }
    list
}

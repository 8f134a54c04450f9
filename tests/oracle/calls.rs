// Compares the Rust with the theorems that compute whole streams (`examples ROOT`), and lists the pictures of streams (`pictures FOLDER`).
// The Rust is compiled as it stands in docs/src.
mod examples;
mod pictures;
mod terms;

#[allow(dead_code)]
#[path = "stopping.rs"]
mod buffer;

#[path = "video_calls.rs"]
mod video;

use std::path::Path;

fn main() {
    let given: Vec<String> = std::env::args().skip(1).collect();
    match given.iter().map(String::as_str).collect::<Vec<_>>()[..] {
        ["examples", root] => std::process::exit(!examples::compare(Path::new(root)) as i32),
        ["pictures", folder] => print!("{}", pictures::list(Path::new(folder))),
        _ => panic!("usage: calls examples ROOT, or calls pictures FOLDER"),
    }
}

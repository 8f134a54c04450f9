// Runs ours, the archive of crates/mpeg1, and the Rust on the same streams and records in one process, and compares them after every call: answer,
// time, whole record, every byte of the store, every number of the area. The first difference ends it, with a file that runs the case again.
// usage: compare FOLDER selftest            FOLDER has streams of encoders, *.m1v
//        compare FOLDER whole               each of them, all pictures
//        compare FOLDER truncations MOST    those of at most MOST bytes, cut after each byte
//        compare FOLDER streams SEED COUNT  random streams, damaged ones among them
//        compare FOLDER records SEED COUNT  single calls on records made by hand
//        compare FOLDER edges SEED COUNT    each bound of question 2, at its edge and past it, on COUNT records
//        compare FOLDER conversions SEED COUNT
//        compare FOLDER long SEED           the largest streams, pictures and outputs
//        compare FOLDER again FILE          a case that was kept
//        compare FOLDER files FILE ..       these streams, all pictures
#[path = "../../hosts/rust/src/calls.rs"]
mod calls;
mod case;
mod codes;
mod conversions;
mod damage;
mod difference;
mod hands;
mod headers;
mod kept;
mod long;
mod made;
mod ours;
#[allow(dead_code)]
#[path = "../oracle/random.rs"]
mod random;
mod record;
mod reference;
mod rust;
mod selftest;
mod streams;
mod tally;
mod views;
mod writer;

use case::Case;
use random::Random;
use rust::unchanged::video::premultiplier;
use std::panic::{catch_unwind, AssertUnwindSafe};
use std::path::Path;
use std::time::Instant;
use streams::Sources;
use tally::Tally;

// The generator of one case: cases of a seed can be made again one by one.
fn chance(seed: u64, number: usize) -> Random {
    let mut random = Random::new((seed << 32 ^ number as u64).wrapping_mul(0x9e37_79b9_7f4a_7c15) | 1);
    random.wide();
    random
}

// The file is put beside the program.
fn keep(case: &Case, difference: &str) {
    let program = std::env::current_exe().expect("the program's path");
    let path = program.with_file_name(format!("difference-{}.case", std::process::id()));
    std::fs::write(&path, kept::text(case, difference)).expect("the case is kept");
    println!("{difference}\nkept in {}; run it again with: again FILE", path.display());
    std::process::exit(1);
}

// Runs the cases, and prints what was answered and how long it took.
fn run(title: &str, cases: impl Iterator<Item = Case>) {
    let began = Instant::now();
    let mut tally = Tally::default();
    for case in cases {
        let ended = catch_unwind(AssertUnwindSafe(|| case.run(&mut tally)));
        let difference = match ended {
            Ok(Ok(())) => continue,
            Ok(Err(difference)) => difference.0,
            Err(_) => "the Rust and the questions around it do not agree, or ours panicked".to_string(),
        };
        println!("{title}: {tally}");
        keep(&case, &difference);
    }
    println!("{title}: {tally}; {:.1} s; no difference", began.elapsed().as_secs_f64());
}

fn read(path: &Path) -> Vec<u8> {
    std::fs::read(path).unwrap_or_else(|error| panic!("{}: {error}", path.display()))
}

// All pictures of these streams, with what their headers say.
fn whole(paths: &[impl AsRef<Path>]) {
    let mut headers = headers::Headers::default();
    let cases = paths.iter().enumerate().map(|(n, path)| {
        let stream = read(path.as_ref());
        headers.add(&stream);
        streams::whole(stream, &mut chance(1, n))
    });
    run("whole", cases);
    println!("{headers}");
}

fn truncations(sources: &Sources, most: usize) -> impl Iterator<Item = Case> + '_ {
    let small = sources.public.iter().filter(move |stream| stream.len() <= most);
    small.flat_map(|stream| (0..=stream.len()).map(|end| streams::opened(stream[..end].to_vec(), &mut chance(7, end))))
}

fn main() {
    let given: Vec<String> = std::env::args().skip(1).collect();
    let number = |at: usize| given.get(at).and_then(|text| text.parse::<usize>().ok()).expect("a number; see main.rs");
    let (seed, count) = (|| number(2) as u64, || number(3));
    let folder = Path::new(given.first().expect("a folder; see main.rs"));
    let paths = streams::files(folder);
    let sources = Sources { codes: codes::Codes::new(), public: paths.iter().map(|path| read(path)).collect() };
    let title = given[1..].join(" ");
    views::check_layout();
    reference::quiet_panics();
    match given[1].as_str() {
        "selftest" => std::process::exit(!selftest::run(&read(&folder.join("ipb_16x16.m1v"))) as i32),
        "whole" => whole(&paths),
        "truncations" => run(&title, truncations(&sources, number(2))),
        "streams" => run(&title, (0..count()).map(|n| sources.case(&mut chance(seed(), n)))),
        "records" => run(&title, (0..count()).map(|n| hands::case(&sources.codes, &mut chance(seed(), n)))),
        "edges" => run(&title, (0..count()).flat_map(|n| hands::edges(&sources.codes, &mut chance(seed(), n)))),
        "conversions" => run(&title, (0..count() / 10).map(|n| conversions::case(&mut chance(seed(), n)))),
        "long" => run(&title, long::cases(&sources.codes, &mut chance(seed(), 0)).into_iter()),
        "again" => run(&title, std::iter::once(kept::case(&String::from_utf8(read(Path::new(&given[2]))).expect("a text")))),
        "files" => whole(&given[2..]),
        _ => panic!("see main.rs"),
    }
}

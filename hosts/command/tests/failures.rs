//! Errors of files, pipes and command lines: each is said in a line, with its exit status.
mod support;

use std::fs::File;
use std::io::Read;
use std::process::Stdio;
use support::{ended, folder, mpeg1, run, run_on, stream, text};

const REEL: &str = "ipb2_176x144.m1v";

// One line on standard error with these words.
fn says(output: &std::process::Output, status: i32, words: &[&str]) {
    let (code, said) = ended(output);
    assert_eq!(code, status, "{said}");
    assert!(said.starts_with("mpeg1: ") && said.lines().count() == 1, "{said}");
    assert!(words.iter().all(|word| said.contains(word)), "{said}");
}

const EACH: [&[&str]; 5] = [&["list"], &["frames"], &["y4m"], &["png"], &["check"]];

fn each(name: &str, file: &str, status: i32, words: &[&str]) {
    let out = folder(&format!("each, {name}"));
    let list = out.join("list");
    std::fs::write(&list, run(&["frames", &stream(REEL)]).stdout).unwrap();
    for task in EACH {
        let rest: &[&str] = match task {
            ["png"] => &["-o", text(&out)],
            ["check"] => &[text(&list)],
            _ => &[],
        };
        says(&run(&[task, &[file], rest].concat()), status, words);
    }
}

#[test]
fn a_missing_file() {
    each("missing", "/nonexistent/reel.m1v", 3, &["/nonexistent/reel.m1v cannot be read", "No such file"]);
}

#[test]
fn a_folder() {
    each("folder", "/", 3, &["/ cannot be read", "directory"]);
}

#[test]
fn an_empty_file() {
    each("empty", "/dev/null", 2, &["/dev/null: refused with number 3", "no sequence header", "ffmpeg -i FILE -c copy -f mpeg1video OUT"]);
}

#[test]
fn a_file_that_is_too_long() {
    let path = folder("long").join("long.m1v");
    File::create(&path).unwrap().set_len(mpeg1::LONGEST_STREAM as u64 + 1).unwrap();
    each("long", text(&path), 2, &["refused with number 1", "16,777,216 bytes", "-f segment"]);
    File::create(&path).unwrap().set_len(mpeg1::LONGEST_STREAM as u64).unwrap();
    each("long", text(&path), 2, &["refused with number 3"]);
}

#[test]
fn a_program_stream() {
    let path = folder("program").join("reel.mpg");
    let pack = [0, 0, 1, 0xba, 0x21, 0, 1, 0, 1, 0x80, 0, 1];
    std::fs::write(&path, [&pack[..], &std::fs::read(stream(REEL)).unwrap()].concat()).unwrap();
    for task in ["frames", "y4m"] {
        let output = run(&[task, text(&path)]);
        says(&output, 2, &["is a program stream", "ffmpeg -i FILE -c copy -f mpeg1video OUT"]);
        assert!(output.stdout.is_empty());
    }
}

#[test]
fn a_full_disk() {
    let full = || Stdio::from(File::options().write(true).open("/dev/full").unwrap());
    for task in ["list", "frames", "y4m"] {
        let output = mpeg1(&[task, &stream(REEL)]).stdout(full()).output().unwrap();
        says(&output, 3, &["standard output cannot be written", "No space left on device"]);
    }
    says(&run(&["y4m", &stream(REEL), "-o", "/dev/full"]), 3, &["/dev/full cannot be written", "No space left on device"]);
}

#[test]
fn a_closed_pipe() {
    let mut child = mpeg1(&["y4m", &stream(REEL)]).stdout(Stdio::piped()).stderr(Stdio::piped()).spawn().unwrap();
    let mut first = [0; 100];
    child.stdout.take().unwrap().read_exact(&mut first).unwrap();
    assert!(first.starts_with(b"YUV4MPEG2 W176 H144 F25:1 "));
    says(&child.wait_with_output().unwrap(), 3, &["standard output cannot be written", "ended before all was written"]);
}

#[test]
fn too_little_memory() {
    let mut command = std::process::Command::new("sh");
    command.args(["-c", "ulimit -v 65536; exec \"$0\" frames \"$1\"", env!("CARGO_BIN_EXE_mpeg1"), &stream(REEL)]);
    says(&command.output().unwrap(), 2, &["refused with number 6", "no memory for the store"]);
}

#[test]
fn folders_that_cannot_be_made() {
    let file = folder("no folder").join("file");
    std::fs::write(&file, b"").unwrap();
    says(&run(&["png", &stream(REEL), "-o", text(&file)]), 3, &["cannot be written"]);
    says(&run(&["y4m", &stream(REEL), "-o", "/nonexistent/out.y4m"]), 3, &["/nonexistent/out.y4m cannot be written", "No such file"]);
}

#[test]
fn a_reel_is_not_overwritten() {
    let path = folder("overwrite").join("reel.m1v");
    std::fs::copy(stream(REEL), &path).unwrap();
    says(&run(&["y4m", text(&path), "-o", text(&path)]), 4, &["OUT is FILE itself"]);
    assert_eq!(std::fs::read(&path).unwrap(), std::fs::read(stream(REEL)).unwrap());
}

#[test]
fn lists_that_are_none() {
    let list = folder("no list").join("list");
    std::fs::write(&list, "#hash: MD5\nabc\n").unwrap();
    says(&run(&["check", &stream(REEL), text(&list)]), 3, &["cannot be read: line 2"]);
    says(&run(&["check", "-", "-"]), 4, &["cannot both be standard input"]);
}

#[test]
fn lists_of_other_lengths() {
    let list = folder("lengths").join("list");
    let lines = String::from_utf8(run(&["frames", &stream(REEL)]).stdout).unwrap();
    let last = lines.lines().last().unwrap();
    std::fs::write(&list, format!("{lines}{last}\n")).unwrap();
    let output = run(&["check", &stream(REEL), text(&list)]);
    assert_eq!(ended(&output), (1, String::new()));
    assert!(String::from_utf8(output.stdout).unwrap().contains("the reel ends before it"));
    std::fs::write(&list, lines.replace(&format!("{last}\n"), "")).unwrap();
    let output = run(&["check", &stream(REEL), text(&list)]);
    assert_eq!(ended(&output), (1, String::new()));
    assert!(String::from_utf8(output.stdout).unwrap().contains("the list ends before it"));
}

#[test]
fn wrong_command_lines() {
    for arguments in
        [&["lists"][..], &["frames"], &["png", "x"], &["png", "x", "-o", "y", "--size", "5000x1"], &["png", "x", "-o", "y", "--every", "0"]]
    {
        assert_eq!(ended(&run(arguments)).0, 4, "{arguments:?}");
    }
    assert_eq!(ended(&run(&["--version"])), (0, String::new()));
}

#[test]
fn standard_input_is_a_reel() {
    let bytes = std::fs::read(stream(REEL)).unwrap();
    assert_eq!(run_on(&["frames", "-"], &bytes).stdout, run(&["frames", &stream(REEL)]).stdout);
    says(&run_on(&["frames", "-"], &[]), 2, &["standard input: refused with number 3"]);
}

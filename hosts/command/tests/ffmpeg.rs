//! The list of `frames` is, line for line, what ffmpeg says of the video of `y4m`, but for the line that names the software.
mod support;

use std::process::Command;
use support::{folder, run, text};

fn but_software(list: &[u8]) -> String {
    let lines = std::str::from_utf8(list).unwrap().lines().filter(|line| !line.starts_with("#software: "));
    lines.map(|line| format!("{line}\n")).collect()
}

fn compare(stream: &str, name: &str) {
    let video = folder(&format!("ffmpeg {name}")).join("out.y4m");
    assert!(run(&["y4m", stream, "-o", text(&video)]).status.success());
    let said = Command::new("ffmpeg").args(["-v", "error", "-i", text(&video), "-f", "framemd5", "-"]).output().unwrap();
    let ours = run(&["frames", stream]).stdout;
    assert!(ours.starts_with(b"#format: frame checksums\n#version: 2\n#hash: MD5\n#software: mpeg1 "));
    assert_eq!(but_software(&ours), but_software(&said.stdout), "{name}");
}

#[test]
fn frames_are_what_ffmpeg_says() {
    if Command::new("ffmpeg").arg("-version").output().is_err() {
        println!("ffmpeg is not there, so nothing is compared with it");
        return;
    }
    let folder_of_streams = support::stream("");
    for entry in std::fs::read_dir(&folder_of_streams).unwrap() {
        let name = entry.unwrap().file_name().into_string().unwrap();
        if name.ends_with(".m1v") {
            compare(&support::stream(&name), &name);
        }
    }
    // every rate and every aspect, by the header's codes
    let mut bytes = std::fs::read(support::stream("ip_64x48.m1v")).unwrap();
    for code in 0..16 {
        let path = folder(&format!("code {code}")).join("reel.m1v");
        bytes[7] = code << 4 | code;
        std::fs::write(&path, &bytes).unwrap();
        compare(text(&path), &format!("code {code}"));
    }
}

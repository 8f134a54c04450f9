//! What the command prints and writes against the Rust of docs/src, on whole and on damaged streams.
#[path = "../../rust/tests/reference/mod.rs"]
mod reference;
mod support;

use md5::{Digest, Md5};
use reference::{Handed, Run};
use support::{ended, folder, run, run_on, text};

fn listing(rust: &Run) -> String {
    let lines = rust.pictures.iter().enumerate().map(|(n, picture)| format!("{} {} {} 0\n", n + 1, picture.store, picture.type_last_read));
    format!("handed store type answer\n{}{} 0 0 {}\n", lines.collect::<String>(), rust.pictures.len(), rust.number)
}

// The planes as a video file has them.
fn in_file(picture: &Handed) -> Vec<u8> {
    [&picture.y[..], &picture.cb, &picture.cr].concat()
}

fn video(file: &[u8]) -> Vec<Vec<u8>> {
    let mut decoder = y4m::decode(file).unwrap();
    let mut pictures = Vec::new();
    while let Ok(frame) = decoder.read_frame() {
        pictures.push([frame.get_y_plane(), frame.get_u_plane(), frame.get_v_plane()].concat());
    }
    pictures
}

fn hashes(list: &[u8]) -> Vec<String> {
    let lines = std::str::from_utf8(list).unwrap().lines().filter(|line| !line.starts_with('#'));
    lines.map(|line| line.rsplit(", ").next().unwrap().to_string()).collect()
}

fn compare(name: &str, stream: &[u8], rust: &Run) {
    let status = if rust.number == 7 { 0 } else { 2 };
    let listed = run_on(&["list", "-"], stream);
    assert_eq!(String::from_utf8_lossy(&listed.stdout), listing(rust), "{name}");
    let outputs = [listed, run_on(&["y4m", "-"], stream), run_on(&["frames", "-"], stream)];
    for output in &outputs {
        let (code, said) = ended(output);
        assert_eq!(code, status, "{name}: {said}");
        assert_eq!(said.is_empty(), status == 0, "{name}: {said}");
        assert!(status == 0 || said.contains(&format!("refused with number {}", rust.number)), "{name}: {said}");
    }
    if rust.number < 7 {
        assert!(outputs[1].stdout.is_empty() && outputs[2].stdout.is_empty(), "{name}");
        return;
    }
    let pictures: Vec<_> = rust.pictures.iter().map(in_file).collect();
    assert!(video(&outputs[1].stdout) == pictures, "{name}: the video differs");
    let expected: Vec<_> = pictures.iter().map(|picture| format!("{:x}", Md5::digest(picture))).collect();
    assert_eq!(hashes(&outputs[2].stdout), expected, "{name}");
}

// RULES L.4 and L.5.
#[test]
fn the_listing_of_the_rules() {
    let (header, picture) = ([0, 0, 1, 0xb3, 1, 0, 0x10, 0x13, 0, 0, 0, 0], [0, 0, 1, 0, 0, 8, 0xff, 0xff]);
    let stream = [&header[..], &[0xff; 104], &picture, &picture, &picture].concat();
    let output = run_on(&["list", "-"], &stream);
    assert_eq!(ended(&output), (0, String::new()));
    assert_eq!(output.stdout, b"handed store type answer\n1 0 1 0\n1 0 0 7\n");
}

#[test]
fn streams() {
    for (name, stream) in reference::streams() {
        compare(&name, &stream, &reference::run(&stream, &[]));
    }
}

#[test]
fn damaged_streams() {
    for (name, stream) in reference::damaged() {
        compare(&name, &stream, &reference::run_short(&stream, &[]));
    }
}

fn png(path: &std::path::Path) -> (usize, usize, Vec<u32>) {
    let mut reader = png::Decoder::new(std::fs::File::open(path).unwrap()).read_info().unwrap();
    let mut bytes = vec![0; reader.output_buffer_size()];
    let info = reader.next_frame(&mut bytes).unwrap();
    assert_eq!((info.color_type, info.bit_depth), (png::ColorType::Rgb, png::BitDepth::Eight));
    let pixels = bytes.chunks(3).map(|rgb| u32::from_be_bytes([0xff, rgb[0], rgb[1], rgb[2]])).collect();
    (info.width as usize, info.height as usize, pixels)
}

// Pictures 1, 1 + every, .. in the size of the stream and in a third of its width and twice its height.
#[test]
fn pictures_in_two_sizes() {
    for (name, stream) in reference::streams() {
        let form = reference::run(&stream, &[]);
        let sizes = [(form.width, form.height), (form.width.div_ceil(3), 2 * form.height)];
        let rust = reference::run(&stream, &sizes);
        for (n, &(width, height)) in sizes.iter().enumerate() {
            let (out, every) = (folder(&format!("png {name} {n}")), n + 1);
            let (size, every) = (format!("{width}x{height}"), every.to_string());
            let asked = ["png", &support::stream(&name), "-o", text(&out), "--every", &every, "--size", &size];
            assert_eq!(ended(&run(if n == 0 { &asked[..4] } else { &asked })), (0, String::new()), "{name}");
            let every = n + 1;
            assert_eq!(std::fs::read_dir(&out).unwrap().count(), rust.pictures.len().div_ceil(every), "{name}");
            for (number, picture) in rust.pictures.iter().enumerate().step_by(every) {
                let path = out.join(format!("{:06}.png", number + 1));
                assert!(png(&path) == (width, height, picture.argb[n].clone()), "{name}: {} differs", path.display());
            }
        }
    }
}

// Every picture of a stream agrees with the list that the command prints, and a list with one hash changed names that picture and its time.
#[test]
fn lists_are_compared() {
    let out = folder("lists");
    for (name, stream) in reference::streams() {
        let (file, list, rust) = (support::stream(&name), out.join(&name), reference::run(&stream, &[]));
        let lines = run(&["frames", &file]).stdout;
        std::fs::write(&list, &lines).unwrap();
        let all = rust.pictures.len();
        let agree = run(&["check", &file, text(&list)]);
        assert_eq!((ended(&agree), &agree.stdout[..]), ((0, String::new()), format!("{all} of {all} pictures agree\n").as_bytes()), "{name}");
        let (changed, hash) = (all / 2, hashes(&lines)[all / 2].clone());
        let other = format!("{}{}", if hash.starts_with('0') { '1' } else { '0' }, &hash[1..]);
        let start = format!("0, {changed:>10},");
        let edited: String = std::str::from_utf8(&lines)
            .unwrap()
            .lines()
            .map(|line| if line.starts_with(&start) { line.replace(&hash, &other) + "\n" } else { line.to_string() + "\n" })
            .collect();
        std::fs::write(&list, edited).unwrap();
        let differs = run(&["check", &file, text(&list)]);
        let said = String::from_utf8(differs.stdout.clone()).unwrap();
        let (kind, time) = (["?", "I", "P", "B"][rust.pictures[changed].type_last_read as usize], rust.pictures[changed].time);
        let first = format!("the first that does not agree is picture {}, time {time:.3} s, type last read {kind}", changed + 1);
        assert_eq!(ended(&differs), (1, String::new()), "{name}");
        assert!(said.starts_with(&format!("{} of {all} pictures agree\n", all - 1)) && said.contains(&first), "{name}: {said}");
    }
}

// The example in C, which hosts/test builds and names by MPEG1_C_EXAMPLE, writes the same video and says the same number.
#[test]
fn the_c_example() {
    let Some(example) = std::env::var_os("MPEG1_C_EXAMPLE") else {
        println!("MPEG1_C_EXAMPLE is not set, so no example in C is run: hosts/test does it");
        return;
    };
    let path = folder("c example").join("reel.m1v");
    let whole = reference::streams().into_iter().map(|(name, stream)| (name, reference::run(&stream, &[]), stream));
    let damaged = reference::damaged().into_iter().map(|(name, stream)| (name, reference::run_short(&stream, &[]), stream));
    for (name, rust, stream) in whole.chain(damaged) {
        std::fs::write(&path, &stream).unwrap();
        let output = std::process::Command::new(&example).arg(&path).output().unwrap();
        let (code, said) = ended(&output);
        assert_eq!(code == 0, rust.number == 7, "{name}: {said}");
        assert!(code == 0 || said.ends_with(&format!("answer {}\n", rust.number)), "{name}: {said}");
        if rust.number < 7 {
            assert!(output.stdout.is_empty(), "{name}");
        } else {
            assert!(video(&output.stdout) == rust.pictures.iter().map(in_file).collect::<Vec<_>>(), "{name}: the video differs");
        }
    }
}

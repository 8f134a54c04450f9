//! Every picture that the wrapper hands out, whole, against the Rust of docs/src: planes, store, type, time, and conversions to two sizes.
mod reference;

use mpeg1::{Decoder, Plane};
use reference::{Handed, Run};

// Half the width and a third of the height, and a size that is larger in one direction.
fn sizes(run: &Run) -> [(usize, usize); 2] {
    [(run.width.div_ceil(2), run.height.div_ceil(3)), (run.width + 5, run.height)]
}

fn same(name: &str, picture: &mpeg1::Picture, rust: &Handed, sizes: &[(usize, usize)]) {
    assert_eq!((picture.store(), picture.type_last_read()), (rust.store, rust.type_last_read), "{name}");
    assert_eq!(picture.time().to_bits(), rust.time.to_bits(), "{name}");
    for (plane, samples) in [(Plane::Y, &rust.y), (Plane::Cr, &rust.cr), (Plane::Cb, &rust.cb)] {
        let mut ours = Vec::new();
        picture.samples(plane).append_to(&mut ours);
        assert!(ours == *samples, "{name}: plane {plane:?} differs");
    }
    for (&(width, height), argb) in sizes.iter().zip(&rust.argb) {
        let mut area = vec![0; width * height];
        picture.write_rgb_scaled(&mut area, width, height).unwrap();
        assert!(area == *argb, "{name}: ARGB in {width}x{height} differs");
    }
}

// Compares a whole run, and gives how many pictures it has and the number that ends it.
fn compare(name: &str, stream: &[u8], run: impl Fn(&[u8], &[(usize, usize)]) -> Run) -> (usize, u32) {
    let sizes = sizes(&run(stream, &[]));
    let rust = run(stream, &sizes);
    let mut decoder = match Decoder::open(stream) {
        Ok(decoder) => decoder,
        Err(refusal) => {
            assert_eq!((rust.pictures.len(), rust.number), (0, refusal.number()), "{name}");
            return (0, rust.number);
        }
    };
    assert_eq!((decoder.width(), decoder.height()), (rust.width, rust.height), "{name}");
    assert_eq!((decoder.frame_rate(), decoder.pixel_aspect_ratio()), (rust.frame_rate, rust.pixel_aspect_ratio), "{name}");
    for (n, handed) in rust.pictures.iter().enumerate() {
        let picture = decoder.next_picture().unwrap().unwrap();
        same(&format!("{name}, picture {}", n + 1), &picture, handed, &sizes);
    }
    let number = match decoder.next_picture() {
        Ok(Some(_)) => panic!("{name}: more pictures than the Rust hands out"),
        Ok(None) => 7,
        Err(refusal) => refusal.number(),
    };
    assert_eq!(number, rust.number, "{name}");
    (rust.pictures.len(), number)
}

#[test]
fn streams() {
    let streams = reference::streams();
    let pictures: usize = streams.iter().map(|(name, stream)| compare(name, stream, reference::run).0).sum();
    assert!(pictures > 100, "{pictures} pictures");
    println!("{pictures} pictures of {} streams are the Rust's", streams.len());
}

#[test]
fn damaged_streams() {
    let copies = reference::damaged();
    let runs: Vec<_> = copies.iter().map(|(name, stream)| compare(name, stream, reference::run_short)).collect();
    let pictures: usize = runs.iter().map(|run| run.0).sum();
    let ended = [3, 4, 5, 7, 8, 9].map(|number| (number, runs.iter().filter(|run| run.1 == number).count()));
    assert!(ended.iter().all(|&(_, runs)| runs > 0), "runs by number: {ended:?}");
    println!("{pictures} pictures of {} damaged streams are the Rust's; runs by number: {ended:?}", copies.len());
}

use super::*;

// RULES L.4: a header and three I pictures without slices, of which one is handed out.
fn small() -> Vec<u8> {
    let header = [0, 0, 1, 0xb3, 1, 0, 0x10, 0x13, 0, 0, 0, 0];
    let picture = [0, 0, 1, 0, 0, 8, 0xff, 0xff];
    [&header[..], &[0xff; 104], &picture, &picture, &picture].concat()
}

fn refusal(stream: &[u8]) -> u32 {
    Decoder::open(stream).map_or_else(Refusal::number, |_| 0)
}

#[test]
fn the_archive_has_the_version_that_is_wrapped() {
    assert_eq!(version(), VERSION);
}

#[test]
fn the_small_stream_hands_out_one_picture() {
    let stream = small();
    let mut decoder = Decoder::open(&stream).unwrap();
    assert_eq!((decoder.width(), decoder.height(), decoder.frame_rate(), decoder.pixel_aspect_ratio()), (16, 16, 25.0, 1.0));
    let picture = decoder.next_picture().unwrap().unwrap();
    assert_eq!((picture.store(), picture.time(), picture.type_last_read()), (0, 0.0, 1));
    assert!(decoder.next_picture().unwrap().is_none());
    assert!(decoder.next_picture().unwrap().is_none());
}

#[test]
fn openings_are_refused_with_their_numbers() {
    let stream = small();
    assert_eq!(refusal(&vec![0; LONGEST_STREAM + 1]), 1);
    assert_eq!(refusal(&[]), 3);
    assert_eq!(refusal(&vec![0; LONGEST_STREAM]), 3);
    assert_eq!(refusal(&stream[..139]), 4);
    let mut no_width = stream.clone();
    (no_width[4], no_width[5]) = (0, 0);
    assert_eq!(refusal(&no_width), 5);
    assert_eq!(refusal(&stream), 0);
}

#[test]
fn the_largest_pictures_fit() {
    let mut stream = small();
    (stream[4], stream[5], stream[6]) = (0xff, 0xff, 0xff);
    let mut decoder = Decoder::open(&stream).unwrap();
    assert_eq!((decoder.width(), decoder.height()), (4095, 4095));
    let picture = decoder.next_picture().unwrap().unwrap();
    assert_eq!(picture.samples(Plane::Y).rows().map(<[u8]>::len).sum::<usize>(), 4095 * 4095);
    assert_eq!(picture.samples(Plane::Cr).rows().map(<[u8]>::len).sum::<usize>(), 2048 * 2048);
    assert_eq!(picture.copied().cb.len(), 2048 * 2048);
}

#[test]
fn conversions_are_refused_or_leave_the_rest_of_the_area() {
    let stream = small();
    let mut decoder = Decoder::open(&stream).unwrap();
    let picture = decoder.next_picture().unwrap().unwrap();
    let mut area = [7; 12];
    assert_eq!(picture.write_rgb_scaled(&mut area, 4, 4), Err(Refusal::AreaTooShort));
    assert_eq!(picture.write_rgb_scaled(&mut area, LONGEST_SIDE + 1, 0), Err(Refusal::AreaTooShort));
    assert_eq!(picture.write_rgb_scaled(&mut area, 0, 4), Ok(()));
    assert_eq!(picture.write_rgb_scaled(&mut [], 0, 0), Ok(()));
    assert_eq!(area, [7; 12]);
    assert_eq!(picture.write_rgb_scaled(&mut area, 5, 2), Ok(()));
    assert!(area[..10].iter().all(|&pixel| pixel >> 24 == 0xff));
    assert_eq!(area[10..], [7; 2]);
}

#[test]
fn the_iterator_gives_what_the_calls_give() {
    let stream = std::fs::read("../../tests/streams/odd_17x33.m1v").unwrap();
    let mut copies = Decoder::open(&stream).unwrap().into_iter();
    let mut decoder = Decoder::open(&stream).unwrap();
    let mut pictures = 0;
    while let Some(picture) = decoder.next_picture().unwrap() {
        let copied = copies.next().unwrap().unwrap();
        assert_eq!((copied.y.len(), copied.cr.len(), copied.cb.len()), (17 * 33, 9 * 17, 9 * 17));
        assert_eq!(copied, picture.copied());
        pictures += 1;
    }
    assert!(pictures > 0);
    assert!(copies.next().is_none());
    assert!(copies.next().is_none());
}

#[test]
fn the_bytes_read_grow_to_the_end_of_the_stream() {
    let stream = std::fs::read("../../tests/streams/ipb2_64x48.m1v").unwrap();
    let mut decoder = Decoder::open(&stream).unwrap();
    let mut read = vec![decoder.bytes_read()];
    while decoder.next_picture().unwrap().is_some() {
        read.push(decoder.bytes_read());
    }
    // the sequence header with its start code, no matrices
    assert_eq!(read[0], 12);
    assert!(read.windows(2).all(|two| two[0] < two[1]) && decoder.bytes_read() <= stream.len(), "{read:?}");
}

#[test]
fn decoders_run_in_threads() {
    let stream = std::fs::read("../../tests/streams/ipb2_64x48.m1v").unwrap();
    let runs: Vec<Vec<CopiedPicture>> = std::thread::scope(|scope| {
        let threads: Vec<_> = (0..4).map(|_| scope.spawn(|| Decoder::open(&stream).unwrap().into_iter().map(Result::unwrap).collect())).collect();
        threads.into_iter().map(|thread| thread.join().unwrap()).collect()
    });
    assert!(runs.iter().all(|run| !run.is_empty() && *run == runs[0]));
}

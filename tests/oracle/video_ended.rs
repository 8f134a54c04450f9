// How far the Rust comes, and the number there: 8 where it goes on with a DC value outside -256..255 (RULES Q8), 9 where it panics (RULES Q9),
// 0 where it comes to its end. It begins anew for each intra block, and stops behind the DC value.
fn ended(make: impl Fn() -> Video, act: impl Fn(&mut Video)) -> (Video, u32) {
    for blocks in 0.. {
        let mut video = make();
        video.buffer.blocks = blocks;
        let panicked = panics(|| act(&mut video));
        let outside = video.dc_predictor.iter().any(|dc| !(-256..=255).contains(dc));
        match (panicked, video.buffer.stopped) {
            (true, true) if outside => return (video, 8),
            (true, true) => continue,
            (true, false) => return (video, 9),
            (false, _) => return (video, 0),
        }
    }
    unreachable!("a stream has fewer blocks than there are numbers");
}

// The comparison must be able to fail: one bit of ours is turned over before comparing, in each thing that is compared, and must be named.
use crate::case::{Case, Conversion, Damage, ROOM};
use crate::kept;
use crate::ours::GUARD;
use crate::record::*;
use crate::tally::Tally;
use crate::views::VIEWS;

// Each damage, and a word of the sentence that tells it.
fn damages(store: usize, area: usize) -> Vec<(Damage, String)> {
    let mut all: Vec<(Damage, String)> = [
        (Damage::Opening, "opening: answer"),
        (Damage::Answer, "hand-out 1: answer"),
        (Damage::Shown, "store shown"),
        (Damage::Time, "time:"),
        (Damage::Conversion, "hand-outs: answer"),
        (Damage::Number(GUARD - 1), "numbers: ours has changed"),
        (Damage::Number(GUARD + NUMBERS), "numbers: ours has changed"),
        (Damage::Integer(GUARD - 1), "integers: ours has changed"),
        (Damage::Integer(GUARD + INTEGERS), "integers: ours has changed"),
        (Damage::Matrix(GUARD - 1), "matrices: ours has changed"),
        (Damage::Matrix(GUARD + MATRICES), "matrices: ours has changed"),
        (Damage::Clock(GUARD - 1), "clock: ours has changed"),
        (Damage::Clock(GUARD + FLOATS), "clock: ours has changed"),
        (Damage::Store(GUARD - 1), "store: ours has changed"),
        (Damage::Store(GUARD + store), "store: ours has changed"),
        (Damage::Pixel(GUARD - 1), "area: ours has changed"),
        (Damage::Pixel(GUARD + area), "area: ours has changed"),
    ]
    .map(|(damage, word)| (damage, word.to_string()))
    .to_vec();
    all.extend((0..VIEWS.len()).map(|view| (Damage::View(view), VIEWS[view].to_string())));
    let named = |name: String| format!(": {name}: ours");
    all.extend((0..NUMBERS).map(|at| (Damage::Number(GUARD + at), named(number_name(at)))));
    all.extend((0..INTEGERS).map(|at| (Damage::Integer(GUARD + at), named(integer_name(at)))));
    all.extend((0..MATRICES).map(|at| (Damage::Matrix(GUARD + at), named(matrix_name(at)))));
    all.extend((0..FLOATS).map(|at| (Damage::Clock(GUARD + at), named(float_name(at)))));
    all.extend((0..store).map(|at| (Damage::Store(GUARD + at), format!("byte {at} of"))));
    all.extend((0..area).map(|at| (Damage::Pixel(GUARD + at), format!("pixel {at}:"))));
    all
}

// A stream of an encoder with pictures of one macroblock; the area has numbers behind the pixels.
fn case(stream: &[u8]) -> Case {
    let conversions = vec![Conversion { after: 1, index: 0, width: 5, height: 3, area: 18 }];
    Case { begin: None, stream: stream.to_vec(), store: vec![7; 1152 + 9], most: 3, conversions, noise: 0, lent: ROOM }
}

// Whether every damage is found, and found again from the file that is kept.
pub fn run(stream: &[u8]) -> bool {
    let case = case(stream);
    let plain = case.run(&mut Tally::default());
    if let Err(difference) = plain {
        println!("self-test: without damage: {}", difference.0);
        return false;
    }
    let again = kept::case(&kept::text(&case, ""));
    let all = damages(case.store.len(), case.conversions[0].area);
    let mut missed = 0;
    for (damage, word) in &all {
        for case in [&case, &again] {
            let found = case.run_damaged(&mut Tally::default(), Some(*damage)).err();
            if !found.as_ref().is_some_and(|difference| difference.0.contains(word.as_str())) {
                println!("self-test: {damage:?} is not told by \"{word}\" but by {:?}", found.map(|difference| difference.0));
                missed += 1;
            }
        }
    }
    println!("self-test: {} of {} single bits that are turned over in ours are found and named", all.len() - missed.min(all.len()), all.len());
    missed == 0
}

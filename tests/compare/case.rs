// A case: what the calls begin with, and which calls are made. Both sides make them, and everything is compared after each.
use crate::difference::{self, Difference};
use crate::ours::{Lent, Ours, NOT_SHOWN, NO_TIME};
use crate::random::Random;
use crate::record::{Record, FLOATS, INTEGERS, MATRICES, NUMBERS};
use crate::reference::{Answer, Reference};
use crate::tally::{Call, Tally};
use crate::views;

// A conversion after so many hand-outs.
#[derive(Clone, Copy)]
pub struct Conversion {
    pub after: usize,
    pub index: usize,
    pub width: usize,
    pub height: usize,
    pub area: usize,
}

pub struct Case {
    // The record that is passed in; with none the stream is opened.
    pub begin: Option<Record>,
    pub stream: Vec<u8>,
    pub store: Vec<u8>,
    pub most: usize,
    pub conversions: Vec<Conversion>,
    pub noise: u32,
    // how many elements the parts of the record's memory have: numbers, integers, matrices, clock
    pub lent: [usize; 4],
}

// Room for a record and no more.
pub const ROOM: [usize; 4] = [NUMBERS, INTEGERS, MATRICES, FLOATS];

// A memory for the record of which one part lacks an element, or that has nothing, or other elements behind the record.
pub fn other_room(random: &mut Random) -> [usize; 4] {
    let mut lent = ROOM;
    let part = random.below(4);
    match random.below(6) {
        0..=2 => lent[part] -= 1,
        3 => return [0; 4],
        4 => lent[part] += 1 + random.below(9),
        _ => lent = lent.map(|length| length + random.below(9)),
    }
    lent
}

// One bit of ours that is turned over before comparing, so that a test can see that the comparison finds it.
#[derive(Clone, Copy, PartialEq, Debug)]
pub enum Damage {
    Opening,
    Answer,
    Shown,
    Time,
    Number(usize),
    Integer(usize),
    Matrix(usize),
    Clock(usize),
    Store(usize),
    View(usize),
    Conversion,
    Pixel(usize),
}

struct Run<'a> {
    case: &'a Case,
    tally: &'a mut Tally,
    damage: Option<Damage>,
    ours: Ours,
    reference: Reference,
}

impl Case {
    pub fn run(&self, tally: &mut Tally) -> Result<(), Difference> {
        self.run_damaged(tally, None)
    }

    pub fn run_damaged(&self, tally: &mut Tally, damage: Option<Damage>) -> Result<(), Difference> {
        tally.cases += 1;
        let begin = self.begin.clone();
        // the record before an opening is any: opening does not read it
        let mut ours = Ours::from(&begin.clone().unwrap_or_else(unset), &self.store, self.lent);
        let (reference, opened) = match begin {
            Some(record) => (Reference::from(record, self.store.clone(), self.noise), None),
            None => {
                let said = ours.open(&self.stream) ^ (damage == Some(Damage::Opening)) as u32;
                let (reference, number) = match self.lent.iter().zip(ROOM).all(|(&lent, room)| lent >= room) {
                    true => Reference::open(&self.stream, self.store.clone()),
                    false => (Reference::from(unset(), self.store.clone(), 0), 2),
                };
                tally.add(Call::Opening, number);
                difference::answers("opening", said, number)?;
                (reference, Some(number))
            }
        };
        let mut run = Run { case: self, tally, damage, ours, reference: reference.in_memory(self.lent) };
        if opened.is_some() {
            run.compare("opening")?;
        }
        run.convert_after(0)?;
        run.hand_outs()
    }
}

fn unset() -> Record {
    Record { numbers: [usize::MAX - 2; NUMBERS], integers: [-3; INTEGERS], matrices: [3; MATRICES], clock: [-3.5; FLOATS] }
}

impl Run<'_> {
    // Up to the most, or until a number comes twice; behind a 5 the next call tries at another place (RULES Q5).
    fn hand_outs(&mut self) -> Result<(), Difference> {
        let mut last = 0;
        for call in 1..=self.case.most {
            let number = self.hand_out(call)?;
            self.convert_after(call)?;
            if number != 0 && number != 5 && number == last {
                break;
            }
            last = number;
        }
        Ok(())
    }

    fn hand_out(&mut self, call: usize) -> Result<u32, Difference> {
        let stream = &self.case.stream;
        let said = self.ours.hand_out(stream) ^ (self.damage == Some(Damage::Answer)) as u32;
        match self.damage {
            Some(Damage::Shown) => *self.ours.shown() ^= 1,
            Some(Damage::Time) => flip(&mut self.ours.time),
            _ => (),
        }
        let answer = self.reference.hand_out(stream);
        self.tally.add(Call::HandOut, answer.number());
        let what = format!("hand-out {call}");
        difference::answers(&what, said, answer.number())?;
        let (shown, time) = match answer {
            Answer::Picture { shown, time } => (shown, time),
            Answer::Number(_) => (NOT_SHOWN, NO_TIME),
        };
        difference::values(&what, "store shown", *self.ours.shown(), shown)?;
        difference::floats(&what, "time", self.ours.time, time)?;
        self.compare(&what)?;
        Ok(answer.number())
    }

    // Record and store, whole.
    fn compare(&mut self, what: &str) -> Result<(), Difference> {
        match self.damage {
            Some(Damage::Number(at)) => self.ours.numbers.all()[at] ^= 1,
            Some(Damage::Integer(at)) => self.ours.integers.all()[at] ^= 1,
            Some(Damage::Matrix(at)) => self.ours.matrices.all()[at] ^= 1,
            Some(Damage::Clock(at)) => flip(&mut self.ours.clock.all()[at]),
            Some(Damage::Store(at)) => self.ours.store.all()[at] ^= 1,
            _ => (),
        }
        difference::records(what, &mut self.ours, &self.reference.record)?;
        difference::stores(what, &mut self.ours, &self.reference.store)?;
        let turned = match self.damage {
            Some(Damage::View(view)) => Some(view),
            _ => None,
        };
        views::compare(what, &mut self.ours, &self.reference.record, turned)
    }

    fn convert_after(&mut self, call: usize) -> Result<(), Difference> {
        let case = self.case;
        for conversion in case.conversions.iter().filter(|conversion| conversion.after == call) {
            self.convert(conversion)?;
        }
        Ok(())
    }

    fn convert(&mut self, conversion: &Conversion) -> Result<(), Difference> {
        let Conversion { after, index, width, height, area } = *conversion;
        let mut expected: Vec<u32> = (0..area as u32).map(|at| at.wrapping_mul(0x9e37_79b9)).collect();
        let mut pixels = Lent::new(&expected, 0x5a5a_5a5a);
        let said = self.ours.convert(index, &mut pixels, width, height) ^ (self.damage == Some(Damage::Conversion)) as u32;
        let number = self.reference.convert(index, &mut expected, width, height);
        self.tally.add(Call::Conversion, number);
        let what = format!("conversion of store {index} to {width}x{height} in {area} after {after} hand-outs");
        difference::answers(&what, said, number)?;
        if let Some(Damage::Pixel(at)) = self.damage {
            pixels.all()[at] ^= 1;
        }
        difference::areas(&what, &mut pixels, &expected)?;
        self.compare(&what)
    }
}

fn flip(value: &mut f64) {
    *value = f64::from_bits(value.to_bits() ^ 1);
}

use std::fmt;

/// Why a call gave no result: one of the library's numbers, with a sentence that says what to do about it.
#[derive(Clone, Copy, Debug, PartialEq, Eq, Hash)]
#[non_exhaustive]
pub enum Refusal {
    /// Number 1.
    StreamTooLong,
    /// Number 2. A [`Decoder`](crate::Decoder) cannot come to it: its record is made by the library only.
    RecordImpossible,
    /// Number 3.
    NoSequenceHeader,
    /// Number 4.
    HeaderCutOff,
    /// Number 5.
    NoSize,
    /// Number 6. The store of a [`Decoder`](crate::Decoder) holds the largest pictures there are, so it means that there is no memory for one.
    StoreTooShort,
    /// Number 7, which ends every reel: [`next_picture`](crate::Decoder::next_picture) gives `None` for it.
    NoPicture,
    /// Number 8.
    DcOutOfRange,
    /// Number 9.
    PredictionOutside,
    /// Number 10. A [`Picture`](crate::Picture) cannot come to it: it has a store.
    NoSuchStore,
    /// Number 11.
    AreaTooShort,
    /// A number that this version of the wrapper does not know.
    Unknown(u32),
}

const NAMED: [Refusal; 11] = [
    Refusal::StreamTooLong,
    Refusal::RecordImpossible,
    Refusal::NoSequenceHeader,
    Refusal::HeaderCutOff,
    Refusal::NoSize,
    Refusal::StoreTooShort,
    Refusal::NoPicture,
    Refusal::DcOutOfRange,
    Refusal::PredictionOutside,
    Refusal::NoSuchStore,
    Refusal::AreaTooShort,
];

impl Refusal {
    pub(crate) fn of(number: u32) -> Refusal {
        NAMED.into_iter().find(|refusal| refusal.number() == number).unwrap_or(Refusal::Unknown(number))
    }

    /// The library's number.
    pub fn number(self) -> u32 {
        match self {
            Refusal::StreamTooLong => 1,
            Refusal::RecordImpossible => 2,
            Refusal::NoSequenceHeader => 3,
            Refusal::HeaderCutOff => 4,
            Refusal::NoSize => 5,
            Refusal::StoreTooShort => 6,
            Refusal::NoPicture => 7,
            Refusal::DcOutOfRange => 8,
            Refusal::PredictionOutside => 9,
            Refusal::NoSuchStore => 10,
            Refusal::AreaTooShort => 11,
            Refusal::Unknown(number) => number,
        }
    }

    /// What is wrong and what to do about it, in one sentence.
    pub fn sentence(self) -> &'static str {
        match self {
            Refusal::StreamTooLong => {
                "the stream has more than 16,777,216 bytes: cut it into shorter ones first, for instance with \
                 ffmpeg -fflags +genpts -i FILE -c copy -f segment -segment_time 10 -segment_format mpeg1video OUT%03d.m1v"
            }
            Refusal::RecordImpossible => "the decoder's record is none that the library makes: open the stream anew",
            Refusal::NoSequenceHeader => {
                "no sequence header: is this a program stream? take the video out of it first, for instance with \
                 ffmpeg -i FILE -c copy -f mpeg1video OUT"
            }
            Refusal::HeaderCutOff => {
                "the stream ends less than 136 bytes behind its sequence start code: it is cut off, so copy it again from its source"
            }
            Refusal::NoSize => "the sequence header says a width or a height of 0: it is damaged, so copy the stream again from its source",
            Refusal::StoreTooShort => {
                "there is no memory for the store, 75,497,472 bytes of addresses: raise the limit (ulimit -v) or run fewer decoders at once"
            }
            Refusal::NoPicture => "there is no further picture",
            Refusal::DcOutOfRange => "the stream is damaged here, a DC value lies outside -256..255: copy it again from its source, or cut it here",
            Refusal::PredictionOutside => {
                "the stream is damaged here, a vector leads past the edge of its picture: copy it again from its source, or cut it here"
            }
            Refusal::NoSuchStore => "there is no such picture: convert one that was handed out",
            Refusal::AreaTooShort => {
                "the size asked for is above 4,096 or the area has fewer numbers than pixels: ask for a smaller one or lend a longer area"
            }
            Refusal::Unknown(_) => "this version of the wrapper does not know the number: look it up in docs/RULES.md, Questions",
        }
    }
}

impl fmt::Display for Refusal {
    fn fmt(&self, f: &mut fmt::Formatter<'_>) -> fmt::Result {
        write!(f, "refused with number {}: {}", self.number(), self.sentence())
    }
}

impl std::error::Error for Refusal {}

#[cfg(test)]
mod tests {
    use super::*;

    #[test]
    fn every_number_names_one_refusal() {
        for number in 0..=20 {
            assert_eq!(Refusal::of(number).number(), number);
            assert_eq!(matches!(Refusal::of(number), Refusal::Unknown(_)), !(1..=11).contains(&number));
        }
    }
}

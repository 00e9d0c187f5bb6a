//! Refusals: "Each returns number and place and changes nothing lent."

/// A refusal's number, its place, and the kind of the body its place is in.
#[derive(Clone, Copy, Debug, PartialEq, Eq)]
pub struct Refusal {
    pub number: u32,
    pub place: u32,
    /// The body's kind for 42 and 43, 0 for every other number.
    pub kind: u32,
}

impl Refusal {
    /// A refusal of the whole: "else 0".
    pub fn whole(number: u32) -> Refusal {
        Refusal {
            number,
            place: 0,
            kind: 0,
        }
    }

    /// A refusal at a card or at a sequence number.
    pub fn at(number: u32, place: u32) -> Refusal {
        Refusal { number, place, kind: 0 }
    }

    /// "entry from 0 with its body's kind for 42 and 43".
    pub fn in_body(number: u32, entry: usize, kind: u32) -> Refusal {
        Refusal {
            number,
            place: entry as u32,
            kind,
        }
    }
}

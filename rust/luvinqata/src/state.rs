//! Where a run stands.

use crate::names::word;
use crate::STACK;

/// Where a run stands: what one run leaves, the next one goes on from.
#[derive(Clone, Copy, Debug, PartialEq, Eq)]
pub struct State {
    /// The instruction to be done next, counted from 0.
    pub index: u32,
    /// How many numbers are on the stack.
    pub height: u32,
    /// 1 plus the first instruction that dropped digits, or 0.
    pub mark: u32,
    /// The stack, its bottom first. A run leaves 0 in the places above the height.
    pub places: [i64; STACK],
}

impl State {
    /// The beginning of a run.
    ///
    /// ```
    /// let state = luvinqata::State::fresh();
    /// assert_eq!((state.index, state.height, state.mark), (0, 0, 0));
    /// ```
    #[must_use]
    pub fn fresh() -> State {
        State {
            index: 0,
            height: 0,
            mark: 0,
            places: [0; STACK],
        }
    }

    /// How many bytes a state takes in a file.
    pub const BYTES: usize = 12 + 8 * STACK;

    /// For a file: index, height and mark, then the stack, the low byte of each first.
    #[must_use]
    pub fn to_bytes(&self) -> [u8; State::BYTES] {
        let mut bytes = [0; State::BYTES];
        let (words, places) = bytes.split_at_mut(12);
        for (part, word) in words.chunks_exact_mut(4).zip([self.index, self.height, self.mark]) {
            part.copy_from_slice(&word.to_le_bytes());
        }
        for (part, place) in places.chunks_exact_mut(8).zip(self.places) {
            part.copy_from_slice(&place.to_le_bytes());
        }
        bytes
    }

    /// From a file. Any bytes are a state; a run refuses one that does not fit its code, by 52.
    ///
    /// ```
    /// let mut state = luvinqata::State::fresh();
    /// (state.index, state.mark, state.places[39]) = (7, 258, -2);
    /// let bytes = state.to_bytes();
    /// assert_eq!((bytes[0], &bytes[8..10], bytes[331]), (7, &[2, 1][..], 255));
    /// assert_eq!(luvinqata::State::from_bytes(&bytes), state);
    /// ```
    #[must_use]
    pub fn from_bytes(bytes: &[u8; State::BYTES]) -> State {
        let mut state = State::fresh();
        let (words, places) = bytes.split_at(12);
        [state.index, state.height, state.mark] = [0, 4, 8].map(|at| word(words, at));
        for (place, part) in state.places.iter_mut().zip(places.chunks_exact(8)) {
            *place = i64::from_le_bytes(part.try_into().expect("eight bytes"));
        }
        state
    }
}

impl Default for State {
    fn default() -> State {
        State::fresh()
    }
}

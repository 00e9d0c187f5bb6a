//! An object's values by name.

use crate::names::{word, Name, Names};
use crate::{map, Refusal};

/// The most bytes that an object's names take.
const LONGEST_MAP: usize = 2_000;

/// The cells of an object and their names.
///
/// ```
/// # let deck = luvinqata::punch(b"      DIMENSION L(2,2)\n      L(2,1)=I+5\n      END").unwrap();
/// let object = luvinqata::compile_to_vec(5, &deck).unwrap();
/// let mut store = luvinqata::Store::new(&object).unwrap();
/// store.set("I", 42).expect("the deck has I");
/// let ran = luvinqata::run(&object, store.cells_mut(), &mut luvinqata::State::fresh(), 1_000).unwrap();
/// assert!(ran.halt.is_end());
/// assert_eq!(store.get("L(2,1)"), Some(47));
/// assert_eq!(store.get("J"), None);
/// ```
#[derive(Clone, Debug, PartialEq, Eq)]
pub struct Store {
    names: Names,
    cells: Vec<i64>,
}

impl Store {
    /// A store of zeros for an object; refuses by 40 to 44.
    ///
    /// ```
    /// # let deck = luvinqata::punch(b"      I=J\n      END").unwrap();
    /// let object = luvinqata::compile_to_vec(5, &deck).unwrap();
    /// assert_eq!(luvinqata::Store::new(&object).unwrap().cells(), [0, 0]);
    /// assert_eq!(luvinqata::Store::new(b"no object").unwrap_err().number(), 40);
    /// ```
    pub fn new(object: &[u8]) -> Result<Store, Refusal> {
        let names = names_of(object)?;
        // The third word of an object that passed the check.
        let cells = vec![0; word(object, 8) as usize];
        Ok(Store { names, cells })
    }

    /// The names in the order of their cells.
    ///
    /// ```
    /// # let deck = luvinqata::punch(b"      DIMENSION L(2,3)\n      I=1\n      END").unwrap();
    /// # let object = luvinqata::compile_to_vec(5, &deck).unwrap();
    /// let store = luvinqata::Store::new(&object).unwrap();
    /// let name = &store.names()[0];
    /// assert_eq!((&name.text[..], name.first, name.rows, name.columns), ("L", 0, 2, 3));
    /// ```
    pub fn names(&self) -> &[Name] {
        &self.names.0
    }

    /// The cells, the DOs' hidden ones among them.
    ///
    /// ```
    /// # let deck = luvinqata::punch(b"      DO 7 I=1,3\n    7 CONTINUE\n      END").unwrap();
    /// # let object = luvinqata::compile_to_vec(5, &deck).unwrap();
    /// let store = luvinqata::Store::new(&object).unwrap();
    /// assert_eq!((store.names().len(), store.cells().len()), (1, 3));
    /// ```
    pub fn cells(&self) -> &[i64] {
        &self.cells
    }

    /// The cells to lend to a run, and to fill with zeros before the next hour's.
    ///
    /// ```
    /// # let deck = luvinqata::punch(b"      I=I+1\n      END").unwrap();
    /// # let object = luvinqata::compile_to_vec(5, &deck).unwrap();
    /// let mut store = luvinqata::Store::new(&object).unwrap();
    /// for _ in 0..2 {
    ///     let ran = luvinqata::run(&object, store.cells_mut(), &mut luvinqata::State::fresh(), 100).unwrap();
    ///     assert!(ran.halt.is_end());
    /// }
    /// assert_eq!(store.get("I"), Some(2));
    /// store.cells_mut().fill(0);
    /// assert_eq!(store.get("I"), Some(0));
    /// ```
    pub fn cells_mut(&mut self) -> &mut [i64] {
        &mut self.cells
    }

    /// The cell of a value: of a name, `I`, or of an element, `L(2)` or `L(2,1)`, with no blank in it.
    ///
    /// ```
    /// # let deck = luvinqata::punch(b"      DIMENSION L(2,3)\n      I=1\n      END").unwrap();
    /// # let object = luvinqata::compile_to_vec(5, &deck).unwrap();
    /// let store = luvinqata::Store::new(&object).unwrap();
    /// assert_eq!(store.cell("L(2,3)"), Some(5));
    /// assert_eq!(store.cell("I"), Some(6));
    /// assert_eq!(store.cell("L(3,2)"), None);
    /// ```
    pub fn cell(&self, name: &str) -> Option<usize> {
        self.names.cell(name)
    }

    /// The value of a name or an element; None if the deck has no such name.
    ///
    /// ```
    /// # let deck = luvinqata::punch(b"      DIMENSION L(2)\n      I=1\n      END").unwrap();
    /// # let object = luvinqata::compile_to_vec(5, &deck).unwrap();
    /// let store = luvinqata::Store::new(&object).unwrap();
    /// assert_eq!((store.get("I"), store.get("L(2)")), (Some(0), Some(0)));
    /// assert_eq!((store.get("J"), store.get("L"), store.get("L(3)"), store.get("I(1)")), (None, None, None, None));
    /// ```
    pub fn get(&self, name: &str) -> Option<i64> {
        self.cell(name).map(|cell| self.cells[cell])
    }

    /// Gives a name or an element a value, and returns the one it had; None if the deck has no such name. A value over
    /// k digits is refused by the run, with 51.
    ///
    /// ```
    /// # let deck = luvinqata::punch(b"      I=I+1\n      END").unwrap();
    /// # let object = luvinqata::compile_to_vec(5, &deck).unwrap();
    /// let mut store = luvinqata::Store::new(&object).unwrap();
    /// assert_eq!(store.set("I", 7), Some(0));
    /// assert_eq!(store.set("J", 7), None);
    /// assert_eq!(store.get("I"), Some(7));
    /// ```
    ///
    /// What it returns cannot be left unread, for a name with a typo would start from 0:
    ///
    /// ```compile_fail
    /// #![deny(unused_must_use)]
    /// # let deck = luvinqata::punch(b"      I=I+1\n      END").unwrap();
    /// # let object = luvinqata::compile_to_vec(5, &deck).unwrap();
    /// let mut store = luvinqata::Store::new(&object).unwrap();
    /// store.set("J", 7);
    /// ```
    #[must_use = "None: the deck has no such name, and nothing was set"]
    pub fn set(&mut self, name: &str, value: i64) -> Option<i64> {
        let cell = self.cell(name)?;
        Some(std::mem::replace(&mut self.cells[cell], value))
    }

    /// Every named value and what it is called, in the order of their cells.
    ///
    /// ```
    /// # let deck = luvinqata::punch(b"      DIMENSION L(2)\n      I=L(2)\n      END").unwrap();
    /// # let object = luvinqata::compile_to_vec(5, &deck).unwrap();
    /// let store = luvinqata::Store::new(&object).unwrap();
    /// let names: Vec<String> = store.iter().map(|(name, _)| name).collect();
    /// assert_eq!(names, ["L(1)", "L(2)", "I"]);
    /// ```
    pub fn iter(&self) -> impl Iterator<Item = (String, i64)> + '_ {
        self.names.values().map(|(name, cell)| (name, self.cells[cell]))
    }
}

/// Checks an object and gives its names.
pub(crate) fn names_of(object: &[u8]) -> Result<Names, Refusal> {
    let mut table = [0; LONGEST_MAP];
    let length = map(object, &mut table)?;
    Ok(Names::read(&table[..length]))
}

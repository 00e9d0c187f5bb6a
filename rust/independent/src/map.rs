//! The map call: "checks an object and writes body 7 to a lent table, 30 if too short".

use crate::check::judge;
use crate::level::Level;
use crate::refusal::Refusal;

/// The map in the base.
pub fn map(object: &[u8], table: &mut [u8]) -> Result<usize, Refusal> {
    Level::Base.map(object, table)
}

impl Level {
    /// Writes body 7 to the front of `table` and returns its length in bytes.
    pub fn map(self, object: &[u8], table: &mut [u8]) -> Result<usize, Refusal> {
        let tables = self.open(object)?;
        judge(&tables)?;
        let names = &tables.bodies()[6];
        let Some(part) = table.get_mut(..names.len()) else {
            return Err(Refusal::whole(30));
        };
        part.copy_from_slice(names);
        Ok(names.len())
    }
}

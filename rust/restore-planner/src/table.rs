//! What the replay of an event costs.

use crate::{calls, Refusal};

/// A unit table that was loaded: the units of an event by the role of its worker and by its kind.
///
/// A table is 12 words, role by role for roles 0 to 3, and within a role in the order send, receive without its data logged, receive with
/// its data logged. Each word is 1 to 1,000. The default is the built-in table. No method of a log refuses a table that was loaded.
///
/// ```
/// use restore_planner::{Breakpoint, Log, Refusal, UnitTable};
///
/// # let bytes = include_bytes!(concat!(env!("CARGO_MANIFEST_DIR"), "/examples/tube.log"));
/// let log = Log::new(bytes)?;
/// let at = Breakpoint { worker: 0, event: 2 };
/// assert_eq!(log.plan(at, &UnitTable::default())?.totals.units, 15);
///
/// // Each event costs one unit.
/// let table = UnitTable::load(&[1; 12])?;
/// let totals = log.plan(at, &table)?.totals;
/// assert_eq!((totals.events, totals.units), (5, 5));
///
/// assert_eq!(UnitTable::load(&[1; 13]), Err(Refusal::UnitTable));
/// assert_eq!(UnitTable::load(&[1_001; 12]), Err(Refusal::UnitTable));
/// # Ok::<(), Refusal>(())
/// ```
#[derive(Clone, Copy, Debug, PartialEq, Eq, Hash)]
pub struct UnitTable {
    words: [u32; 12],
}

impl UnitTable {
    /// The table of these words.
    ///
    /// # Errors
    ///
    /// [`Refusal::UnitTable`] where there are other than 12 words, or a word is outside 1 to 1,000.
    pub fn load(words: &[u32]) -> Result<UnitTable, Refusal> {
        Refusal::check(calls::load_table(words))?;
        // What loads has 12 words.
        let words = words.try_into().map_err(|_| Refusal::UnitTable)?;
        Ok(UnitTable { words })
    }

    /// The words of the table.
    pub fn words(&self) -> &[u32; 12] {
        &self.words
    }
}

/// The built-in table, that of document 01.
impl Default for UnitTable {
    fn default() -> UnitTable {
        let mut words = [0; 12];
        // Not refused: these are the words that it writes.
        calls::built_in_table(&mut words);
        UnitTable { words }
    }
}

impl TryFrom<&[u32]> for UnitTable {
    type Error = Refusal;

    fn try_from(words: &[u32]) -> Result<UnitTable, Refusal> {
        UnitTable::load(words)
    }
}

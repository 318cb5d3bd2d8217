//! What is asked of the product.

use independent::log::Item;

/// The words of a row of the report.
pub const ROW_WORDS: usize = 4;

/// The ranges lent to a call, of which it takes those that it has. `None` is NULL with length 0.
pub struct Lent<'a> {
    pub board: Option<&'a mut [u32]>,
    pub plant: Option<&'a [u8]>,
    pub offer: Option<&'a [u8]>,
    pub cause: Option<&'a mut [u32]>,
    /// So many words for each row.
    pub rows: Option<&'a mut [u32]>,
}

/// The ranges lent to the call that writes a plant file. `None` is NULL with length 0.
pub struct LentToWrite<'a> {
    pub actions: Option<&'a [u32]>,
    pub plant: Option<&'a mut [u8]>,
    pub written: Option<&'a mut [u32]>,
}

/// The C interface, or what stands in for it in a test.
pub trait Product {
    /// Makes the call of an item for which C has one, and gives the number it returns. Offer and rows
    /// are those that are lent.
    fn ask(&self, item: &Item, lent: Lent) -> u32;
    /// Writes a plant file and gives the number that the call returns.
    fn write(&self, lent: LentToWrite) -> u32;
}

/// Whether the C interface has a call for the item, made by `ask`.
pub fn has_call(item: &Item) -> bool {
    item.is_call() && !matches!(item, Item::Check | Item::Part(_) | Item::Write(..))
}

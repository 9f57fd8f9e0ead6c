//! Key orders of the twin.

pub trait Order {
    fn is_key(&self, word: u64) -> bool;
    fn before(&self, first: u64, second: u64) -> bool;
}

/// Every word is a key, and the smaller comes first.
pub struct NumberOrder;

impl Order for NumberOrder {
    fn is_key(&self, _: u64) -> bool {
        true
    }

    fn before(&self, first: u64, second: u64) -> bool {
        first < second
    }
}

//! A lent buffer, with items on both sides of it that no call may touch.

use std::fmt::Debug;

/// Items before the buffer, and as many after it.
const BESIDE: usize = 8;

/// "each byte filled with AA and each word with AAAAAAAA"
pub const BYTE: u8 = 0xAA;
pub const WORD: u32 = 0xAAAA_AAAA;

/// The lent items and those beside them.
#[derive(Clone)]
pub struct Lent<T> {
    items: Vec<T>,
    beside: T,
}

impl<T: Copy + PartialEq + Debug> Lent<T> {
    /// So many items, each of this value.
    pub fn filled(length: usize, value: T) -> Lent<T> {
        Lent {
            items: vec![value; length + 2 * BESIDE],
            beside: value,
        }
    }

    /// These items, and this value beside them.
    pub fn holding(items: &[T], beside: T) -> Lent<T> {
        let mut lent = Lent::filled(items.len(), beside);
        lent.items_mut().copy_from_slice(items);
        lent
    }

    /// What is lent.
    pub fn items(&self) -> &[T] {
        &self.items[BESIDE..self.items.len() - BESIDE]
    }

    /// What is lent, to be written.
    pub fn items_mut(&mut self) -> &mut [T] {
        let end = self.items.len() - BESIDE;
        &mut self.items[BESIDE..end]
    }

    /// The item right before the buffer, and the one right after it.
    pub fn beside(&mut self) -> [&mut T; 2] {
        let end = self.items.len() - BESIDE;
        let (before, after) = self.items.split_at_mut(end);
        [&mut before[BESIDE - 1], &mut after[0]]
    }

    /// The lent items are these, and those beside them are as they were.
    pub fn holds(&self, name: &str, told: &[T]) -> Result<(), String> {
        let items = self.items();
        if let Some(at) = (0..told.len()).find(|at| items[*at] != told[*at]) {
            let (is, due) = (items[at], told[at]);
            return Err(format!("{name}[{at}] is {is:?}, should be {due:?}"));
        }
        let end = self.items.len() - BESIDE;
        let mut beside = self.items[..BESIDE].iter().chain(&self.items[end..]);
        if beside.any(|item| *item != self.beside) {
            return Err(format!("an item beside {name} was written"));
        }
        Ok(())
    }
}

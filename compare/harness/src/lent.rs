//! Slices to lend, each between two guards.

use cases::Rng;
use std::hint::black_box;
use std::sync::atomic::{AtomicBool, Ordering};

/// What a lent slice holds.
pub trait Item: Copy + PartialEq {
    const GUARD: Self;
    const ZERO: Self;
    fn drawn(rng: &mut Rng) -> Self;
}

macro_rules! items {
    ($($ty:ty)*) => {$(
        impl Item for $ty {
            const GUARD: Self = 0xA5A5_A5A5u32 as $ty;
            const ZERO: Self = 0;
            fn drawn(rng: &mut Rng) -> Self {
                rng.next() as $ty
            }
        }
    )*};
}

items! { u8 u16 u32 u64 usize }

/// The guard's items on either side.
const WIDTH: usize = 16;

static EXACT: AtomicBool = AtomicBool::new(false);

/// From now on each slice is a heap block of its own, just as long as it is lent and without guards: for valgrind.
pub fn lend_exactly() {
    EXACT.store(true, Ordering::Relaxed);
}

fn width() -> usize {
    if EXACT.load(Ordering::Relaxed) {
        0
    } else {
        WIDTH
    }
}

/// A slice and its guards.
pub struct Lent<T>(Vec<T>);

impl<T: Item> Lent<T> {
    pub fn of(items: &[T]) -> Self {
        let mut lent = Lent(Vec::new());
        lent.again(items);
        lent
    }

    /// Lends other items in the same memory.
    pub fn again(&mut self, items: &[T]) {
        if width() == 0 {
            self.0 = items.to_vec();
            return;
        }
        self.0.clear();
        self.0.reserve(items.len() + 2 * WIDTH);
        self.0.extend_from_slice(&[T::GUARD; WIDTH]);
        self.0.extend_from_slice(items);
        self.0.extend_from_slice(&[T::GUARD; WIDTH]);
    }

    /// A slice that holds anything, zeros seldom among it.
    pub fn dirty(length: usize, rng: &mut Rng) -> Self {
        Lent::of(&(0..length).map(|_| T::drawn(rng)).collect::<Vec<_>>())
    }

    pub fn slice(&mut self) -> &mut [T] {
        let (start, end) = (width(), self.0.len() - width());
        &mut self.0[start..end]
    }

    /// The slice as an array of its length.
    pub fn array<const N: usize>(&mut self) -> &mut [T; N] {
        self.slice().try_into().expect("a slice of that length")
    }

    /// What the slice holds after the call, and whether its guards are as they were.
    fn after(&mut self) -> (&[T], bool) {
        // the callee had the address: nothing is known of the memory any more
        black_box(&mut self.0);
        let (front, rest) = self.0.split_at(width());
        let (items, behind) = rest.split_at(rest.len() - width());
        let guard = &[T::GUARD; WIDTH][..width()];
        (items, front == guard && behind == guard)
    }

    /// What the slice holds after the call; `intact` ends where a guard was touched.
    pub fn back<U: From<T>>(mut self, intact: &mut bool) -> Vec<U> {
        let (items, guarded) = self.after();
        *intact &= guarded;
        items.iter().map(|&i| U::from(i)).collect()
    }

    /// Whether the slice, lent for reading, is what it was, and its guards too.
    pub fn is_still(&mut self, was: &[T]) -> bool {
        let (items, guarded) = self.after();
        guarded && items == was
    }

    /// `intact` ends where the slice, lent for reading, is no more what it was, or a guard was touched.
    pub fn kept(mut self, was: &[T], intact: &mut bool) {
        *intact &= self.is_still(was);
    }

    /// Whether the slice holds these rows and zeros behind them, and its guards are as they were.
    pub fn holds(&mut self, rows: &[T]) -> bool {
        let (items, guarded) = self.after();
        // a slice that is too short has no room for the rows
        let Some((first, rest)) = items.split_at_checked(rows.len()) else { return false };
        guarded && first == rows && rest.iter().fold(true, |zero, &i| zero & (i == T::ZERO))
    }

    /// Changes one item of the slice or of its guards, for the self-test; gives whether there is such an item.
    pub fn touch(&mut self, at: usize) -> bool {
        let item = self.0.get_mut(at);
        let there = item.is_some();
        if let Some(item) = item {
            *item = if *item == T::GUARD { T::ZERO } else { T::GUARD };
        }
        there
    }
}

/// Whether each change of a guard, and of what is lent for reading, is noticed.
pub fn changes_are_noticed() -> bool {
    let was = [1u16, 2, 3];
    (0..2 * WIDTH + was.len()).all(|at| {
        let (mut lent, mut intact) = (Lent::of(&was), true);
        lent.0[at] ^= 0x100;
        lent.kept(&was, &mut intact);
        !intact
    })
}

/// Drawn items, from which dirt for the memory that is lent again and again is copied.
pub struct Dirt<T>(Vec<T>);

impl<T: Item> Dirt<T> {
    pub fn new(rng: &mut Rng) -> Self {
        Dirt((0..4_096).map(|_| T::drawn(rng)).collect())
    }

    /// So many of them, another part in each call.
    pub fn part(&mut self, length: usize, rng: &mut Rng) -> &[T] {
        while self.0.len() < 2 * length {
            self.0.extend_from_within(..);
        }
        let start = rng.below(self.0.len() - length);
        &self.0[start..start + length]
    }
}

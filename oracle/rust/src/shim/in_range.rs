use std::fmt::{Display, Formatter, Result};

/// A number from `MIN` to `MAX`.
#[derive(Clone, Copy, Default, PartialEq, Eq, PartialOrd, Ord)]
pub struct InRange<T, const MIN: u128, const MAX: u128>(T);

impl<T: Copy + Into<u128>, const MIN: u128, const MAX: u128> InRange<T, MIN, MAX> {
    pub fn new(value: T) -> Option<Self> {
        (MIN..=MAX).contains(&value.into()).then_some(Self(value))
    }

    pub fn get(self) -> T {
        self.0
    }
}

impl<T: Display, const MIN: u128, const MAX: u128> Display for InRange<T, MIN, MAX> {
    fn fmt(&self, f: &mut Formatter) -> Result {
        self.0.fmt(f)
    }
}

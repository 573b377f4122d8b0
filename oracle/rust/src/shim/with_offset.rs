use crate::src::strided::Strided;
use std::ops::{Add, AddAssign, Sub};

/// Lent memory and a place in it.
#[derive(Clone, Copy)]
pub struct WithOffset<T> {
    pub data: T,
    pub offset: usize,
}

impl<T> Add<usize> for WithOffset<T> {
    type Output = Self;

    fn add(mut self, by: usize) -> Self {
        self.offset += by;
        self
    }
}

impl<T> Sub<usize> for WithOffset<T> {
    type Output = Self;

    fn sub(mut self, by: usize) -> Self {
        self.offset -= by;
        self
    }
}

impl<T> Add<isize> for WithOffset<T> {
    type Output = Self;

    /// A place before the start, which the walk may pass but never reads, wraps.
    fn add(mut self, by: isize) -> Self {
        self.offset = self.offset.wrapping_add_signed(by);
        self
    }
}

impl<T: Copy> AddAssign<usize> for WithOffset<T> {
    fn add_assign(&mut self, by: usize) {
        *self = *self + by;
    }
}

impl<T: Copy> AddAssign<isize> for WithOffset<T> {
    fn add_assign(&mut self, by: isize) {
        *self = *self + by;
    }
}

impl<T: Strided> Strided for WithOffset<T> {
    fn stride(&self) -> isize {
        self.data.stride()
    }
}

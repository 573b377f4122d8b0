//! What rav1d's text takes from `libc`, `parking_lot`, `atomig`, `zerocopy` and `bitflags`. Those
//! names are this crate's own in `main.rs`, which has all that stands here at its root.

pub use derive::{AsBytes, FromBytes, FromZeroes};
use std::cell::Cell;
use std::mem::{align_of, size_of, size_of_val};
use std::sync::atomic::Ordering;
use std::{ptr, slice};

/// `libc`
#[allow(non_camel_case_types)]
pub type ptrdiff_t = isize;

use std::sync::MutexGuard;
/// `parking_lot`
pub use std::sync::RwLock;

#[derive(Default)]
pub struct Mutex<T>(std::sync::Mutex<T>);

impl<T> Mutex<T> {
    pub const fn new(value: T) -> Self {
        Self(std::sync::Mutex::new(value))
    }

    pub fn lock(&self) -> MutexGuard<'_, T> {
        self.0.lock().unwrap()
    }

    pub fn into_inner(self) -> T {
        self.0.into_inner().unwrap()
    }
}

/// `atomig`
pub trait Atom: Copy {}
impl<T: Copy> Atom for T {}

/// The oracle filters on one thread.
#[derive(Default)]
pub struct Atomic<T>(Cell<T>);

impl<T: Atom> Atomic<T> {
    pub fn new(value: T) -> Self {
        Self(Cell::new(value))
    }

    pub fn load(&self, _: Ordering) -> T {
        self.0.get()
    }

    pub fn store(&self, value: T, _: Ordering) {
        self.0.set(value)
    }
}

/// `zerocopy`
pub trait FromZeroes {}

pub trait AsBytes: Sized {
    fn as_bytes(&self) -> &[u8] {
        // SAFETY: the types that have this trait are plain numbers without padding.
        unsafe { slice::from_raw_parts(ptr::from_ref(self).cast(), size_of_val(self)) }
    }
}

/// Whether `bytes` are whole elements of type `T`, `count` of them if that is given.
fn fits<T>(bytes: &[u8], count: Option<usize>) -> bool {
    bytes.len() % size_of::<T>() == 0
        && count.is_none_or(|n| bytes.len() == n * size_of::<T>())
        && bytes.as_ptr() as usize % align_of::<T>() == 0
}

pub trait FromBytes: Sized {
    fn ref_from(bytes: &[u8]) -> Option<&Self> {
        // SAFETY: `fits` has checked size and alignment, and every byte is a valid one.
        fits::<Self>(bytes, Some(1)).then(|| unsafe { &*bytes.as_ptr().cast() })
    }

    fn mut_from(bytes: &mut [u8]) -> Option<&mut Self> {
        // SAFETY: as above.
        fits::<Self>(bytes, Some(1)).then(|| unsafe { &mut *bytes.as_mut_ptr().cast() })
    }

    fn slice_from(bytes: &[u8]) -> Option<&[Self]> {
        let len = bytes.len() / size_of::<Self>();
        // SAFETY: as above.
        fits::<Self>(bytes, None)
            .then(|| unsafe { slice::from_raw_parts(bytes.as_ptr().cast(), len) })
    }

    fn mut_slice_from(bytes: &mut [u8]) -> Option<&mut [Self]> {
        let len = bytes.len() / size_of::<Self>();
        // SAFETY: as above.
        fits::<Self>(bytes, None)
            .then(|| unsafe { slice::from_raw_parts_mut(bytes.as_mut_ptr().cast(), len) })
    }
}

macro_rules! plain {
    ($($T:ty)*) => { $(impl AsBytes for $T {} impl FromBytes for $T {})* };
}
plain!(u8 u16 i16 i32);

/// `bitflags`: a type alone, since nothing that is compiled looks at a flag.
macro_rules! bitflags {
    ($(#[$meta:meta])* $vis:vis struct $Name:ident: $T:ty { $(const $FLAG:ident = $value:expr;)* }) => {
        $(#[$meta])*
        $vis struct $Name($T);
    };
}
pub(crate) use bitflags;

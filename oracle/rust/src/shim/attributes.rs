use std::ffi::{c_int, c_uint, c_ulonglong};

pub fn clz(mask: c_uint) -> c_int {
    mask.leading_zeros() as c_int
}

pub fn clzll(mask: c_ulonglong) -> c_int {
    mask.leading_zeros() as c_int
}

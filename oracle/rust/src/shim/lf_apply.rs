use crate::include::common::bitdepth::BitDepth;
use crate::include::dav1d::headers::Rav1dPixelLayout;
use crate::include::dav1d::picture::Rav1dPictureDataComponentOffset;
use crate::src::disjoint_mut::DisjointMut;
use crate::src::internal::Rav1dFrameData;
use crate::src::relaxed_atomic::RelaxedAtomic;
use crate::src::strided::Strided as _;
use crate::src::with_offset::WithOffset;
use std::cmp;
use std::ffi::{c_int, c_uint};

include!(concat!(env!("OUT_DIR"), "/lf_apply.rs"));

//! rav1d 1.1.0: its own text from `rav1d/`, unchanged, and shims for what that text names besides.
//! `build.rs` holds the text to its hashes.

#![allow(warnings)]

/// What stands in for the crates that rav1d depends on.
#[path = "shim/crates.rs"]
pub mod crates;

#[path = "../rav1d/include"]
pub mod include {
    pub mod common {
        #[path = "../../../src/shim/attributes.rs"]
        pub mod attributes;
        pub mod bitdepth;
        pub mod intops;
    }
    pub mod dav1d {
        pub mod headers;
        #[path = "../../../src/shim/picture.rs"]
        pub mod picture;
    }
}

#[path = "../rav1d/src"]
pub mod src {
    pub mod align;
    pub mod assume;
    pub mod ctx;
    pub mod disjoint_mut;
    pub mod ffi_safe;
    pub mod levels;
    pub mod lf_mask;
    pub mod loopfilter;
    pub mod relaxed_atomic;
    pub mod strided;

    #[path = "../../src/shim/cpu.rs"]
    pub mod cpu;
    #[path = "../../src/shim/enum_map.rs"]
    pub mod enum_map;
    #[path = "../../src/shim/in_range.rs"]
    pub mod in_range;
    #[path = "../../src/shim/internal.rs"]
    pub mod internal;
    #[path = "../../src/shim/lf_apply.rs"]
    pub mod lf_apply;
    #[path = "../../src/shim/tables.rs"]
    pub mod tables;
    #[path = "../../src/shim/with_offset.rs"]
    pub mod with_offset;
    #[path = "../../src/shim/wrap_fn_ptr.rs"]
    pub mod wrap_fn_ptr;
}

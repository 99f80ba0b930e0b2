//! The Rust that Jambharrow answers for: `dtype` and `ops::quant` of vitni-tensor, built without
//! `std-parallel` from the text that build.rs takes, under the names they have there.
//! `ops::quant::reach` leads to the private functions.

extern crate alloc;

#[allow(non_camel_case_types, clippy::all)]
pub mod dtype {
    include!(concat!(env!("OUT_DIR"), "/dtype.rs"));
}
pub mod error;
pub mod inputs;
pub mod ops {
    #[allow(dead_code, clippy::all)]
    pub mod quant {
        include!(concat!(env!("OUT_DIR"), "/quant.rs"));

        pub mod reach;
    }
}
pub mod random;

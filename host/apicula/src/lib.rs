//! The readers and samplers of scurest/apicula, built from an unmodified checkout, with a stand-in for cgmath and for the macros of log.
#![allow(dead_code, unused_variables, unused_macros, unused_imports, mismatched_lifetime_syntaxes, unused_attributes)]

// `cgmath::Matrix4` is what stands in for it here
extern crate self as cgmath;
mod standin;
pub use standin::*;

// nothing is logged
macro_rules! trace {
    ($($arg:tt)*) => {};
}
macro_rules! debug {
    ($($arg:tt)*) => {
        if false {
            let _ = format!($($arg)*);
        }
    };
}
macro_rules! error {
    ($($arg:tt)*) => {
        if false {
            let _ = format!($($arg)*);
        }
    };
}

/// Models and textures, which the comparison leaves out.
pub mod left_out {
    pub mod model {
        pub struct Model;

        pub fn read_model(_: crate::util::cur::Cur, _: crate::nitro::Name) -> crate::errors::Result<Model> {
            Err("models are left out".into())
        }
    }

    pub mod tex {
        pub struct Texture;
        pub struct Palette;

        pub fn read_tex(_: crate::util::cur::Cur) -> crate::errors::Result<(Vec<Texture>, Vec<Palette>)> {
            Err("textures are left out".into())
        }
    }
}

include!(concat!(env!("OUT_DIR"), "/modules.rs"));

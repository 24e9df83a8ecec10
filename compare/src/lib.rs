//! The Rust of glam, unchanged, and what holds the programs `probe` and `bench` and the library of `capi` against it.
//!
//! glam's files are compiled where they lie, in the folder that build.rs finds. They name each other from the root of their
//! crate, so they stand at the root of this one, beside stand-ins for what they name and the documents do not hold.
//! The feature `glam-assert` turns glam's assertions on.

#[macro_use]
#[allow(unused_macros)]
mod macros {
    include!(concat!(env!("GLAM_SRC"), "/src/macros.rs"));
}

#[allow(dead_code)]
mod f32 {
    pub mod math {
        use crate::standins::libm;
        include!(concat!(env!("GLAM_SRC"), "/src/f32/math.rs"));
    }

    pub mod vec3 {
        include!(concat!(env!("GLAM_SRC"), "/src/f32/vec3.rs"));
    }

    pub mod vec4 {
        include!(concat!(env!("GLAM_SRC"), "/src/f32/scalar/vec4.rs"));
    }
}

#[allow(dead_code)]
mod bvec3 {
    include!(concat!(env!("GLAM_SRC"), "/src/bool/bvec3.rs"));
}

mod standins;

use bvec3::BVec3;
use f32::vec3::Vec3;
use f32::vec4::Vec4;
use standins::{swizzles, BVec3A, BVec4, FloatExt, Quat, Vec2, Vec3A};

pub mod arrows;
pub mod calls;
pub mod cases;
pub mod check;
pub mod command;
pub mod decimal;
mod digest;
pub mod exact;
pub mod generate;
pub mod judge;
pub mod library;
pub mod oracle;
pub mod outcomes;
pub mod pairs;
pub mod rays;
pub mod roots;
pub mod scales;
pub mod sheet;
pub mod sitting;
pub mod squares;
mod table;
pub mod tally;
pub mod values;

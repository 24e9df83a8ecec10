//! Stand-ins for what glam's files name and the documents do not hold. No function that is compared reaches one: a call panics.

use crate::{Vec3, Vec4};
use std::ops::Mul;

/// Functions of which there is the name alone.
macro_rules! absent {
    ($($name:ident($($form:ty),*) -> $result:ty;)*) => {
        $(pub fn $name($(_: $form),*) -> $result {
            unimplemented!()
        })*
    };
}

pub mod libm {
    absent! {
        atan2f(f32, f32) -> f32;
        cosf(f32) -> f32;
        sinf(f32) -> f32;
        sincosf(f32) -> (f32, f32);
        tanf(f32) -> f32;
        expf(f32) -> f32;
        exp2f(f32) -> f32;
        logf(f32) -> f32;
        log2f(f32) -> f32;
        powf(f32, f32) -> f32;
    }
}

pub struct Vec2 {
    pub x: f32,
    pub y: f32,
}

pub struct Vec3A {
    pub x: f32,
    pub y: f32,
    pub z: f32,
}

impl Vec3A {
    pub fn extend(self, _: f32) -> Vec4 {
        unimplemented!()
    }
}

impl From<Vec3> for Vec3A {
    fn from(_: Vec3) -> Self {
        unimplemented!()
    }
}

pub struct BVec3A;

impl From<BVec3A> for [bool; 3] {
    fn from(_: BVec3A) -> Self {
        unimplemented!()
    }
}

pub struct BVec4 {
    pub x: bool,
    pub y: bool,
    pub z: bool,
    pub w: bool,
}

impl BVec4 {
    absent! {
        new(bool, bool, bool, bool) -> Self;
    }

    pub fn test(&self, _: usize) -> bool {
        unimplemented!()
    }

    pub fn all(self) -> bool {
        unimplemented!()
    }
}

pub struct Quat;

impl Quat {
    absent! {
        from_axis_angle(Vec3, f32) -> Self;
    }
}

impl Mul<Vec3> for Quat {
    type Output = Vec3;
    fn mul(self, _: Vec3) -> Vec3 {
        unimplemented!()
    }
}

pub trait FloatExt: Sized {
    fn lerp(self, _: Self, _: Self) -> Self {
        unimplemented!()
    }
}

impl FloatExt for f32 {}

pub mod swizzles {
    use super::{Vec2, Vec3, Vec4};

    pub trait Vec3Swizzles: Sized {
        fn xy(self) -> Vec2 {
            unimplemented!()
        }
    }

    pub trait Vec4Swizzles: Sized {
        fn xyz(self) -> Vec3 {
            unimplemented!()
        }
    }

    impl Vec3Swizzles for Vec3 {}
    impl Vec4Swizzles for Vec4 {}
}

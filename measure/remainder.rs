//! Rust's operator `%`, for measure/remainder.c.

#[no_mangle]
pub extern "C" fn rust_rem(a: f32, b: f32) -> f32 {
    a % b
}

//! The functions of include/bench.h, in the library that build.rs finds.

use compare::calls::NAN;
use compare::library::Library;

#[link(name = "capi", kind = "static")]
extern "C" {
    fn bench_sqrt(x: f32) -> f32;
    fn bench_sqrt_is_exact(x: f32) -> u32;
    fn bench_mul_add(a: f32, b: f32, c: f32) -> f32;
    fn bench_trunc(x: f32) -> f32;
    fn bench_floor(x: f32) -> f32;
    fn bench_round(x: f32) -> f32;
    fn bench_rem(a: f32, b: f32) -> f32;
    fn bench_run(commands: *const u32, count: usize, answers: *mut u32, lent: usize) -> u32;
    fn bench_words() -> usize;
    fn bench_fresh(sheet: *mut u32, words: usize) -> u32;
    fn bench_step(
        sheet: *mut u32,
        words: usize,
        number: u32,
        t: u32,
        a: u32,
        b: u32,
        u: u32,
        v: u32,
        w: u32,
        answer: *mut u32,
        lent: usize,
    ) -> u32;
    fn bench_respond(sheet: *mut u32, words: usize, line: *const u8, length: usize, answer: *mut u8, lent: usize) -> u32;
    fn bench_run_on(sheet: *mut u32, words: usize, commands: *const u32, count: usize, answers: *mut u32, lent: usize) -> u32;
}

/// A function on numbers: the number of the function in docs/FUNCTIONS.md that has its result, the result's place there, and its call. The
/// arguments and the result are bits, of a NaN those that stand for any.
pub struct Scalar {
    pub number: u32,
    pub place: usize,
    pub call: fn(&[u32]) -> u32,
}

pub static SCALARS: [Scalar; 7] = [
    Scalar { number: 1, place: 0, call: |n| unsafe { bits(bench_sqrt(float(n[0]))) } },
    Scalar { number: 2, place: 0, call: |n| unsafe { bits(bench_mul_add(float(n[0]), float(n[1]), float(n[2]))) } },
    Scalar { number: 3, place: 0, call: |n| unsafe { bits(bench_trunc(float(n[0]))) } },
    Scalar { number: 4, place: 0, call: |n| unsafe { bits(bench_floor(float(n[0]))) } },
    Scalar { number: 5, place: 0, call: |n| unsafe { bits(bench_round(float(n[0]))) } },
    Scalar { number: 9, place: 0, call: |n| unsafe { bits(bench_rem(float(n[0]), float(n[1]))) } },
    Scalar { number: 16, place: 1, call: |n| unsafe { bench_sqrt_is_exact(float(n[0])) } },
];

fn float(bits: u32) -> f32 {
    f32::from_bits(bits)
}

/// The bits of a result.
fn bits(x: f32) -> u32 {
    if x.is_nan() {
        NAN
    } else {
        x.to_bits()
    }
}

/// The functions that run commands. An empty slice has a pointer that is not NULL, as the header wants it.
pub static LIBRARY: Library = Library {
    words: || unsafe { bench_words() },
    fresh: |sheet| unsafe { bench_fresh(sheet.as_mut_ptr(), sheet.len()) },
    step: |sheet, &[number, t, a, b, u, v, w], answer| unsafe {
        bench_step(sheet.as_mut_ptr(), sheet.len(), number, t, a, b, u, v, w, answer.as_mut_ptr(), answer.len())
    },
    respond: |sheet, line, answer| unsafe {
        bench_respond(sheet.as_mut_ptr(), sheet.len(), line.as_ptr(), line.len(), answer.as_mut_ptr(), answer.len())
    },
    run_on: |sheet, commands, answers| unsafe {
        bench_run_on(sheet.as_mut_ptr(), sheet.len(), commands.as_ptr(), commands.len(), answers.as_mut_ptr(), answers.len())
    },
    run: |commands, answers| unsafe { bench_run(commands.as_ptr(), commands.len(), answers.as_mut_ptr(), answers.len()) },
};

//! The functions on numbers, held against the Rust's. A NaN counts as any NaN.

use crate::linked::{Scalar, SCALARS};
use compare::calls::{find, Function};
use compare::generate::arguments;
use compare::library::Account;
use compare::values::Draw;

/// Calls the functions in turn, `count` times in all, with arguments as compare/calls has them.
pub fn compare(account: &mut Account, seed: u64, count: u64) {
    let mut draw = Draw::new(seed);
    let both = SCALARS.iter().map(|scalar| (scalar, rust_of(scalar)));
    for ((scalar, rust), _) in both.cycle().zip(0..count) {
        call_both(account, scalar, rust, &arguments(&mut draw, rust));
    }
    println!("{count} calls of {} functions on numbers", SCALARS.len());
}

/// Calls those of the functions that are in the library and take one number, on every number.
pub fn compare_every(account: &mut Account, functions: Vec<&Function>) {
    for rust in functions.iter().filter(|function| function.arguments == 1) {
        if let Some(scalar) = SCALARS.iter().find(|scalar| scalar.number == rust.number) {
            (0..=u32::MAX).for_each(|bits| call_both(account, scalar, rust, &[bits]));
            println!("{} of every number", rust.name);
        }
    }
}

fn rust_of(scalar: &Scalar) -> &'static Function {
    find(scalar.number).expect("docs/FUNCTIONS.md has the function")
}

fn call_both(account: &mut Account, scalar: &Scalar, rust: &Function, arguments: &[u32]) {
    let right = (rust.call)(arguments)[scalar.place];
    let result = (scalar.call)(arguments);
    account
        .note(result == right, || format!("{} of {arguments:08x?}\nthe Rust  {right:08x}\nlibrary   {result:08x}", rust.name));
}

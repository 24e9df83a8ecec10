//! The command that compare/capi calls: compares the library of the crate `capi` with the Rust and with the plain sheet.

mod linked;
mod scalars;
mod timing;

use compare::calls::{functions_of, FUNCTIONS};
use compare::command::{status, Outcome};
use compare::library::{arrows, kept, lists, rays, Account};
use compare::tally::Tally;
use linked::LIBRARY;
use std::env;
use std::process::ExitCode;

const USAGE: &str = "usage:
  compare/capi SEED COUNT  COUNT calls of the functions on numbers, lists of COUNT commands from fresh sheets, and COUNT commands and
                           lines on sheets that are kept, by the seed
  compare/capi --every [NUMBERS]
                           each function of one number on every number; those of these numbers alone, as in 1,16
  compare/capi --arrows SEED COUNT
                           COUNT arrows of every exponent by the seed, written by command 1, and their directions by command 2
  compare/capi --rays SEED COUNT
                           COUNT lines of 22, 23 and 24 by the seed, on rows that commands made and on rows at the ends of the bound on
                           directions
  compare/capi --time TURNS COUNT
                           the time of a list of COUNT commands, beside the plain sheet's";

fn main() -> ExitCode {
    let words: Vec<String> = env::args().skip(1).collect();
    status(run(&words.iter().map(String::as_str).collect::<Vec<_>>()))
}

fn run(words: &[&str]) -> Outcome {
    let mut account = Account::default();
    let sound = match *words {
        ["--every"] => {
            scalars::compare_every(&mut account, FUNCTIONS.iter().collect());
            true
        }
        ["--every", numbers] => {
            scalars::compare_every(&mut account, functions_of(numbers)?);
            if account.compared == 0 {
                return Err("the library has none of these as a function of one number".into());
            }
            true
        }
        ["--arrows", seed, count] => {
            let scales = arrows::compare(&LIBRARY, &mut account, seed.parse()?, count.parse()?);
            print!("{scales}");
            println!("{} arrows compared, {} different", account.compared, account.different);
            return Ok(if scales.sound() && account.different == 0 { ExitCode::SUCCESS } else { ExitCode::FAILURE });
        }
        ["--rays", seed, count] => {
            let rays = rays::compare(&LIBRARY, &mut account, seed.parse()?, count.parse()?);
            print!("{rays}");
            println!("{} lines compared, {} different, {} answered by 7", account.compared, account.different, rays.by_7);
            return Ok(if rays.sound() && account.different == 0 { ExitCode::SUCCESS } else { ExitCode::FAILURE });
        }
        ["--time", turns, count] => {
            let equal = timing::time(turns.parse()?, count.parse()?);
            return Ok(if equal { ExitCode::SUCCESS } else { ExitCode::FAILURE });
        }
        [seed, count] => {
            let (seed, count) = (seed.parse()?, count.parse()?);
            let mut tally = Tally::default();
            scalars::compare(&mut account, seed, count);
            lists::compare(&LIBRARY, &mut account, &mut tally, seed, count);
            kept::compare(&LIBRARY, &mut account, &mut tally, seed, count);
            print!("{tally}");
            tally.sound()
        }
        _ => return Err(USAGE.into()),
    };
    println!("{} calls compared, {} different", account.compared, account.different);
    Ok(if sound && account.different == 0 { ExitCode::SUCCESS } else { ExitCode::FAILURE })
}

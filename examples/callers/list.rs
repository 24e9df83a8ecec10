// Runs document 01's listing from Rust: the point (3, 4, 0), its length, its direction.
// compare/built capi && mkdir -p target && rustc -O examples/callers/list.rs -L crates/capi/out -l static=capi -o target/list && target/list

extern "C" {
    fn bench_run(commands: *const u32, count: usize, answers: *mut u32, lent: usize) -> u32;
}

/// The answers of a list of commands, or the number by which the list is refused.
fn run(commands: &[[u32; 7]]) -> Result<Vec<[u32; 6]>, u32> {
    let mut answers = vec![[0u32; 6]; commands.len()];
    let refusal = unsafe { bench_run(commands.as_ptr().cast(), commands.len() * 7, answers.as_mut_ptr().cast(), answers.len() * 6) };
    if refusal == 0 { Ok(answers) } else { Err(refusal) }
}

fn main() {
    let (three, four) = (3f32.to_bits(), 4f32.to_bits());
    match run(&[[1, 0, 0, 0, three, four, 0], [26, 0, 0, 0, 0, 0, 0], [2, 1, 0, 0, 0, 0, 0]]) {
        Ok(answers) => answers.iter().for_each(|answer| println!("{answer:?}")),
        Err(refusal) => println!("refused by {refusal}"),
    }
}

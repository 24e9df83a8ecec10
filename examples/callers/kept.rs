// Keeps a sheet over several calls from Rust: commands one by one, a line, a list, a command that is refused, one that is taken back, and a plane.
// compare/built capi && mkdir -p target && rustc -O examples/callers/kept.rs -L crates/capi/out -l static=capi -o target/kept && target/kept

extern "C" {
    fn bench_words() -> usize;
    fn bench_fresh(sheet: *mut u32, words: usize) -> u32;
    fn bench_step(
        sheet: *mut u32,
        words: usize,
        number: u32,
        t: u32,
        a: u32,
        b: u32,
        u: u32,
        v: u32,
        w: u32,
        answer: *mut u32,
        lent: usize,
    ) -> u32;
    fn bench_respond(sheet: *mut u32, words: usize, line: *const u8, length: usize, answer: *mut u8, lent: usize) -> u32;
    fn bench_run_on(sheet: *mut u32, words: usize, commands: *const u32, count: usize, answers: *mut u32, lent: usize) -> u32;
}

/// An answer, or the number of the refusal.
type Answered<T> = Result<T, u32>;

fn answered<T>(refusal: u32, answer: T) -> Answered<T> {
    if refusal == 0 { Ok(answer) } else { Err(refusal) }
}

/// A sheet that lies in words of this program.
struct Sheet {
    words: Vec<u32>,
}

impl Sheet {
    fn fresh() -> Sheet {
        let mut words = vec![0; unsafe { bench_words() }];
        let refusal = unsafe { bench_fresh(words.as_mut_ptr(), words.len()) };
        assert_eq!(refusal, 0, "there are enough words");
        Sheet { words }
    }

    /// Runs a command: the six numbers of its answer.
    fn step(&mut self, [number, t, a, b, u, v, w]: [u32; 7]) -> Answered<[u32; 6]> {
        let (sheet, words, mut answer) = (self.words.as_mut_ptr(), self.words.len(), [0; 6]);
        let refusal = unsafe { bench_step(sheet, words, number, t, a, b, u, v, w, answer.as_mut_ptr(), answer.len()) };
        answered(refusal, answer)
    }

    /// Runs the command of a line, which comes without its line feed: the line that answers it.
    fn respond(&mut self, line: &str) -> Answered<String> {
        let (sheet, words, mut answer) = (self.words.as_mut_ptr(), self.words.len(), [0; 43]);
        let refusal = unsafe { bench_respond(sheet, words, line.as_ptr(), line.len(), answer.as_mut_ptr(), answer.len()) };
        answered(refusal, String::from_utf8_lossy(&answer).trim_end().to_string())
    }

    /// Runs a list of commands: their answers, those of refused ones among them.
    fn run(&mut self, commands: &[[u32; 7]]) -> Answered<Vec<[u32; 6]>> {
        let (sheet, words, mut answers) = (self.words.as_mut_ptr(), self.words.len(), vec![[0; 6]; commands.len()]);
        let (list, count) = (commands.as_ptr().cast(), commands.len() * 7);
        let refusal = unsafe { bench_run_on(sheet, words, list, count, answers.as_mut_ptr().cast(), answers.len() * 6) };
        answered(refusal, answers)
    }
}

fn main() {
    let mut sheet = Sheet::fresh();
    // the points (3, 4, 0) and (0, 0, 12) into rows 0 and 1, and their distance
    println!("a point: {:?}", sheet.step([1, 0, 0, 0, 3f32.to_bits(), 4f32.to_bits(), 0]));
    println!("a point: {:?}", sheet.step([1, 1, 0, 0, 0, 0, 12f32.to_bits()]));
    let distance = sheet.step([27, 0, 0, 1, 0, 0, 0]).map(|answer| f32::from_bits(answer[3]));
    println!("their distance: {distance:?}");
    // row 0 less row 2, which is empty: refused by 4, and row 0 is as it was
    println!("row 0 less row 2: {:?}", sheet.step([4, 0, 0, 2, 0, 0, 0]));
    println!("row 0: {:?}", sheet.step([32, 0, 0, 0, 0, 0, 0]));
    // the direction of row 1 into row 0, where row 2 was meant: 33 takes it back, and shows row 0, which is the point again
    println!("a mistyped target: {:?}", sheet.step([2, 0, 1, 0, 0, 0, 0]));
    println!("taken back: {:?}", sheet.step([33, 0, 0, 0, 0, 0, 0]));
    // the direction of row 0 into row 2, as a line
    println!("a line: {:?}", sheet.respond("  2  2  0  0          0          0          0"));
    // two directions orthogonal to row 2 into rows 3 and 4, the dot product of rows 2 and 4, and the greatest component of row 1
    println!("a list: {:?}", sheet.run(&[[24, 3, 2, 0, 0, 0, 0], [25, 0, 2, 4, 0, 0, 0], [30, 0, 1, 0, 0, 0, 0]]));
    // the plane through row 0 with the direction in row 2 as its normal into row 5, how far row 1 is over it, and where the line from row 1 along row 2 meets it: u is the number of the plane's row
    println!("a plane: {:?}", sheet.step([34, 5, 0, 2, 0, 0, 0]));
    let over = sheet.step([35, 0, 1, 5, 0, 0, 0]).map(|answer| f32::from_bits(answer[3]));
    println!("row 1 over the plane: {over:?}");
    println!("where the line meets it: {:?}", sheet.step([36, 6, 1, 2, 5, 0, 0]));
}

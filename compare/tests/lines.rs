//! Lines and streams of the plain sheet: document 01's listing, malformed lines, input in pieces of any size.

use compare::check::Rust;
use compare::sheet::stream::Stream;
use compare::sitting::{named::LISTING, Sitting};
use compare::tally::Tally;

const ANSWERS: &str = "  0  0  1 1077936128 1082130432          0
  0  0  5 1084227584          0          0
  0  1  2 1058642330 1061997773          0
";

const REFUSED: &str = "  1  0  0          0          0          0\n";

/// The answers to an input that comes in pieces of these sizes, in turn.
fn answers(input: &[u8], sizes: &[usize]) -> Vec<u8> {
    let (mut stream, mut out, mut rest) = (Stream::default(), Vec::new(), input);
    for &size in sizes.iter().cycle() {
        if rest.is_empty() {
            break;
        }
        let (piece, others) = rest.split_at(size.min(rest.len()));
        stream.feed(piece, &mut out);
        rest = others;
    }
    stream.end(&mut out);
    out
}

fn text(input: &str) -> String {
    String::from_utf8(answers(input.as_bytes(), &[usize::MAX])).expect("answers are ASCII")
}

#[test]
fn the_listing_has_its_answers() {
    assert_eq!(text(LISTING), ANSWERS);
}

#[test]
fn no_input_gives_no_output() {
    assert_eq!(text(""), "");
}

#[test]
fn a_line_feed_alone_is_a_line() {
    assert_eq!(text("\n"), REFUSED);
    assert_eq!(text("\n\n"), REFUSED.repeat(2));
}

#[test]
fn bytes_after_the_last_line_feed_are_a_line() {
    assert_eq!(text("x"), REFUSED);
    let unfinished = LISTING.trim_end();
    let done: String = ANSWERS.lines().take(2).map(|line| format!("{line}\n")).collect();
    assert_eq!(text(unfinished), done + REFUSED);
}

#[test]
fn a_refused_line_leaves_every_row() {
    let shows = " 32  0  0  0          0          0          0\n";
    let first = LISTING.lines().next().expect("it has three");
    let other = first.replace('3', "4");
    let answered = text(&format!("{first}\n{other}\r\n{shows}"));
    assert_eq!(answered.lines().last(), ANSWERS.lines().next());
    let without_end = format!("{shows}{first}");
    assert_eq!(text(&without_end), format!("  4  0  0          0          0          0\n{REFUSED}"));
}

#[test]
fn fields_are_read_at_their_columns() {
    let good = "  1 63999999 4294967295          0          1";
    let refused_by = |line: &str| text(&format!("{line}\n")).trim_start()[..1].to_string();
    assert_eq!(refused_by(good), "5");
    assert_eq!(refused_by(&good.replace("4294967295", "4294967294")), "5");
    assert_eq!(refused_by(&good.replace("4294967295", "         0")), "0");
    for (old, new) in [
        (" 4294967295", "04294967295"),
        (" 4294967295", " 4294967296"),
        (" 4294967295", "14294967295"),
        (" 4294967295", "4294967295 "),
        (" 4294967295", " 429496 295"),
        (" 4294967295", "           "),
        (" 4294967295", "\t4294967295"),
        (" 4294967295", "\04294967295"),
        (" 4294967295", "+         1"),
        (" 4294967295", "         -1"),
        (" 4294967295", "         00"),
        ("  1", " 01"),
        ("  1", "001"),
        ("  1", "  :"),
        ("  1", "  /"),
        ("  1", " 1 "),
        ("  1", "\r 1"),
    ] {
        assert_eq!(refused_by(&good.replacen(old, new, 1)), "1", "{new:?}");
    }
    for line in [&good[..44], &good[1..], &format!("{good} "), &format!("{good}\r"), &format!(" {good}")] {
        assert_eq!(refused_by(line), "1", "{line:?}");
    }
    assert_eq!(refused_by(" 99  0  0  0          0          0         00"), "1");
    assert_eq!(refused_by(" 99  0  0  0          0          0          0"), "2");
}

#[test]
fn long_lines_are_one_line() {
    for byte in [" ", "0", "x"] {
        let input = format!("{}\n{LISTING}", byte.repeat(100_000));
        assert_eq!(text(&input), format!("{REFUSED}{ANSWERS}"));
    }
}

#[test]
fn pieces_of_any_size_have_the_same_answers() {
    for (seed, malformed) in [(1, 0), (2, 16), (3, 2)] {
        let input: Vec<u8> = Sitting::new(seed, malformed).pieces(8_000).flatten().collect();
        let mut whole = Vec::new();
        Tally::default().answer_all(&input, &mut whole);
        for sizes in [&[usize::MAX][..], &[1], &[2], &[45], &[46], &[47], &[7, 46, 1, 92, 4096, 65_536, 3]] {
            assert!(answers(&input, sizes) == whole, "seed {seed} in pieces of {sizes:?}");
        }
    }
}

//! Files and lines whose answers were worked out by hand, on both implementations.

use harness::independent::line;
use harness::independent::refusal::Refusal;
use harness::independent::INPUT_LIMIT;
use harness::{generate, independent, proved};

/// What both print, over both sizes of the book.
fn serve(input: &[u8]) -> Vec<u8> {
    let printed = independent::serve(input);
    assert_eq!(proved::serve(input), printed);
    assert_eq!(independent::serve_large(input), printed);
    assert_eq!(proved::serve_large(input), printed);
    printed
}

fn opening() -> String {
    let prices = ",100000".repeat(15);
    let amounts = ",0".repeat(15);
    format!("O,2,FD,150000{prices}\nS,60000{amounts}\n")
}

fn sheet(mark: u32, price: u32, points: i32) -> String {
    let prices = ",100000".repeat(15);
    let others = ",0".repeat(15);
    format!("R,{mark},{price}{prices},{points}{others}\n")
}

fn printed(lines: &str) -> String {
    let input = opening() + lines;
    String::from_utf8(serve(input.as_bytes())).expect("answers are text")
}

#[test]
fn a_day_and_its_rollover() {
    let lines = "D,2,500000\nT,2,1,1,3,150000\nT,1,2,1,1,150400\nC,2,1,2,3,1\n".to_string()
        + &sheet(1, 151_000, 20)
        + "M,2\nW,2,384001\nW,2,384000\n";
    let text = "OK,0\nOK,0\nOK,1\nOK,2\nOK,3\nOK,4\nOK,5\n\
                M,2,500000,4000,20040,120000,95960,0,384000\nNO,9,B,14,384000\nOK,6\n";
    assert_eq!(printed(&lines), text);
}

#[test]
fn a_slip_reaches_the_deposit_at_the_second_bank_day() {
    let lines = "T,1,2,1,1,150000\nT,2,1,1,1,150100\n".to_string()
        + &sheet(1, 150_000, 0)
        + "M,1\n"
        + &sheet(0, 150_000, 0)
        + "M,1\n"
        + &sheet(1, 150_000, 0)
        + "M,1\n";
    let text = "OK,0\nOK,0\nOK,1\nOK,2\nOK,3\nM,1,0,1000,0,0,-1000,0,0\nOK,4\n\
                M,1,0,1000,0,0,-1000,0,0\nOK,5\nM,1,1000,0,0,0,0,0,1000\n";
    assert_eq!(printed(&lines), text);
}

#[test]
fn a_refused_sheet_changes_nothing() {
    let lines = "T,1,2,1,1,150000\n".to_string()
        + &sheet(2, 151_000, 20)
        + &sheet(1, 0, 20)
        + &sheet(1, 151_000, 10_001)
        + "M,1\nD,1,1\n";
    let text = "OK,0\nOK,0\nOK,1\nNO,4,B,5,0\nNO,5,B,5,0\nNO,6,B,5,0\n\
                M,1,0,0,0,60000,60000,60000,0\nOK,2\n";
    assert_eq!(printed(&lines), text);
}

#[test]
fn losses_are_rounded_down() {
    // 53 contracts lose a step of 100 hundredths: -5,300 at 1.50000 are -7,950, and at 1.50333 -7,967.649
    let lines = "T,2,1,11,53,100001\n".to_string() + &sheet(1, 150_333, 0) + "M,1\nM,2\n";
    let text = "OK,0\nOK,0\nOK,1\nOK,2\nM,1,0,0,7967,0,-7967,0,0\nM,2,0,0,-7968,0,7968,7968,0\n";
    assert_eq!(printed(&lines), text);
}

#[test]
fn a_file_has_at_most_65536_bytes() {
    let mut input = opening().into_bytes();
    input.resize(INPUT_LIMIT, b'\n');
    assert!(serve(&input).starts_with(b"OK,0\nOK,0\nNO,3,L,15,1\n"));
    input.push(b'\n');
    assert_eq!(serve(&input), b"NO,0,L,15,0\n");
    assert_eq!(serve(b""), b"");
}

#[test]
fn a_refusal_on_the_first_lines_ends_the_run() {
    assert_eq!(serve(b"M,1\nM,1\n"), b"NO,1,L,15,1\n");
    let first = opening();
    let line_1 = first.lines().next().expect("there is a line 1");
    assert_eq!(
        serve(format!("{line_1}\nM,1\nM,1\n").as_bytes()),
        b"OK,0\nNO,2,L,15,1\n"
    );
}

/// Reads a line alone: the refused field.
fn refused(number: usize, text: &str) -> Option<u64> {
    let field = match line::read(text.as_bytes(), number) {
        Ok(_) => None,
        Err(Refusal::Line(field)) => Some(field),
        Err(refusal) => panic!("a reader refuses by cause 15, not by {refusal}"),
    };
    assert_eq!(proved::refused_field(number, text.as_bytes()), field);
    field
}

#[test]
fn refused_lines() {
    let table = [
        (3, "\n", 1),
        (3, "m,1\n", 1),
        (1, "D,2,500000\n", 1),
        (3, "O,1\n", 1),
        (3, "M\n", 0),
        (3, "M,1", 0),
        (3, "X,1", 1),
        (3, "T,1,2,3,4\n", 0),
        (3, "M,\n", 2),
        (3, "D,02,5\n", 2),
        (3, "M,-1\n", 2),
        (3, "M,1\r\n", 2),
        (3, "D,1,12345678901\n", 3),
        (3, "T,1,2,x,4,y\n", 4),
    ];
    for (number, text, field) in table {
        assert_eq!(refused(number, text), Some(field), "{text:?}");
    }
}

#[test]
fn an_accepted_line_is_written_again() {
    for (number, line) in (1..).zip(opening().split_inclusive('\n')) {
        assert_eq!(refused(number, line), None);
        assert_eq!(
            proved::rewrite(number, line.as_bytes()).as_deref(),
            Some(line.as_bytes())
        );
    }
    assert_eq!(proved::rewrite(3, b"M,01\n"), None);
}

#[test]
fn a_week_has_the_greatest_size() {
    let week = generate::week(1);
    assert_eq!(week.len(), INPUT_LIMIT);
    assert!(week.ends_with(b"\n"));
}

//! What the proved functions do with the caller's place: its front is written, the rest is left, and a place
//! that is too short is left whole.

use harness::generate;
use harness::proved::{self, Failure};

const FILL: u8 = 0xa5;

/// Tries a place that is just too short, one that just suffices, and a longer one.
fn check_places(wanted: &[u8], write: impl Fn(&mut [u8]) -> Result<usize, Failure>) {
    if let Some(short) = wanted.len().checked_sub(1) {
        let mut out = vec![FILL; short];
        assert_eq!(write(&mut out), Err(Failure::TooShort));
        assert!(out.iter().all(|&byte| byte == FILL));
    }
    for more in [0, 1, 100] {
        let mut out = vec![FILL; wanted.len() + more];
        assert_eq!(write(&mut out), Ok(wanted.len()));
        let (front, rest) = out.split_at(wanted.len());
        assert_eq!(front, wanted);
        assert!(rest.iter().all(|&byte| byte == FILL));
    }
}

#[test]
fn served_files() {
    for number in 0..40 {
        let file = generate::file(7, number);
        check_places(&proved::serve(&file), |out| proved::serve_into(&file, out));
        check_places(&proved::serve_large(&file), |out| {
            proved::serve_large_into(&file, out)
        });
    }
    check_places(b"", |out| proved::serve_into(b"", out));
}

#[test]
fn rewritten_lines() {
    let week = generate::week(7);
    for (number, line) in (1..).zip(week.split_inclusive(|&byte| byte == b'\n')) {
        check_places(line, |out| proved::rewrite_into(number, line, out));
    }
}

#[test]
fn a_refused_line_leaves_the_place() {
    let mut out = [FILL; proved::LINE_ROOM];
    let written = proved::rewrite_into(3, b"M,01\n", &mut out);
    assert_eq!(written, Err(Failure::Refused));
    assert_eq!(out, [FILL; proved::LINE_ROOM]);
}

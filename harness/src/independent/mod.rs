//! The margin book written a second time from its rules, in plain Rust: a file of lines in,
//! the printed answers out. It shares no code with the program, so that the two can be compared.

pub mod book;
pub mod desk;
pub mod line;
pub mod product;
pub mod refusal;
pub mod writer;

use book::Places;
use desk::{Answer, Desk};
use refusal::Refusal;

/// The longest input that is served.
pub const INPUT_LIMIT: usize = 65_536;

/// All that is printed for an input.
pub fn serve(input: &[u8]) -> Vec<u8> {
    serve_over(Places::USUAL, input)
}

/// The same over a book with the most places.
pub fn serve_large(input: &[u8]) -> Vec<u8> {
    serve_over(Places::MOST, input)
}

fn serve_over(places: Places, input: &[u8]) -> Vec<u8> {
    let mut printed = String::new();
    if input.len() > INPUT_LIMIT {
        print(&mut printed, Answer::Refused(0, Refusal::Line(0)));
        return printed.into_bytes();
    }
    let mut desk = Desk::new(places);
    for line in input.split_inclusive(|&byte| byte == b'\n') {
        print(&mut printed, desk.answer(line));
        if desk.is_closed() {
            break;
        }
    }
    printed.into_bytes()
}

fn print(printed: &mut String, answer: Answer) {
    printed.push_str(&answer.to_string());
    printed.push('\n');
}

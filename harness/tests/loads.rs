//! The files of known load bring a book where they say, and fit into an input.

use std::collections::BTreeSet;

use harness::independent::book::{Book, Places};
use harness::independent::desk::{Answer, Desk};
use harness::independent::INPUT_LIMIT;
use harness::loads;

/// The book after a file, of which every line is accepted.
fn book_after(places: Places, file: &[u8]) -> Book {
    assert!(file.len() <= INPUT_LIMIT, "{} bytes", file.len());
    let mut desk = Desk::new(places);
    for line in file.split_inclusive(|&byte| byte == b'\n') {
        let answer = desk.answer(line);
        assert!(!matches!(answer, Answer::Refused(..)), "{answer}");
    }
    desk.book().expect("the book is open").clone()
}

#[test]
fn reports_are_on_so_many_lots() {
    for lots in [1_024, 2_048, 4_096] {
        let book = book_after(Places::MOST, &loads::reports(lots, 200));
        assert_eq!(book.lots().len(), lots);
    }
}

#[test]
fn the_trade_makes_500_pairs() {
    let before = book_after(Places::USUAL, &loads::pairs(false));
    assert_eq!((before.lots().len(), before.slips().len()), (1_000, 0));
    let after = book_after(Places::USUAL, &loads::pairs(true));
    assert_eq!((after.lots().len(), after.slips().len()), (501, 500));
}

#[test]
fn slips_are_spread_over_64_accounts() {
    for slips in [2_048, 4_096, 8_192] {
        let book = book_after(Places::MOST, &loads::slips(slips, false));
        assert_eq!(book.slips().len(), slips);
        let accounts: BTreeSet<u64> = book.slips().iter().map(|slip| slip.account).collect();
        assert_eq!(accounts.len(), 64);
        let after = book_after(Places::MOST, &loads::slips(slips, true));
        assert!(after.slips().is_empty());
    }
}

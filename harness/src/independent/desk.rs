//! Serves the lines of one file, in their order.

use std::fmt;

use super::book::{Book, Places, Report};
use super::line::{self, Call};
use super::refusal::Refusal;

/// What is printed for a line.
#[derive(Clone, Debug, PartialEq, Eq)]
pub enum Answer {
    Accepted {
        entry: u64,
    },
    Reported {
        account: u64,
        report: Report,
    },
    /// The line's number and the cause.
    Refused(usize, Refusal),
}

impl fmt::Display for Answer {
    fn fmt(&self, f: &mut fmt::Formatter<'_>) -> fmt::Result {
        match self {
            Answer::Accepted { entry } => write!(f, "OK,{entry}"),
            Answer::Reported { account, report } => write!(f, "M,{account},{report}"),
            Answer::Refused(line_number, refusal) => write!(f, "NO,{line_number},{refusal}"),
        }
    }
}

/// The desk takes one line after the other.
#[derive(Clone, Debug)]
pub struct Desk {
    places: Places,
    lines: usize,
    book: Option<Book>,
    closed: bool,
}

impl Desk {
    /// A desk whose book will have these places.
    pub fn new(places: Places) -> Desk {
        Desk {
            places,
            lines: 0,
            book: None,
            closed: false,
        }
    }

    /// Serves the next line.
    pub fn answer(&mut self, line: &[u8]) -> Answer {
        self.lines += 1;
        let outcome = line::read(line, self.lines).and_then(|call| self.serve(call));
        outcome.unwrap_or_else(|refusal| {
            self.closed = self.lines <= 2;
            Answer::Refused(self.lines, refusal)
        })
    }

    /// Nothing is served after a refusal on line 1 or 2.
    pub fn is_closed(&self) -> bool {
        self.closed
    }

    /// The book, once line 1 was accepted.
    pub fn book(&self) -> Option<&Book> {
        self.book.as_ref()
    }

    fn serve(&mut self, call: Call) -> Result<Answer, Refusal> {
        if let Call::Open(opening) = &call {
            self.book = Some(Book::open(opening, self.places)?);
            return Ok(Answer::Accepted { entry: 0 });
        }
        let book = self.book.as_mut().expect("line 1 opened the book");
        let entry = match call {
            Call::Open(_) => 0,
            Call::Schedule(amounts) => {
                book.set_schedule(amounts)?;
                0
            }
            Call::Trade(trade) => book.trade(&trade)?,
            Call::Declare(declaration) => book.declare(&declaration)?,
            Call::Deposit { account, yen } => book.deposit(account, yen)?,
            Call::Withdraw { account, yen } => book.withdraw(account, yen)?,
            Call::RollOver(sheet) => book.roll_over(&sheet)?,
            Call::Report { account } => {
                let report = book.report(account)?;
                return Ok(Answer::Reported { account, report });
            }
        };
        Ok(Answer::Accepted { entry })
    }
}

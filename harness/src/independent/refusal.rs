//! Why a line or a call is refused.

use std::fmt;

#[derive(Clone, Copy, Debug, PartialEq, Eq)]
pub enum Refusal {
    Account(u64),
    Product(u64),
    Quantity,
    Figure,
    SameAccount,
    PositionLimit(u64),
    Places,
    Entries,
    NotDeclaring,
    NoBoughtLot,
    NoSoldLot,
    Remainder(u64),
    Amount,
    Withdrawable(u64),
    Line(u64),
    BaseAmount,
}

impl Refusal {
    /// The layer's letter, the cause's number and the detail.
    pub fn told(self) -> (char, u8, u64) {
        match self {
            Refusal::Account(number) => ('B', 2, number),
            Refusal::Product(number) => ('B', 3, number),
            Refusal::Quantity => ('B', 4, 0),
            Refusal::Figure => ('B', 5, 0),
            Refusal::SameAccount => ('B', 6, 0),
            Refusal::PositionLimit(account) => ('B', 7, account),
            Refusal::Places => ('B', 8, 0),
            Refusal::Entries => ('B', 9, 0),
            Refusal::NotDeclaring => ('R', 10, 0),
            Refusal::NoBoughtLot => ('B', 11, 1),
            Refusal::NoSoldLot => ('B', 11, 2),
            Refusal::Remainder(remainder) => ('B', 12, remainder),
            Refusal::Amount => ('B', 13, 0),
            Refusal::Withdrawable(yen) => ('B', 14, yen),
            Refusal::Line(field) => ('L', 15, field),
            Refusal::BaseAmount => ('S', 16, 0),
        }
    }
}

impl fmt::Display for Refusal {
    fn fmt(&self, f: &mut fmt::Formatter<'_>) -> fmt::Result {
        let (layer, number, detail) = self.told();
        write!(f, "{layer},{number},{detail}")
    }
}

/// Refuses where the cause holds.
pub fn refuse_if(holds: bool, refusal: Refusal) -> Result<(), Refusal> {
    if holds {
        Err(refusal)
    } else {
        Ok(())
    }
}

//! Reads a line of the file into a call.

use super::product::{ByProduct, PRODUCTS};
use super::refusal::{refuse_if, Refusal};

const MOST_ACCOUNTS: usize = 64;
const MOST_DIGITS: usize = 10;

/// How an account closes.
#[derive(Clone, Copy, Debug, PartialEq, Eq)]
pub enum Method {
    OldestFirst,
    Designated,
}

#[derive(Clone, Debug, PartialEq, Eq)]
pub enum Call {
    Open(Opening),
    Schedule(ByProduct<u64>),
    Trade(Trade),
    Declare(Declaration),
    Deposit { account: u64, yen: u64 },
    Withdraw { account: u64, yen: u64 },
    RollOver(Sheet),
    Report { account: u64 },
}

#[derive(Clone, Debug, PartialEq, Eq)]
pub struct Opening {
    /// One for each account.
    pub methods: Vec<Method>,
    pub prices: ByProduct<u64>,
}

#[derive(Clone, Copy, Debug, PartialEq, Eq)]
pub struct Trade {
    pub buyer: u64,
    pub seller: u64,
    pub product: u64,
    pub quantity: u64,
    pub price: u64,
}

#[derive(Clone, Copy, Debug, PartialEq, Eq)]
pub struct Declaration {
    pub account: u64,
    pub product: u64,
    pub bought_entry: u64,
    pub sold_entry: u64,
    pub quantity: u64,
}

#[derive(Clone, Debug, PartialEq, Eq)]
pub struct Sheet {
    pub bank_mark: u64,
    pub prices: ByProduct<u64>,
    pub points: ByProduct<i64>,
}

/// The call that a line says. Lines are numbered from 1; a line holds its line feed.
pub fn read(line: &[u8], line_number: usize) -> Result<Call, Refusal> {
    let (text, is_ended) = match line.split_last() {
        Some((b'\n', text)) => (text, true),
        _ => (line, false),
    };
    let fields: Vec<&[u8]> = text.split(|&byte| byte == b',').collect();
    let letter = letter(fields[0], line_number).ok_or(Refusal::Line(1))?;
    refuse_if(
        !is_ended || fields.len() != field_count(letter),
        Refusal::Line(0),
    )?;
    let mut fields = Fields { fields, taken: 1 };
    call(letter, &mut fields)
}

/// The letter in the first field, if it may stand on that line.
fn letter(field: &[u8], line_number: usize) -> Option<u8> {
    let allowed: &[u8] = match line_number {
        1 => b"O",
        2 => b"S",
        _ => b"TCDWRM",
    };
    match field {
        [letter] if allowed.contains(letter) => Some(*letter),
        _ => None,
    }
}

fn field_count(letter: u8) -> usize {
    match letter {
        b'O' => 3 + PRODUCTS,
        b'S' => 1 + PRODUCTS,
        b'R' => 2 + 2 * PRODUCTS,
        b'T' | b'C' => 6,
        b'D' | b'W' => 3,
        _ => 2,
    }
}

fn call(letter: u8, fields: &mut Fields) -> Result<Call, Refusal> {
    Ok(match letter {
        b'O' => {
            let accounts = fields.number()?;
            Call::Open(Opening {
                methods: fields.methods(accounts)?,
                prices: fields.numbers()?,
            })
        }
        b'S' => Call::Schedule(fields.numbers()?),
        b'T' => Call::Trade(Trade {
            buyer: fields.number()?,
            seller: fields.number()?,
            product: fields.number()?,
            quantity: fields.number()?,
            price: fields.number()?,
        }),
        b'C' => Call::Declare(Declaration {
            account: fields.number()?,
            product: fields.number()?,
            bought_entry: fields.number()?,
            sold_entry: fields.number()?,
            quantity: fields.number()?,
        }),
        b'D' => Call::Deposit {
            account: fields.number()?,
            yen: fields.number()?,
        },
        b'W' => Call::Withdraw {
            account: fields.number()?,
            yen: fields.number()?,
        },
        b'R' => Call::RollOver(Sheet {
            bank_mark: fields.number()?,
            prices: fields.numbers()?,
            points: fields.points()?,
        }),
        _ => Call::Report {
            account: fields.number()?,
        },
    })
}

/// The fields of a line, read one after the other.
struct Fields<'a> {
    fields: Vec<&'a [u8]>,
    taken: usize,
}

impl<'a> Fields<'a> {
    /// Reads the next field; one that `parse` does not take is refused by its number.
    fn read<T>(&mut self, parse: impl Fn(&'a [u8]) -> Option<T>) -> Result<T, Refusal> {
        let field = self.fields[self.taken];
        self.taken += 1;
        parse(field).ok_or(Refusal::Line(self.taken as u64))
    }

    fn number(&mut self) -> Result<u64, Refusal> {
        self.read(parse_number)
    }

    fn numbers(&mut self) -> Result<ByProduct<u64>, Refusal> {
        let mut numbers = [0; PRODUCTS];
        for number in &mut numbers {
            *number = self.number()?;
        }
        Ok(numbers)
    }

    fn points(&mut self) -> Result<ByProduct<i64>, Refusal> {
        let mut points = [0; PRODUCTS];
        for point in &mut points {
            *point = self.read(parse_points)?;
        }
        Ok(points)
    }

    fn methods(&mut self, accounts: u64) -> Result<Vec<Method>, Refusal> {
        self.read(|field| parse_methods(field, accounts))
    }
}

fn parse_number(field: &[u8]) -> Option<u64> {
    let has_leading_zero = field.len() > 1 && field[0] == b'0';
    if field.is_empty() || field.len() > MOST_DIGITS || has_leading_zero {
        return None;
    }
    field.iter().try_fold(0, |number, byte| match byte {
        b'0'..=b'9' => Some(number * 10 + u64::from(byte - b'0')),
        _ => None,
    })
}

fn parse_points(field: &[u8]) -> Option<i64> {
    match field {
        [b'-', digits @ ..] => match parse_number(digits)? {
            0 => None,
            number => Some(-(number as i64)),
        },
        digits => Some(parse_number(digits)? as i64),
    }
}

fn parse_methods(field: &[u8], accounts: u64) -> Option<Vec<Method>> {
    let is_counted = (1..=MOST_ACCOUNTS).contains(&field.len()) && field.len() as u64 == accounts;
    if !is_counted {
        return None;
    }
    field
        .iter()
        .map(|letter| match letter {
            b'F' => Some(Method::OldestFirst),
            b'D' => Some(Method::Designated),
            _ => None,
        })
        .collect()
}

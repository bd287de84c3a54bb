//! Writes a call as its line, with its line feed.

use std::io::{self, Write};

use super::line::{Call, Declaration, Method, Trade};

/// Writes the call's line to the front of `out`: its length, or none where `out` is too short.
pub fn write(call: &Call, out: &mut [u8]) -> Option<usize> {
    let room = out.len();
    let mut rest = out;
    write_line(call, &mut rest).ok()?;
    Some(room - rest.len())
}

fn write_line(call: &Call, out: &mut &mut [u8]) -> io::Result<()> {
    match call {
        Call::Open(opening) => {
            write!(out, "O,{},", opening.methods.len())?;
            for method in &opening.methods {
                out.write_all(match method {
                    Method::OldestFirst => b"F",
                    Method::Designated => b"D",
                })?;
            }
            write_all(&opening.prices, out)?;
        }
        Call::Schedule(amounts) => {
            write!(out, "S")?;
            write_all(amounts, out)?;
        }
        Call::Trade(Trade {
            buyer,
            seller,
            product,
            quantity,
            price,
        }) => write!(out, "T,{buyer},{seller},{product},{quantity},{price}")?,
        Call::Declare(Declaration {
            account,
            product,
            bought_entry,
            sold_entry,
            quantity,
        }) => write!(
            out,
            "C,{account},{product},{bought_entry},{sold_entry},{quantity}"
        )?,
        Call::Deposit { account, yen } => write!(out, "D,{account},{yen}")?,
        Call::Withdraw { account, yen } => write!(out, "W,{account},{yen}")?,
        Call::RollOver(sheet) => {
            write!(out, "R,{}", sheet.bank_mark)?;
            write_all(&sheet.prices, out)?;
            write_all(&sheet.points, out)?;
        }
        Call::Report { account } => write!(out, "M,{account}")?,
    }
    out.write_all(b"\n")
}

/// Each figure with a comma before it.
fn write_all<T: std::fmt::Display>(figures: &[T], out: &mut &mut [u8]) -> io::Result<()> {
    figures
        .iter()
        .try_for_each(|figure| write!(out, ",{figure}"))
}

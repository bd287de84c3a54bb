//! Files that bring a book to a known load. Numbers are short, so that large loads fit into a file.

/// The price of every trade that opens a lot.
const PRICE: u64 = 5;
const PRICES: &str = "9,9,9,9,9,9,9,9,9,9,9,9,9,9,9,9";
const ZEROS: &str = "0,0,0,0,0,0,0,0,0,0,0,0,0,0,0,0";
/// The most contracts of an account on one side of a product.
const MOST: usize = 500;

fn opening(methods: &str) -> String {
    format!("O,{},{methods},{PRICES}\nS,{PRICES}\n", methods.len())
}

/// Trades of one contract.
fn trades(file: &mut String, count: usize, buyer: usize, seller: usize, product: usize) {
    for _ in 0..count {
        file.push_str(&format!("T,{buyer},{seller},{product},1,{PRICE}\n"));
    }
}

/// So many open lots of two accounts that declare, in yen and cross products, then reports.
pub fn reports(lots: usize, reports: usize) -> Vec<u8> {
    let mut file = opening("DD");
    let mut left = lots / 2;
    for product in [1, 4, 11, 12, 16] {
        let count = left.min(MOST);
        trades(&mut file, count, 1, 2, product);
        left -= count;
    }
    assert_eq!(left, 0, "the products hold that many lots");
    file.push_str(&"M,1\n".repeat(reports));
    file.into_bytes()
}

/// A thousand open lots, and a trade that makes 500 pairs, or not.
pub fn pairs(with_trade: bool) -> Vec<u8> {
    let mut file = opening("FD");
    trades(&mut file, MOST, 2, 1, 1);
    if with_trade {
        file.push_str(&format!("T,1,2,1,{MOST},7\n"));
    }
    file.into_bytes()
}

/// So many slips of today over 64 accounts, and a rollover, or not.
///
/// A trade needs 1,000 free slip places, so the last trade makes the last 1,000 slips.
pub fn slips(slips: usize, with_rollover: bool) -> Vec<u8> {
    const COUPLES: usize = 32;
    let mut file = opening(&"F".repeat(2 * COUPLES));
    // a couple of accounts makes two slips of each contract that goes to and fro
    let others = (slips - 2 * MOST) / 2;
    for couple in (0..COUPLES).rev() {
        let contracts = match couple {
            0 => MOST,
            _ => others * couple / (COUPLES - 1) - others * (couple - 1) / (COUPLES - 1),
        };
        let (one, two) = (2 * couple + 1, 2 * couple + 2);
        let product = 1 + couple % 16;
        trades(&mut file, contracts, two, one, product);
        file.push_str(&format!("T,{one},{two},{product},{contracts},7\n"));
    }
    if with_rollover {
        file.push_str(&format!("R,1,{PRICES},{ZEROS}\n"));
    }
    file.into_bytes()
}

//! Executes the exchange's published figures on the proved library, each by whole files, and prints what
//! was expected and found. The exit status is 1 where they differ.

use std::process::ExitCode;

use harness::proved;

const PRODUCTS: usize = 16;
/// 100.000 yen in the products that convert: a hundredth of the second currency is one yen.
const PRICE: u64 = 100_000;
const OPENED: &str = "OK,0\nOK,0\n";

type Prices = [u64; PRODUCTS];

/// A file over two accounts of method F, with no base amounts.
fn printed(prices: &Prices, lines: &str) -> String {
    let prices = prices.map(|price| price.to_string()).join(",");
    let amounts = [0; PRODUCTS].map(|amount| amount.to_string()).join(",");
    let file = format!("O,2,FF,{prices}\nS,{amounts}\n{lines}");
    String::from_utf8(proved::serve(file.as_bytes())).expect("answers are text")
}

/// The numbers of the report that was printed last: the account, then its seven figures.
fn report(printed: &str) -> Vec<i64> {
    let line = printed.lines().last().unwrap_or_default();
    let fields = line.strip_prefix("M,").unwrap_or_default().split(',');
    fields.filter_map(|field| field.parse().ok()).collect()
}

/// The places of two figures in a report, counted from the account's number.
const SETTLED: usize = 2;
const OPEN_WORTH: usize = 3;

fn figure(printed: &str, place: usize) -> String {
    match report(printed).get(place) {
        Some(figure) => figure.to_string(),
        None => "no figure".to_string(),
    }
}

/// What a lot of one contract is worth to an account after a rise of some steps: 1 bought, 2 sold.
fn open_worth(account: u64, product: usize, steps: u64, prices: &Prices) -> String {
    let price = prices[product - 1] - steps;
    let lines = format!("T,1,2,{product},1,{price}\nM,{account}\n");
    figure(&printed(prices, &lines), OPEN_WORTH)
}

/// What is settled for account 1 by buying one contract and selling it some steps higher.
fn settled(product: usize, steps: u64) -> String {
    let higher = PRICE + steps;
    let lines = format!("T,1,2,{product},1,{PRICE}\nT,2,1,{product},1,{higher}\nM,1\n");
    figure(&printed(&[PRICE; PRODUCTS], &lines), SETTLED)
}

/// The figures told so far.
#[derive(Default)]
struct Table {
    rows: usize,
    differences: usize,
}

impl Table {
    fn tell(&mut self, what: &str, expected: impl ToString, found: String) {
        let expected = expected.to_string();
        let is_same = expected == found;
        self.rows += 1;
        self.differences += usize::from(!is_same);
        let mark = if is_same { "" } else { "  DIFFERS" };
        println!("{what:<66} {expected:>18} {found:>18}{mark}");
    }

    fn head(&self, title: &str) {
        println!("\n{title:<66} {:>18} {:>18}", "expected", "found");
    }
}

/// Products, steps, and what these are worth a contract: yen, or hundredths at 100.000 yen a unit.
const TICKS: [(&[usize], u64, i64, &str); 5] = [
    (&[1, 3, 7], 5, 50, "50 yen"),
    (&[5, 9, 10], 10, 100, "100 yen"),
    (&[2, 4, 6, 8], 1, 100, "100 yen"),
    (&[12], 1, 1_000, "10 USD, 1,000 hundredths"),
    (&[11, 13, 14, 15, 16], 1, 100, "1 unit, 100 hundredths"),
];

fn ticks(table: &mut Table) {
    table.head("the published tick, a contract");
    let prices = [PRICE; PRODUCTS];
    for (products, steps, yen, worth) in TICKS {
        for &product in products {
            let tell = |what: &str| format!("product {product}, {steps} steps, {worth}: {what}");
            let bought = open_worth(1, product, steps, &prices);
            table.tell(&tell("bought"), yen, bought);
            let sold = open_worth(2, product, steps, &prices);
            table.tell(&tell("sold"), -yen, sold);
            table.tell(&tell("settled"), yen, settled(product, steps));
        }
    }
}

/// What a contract is of: the worth of a move by one whole unit of the price.
fn contracts(table: &mut Table) {
    table.head("the size of a contract: a move by one whole yen or unit");
    for product in 1..=PRODUCTS {
        let is_large = [2, 4, 6, 8, 12].contains(&product);
        let units = if is_large { 100_000 } else { 10_000 };
        // prices of yen products have three decimals, those of the others four
        let (steps, yen) = if product <= 10 {
            (1_000, units)
        } else {
            (10_000, units * 100)
        };
        let found = open_worth(1, product, steps, &[PRICE; PRODUCTS]);
        table.tell(&format!("product {product}, {units} units"), yen, found);
    }
}

/// The other products whose price changes what a lot of this product is worth.
fn changing(product: usize) -> String {
    let prices = [PRICE; PRODUCTS];
    let worth = open_worth(1, product, 1, &prices);
    let changes = |&other: &usize| {
        let mut changed = prices;
        changed[other - 1] = 2 * PRICE;
        open_worth(1, product, 1, &changed) != worth
    };
    let others = (1..=PRODUCTS).filter(|&other| other != product);
    let found: Vec<String> = others
        .filter(changes)
        .map(|other| other.to_string())
        .collect();
    if found.is_empty() {
        "none".to_string()
    } else {
        found.join(" ")
    }
}

fn conversions(table: &mut Table) {
    table.head("whose price converts a product");
    for product in 1..=PRODUCTS {
        let expected = match product {
            11 | 13 | 14 => "1",
            12 => "2",
            15 => "9",
            16 => "10",
            _ => "none",
        };
        table.tell(&format!("product {product}"), expected, changing(product));
    }
}

fn blocks(table: &mut Table) {
    table.head("blocks: a trade has at most 500 contracts");
    let answers = |lines: &str| {
        let printed = printed(&[PRICE; PRODUCTS], lines);
        let rest = printed.strip_prefix(OPENED).unwrap_or_default();
        rest.trim_end().replace('\n', " ")
    };
    for product in 1..=PRODUCTS {
        let found = [500, 300, 50]
            .map(|block| answers(&format!("T,1,2,{product},{block},{PRICE}\n")))
            .join(" ");
        let what = format!("product {product}, blocks of 500, 300 and 50, each alone");
        table.tell(&what, "OK,1 OK,1 OK,1", found);
    }
    let found = answers(&format!("T,1,2,1,501,{PRICE}\n"));
    table.tell("501 contracts in a trade", "NO,3,B,4,0", found);
    let found = answers(&format!("T,1,2,1,500,{PRICE}\nT,1,2,1,1,{PRICE}\n"));
    table.tell("500 held, and one more", "OK,1 NO,4,B,7,1", found);
}

fn main() -> ExitCode {
    let mut table = Table::default();
    ticks(&mut table);
    contracts(&mut table);
    conversions(&mut table);
    blocks(&mut table);
    println!("\n{} figures, {} differ", table.rows, table.differences);
    if table.differences == 0 {
        ExitCode::SUCCESS
    } else {
        ExitCode::FAILURE
    }
}

//! Files that follow the book's state, so that most calls are accepted and the others are refused for a chosen cause.

use crate::independent::book::{Book, Lot, Places, Side};
use crate::independent::desk::Desk;
use crate::independent::INPUT_LIMIT;

use super::random::Random;

const REAL_PRICES: [i64; 16] = [
    150_337, 150_341, 162_915, 162_921, 190_633, 190_640, 98_217, 98_223, 170_419, 109_873, 10_837,
    10_838, 12_681, 6_533, 8_821, 13_683,
];
const REAL_AMOUNTS: [u64; 16] = [
    61_000, 610_000, 66_000, 660_000, 79_000, 790_000, 40_000, 400_000, 69_000, 45_000, 66_000,
    660_000, 77_000, 40_000, 61_000, 61_000,
];
const CROSS: [u64; 6] = [11, 12, 13, 14, 15, 16];

/// What prices a file has.
#[derive(Clone, Copy, PartialEq, Eq)]
enum Prices {
    Real,
    Any,
    Ends,
}

/// What quantities.
#[derive(Clone, Copy, PartialEq, Eq)]
enum Quantities {
    One,
    Small,
    Any,
    Most,
}

#[derive(Clone, Copy, PartialEq, Eq)]
enum Call {
    Trade,
    TradeBack,
    Declare,
    Deposit,
    Withdraw,
    RollOver,
    Report,
    WrongTrade,
    WrongDeclaration,
    WrongPayment,
    WrongSheet,
    WrongLine,
}

const CALLS: [Call; 12] = [
    Call::Trade,
    Call::TradeBack,
    Call::Declare,
    Call::Deposit,
    Call::Withdraw,
    Call::RollOver,
    Call::Report,
    Call::WrongTrade,
    Call::WrongDeclaration,
    Call::WrongPayment,
    Call::WrongSheet,
    Call::WrongLine,
];

/// How often each call comes, in the order of `CALLS`.
type Weights = [u64; 12];

const ALL_SORTS: Weights = [24, 16, 12, 6, 8, 7, 12, 3, 4, 2, 2, 4];
const ACCEPTED: Weights = [30, 22, 16, 6, 6, 8, 12, 0, 0, 0, 0, 0];
const FILL_LOTS: Weights = [66, 10, 4, 1, 1, 1, 2, 4, 2, 1, 1, 1];
const FILL_SLIPS: Weights = [3, 4, 600, 1, 1, 1, 2, 1, 3, 1, 1, 1];
const PAYMENTS: Weights = [8, 8, 6, 22, 30, 8, 12, 1, 1, 3, 1, 0];
const SHEETS: Weights = [10, 10, 8, 2, 4, 40, 20, 0, 0, 0, 6, 0];
const TRADING: Weights = [16, 26, 30, 6, 6, 0, 16, 0, 0, 0, 0, 0];
const REFUSALS: Weights = [8, 4, 4, 2, 4, 3, 6, 25, 20, 8, 8, 8];

struct Walk<'a> {
    random: &'a mut Random,
    desk: Desk,
    text: Vec<u8>,
    methods: String,
    products: Vec<u64>,
    prices: Prices,
    quantities: Quantities,
    weights: Weights,
}

/// A file of a drawn size, over drawn accounts, products, prices and quantities.
pub fn walk(random: &mut Random) -> Vec<u8> {
    let weights = random.pick(&[
        ALL_SORTS, ALL_SORTS, ACCEPTED, ACCEPTED, FILL_LOTS, FILL_SLIPS, PAYMENTS, SHEETS, REFUSALS,
    ]);
    let accounts = match random.below(40) {
        0 => 1,
        1..=3 => 64,
        4..=7 => random.between(1, 64),
        _ => random.between(2, 8),
    };
    let methods = (0..accounts).map(|_| random.pick(&['F', 'D'])).collect();
    let products = match random.below(4) {
        0 => vec![random.pick(&CROSS)],
        1 => CROSS.to_vec(),
        2 => (0..3).map(|_| 1 + random.below(16)).collect(),
        _ => (1..=16).collect(),
    };
    let prices = random.pick(&[Prices::Real, Prices::Real, Prices::Any, Prices::Ends]);
    let quantities = random.pick(&[
        Quantities::One,
        Quantities::Small,
        Quantities::Small,
        Quantities::Any,
        Quantities::Most,
    ]);
    let size = match random.below(20) {
        0 => INPUT_LIMIT,
        1 | 2 => 30_000,
        3..=6 => 8_000,
        _ => 1_500,
    };
    // a few follow a book with the most places
    let places = random.pick(&[Places::USUAL, Places::USUAL, Places::USUAL, Places::MOST]);
    // only long files fill the places
    let size = if weights == FILL_LOTS || weights == FILL_SLIPS {
        size.max(50_000)
    } else {
        size
    };
    let mut walk = Walk {
        random,
        desk: Desk::new(places),
        text: Vec::new(),
        methods,
        products,
        prices,
        quantities,
        weights,
    };
    walk.open();
    if weights == FILL_SLIPS {
        walk.prepare_slips();
    }
    while walk.text.len() + 400 < size && !walk.desk.is_closed() {
        walk.call();
    }
    walk.text
}

/// A trading week of exactly the greatest size: five days, each ended by a rollover, over twelve
/// accounts of both methods and all products.
pub fn week(seed: u64) -> Vec<u8> {
    const DAYS: usize = 5;
    let mut walk = Walk {
        random: &mut Random::new(seed),
        desk: Desk::new(Places::USUAL),
        text: Vec::new(),
        methods: "FFDFFDFFDFFD".to_string(),
        products: (1..=16).collect(),
        prices: Prices::Real,
        quantities: Quantities::Small,
        weights: TRADING,
    };
    walk.open();
    for day in 1..=DAYS {
        // room for the rollover, and for the last line to be one of two lengths
        while walk.text.len() + 400 < INPUT_LIMIT / DAYS * day {
            walk.call();
        }
        walk.roll_over();
    }
    while walk.text.len() < INPUT_LIMIT {
        let account = if (INPUT_LIMIT - walk.text.len()).is_multiple_of(4) {
            1
        } else {
            10
        };
        walk.say(format!("M,{account}"));
    }
    walk.text
}

impl Walk<'_> {
    /// Serves a line, which has no line feed yet, and puts it last.
    fn say(&mut self, line: impl Into<Vec<u8>>) {
        let mut line = line.into();
        line.push(b'\n');
        self.desk.answer(&line);
        self.text.extend(line);
    }

    fn book(&self) -> &Book {
        self.desk.book().expect("the book is open")
    }

    fn open(&mut self) {
        let prices: Vec<i64> = (1..=16).map(|product| self.first_price(product)).collect();
        let amounts: Vec<u64> = match self.random.below(4) {
            0 => (0..16)
                .map(|_| self.random.pick(&[0, 1, 1_000_000_000]))
                .collect(),
            1 => (0..16).map(|_| self.random.below(1_000_000_001)).collect(),
            _ => REAL_AMOUNTS.to_vec(),
        };
        let line = format!(
            "O,{},{},{}",
            self.methods.len(),
            self.methods,
            listed(&prices)
        );
        self.say(line);
        self.say(format!("S,{}", listed(&amounts)));
    }

    /// Lots of 500 contracts on both sides, so that many slips can be declared.
    fn prepare_slips(&mut self) {
        let declaring: Vec<u64> = self.accounts_by('D');
        for product in 1..=4 {
            if let [one, two, ..] = declaring[..] {
                for (buyer, seller) in [(one, two), (two, one)] {
                    let price = self.trade_price(product);
                    self.say(format!("T,{buyer},{seller},{product},500,{price}"));
                }
            }
        }
    }

    fn accounts_by(&self, method: char) -> Vec<u64> {
        let methods = self.methods.chars().zip(1..);
        methods
            .filter(|(m, _)| *m == method)
            .map(|(_, account)| account)
            .collect()
    }

    fn call(&mut self) {
        let place = self.random.weighted(&self.weights);
        match CALLS[place] {
            Call::Trade => self.trade(),
            Call::TradeBack => self.trade_back(),
            Call::Declare => self.declare(),
            Call::Deposit => self.deposit(),
            Call::Withdraw => self.withdraw(),
            Call::RollOver => self.roll_over(),
            Call::Report => self.report(),
            Call::WrongTrade => self.wrong_trade(),
            Call::WrongDeclaration => self.wrong_declaration(),
            Call::WrongPayment => self.wrong_payment(),
            Call::WrongSheet => self.wrong_sheet(),
            Call::WrongLine => self.wrong_line(),
        }
    }

    fn account(&mut self) -> u64 {
        1 + self.random.below(self.methods.len() as u64)
    }

    /// Another account, or the same where there is only one.
    fn other_than(&mut self, account: u64) -> u64 {
        let accounts = self.methods.len() as u64;
        if accounts == 1 {
            return account;
        }
        (account + self.random.below(accounts - 1)) % accounts + 1
    }

    fn first_price(&mut self, product: usize) -> i64 {
        match self.prices {
            Prices::Real => {
                let price = REAL_PRICES[product - 1];
                price + self.random.between(-price / 50, price / 50)
            }
            Prices::Any => self.random.between(1, 999_999),
            Prices::Ends => self.random.pick(&[1, 2, 999_998, 999_999]),
        }
    }

    /// A new price by the old one.
    fn next_price(&mut self, old: u64) -> i64 {
        let old = old as i64;
        match self.prices {
            Prices::Real => (old + self.random.between(-old / 100, old / 100)).clamp(1, 999_999),
            Prices::Any => self.random.between(1, 999_999),
            Prices::Ends => self.random.pick(&[1, 2, 999_998, 999_999]),
        }
    }

    fn trade_price(&mut self, product: u64) -> i64 {
        let latest = self.book().prices()[product as usize - 1];
        self.next_price(latest)
    }

    fn quantity(&mut self) -> u64 {
        match self.quantities {
            Quantities::One => 1,
            Quantities::Small => 1 + self.random.below(6),
            Quantities::Any => 1 + self.random.below(500),
            Quantities::Most => self.random.pick(&[1, 250, 499, 500]),
        }
    }

    fn trade(&mut self) {
        let product = self.random.pick(&self.products.clone());
        let buyer = self.account();
        let seller = self.other_than(buyer);
        let (quantity, price) = (self.quantity(), self.trade_price(product));
        self.say(format!("T,{buyer},{seller},{product},{quantity},{price}"));
    }

    fn some_lot(&mut self) -> Option<Lot> {
        let count = self.book().lots().len() as u64;
        if count == 0 {
            return None;
        }
        let place = self.random.below(count) as usize;
        Some(self.book().lots()[place].clone())
    }

    /// A trade against an open lot, often of more than remains (not in a trading week).
    fn trade_back(&mut self) {
        let Some(lot) = self.some_lot() else {
            return self.trade();
        };
        let product = lot.product.number();
        let other = self.other_than(lot.account);
        let (buyer, seller) = match lot.side {
            Side::Bought => (other, lot.account),
            Side::Sold => (lot.account, other),
        };
        let ways = if self.weights == TRADING { 2 } else { 3 };
        let quantity = match self.random.below(ways) {
            0 => lot.remaining,
            1 => 1 + self.random.below(lot.remaining),
            _ => (lot.remaining + self.random.below(300)).min(500),
        };
        let price = self.trade_price(product);
        self.say(format!("T,{buyer},{seller},{product},{quantity},{price}"));
    }

    /// A bought and a sold lot of one account and product, if there are some.
    fn some_pair(&mut self) -> Option<(Lot, Lot)> {
        let lots = self.book().lots();
        let mut pairs = Vec::new();
        for (i, bought) in lots
            .iter()
            .enumerate()
            .filter(|(_, lot)| lot.side == Side::Bought)
        {
            let is_pair = |sold: &&Lot| {
                sold.side == Side::Sold
                    && sold.account == bought.account
                    && sold.product == bought.product
            };
            pairs.extend(
                lots.iter()
                    .filter(is_pair)
                    .take(3)
                    .map(|sold| (i, sold.clone())),
            );
            if pairs.len() > 30 {
                break;
            }
        }
        if pairs.is_empty() {
            return None;
        }
        let (bought, sold) = self.random.pick(&pairs);
        Some((self.book().lots()[bought].clone(), sold))
    }

    fn declare(&mut self) {
        let Some((bought, sold)) = self.some_pair() else {
            return self.trade_back();
        };
        let most = bought.remaining.min(sold.remaining);
        let quantity = match self.random.below(4) {
            _ if self.weights == FILL_SLIPS => 1,
            0 => most,
            1 => 1,
            _ => 1 + self.random.below(most),
        };
        let (account, product) = (bought.account, bought.product.number());
        self.say(format!(
            "C,{account},{product},{},{},{quantity}",
            bought.entry, sold.entry
        ));
    }

    fn deposit(&mut self) {
        let account = self.account();
        let report = self.book().report(account).expect("the account is there");
        let yen = match self.random.below(4) {
            0 if report.shortfall > 0 => report.shortfall,
            1 => 1_000_000_000,
            2 => self.random.between(1, 100),
            _ => self.random.between(1, 5_000_000),
        };
        self.say(format!("D,{account},{}", yen.min(1_000_000_000)));
    }

    fn withdraw(&mut self) {
        let account = self.account();
        let report = self.book().report(account).expect("the account is there");
        let most = report.withdrawable;
        let yen = match self.random.below(6) {
            0 => most + 1,
            1 | 2 => most,
            3 => most.saturating_sub(1),
            4 => most / 2,
            _ => self.random.below(2_000_000),
        };
        self.say(format!("W,{account},{}", yen.clamp(1, 1_000_000_000)));
    }

    fn sheet(&mut self) -> Vec<String> {
        let latest = *self.book().prices();
        let mut fields = vec!["R".to_string(), self.random.below(2).to_string()];
        fields.extend(latest.map(|price| self.next_price(price).to_string()));
        let points = self.random.pick(&[0, 9, 300, 10_000]);
        fields.extend((0..16).map(|_| self.random.between(-points, points).to_string()));
        if self.random.percent(10) {
            for field in &mut fields[18..] {
                *field = self.random.pick(&["10000", "-10000"]).to_string();
            }
        }
        fields
    }

    fn roll_over(&mut self) {
        let sheet = self.sheet();
        self.say(sheet.join(","));
    }

    fn report(&mut self) {
        let account = self.account();
        self.say(format!("M,{account}"));
    }

    fn wrong_trade(&mut self) {
        let product = self.random.pick(&self.products.clone());
        let buyer = self.account();
        let seller = self.other_than(buyer);
        let mut fields = [
            buyer,
            seller,
            product,
            self.quantity(),
            self.trade_price(product) as u64,
        ];
        for _ in 0..self.random.pick(&[1, 1, 1, 2]) {
            self.spoil_trade(&mut fields);
        }
        self.say(format!("T,{}", listed(&fields)));
    }

    fn spoil_trade(&mut self, fields: &mut [u64; 5]) {
        let above = self.methods.len() as u64 + 1;
        match self.random.below(7) {
            0 => fields[0] = self.random.pick(&[0, above, 65, 9_999_999_999]),
            1 => fields[1] = self.random.pick(&[0, above, 65, 9_999_999_999]),
            2 => fields[2] = self.random.pick(&[0, 17, 18, 9_999_999_999]),
            3 => fields[3] = self.random.pick(&[0, 501, 4_294_967_297, 9_999_999_999]),
            4 => fields[4] = self.random.pick(&[0, 1_000_000, 9_999_999_999]),
            5 => fields[0] = fields[1],
            _ => fields[3] = self.random.pick(&[400, 499, 500]),
        }
    }

    fn wrong_declaration(&mut self) {
        let entries = self.book().entries_taken();
        let (account, product, bought, sold, most) = match self.some_pair() {
            Some((b, s)) => (
                b.account,
                b.product.number(),
                b.entry,
                s.entry,
                b.remaining.min(s.remaining),
            ),
            None => (
                self.account(),
                self.random.pick(&self.products.clone()),
                1,
                2,
                1,
            ),
        };
        let mut fields = [account, product, bought, sold, most];
        match self.random.below(10) {
            0 => fields[0] = self.random.pick(&[0, 65, 9_999_999_999]),
            1 => fields[1] = self.random.pick(&[0, 17, 9_999_999_999]),
            2 => fields[4] = self.random.pick(&[0, 501, 9_999_999_999]),
            3 => fields[0] = self.account(),
            4 => fields[1] = self.random.between(1, 16) as u64,
            5 => fields.swap(2, 3),
            6 => fields[2] = self.random.below(entries + 3),
            7 => fields[3] = self.random.below(entries + 3),
            8 => fields[4] = (most + 1).min(500),
            _ => fields[4] = 500,
        }
        self.say(format!("C,{}", listed(&fields)));
    }

    fn wrong_payment(&mut self) {
        let letter = self.random.pick(&['D', 'W']);
        let account = self.account();
        let line = match self.random.below(5) {
            0 => format!("{letter},{account},0"),
            1 => format!("{letter},{account},1000000001"),
            2 => format!("{letter},{account},9999999999"),
            3 => format!("{letter},{},0", self.methods.len() + 1),
            _ => format!("M,{}", self.random.pick(&[0, 65, 9_999_999_999u64])),
        };
        self.say(line);
    }

    fn wrong_sheet(&mut self) {
        let mut fields = self.sheet();
        let place = 1 + self.random.below(33) as usize;
        let wrong = match place {
            1 => self.random.pick(&["2", "10", "9999999999", "-1", "01", ""]),
            2..=17 => self.random.pick(&[
                "0",
                "1000000",
                "9999999999",
                "-1",
                "-0",
                "01",
                "",
                "12345678901",
            ]),
            _ => self.random.pick(&[
                "10001",
                "-10001",
                "9999999999",
                "-9999999999",
                "-0",
                "-",
                "00",
                "-01",
                "+1",
                "",
            ]),
        };
        fields[place] = wrong.to_string();
        match self.random.below(20) {
            0 => drop(fields.pop()),
            1 => fields.push("0".to_string()),
            _ => {}
        }
        self.say(fields.join(","));
    }

    fn wrong_line(&mut self) {
        let account = self.account();
        let lines: [&[u8]; 24] = [
            b"",
            b"M",
            b"X",
            b",",
            b"m,1",
            b"M,",
            b"M,01",
            b"M,-1",
            b"M,1,",
            b"M,1\r",
            b" M,1",
            b"D,1",
            b"D,1,",
            b"D,1,+5",
            b"D,1,12345678901",
            b"D,01,5",
            b"T,1,2,3,4",
            b"T,1,2,x,4,y",
            b"C,1,1,1,1",
            b"R,1",
            b"O,1",
            b"S,0",
            b"W,1,\xff",
            b"DD,1,5",
        ];
        let line = self.random.pick(&lines);
        if self.random.percent(70) {
            return self.say(line);
        }
        let mut line = format!("D,{account},{}", self.random.below(1000)).into_bytes();
        let place = self.random.below(line.len() as u64) as usize;
        line[place] = self.random.pick(b"0123456789-+,DTMx \0");
        self.say(line);
    }
}

fn listed<T: ToString>(numbers: &[T]) -> String {
    numbers
        .iter()
        .map(T::to_string)
        .collect::<Vec<_>>()
        .join(",")
}

//! The book: accounts, open lots, today's slips, the latest prices, and the calls on them.

use std::fmt;

use super::line::{Declaration, Method, Opening, Sheet, Trade};
use super::product::{ByProduct, Product, PRODUCTS};
use super::refusal::{refuse_if, Refusal};

pub const ENTRIES: u64 = 20_000;

const MOST_CONTRACTS: u64 = 500;
const MOST_PRICE: u64 = 999_999;
const MOST_POINTS: i64 = 10_000;
const MOST_YEN: u64 = 1_000_000_000;

/// Places that a trade needs free.
const LOTS_OF_A_TRADE: usize = 2;
const SLIPS_OF_A_TRADE: usize = 1_000;

/// How many lots and slips a book has places for.
#[derive(Clone, Copy, Debug, PartialEq, Eq)]
pub struct Places {
    pub lots: usize,
    pub slips: usize,
}

impl Places {
    /// Those of the program.
    pub const USUAL: Places = Places {
        lots: 1_024,
        slips: 2_000,
    };
    /// The most that a book can have.
    pub const MOST: Places = Places {
        lots: 4_096,
        slips: 8_192,
    };
}

#[derive(Clone, Copy, Debug, PartialEq, Eq)]
pub enum Side {
    Bought,
    Sold,
}

/// An open position from one trade.
#[derive(Clone, Debug, PartialEq, Eq)]
pub struct Lot {
    pub account: u64,
    pub product: Product,
    pub side: Side,
    /// The entry number of the trade.
    pub entry: u64,
    pub remaining: u64,
    pub price: u64,
    /// Points of all rollovers since the trade, a contract, in the product's money.
    pub points: i64,
}

impl Lot {
    fn is_of(&self, account: u64, product: Product, side: Side) -> bool {
        self.account == account && self.product == product && self.side == side
    }

    /// What the lot is worth at a price, in the product's money.
    fn worth(&self, price: u64) -> i64 {
        let steps = match self.side {
            Side::Bought => signed(price) - signed(self.price),
            Side::Sold => signed(self.price) - signed(price),
        };
        signed(self.remaining) * (self.product.step_worth() * steps + self.points)
    }
}

/// The record of a close-out.
#[derive(Clone, Debug, PartialEq, Eq)]
pub struct Slip {
    pub account: u64,
    pub product: Product,
    pub bought_entry: u64,
    pub sold_entry: u64,
    pub quantity: u64,
    /// In the product's money.
    pub worth: i64,
}

/// A bought and a sold lot, by their places in the list, and how many contracts are closed.
#[derive(Clone, Copy, Debug)]
struct Pair {
    bought: usize,
    sold: usize,
    quantity: u64,
}

#[derive(Clone, Debug)]
struct Account {
    method: Method,
    deposit: i64,
    waiting_one: i64,
    waiting_two: i64,
}

/// The seven figures of an account, in yen.
#[derive(Clone, Copy, Debug, PartialEq, Eq)]
pub struct Report {
    pub deposit: i64,
    pub settled: i64,
    pub open_worth: i64,
    pub base: i64,
    pub required: i64,
    pub shortfall: i64,
    pub withdrawable: u64,
}

impl fmt::Display for Report {
    fn fmt(&self, f: &mut fmt::Formatter<'_>) -> fmt::Result {
        write!(
            f,
            "{},{},{},{},{},{},{}",
            self.deposit,
            self.settled,
            self.open_worth,
            self.base,
            self.required,
            self.shortfall,
            self.withdrawable
        )
    }
}

#[derive(Clone, Debug)]
pub struct Book {
    places: Places,
    accounts: Vec<Account>,
    /// The latest prices.
    prices: ByProduct<u64>,
    /// The schedule's base amounts, yen for a contract.
    base_amounts: ByProduct<u64>,
    /// Oldest first.
    lots: Vec<Lot>,
    /// Those since the last rollover, oldest first.
    slips: Vec<Slip>,
    entries_taken: u64,
}

// The calls.
impl Book {
    pub fn open(opening: &Opening, places: Places) -> Result<Book, Refusal> {
        refuse_if(!are_prices(&opening.prices), Refusal::Figure)?;
        let account = |&method: &Method| Account {
            method,
            deposit: 0,
            waiting_one: 0,
            waiting_two: 0,
        };
        Ok(Book {
            places,
            accounts: opening.methods.iter().map(account).collect(),
            prices: opening.prices,
            base_amounts: [0; PRODUCTS],
            lots: Vec::new(),
            slips: Vec::new(),
            entries_taken: 0,
        })
    }

    pub fn set_schedule(&mut self, amounts: ByProduct<u64>) -> Result<(), Refusal> {
        refuse_if(
            amounts.iter().any(|&amount| amount > MOST_YEN),
            Refusal::BaseAmount,
        )?;
        self.base_amounts = amounts;
        Ok(())
    }

    pub fn trade(&mut self, trade: &Trade) -> Result<u64, Refusal> {
        self.check_account(trade.buyer)?;
        self.check_account(trade.seller)?;
        let product = Product::new(trade.product)?;
        check_quantity(trade.quantity)?;
        refuse_if(!is_price(trade.price), Refusal::Figure)?;
        refuse_if(trade.buyer == trade.seller, Refusal::SameAccount)?;
        self.check_limit(trade.buyer, product, Side::Bought, trade.quantity)?;
        self.check_limit(trade.seller, product, Side::Sold, trade.quantity)?;
        refuse_if(
            self.places.lots - self.lots.len() < LOTS_OF_A_TRADE
                || self.places.slips - self.slips.len() < SLIPS_OF_A_TRADE,
            Refusal::Places,
        )?;
        let entry = self.take_entry()?;

        for (account, side) in [(trade.buyer, Side::Bought), (trade.seller, Side::Sold)] {
            self.lots.push(Lot {
                account,
                product,
                side,
                entry,
                remaining: trade.quantity,
                price: trade.price,
                points: 0,
            });
        }
        self.close_by_rule(trade.buyer, product);
        self.close_by_rule(trade.seller, product);
        Ok(entry)
    }

    pub fn declare(&mut self, declaration: &Declaration) -> Result<u64, Refusal> {
        let Declaration {
            account, quantity, ..
        } = *declaration;
        self.check_account(account)?;
        let product = Product::new(declaration.product)?;
        check_quantity(quantity)?;
        refuse_if(self.slips.len() == self.places.slips, Refusal::Places)?;
        self.check_entries()?;
        refuse_if(
            self.account(account).method != Method::Designated,
            Refusal::NotDeclaring,
        )?;
        let bought = self
            .place_of(account, product, Side::Bought, declaration.bought_entry)
            .ok_or(Refusal::NoBoughtLot)?;
        let sold = self
            .place_of(account, product, Side::Sold, declaration.sold_entry)
            .ok_or(Refusal::NoSoldLot)?;
        let remainder = self.smaller_remainder(bought, sold);
        refuse_if(quantity > remainder, Refusal::Remainder(remainder))?;

        self.close(Pair {
            bought,
            sold,
            quantity,
        });
        self.take_entry()
    }

    pub fn deposit(&mut self, account: u64, yen: u64) -> Result<u64, Refusal> {
        self.check_account(account)?;
        self.check_entries()?;
        check_amount(yen)?;
        self.account_mut(account).deposit += signed(yen);
        self.take_entry()
    }

    pub fn withdraw(&mut self, account: u64, yen: u64) -> Result<u64, Refusal> {
        self.check_account(account)?;
        self.check_entries()?;
        check_amount(yen)?;
        let withdrawable = self.report(account)?.withdrawable;
        refuse_if(yen > withdrawable, Refusal::Withdrawable(withdrawable))?;
        self.account_mut(account).deposit -= signed(yen);
        self.take_entry()
    }

    pub fn roll_over(&mut self, sheet: &Sheet) -> Result<u64, Refusal> {
        let are_points = sheet
            .points
            .iter()
            .all(|point| (-MOST_POINTS..=MOST_POINTS).contains(point));
        refuse_if(
            sheet.bank_mark > 1 || !are_prices(&sheet.prices) || !are_points,
            Refusal::Figure,
        )?;
        let entry = self.take_entry()?;

        self.add_points(&sheet.points);
        self.prices = sheet.prices;
        self.clear_slips();
        if sheet.bank_mark == 1 {
            self.move_waiting();
        }
        Ok(entry)
    }

    pub fn report(&self, account: u64) -> Result<Report, Refusal> {
        self.check_account(account)?;
        let Account {
            deposit,
            waiting_one,
            waiting_two,
            ..
        } = *self.account(account);
        let settled = waiting_one + waiting_two + self.slips_in_yen(account);
        let open_worth = self.lots_in_yen(account);
        let base = self.base_in_yen(account);
        let required = base - settled - open_worth;
        let open_loss = (-open_worth).max(0);
        let free = deposit + settled - base - open_loss;
        Ok(Report {
            deposit,
            settled,
            open_worth,
            base,
            required,
            shortfall: (required - deposit).max(0),
            withdrawable: deposit.min(free).max(0) as u64,
        })
    }
}

// What a caller may look at.
impl Book {
    pub fn lots(&self) -> &[Lot] {
        &self.lots
    }

    pub fn slips(&self) -> &[Slip] {
        &self.slips
    }

    pub fn prices(&self) -> &ByProduct<u64> {
        &self.prices
    }

    pub fn entries_taken(&self) -> u64 {
        self.entries_taken
    }
}

// Accounts and entries.
impl Book {
    fn check_account(&self, number: u64) -> Result<(), Refusal> {
        let is_known = (1..=self.accounts.len() as u64).contains(&number);
        refuse_if(!is_known, Refusal::Account(number))
    }

    fn account(&self, number: u64) -> &Account {
        &self.accounts[number as usize - 1]
    }

    fn account_mut(&mut self, number: u64) -> &mut Account {
        &mut self.accounts[number as usize - 1]
    }

    fn check_entries(&self) -> Result<(), Refusal> {
        refuse_if(self.entries_taken == ENTRIES, Refusal::Entries)
    }

    fn take_entry(&mut self) -> Result<u64, Refusal> {
        self.check_entries()?;
        self.entries_taken += 1;
        Ok(self.entries_taken)
    }
}

// Lots and pairs.
impl Book {
    fn open_contracts(&self, account: u64, product: Product, side: Side) -> u64 {
        self.lots
            .iter()
            .filter(|lot| lot.is_of(account, product, side))
            .map(|lot| lot.remaining)
            .sum()
    }

    fn check_limit(
        &self,
        account: u64,
        product: Product,
        side: Side,
        quantity: u64,
    ) -> Result<(), Refusal> {
        let contracts = self.open_contracts(account, product, side) + quantity;
        refuse_if(contracts > MOST_CONTRACTS, Refusal::PositionLimit(account))
    }

    fn place_of(&self, account: u64, product: Product, side: Side, entry: u64) -> Option<usize> {
        self.lots
            .iter()
            .position(|lot| lot.is_of(account, product, side) && lot.entry == entry)
    }

    fn oldest(&self, account: u64, product: Product, side: Side) -> Option<usize> {
        self.lots
            .iter()
            .position(|lot| lot.is_of(account, product, side))
    }

    fn smaller_remainder(&self, bought: usize, sold: usize) -> u64 {
        self.lots[bought].remaining.min(self.lots[sold].remaining)
    }

    /// Makes pairs for an account in a product for as long as its rule gives one.
    fn close_by_rule(&mut self, account: u64, product: Product) {
        while let Some(pair) = self.pair_by_rule(account, product) {
            self.close(pair);
        }
    }

    fn pair_by_rule(&self, account: u64, product: Product) -> Option<Pair> {
        match self.account(account).method {
            Method::OldestFirst => {
                let bought = self.oldest(account, product, Side::Bought)?;
                let sold = self.oldest(account, product, Side::Sold)?;
                let quantity = self.smaller_remainder(bought, sold);
                Some(Pair {
                    bought,
                    sold,
                    quantity,
                })
            }
            Method::Designated => None,
        }
    }

    /// Takes the pair's contracts from both lots and writes the slip.
    fn close(&mut self, pair: Pair) {
        let bought = &self.lots[pair.bought];
        let sold = &self.lots[pair.sold];
        let steps = signed(sold.price) - signed(bought.price);
        let a_contract = bought.product.step_worth() * steps + bought.points + sold.points;
        self.slips.push(Slip {
            account: bought.account,
            product: bought.product,
            bought_entry: bought.entry,
            sold_entry: sold.entry,
            quantity: pair.quantity,
            worth: signed(pair.quantity) * a_contract,
        });
        self.lots[pair.bought].remaining -= pair.quantity;
        self.lots[pair.sold].remaining -= pair.quantity;
        self.lots.retain(|lot| lot.remaining > 0);
    }
}

// Sums in yen, for one account.
impl Book {
    fn slips_in_yen(&self, account: u64) -> i64 {
        let in_yen = |product: Product| {
            let slips = self.slips.iter();
            let of_product =
                slips.filter(|slip| slip.account == account && slip.product == product);
            product.in_yen(of_product.map(|slip| slip.worth).sum(), &self.prices)
        };
        Product::all().map(in_yen).sum()
    }

    fn lots_in_yen(&self, account: u64) -> i64 {
        let in_yen = |product: Product| {
            let price = product.of(&self.prices);
            let lots = self.lots.iter();
            let of_product = lots.filter(|lot| lot.account == account && lot.product == product);
            product.in_yen(of_product.map(|lot| lot.worth(price)).sum(), &self.prices)
        };
        Product::all().map(in_yen).sum()
    }

    fn base_in_yen(&self, account: u64) -> i64 {
        let in_yen = |product: Product| {
            let bought = self.open_contracts(account, product, Side::Bought);
            let sold = self.open_contracts(account, product, Side::Sold);
            signed(product.of(&self.base_amounts) * bought.max(sold))
        };
        Product::all().map(in_yen).sum()
    }
}

// The stages of a rollover.
impl Book {
    /// Bought lots gain their product's points, sold lots lose them.
    fn add_points(&mut self, points: &ByProduct<i64>) {
        for lot in &mut self.lots {
            let points = lot.product.of(points);
            match lot.side {
                Side::Bought => lot.points += points,
                Side::Sold => lot.points -= points,
            }
        }
    }

    /// Today's slips become waiting yen at the latest prices.
    fn clear_slips(&mut self) {
        for number in 1..=self.accounts.len() as u64 {
            let settled = self.slips_in_yen(number);
            self.account_mut(number).waiting_two += settled;
        }
        self.slips.clear();
    }

    /// What waits moves on by one bank day.
    fn move_waiting(&mut self) {
        for account in &mut self.accounts {
            account.deposit += account.waiting_one;
            account.waiting_one = account.waiting_two;
            account.waiting_two = 0;
        }
    }
}

fn check_quantity(quantity: u64) -> Result<(), Refusal> {
    refuse_if(!(1..=MOST_CONTRACTS).contains(&quantity), Refusal::Quantity)
}

fn check_amount(yen: u64) -> Result<(), Refusal> {
    refuse_if(!(1..=MOST_YEN).contains(&yen), Refusal::Amount)
}

fn is_price(price: u64) -> bool {
    (1..=MOST_PRICE).contains(&price)
}

fn are_prices(prices: &ByProduct<u64>) -> bool {
    prices.iter().all(|&price| is_price(price))
}

fn signed(number: u64) -> i64 {
    i64::try_from(number).expect("the number is small")
}

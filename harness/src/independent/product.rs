//! The sixteen products: what a step is worth, and how their money becomes yen.

use super::refusal::Refusal;

pub const PRODUCTS: usize = 16;

/// Sixteen figures, one for each product, in the order of the products.
pub type ByProduct<T> = [T; PRODUCTS];

/// One of the products 1 to 16.
#[derive(Clone, Copy, Debug, PartialEq, Eq)]
pub struct Product(usize);

/// What a product's amounts are counted in.
#[derive(Clone, Copy, Debug, PartialEq, Eq)]
pub enum Money {
    Yen,
    /// Hundredths of a second currency, converted at the latest price of a yen product.
    Hundredths {
        converted_by: Product,
    },
}

impl Product {
    pub fn new(number: u64) -> Result<Product, Refusal> {
        match number {
            1..=16 => Ok(Product(number as usize)),
            _ => Err(Refusal::Product(number)),
        }
    }

    pub fn all() -> impl Iterator<Item = Product> {
        (1..=PRODUCTS).map(Product)
    }

    /// This product's figure of the sixteen.
    pub fn of<T: Copy>(self, figures: &ByProduct<T>) -> T {
        figures[self.0 - 1]
    }

    pub fn number(self) -> u64 {
        self.0 as u64
    }

    /// What a step of the price is worth, a contract, in the product's money.
    pub fn step_worth(self) -> i64 {
        match self.0 {
            2 | 4 | 6 | 8 => 100,
            1..=10 => 10,
            12 => 1_000,
            _ => 100,
        }
    }

    pub fn money(self) -> Money {
        let converted_by = match self.0 {
            11 | 13 | 14 => 1,
            12 => 2,
            15 => 9,
            16 => 10,
            _ => return Money::Yen,
        };
        Money::Hundredths {
            converted_by: Product(converted_by),
        }
    }

    /// An amount of the product's money in yen at these prices, rounded down.
    pub fn in_yen(self, amount: i64, prices: &ByProduct<u64>) -> i64 {
        match self.money() {
            Money::Yen => amount,
            Money::Hundredths { converted_by } => {
                let price = i128::from(converted_by.of(prices));
                let yen = (i128::from(amount) * price).div_euclid(100_000);
                i64::try_from(yen).expect("the amount in yen fits")
            }
        }
    }
}

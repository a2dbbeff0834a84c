//! The exercise file, its parts and what is in them.

use super::row::{Limits, Row};
use super::Answer;

/// Day-ahead, then each interval.
pub const STAGES: usize = 13;
/// Of a location: a congestion price and a loss price of each stage.
pub const PRICES: usize = 2 * STAGES;

/// Bytes.
pub const HEADER: usize = 5;
pub const PRICE: usize = 3;
pub const ROW: usize = 6;
pub const SALE: usize = 7;

pub const MOST_ROWS: usize = 2_048;
pub const MOST_TRANSACTIONS: usize = 256;
pub const MOST_PRICE: i32 = 5_000_000;

pub struct File<'a> {
    pub participants: usize,
    pub locations: usize,
    /// Transactions are sales.
    pub sells: bool,
    prices: &'a [u8],
    /// Each with as many bytes before its first that this can be read as a word.
    rows: &'a [u8],
    transactions: &'a [u8],
}

impl File<'_> {
    /// Parts a file whose length is as its header tells.
    pub fn new(file: &[u8]) -> Result<File<'_>, u32> {
        if file.len() < HEADER {
            return Err(9);
        }
        let header = u64::from_be_bytes([0, 0, 0, file[0], file[1], file[2], file[3], file[4]]);
        let participants = 1 + (header >> 34) as usize;
        let locations = 1 + (header >> 28 & 63) as usize;
        let rows = (header >> 16 & 4_095) as usize;
        let transactions = (header >> 6 & 1_023) as usize;
        if header & 63 > 1 {
            return Err(9);
        }
        if rows > MOST_ROWS || transactions > MOST_TRANSACTIONS {
            return Err(1);
        }
        let sells = header & 63 == 1;
        let transaction = if sells { SALE } else { ROW };
        let rows_at = HEADER + PRICE * PRICES * locations;
        let transactions_at = rows_at + ROW * rows;
        if file.len() != transactions_at + transaction * transactions {
            return Err(9);
        }
        Ok(File {
            participants,
            locations,
            sells,
            prices: &file[HEADER..rows_at],
            rows: &file[rows_at + ROW - 8..transactions_at],
            transactions: &file[transactions_at + transaction - 8..],
        })
    }

    pub fn read_prices(&self, list: &mut [i32]) -> Answer {
        self.each_price(list.iter_mut(), |to, price| *to = price)
    }

    pub fn test(&self) -> Answer {
        self.each_price(std::iter::repeat(()), |_, _| ())?;
        self.rows(|_| ())?;
        if self.sells {
            self.sales(|_| ())
        } else {
            self.paths(|_| ())
        }
    }

    /// Hands on each price with its place, and tests them all.
    fn each_price<T>(&self, places: impl Iterator<Item = T>, each: impl Fn(T, i32)) -> Answer {
        let mut tested = 0;
        for (price, to) in self.untested_prices().zip(places) {
            tested |= (MOST_PRICE - price) | (MOST_PRICE + price);
            each(to, price);
        }
        if tested < 0 {
            return Err(2);
        }
        Ok(())
    }

    /// Hands on each row in its turn, up to the first that is refused.
    pub fn rows(&self, each: impl FnMut(Row)) -> Answer {
        self.each(self.untested_rows(), each)
    }

    pub fn paths(&self, each: impl FnMut(Row)) -> Answer {
        self.each(self.untested_paths(), each)
    }

    pub fn sales(&self, each: impl FnMut(Row)) -> Answer {
        self.each(self.untested_sales(), each)
    }

    fn each(&self, rows: impl Iterator<Item = Row>, mut each: impl FnMut(Row)) -> Answer {
        let limits = Limits {
            participants: self.participants as u64,
            locations: self.locations as u64,
        };
        for row in rows {
            limits.test(&row)?;
            each(row);
        }
        Ok(())
    }

    pub fn untested_prices(&self) -> impl ExactSizeIterator<Item = i32> + '_ {
        let threes = self.prices.chunks_exact(PRICE);
        threes.map(|three| i32::from_be_bytes([three[0], three[1], three[2], 0]) >> 8)
    }

    pub fn untested_rows(&self) -> impl ExactSizeIterator<Item = Row> + '_ {
        words(self.rows, ROW).map(Row::unpack_position)
    }

    pub fn untested_paths(&self) -> impl ExactSizeIterator<Item = Row> + '_ {
        words(self.transactions, ROW).map(Row::unpack_path)
    }

    pub fn untested_sales(&self) -> impl ExactSizeIterator<Item = Row> + '_ {
        words(self.transactions, SALE).map(Row::unpack_sale)
    }
}

/// Words that end with so many bytes each.
fn words(list: &[u8], len: usize) -> impl ExactSizeIterator<Item = u64> + '_ {
    let eights = list.windows(8).step_by(len);
    eights.map(|eight| u64::from_be_bytes(eight.try_into().unwrap()))
}

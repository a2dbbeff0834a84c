//! Writing a file: tested and packed in one pass, as nothing may be written
//! before all is tested.

use super::file::{HEADER, MOST_PRICE, MOST_ROWS, MOST_TRANSACTIONS, PRICE, PRICES, ROW, SALE};
use super::row::{Limits, Row};
use super::{beyond, number, numbers, Answer, MOST};
use reference::write::Given;

const LONGEST: usize = HEADER + PRICE * PRICES * MOST + ROW * MOST_ROWS + SALE * MOST_TRANSACTIONS;

pub fn write(given: &Given, out: &mut [u8]) -> Answer {
    let transaction = match given.edition {
        0 => ROW,
        1 => SALE,
        _ => return Err(9),
    };
    let [participants, locations, rows, transactions] = counts(given)?;
    if given.prices.len() != 8 * PRICES * locations
        || given.row_list.len() != 8 * ROW * rows
        || given.transaction_list.len() != 8 * transaction * transactions
    {
        return Err(1);
    }
    let limits = Limits {
        participants: participants as u64,
        locations: locations as u64,
    };

    let mut packed = [0; LONGEST];
    let rows_at = HEADER + PRICE * PRICES * locations;
    let transactions_at = rows_at + ROW * rows;
    let end = transactions_at + transaction * transactions;
    let word = (participants - 1) << 34 | (locations - 1) << 28 | rows << 16 | transactions << 6;
    packed[..HEADER].copy_from_slice(&(word as u64 | given.edition as u64).to_be_bytes()[3..]);
    pack_prices(&given.prices, &mut packed[HEADER..rows_at])?;
    let to_rows = &mut packed[rows_at..transactions_at];
    pack_rows::<6, ROW>(&given.row_list, to_rows, |six| {
        let row = Row::position(six);
        limits.test(&row).map(|_| row.pack_position())
    })?;
    let to_transactions = &mut packed[transactions_at..end];
    if transaction == ROW {
        pack_rows::<6, ROW>(&given.transaction_list, to_transactions, |six| {
            let path = Row::path(six);
            limits.test(&path).map(|_| path.pack_path())
        })?;
    } else {
        pack_rows::<7, SALE>(&given.transaction_list, to_transactions, |seven| {
            let sale = Row::sale(seven);
            limits.test(&sale).map(|_| sale.pack_sale())
        })?;
    }
    let file = out.get_mut(..end).ok_or(1_u32)?;
    file.copy_from_slice(&packed[..end]);
    Ok(())
}

/// Participants, locations, rows and transactions.
fn counts(given: &Given) -> Result<[usize; 4], u32> {
    let counts = [
        (given.participants, 1, MOST),
        (given.locations, 1, MOST),
        (given.rows, 0, MOST_ROWS),
        (given.transactions, 0, MOST_TRANSACTIONS),
    ];
    for (count, least, most) in counts {
        if count < least || count > most as i64 {
            return Err(1);
        }
    }
    Ok(counts.map(|count| count.0 as usize))
}

fn pack_prices(list: &[u8], to: &mut [u8]) -> Answer {
    let most = i64::from(MOST_PRICE);
    let mut tested = 0;
    for (three, price) in to.chunks_exact_mut(PRICE).zip(numbers(list)) {
        tested |= beyond(price, -most, most);
        three.copy_from_slice(&(price as u32).to_be_bytes()[1..]);
    }
    if tested < 0 {
        return Err(2);
    }
    Ok(())
}

/// Packs entries of so many numbers, or gives the first refusal.
fn pack_rows<const NUMBERS: usize, const BYTES: usize>(
    list: &[u8],
    to: &mut [u8],
    pack: impl Fn([u64; NUMBERS]) -> Result<u64, u32>,
) -> Answer {
    let entries = list.chunks_exact(8 * NUMBERS);
    for (to, entry) in to.chunks_exact_mut(BYTES).zip(entries) {
        let word = pack(std::array::from_fn(|i| {
            number(&entry[8 * i..8 * i + 8]) as u64
        }))?;
        to.copy_from_slice(&word.to_be_bytes()[8 - BYTES..]);
    }
    Ok(())
}

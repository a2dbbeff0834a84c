//! Reading a file into lists: tested first, then listed.

use super::file::File;
use super::row::Row;
use super::{put_numbers, Answer};

pub fn read(file: &[u8], lists: [&mut [u8]; 3]) -> Answer {
    let file = File::new(file)?;
    let [prices, rows, transactions] = lists;
    let transactions_len = if file.sells {
        56 * file.untested_sales().len()
    } else {
        48 * file.untested_paths().len()
    };
    if prices.len() != 8 * file.untested_prices().len()
        || rows.len() != 48 * file.untested_rows().len()
        || transactions.len() != transactions_len
    {
        return Err(1);
    }
    file.test()?;
    put_numbers(prices, file.untested_prices().map(i64::from));
    put_rows(rows, file.untested_rows(), position);
    if file.sells {
        put_rows(transactions, file.untested_sales(), sale);
    } else {
        put_rows(transactions, file.untested_paths(), path);
    }
    Ok(())
}

fn put_rows<const COUNT: usize>(
    list: &mut [u8],
    rows: impl Iterator<Item = Row>,
    numbers: impl Fn(&Row) -> [u64; COUNT],
) {
    for (list, row) in list.chunks_exact_mut(8 * COUNT).zip(rows) {
        put_numbers(list, numbers(&row).into_iter().map(|number| number as i64));
    }
}

fn position(row: &Row) -> [u64; 6] {
    [
        row.market,
        row.kind,
        row.interval,
        row.participant,
        row.location,
        row.kw,
    ]
}

fn path(row: &Row) -> [u64; 6] {
    [
        row.market,
        row.interval,
        row.participant,
        row.location,
        row.sink,
        row.kw,
    ]
}

fn sale(row: &Row) -> [u64; 7] {
    [
        row.market,
        row.interval,
        row.participant,
        row.seller,
        row.location,
        row.sink,
        row.kw,
    ]
}

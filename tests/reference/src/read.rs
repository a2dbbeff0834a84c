//! Reading an exercise file as numbers, those that it would be written from
//! (tickets 1 and 2 of document 02).

use crate::exercise::{read_header, read_hour, Header, Hour, Prices};
use crate::numbers;
use crate::write::{ROW_NUMBERS, STRETCHES};

/// What `wz_read_file` does and answers. The lists are those of prices, rows
/// and transactions.
pub fn read_file(file: &[u8], lists: &mut [Vec<u8>; 3]) -> u32 {
    let lens = [0, 1, 2].map(|list: usize| lists[list].len());
    match numbers_of(file, lens) {
        Ok(numbers) => {
            *lists = numbers.map(|list| numbers::bytes(&list));
            0
        }
        Err(number) => number,
    }
}

/// How many bytes the lists must have.
pub fn lens_of(header: &Header) -> [usize; 3] {
    [
        8 * STRETCHES * header.locations,
        8 * ROW_NUMBERS * header.rows,
        8 * header.edition.transaction_numbers() * header.transactions,
    ]
}

fn numbers_of(file: &[u8], lens: [usize; 3]) -> Result<[Vec<i64>; 3], u32> {
    let header = read_header(file)?;
    if lens != lens_of(&header) {
        return Err(1);
    }
    let hour = read_hour(file, &header)?;
    Ok([prices_of(&hour), rows_of(&hour), transactions_of(&hour)])
}

fn prices_of(hour: &Hour) -> Vec<i64> {
    let list = |prices: &Prices| [prices.day_ahead.clone(), prices.real_time.concat()].concat();
    [list(&hour.congestion), list(&hour.loss)].concat()
}

fn rows_of(hour: &Hour) -> Vec<i64> {
    hour.rows.iter().flat_map(|row| row.numbers()).collect()
}

fn transactions_of(hour: &Hour) -> Vec<i64> {
    let numbers = hour
        .transactions
        .iter()
        .map(|transaction| transaction.numbers());
    numbers.flatten().collect()
}

#[cfg(test)]
mod tests {
    use super::*;
    use crate::cases::file::{document_01, File};
    use crate::exercise::Edition;
    use crate::numbers::unhex;
    use crate::vectors;

    fn read(file: &[u8]) -> (u32, [Vec<i64>; 3]) {
        let lens = read_header(file).map_or([0; 3], |header| lens_of(&header));
        let mut lists = lens.map(|len| vec![0x55; len]);
        let number = read_file(file, &mut lists);
        (number, lists.map(|list| numbers::read(&list).unwrap()))
    }

    #[test]
    fn the_exercise_of_document_01() {
        let (number, [prices, rows, transactions]) = read(&document_01());
        assert_eq!(number, 0);
        assert_eq!(prices[..26], [0; 26]);
        assert_eq!(prices[26..], [120, 600].repeat(13));
        assert_eq!(rows[..6], [1, 0, 0, 0, 1, 200_000]);
        assert_eq!(rows[6..12], [1, 1, 0, 1, 0, 110_000]);
        assert_eq!(rows[12..], [1, 2, 0, 1, 1, 100_000]);
        assert_eq!(transactions, []);
    }

    /// Prices stand by interval and then by location, congestion before loss.
    #[test]
    fn order_of_prices() {
        let mut file = File::new(1, 3);
        for (at, price) in file.congestion.iter_mut().chain(&mut file.loss).enumerate() {
            *price = at as i64 - 40;
        }
        file.transaction(1, 11, 0, 1, 2, 20_000_000);
        let (number, [prices, rows, transactions]) = read(&file.bytes());
        assert_eq!(number, 0);
        assert_eq!(prices, (-40..38).collect::<Vec<i64>>());
        assert_eq!(rows, []);
        assert_eq!(transactions, [1, 11, 0, 1, 2, 20_000_000]);
    }

    #[test]
    fn seven_numbers_with_a_seller() {
        let mut file = File::of(Edition::WithSeller, 4, 3);
        file.sale(1, 11, 0, 3, 1, 2, 20_000_000);
        file.sale(0, 0, 2, 2, 0, 0, 5);
        let (number, [_, _, transactions]) = read(&file.bytes());
        assert_eq!(number, 0);
        assert_eq!(transactions[..7], [1, 11, 0, 3, 1, 2, 20_000_000]);
        assert_eq!(transactions[7..], [0, 0, 2, 2, 0, 0, 5]);
    }

    /// Lists come after the file's length and before its prices.
    #[test]
    fn order_of_lists() {
        let mut file = File::new(1, 1);
        file.loss[12] = 5_000_001;
        let mut bytes = file.bytes();
        assert_eq!(read(&bytes).0, 2);
        for lens in [
            [0, 0, 0],
            [216, 0, 0],
            [207, 0, 0],
            [208, 8, 0],
            [208, 0, 1],
        ] {
            let mut lists = lens.map(|len| vec![0x55; len]);
            assert_eq!(read_file(&bytes, &mut lists), 1);
            assert_eq!(lists, lens.map(|len| vec![0x55; len]));
        }
        bytes.push(0);
        assert_eq!(read(&bytes).0, 9);
    }

    #[test]
    fn vectors() {
        for (line, f) in vectors::read("read") {
            let mut lists = [1, 2, 3].map(|list| unhex(&f[list]));
            let number = read_file(&unhex(&f[0]), &mut lists);
            assert_eq!(number.to_string(), f[4], "line {line}");
            for (list, after) in lists.iter().zip(&f[5..8]) {
                assert!(*list == unhex(after), "line {line}");
            }
        }
    }
}

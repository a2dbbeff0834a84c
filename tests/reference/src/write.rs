//! Writing the exercise file of an hour that is given in numbers (tickets 1 and
//! 2 of document 02).

use crate::bits::BitWriter;
use crate::exercise::{Edition, INTERVALS, MOST_PRICE, MOST_ROWS, MOST_TRANSACTIONS, PRICE_BYTES};
use crate::numbers;
use crate::MOST_KW;

/// What the call is given but for its buffer; lists are as they cross.
#[derive(Clone, Debug, PartialEq)]
pub struct Given {
    pub participants: i64,
    pub locations: i64,
    pub rows: i64,
    pub transactions: i64,
    pub edition: i64,
    pub prices: Vec<u8>,
    pub row_list: Vec<u8>,
    pub transaction_list: Vec<u8>,
}

#[cfg(test)]
impl Given {
    /// The first fields of a vector.
    pub fn of(fields: &[String]) -> Given {
        let number = |at: usize| fields[at].parse().unwrap();
        let list = |at: usize| numbers::unhex(&fields[at]);
        Given {
            participants: number(0),
            locations: number(1),
            rows: number(2),
            transactions: number(3),
            edition: number(4),
            prices: list(5),
            row_list: list(6),
            transaction_list: list(7),
        }
    }
}

/// What `wz_write_file` does and answers.
pub fn write_file(given: &Given, file: &mut [u8]) -> u32 {
    let written = match file_of(given) {
        Ok(written) => written,
        Err(number) => return number,
    };
    match file.get_mut(..written.len()) {
        Some(start) => {
            start.copy_from_slice(&written);
            0
        }
        None => 1,
    }
}

/// Prices for each location: of congestion and of loss, day-ahead and in each
/// interval.
pub const STRETCHES: usize = 2 * (1 + INTERVALS);

/// Numbers of a row.
pub const ROW_NUMBERS: usize = 6;

/// The bytes of the file, or the refusal that comes before that of the buffer.
fn file_of(given: &Given) -> Result<Vec<u8>, u32> {
    let edition = Edition::of(given.edition).ok_or(9_u32)?;
    for (count, least, most) in [
        (given.participants, 1, 64),
        (given.locations, 1, 64),
        (given.rows, 0, MOST_ROWS as i64),
        (given.transactions, 0, MOST_TRANSACTIONS as i64),
    ] {
        if !(least..=most).contains(&count) {
            return Err(1);
        }
    }
    let prices = list(&given.prices, STRETCHES as i64 * given.locations)?;
    let rows = list(&given.row_list, ROW_NUMBERS as i64 * given.rows)?;
    let each = edition.transaction_numbers();
    let transactions = list(&given.transaction_list, each as i64 * given.transactions)?;

    if !prices
        .iter()
        .all(|price| (-MOST_PRICE..=MOST_PRICE).contains(price))
    {
        return Err(2);
    }
    for row in rows.chunks(ROW_NUMBERS) {
        test_row(row, given)?;
    }
    for transaction in transactions.chunks(each) {
        test_transaction(transaction, edition, given)?;
    }
    Ok(pack(given, edition, &prices, &rows, &transactions))
}

/// The numbers of a list that must have so many.
fn list(bytes: &[u8], count: i64) -> Result<Vec<i64>, u32> {
    match numbers::read(bytes) {
        Some(numbers) if numbers.len() as i64 == count => Ok(numbers),
        _ => Err(1),
    }
}

fn test_row(row: &[i64], given: &Given) -> Result<(), u32> {
    let (kinds, intervals) = market(row[0])?;
    among(row[1], kinds, 4)?;
    among(row[2], intervals, 4)?;
    among(row[3], given.participants, 3)?;
    among(row[4], given.locations, 3)?;
    among(row[5], MOST_KW + 1, 2)
}

fn test_transaction(transaction: &[i64], edition: Edition, given: &Given) -> Result<(), u32> {
    let (start, rest) = transaction.split_at(3);
    let (_, intervals) = market(start[0])?;
    among(start[1], intervals, 4)?;
    among(start[2], given.participants, 3)?;
    let rest = match edition {
        Edition::PathOnly => rest,
        Edition::WithSeller => {
            among(rest[0], given.participants, 3)?;
            &rest[1..]
        }
    };
    among(rest[0], given.locations, 3)?;
    among(rest[1], given.locations, 3)?;
    among(rest[2], MOST_KW + 1, 2)
}

/// How many kinds and intervals there are in a market.
fn market(market: i64) -> Result<(i64, i64), u32> {
    match market {
        0 => Ok((6, 1)),
        1 => Ok((4, INTERVALS as i64)),
        _ => Err(4),
    }
}

/// A refusal unless the number is one of so many, counted from 0.
fn among(number: i64, count: i64, refusal: u32) -> Result<(), u32> {
    if (0..count).contains(&number) {
        Ok(())
    } else {
        Err(refusal)
    }
}

const HEADER_BITS: [usize; 5] = [6, 6, 12, 10, 6];
const ROW_BITS: [usize; 7] = [1, 3, 4, 6, 6, 25, 3];
const PATH_BITS: [usize; 6] = [1, 4, 6, 6, 6, 25];
const SALE_BITS: [usize; 8] = [1, 4, 6, 6, 6, 6, 25, 2];
const SPARE: i64 = 0;

fn pack(
    given: &Given,
    edition: Edition,
    prices: &[i64],
    rows: &[i64],
    transactions: &[i64],
) -> Vec<u8> {
    let mut writer = BitWriter::new();
    let header = [
        given.participants - 1,
        given.locations - 1,
        given.rows,
        given.transactions,
        given.edition,
    ];
    put_all(&mut writer, &HEADER_BITS, &header);
    for &price in prices {
        writer.put(8 * PRICE_BYTES, price);
    }
    for row in rows.chunks(ROW_NUMBERS) {
        put_all(&mut writer, &ROW_BITS, &[row, &[SPARE]].concat());
    }
    for transaction in transactions.chunks(edition.transaction_numbers()) {
        match edition {
            Edition::PathOnly => put_all(&mut writer, &PATH_BITS, transaction),
            Edition::WithSeller => {
                put_all(&mut writer, &SALE_BITS, &[transaction, &[SPARE]].concat())
            }
        }
    }
    writer.bytes
}

fn put_all(writer: &mut BitWriter, bits: &[usize], numbers: &[i64]) {
    for (&bits, &number) in bits.iter().zip(numbers) {
        writer.put(bits, number);
    }
}

#[cfg(test)]
mod tests {
    use super::*;
    use crate::cases::file::document_01;
    use crate::numbers::{bytes, unhex};
    use crate::vectors;

    /// The hour of the header's comment: one row, all prices 0.
    fn one_row() -> Given {
        Given {
            participants: 2,
            locations: 1,
            rows: 1,
            transactions: 0,
            edition: 0,
            prices: vec![0; 8 * 26],
            row_list: bytes(&[1, 0, 11, 1, 0, 600]),
            transaction_list: vec![],
        }
    }

    fn written(given: &Given) -> Vec<u8> {
        let mut file = vec![0x55; 20_000];
        assert_eq!(write_file(given, &mut file), 0);
        let len = file_of(given).unwrap().len();
        assert!(file[len..].iter().all(|&byte| byte == 0x55));
        file.truncate(len);
        file
    }

    fn refusal(change: impl Fn(&mut Given)) -> u32 {
        let mut given = one_row();
        change(&mut given);
        let mut file = vec![0x55; 20_000];
        let number = write_file(&given, &mut file);
        assert_eq!(number == 0, file[0] != 0x55);
        number
    }

    #[test]
    fn one_row_of_load() {
        let file = written(&one_row());
        assert_eq!(file, unhex("04000100{80}8b04000012c0"));
    }

    /// The second of the header's comment.
    #[test]
    fn one_row_and_a_sale() {
        let mut given = one_row();
        given.edition = 1;
        given.transactions = 1;
        given.transaction_list = bytes(&[0, 0, 1, 0, 0, 0, 600]);
        let file = written(&given);
        assert_eq!(file.len(), 96);
        assert_eq!(file, unhex("040001004100{78}8b04000012c000200000000960"));
    }

    #[test]
    fn the_exercise_of_document_01() {
        let loss = [120, 600].repeat(13);
        let given = Given {
            participants: 2,
            locations: 2,
            rows: 3,
            transactions: 0,
            edition: 0,
            prices: bytes(&[vec![0; 26], loss].concat()),
            row_list: bytes(
                &[
                    [1, 0, 0, 0, 1, 200_000],
                    [1, 1, 0, 1, 0, 110_000],
                    [1, 2, 0, 1, 1, 100_000],
                ]
                .concat(),
            ),
            transaction_list: vec![],
        };
        assert_eq!(written(&given), document_01());
    }

    /// Each field of a transaction by itself, and a price below 0.
    #[test]
    fn bits_of_a_transaction() {
        let mut given = one_row();
        given.rows = 0;
        given.row_list.clear();
        given.transactions = 1;
        given.participants = 64;
        given.locations = 64;
        given.prices = bytes(&[vec![-1, -5_000_000, 5_000_000], vec![0; 1_661]].concat());
        for (six, hex) in [
            ([1, 0, 0, 0, 0, 0], "800000000000"),
            ([1, 11, 0, 0, 0, 0], "d80000000000"),
            ([0, 0, 63, 0, 0, 0], "07e000000000"),
            ([0, 0, 0, 63, 0, 0], "001f80000000"),
            ([0, 0, 0, 0, 63, 0], "00007e000000"),
            ([0, 0, 0, 0, 0, 20_000_000], "000001312d00"),
        ] {
            given.transaction_list = bytes(&six);
            let file = written(&given);
            assert_eq!(file.len(), 5 + 78 * 64 + 6);
            assert_eq!(file[..14], unhex("fff0000040ffffffb3b4c04c4b40"));
            assert_eq!(file[file.len() - 6..], unhex(hex));
        }
        given.edition = 1;
        for (seven, hex) in [
            ([1, 0, 0, 0, 0, 0, 0], "80000000000000"),
            ([1, 11, 0, 0, 0, 0, 0], "d8000000000000"),
            ([0, 0, 63, 0, 0, 0, 0], "07e00000000000"),
            ([0, 0, 0, 63, 0, 0, 0], "001f8000000000"),
            ([0, 0, 0, 0, 63, 0, 0], "00007e00000000"),
            ([0, 0, 0, 0, 0, 63, 0], "000001f8000000"),
            ([0, 0, 0, 0, 0, 0, 20_000_000], "00000004c4b400"),
        ] {
            given.transaction_list = bytes(&seven);
            let file = written(&given);
            assert_eq!(file.len(), 5 + 78 * 64 + 7);
            assert_eq!(file[..14], unhex("fff0000041ffffffb3b4c04c4b40"));
            assert_eq!(file[file.len() - 7..], unhex(hex));
        }
    }

    /// The edition is tested before all else.
    #[test]
    fn editions() {
        for edition in [-1, 2, 63, 64, 1 << 32, 1 + (1 << 32), i64::MIN, i64::MAX] {
            assert_eq!(refusal(|given| given.edition = edition), 9);
            let all_wrong = |given: &mut Given| {
                given.edition = edition;
                given.participants = 0;
                given.prices.clear();
            };
            assert_eq!(refusal(all_wrong), 9);
        }
        // Without a transaction either will do.
        assert_eq!(refusal(|given| given.edition = 1), 0);
    }

    /// A list of the other edition's length is refused; seven numbers in the
    /// place of six, and six in that of seven.
    #[test]
    fn lists_of_the_other_edition() {
        let of = |edition: i64, numbers: usize, transactions: i64| {
            refusal(|given| {
                given.edition = edition;
                given.transactions = transactions;
                given.transaction_list = vec![0; 8 * numbers];
            })
        };
        assert_eq!([of(0, 6, 1), of(0, 7, 1)], [0, 1]);
        assert_eq!([of(1, 6, 1), of(1, 7, 1)], [1, 0]);
        assert_eq!([of(0, 42, 7), of(1, 42, 6)], [0, 0]);
    }

    /// Participant, seller, source, sink, kW in this order.
    #[test]
    fn order_of_a_sale() {
        let of = |seven: [i64; 7]| {
            refusal(|given| {
                given.edition = 1;
                given.transactions = 1;
                given.transaction_list = bytes(&seven);
            })
        };
        assert_eq!(of([1, 11, 1, 1, 0, 0, 20_000_000]), 0);
        assert_eq!(of([0, 1, 9, 9, 9, 9, -1]), 4);
        for field in 2..6 {
            let mut seven = [1, 11, 1, 1, 0, 0, 20_000_001];
            seven[field] = 2;
            assert_eq!(of(seven), 3);
            seven[field] = -1;
            assert_eq!(of(seven), 3);
        }
        assert_eq!(of([1, 11, 1, 1, 0, 0, 20_000_001]), 2);
    }

    #[test]
    fn each_number_at_its_limits() {
        assert_eq!(refusal(|_| ()), 0);
        for (low, high, number, put) in limits() {
            for (value, refused) in [
                (low - 1, true),
                (low, false),
                (high, false),
                (high + 1, true),
            ] {
                let expected = if refused { number } else { 0 };
                assert_eq!(refusal(|given| put(given, value)), expected, "{value}");
            }
        }
    }

    type Put = fn(&mut Given, i64);

    /// Ranges of the numbers of `one_row`, the refusal beyond, and where each is.
    fn limits() -> [(i64, i64, u32, Put); 6] {
        fn put(list: &mut [u8], at: usize, number: i64) {
            list[8 * at..8 * at + 8].copy_from_slice(&number.to_le_bytes());
        }
        [
            (-5_000_000, 5_000_000, 2, |given, price| {
                put(&mut given.prices, 25, price)
            }),
            (0, 3, 4, |given, kind| put(&mut given.row_list, 1, kind)),
            (0, 11, 4, |given, interval| {
                put(&mut given.row_list, 2, interval)
            }),
            (0, 1, 3, |given, participant| {
                put(&mut given.row_list, 3, participant)
            }),
            (0, 0, 3, |given, location| {
                put(&mut given.row_list, 4, location)
            }),
            (0, 20_000_000, 2, |given, kw| {
                put(&mut given.row_list, 5, kw)
            }),
        ]
    }

    /// Counts with lists that are as long as they tell.
    #[test]
    fn counts_at_their_limits() {
        for (count, number) in [(-1, 1), (0, 1), (64, 0), (65, 1), (1 << 40, 1)] {
            assert_eq!(refusal(|given| given.participants = count), number);
        }
        for (count, number) in [(0, 1), (64, 0), (65, 1)] {
            let locations = |given: &mut Given| {
                given.locations = count;
                given.prices = vec![0; 8 * 26 * count as usize];
            };
            assert_eq!(refusal(locations), number);
        }
        for (count, number) in [(0, 0), (2_048, 0), (2_049, 1)] {
            let rows = |given: &mut Given| {
                given.rows = count;
                given.row_list = vec![0; 48 * count as usize];
            };
            assert_eq!(refusal(rows), number);
        }
        for (count, number) in [(0, 0), (256, 0), (257, 1)] {
            let transactions = |given: &mut Given| {
                given.transactions = count;
                given.transaction_list = vec![0; 48 * count as usize];
            };
            assert_eq!(refusal(transactions), number);
        }
    }

    #[test]
    fn lists_as_long_as_their_counts() {
        assert_eq!(refusal(|given| given.rows = 0), 1);
        assert_eq!(refusal(|given| given.rows = 2), 1);
        assert_eq!(refusal(|given| given.transactions = 1), 1);
        assert_eq!(refusal(|given| given.locations = 2), 1);
        assert_eq!(refusal(|given| given.row_list.push(0)), 1);
        assert_eq!(refusal(|given| given.transaction_list.push(0)), 1);
        assert_eq!(refusal(|given| given.prices.truncate(207)), 1);
    }

    #[test]
    fn the_buffer_is_tested_last() {
        let mut given = one_row();
        let mut file = vec![0x55; 88];
        assert_eq!(write_file(&given, &mut file), 1);
        given.row_list[0] = 2;
        assert_eq!(write_file(&given, &mut file), 4);
        assert_eq!(file, [0x55; 88]);
    }

    #[test]
    fn vectors() {
        for (line, f) in vectors::read("write") {
            let mut file = unhex(&f[8]);
            let number = write_file(&Given::of(&f), &mut file);
            assert_eq!(number.to_string(), f[9], "line {line}");
            assert!(file == unhex(&f[10]), "line {line}");
        }
    }
}

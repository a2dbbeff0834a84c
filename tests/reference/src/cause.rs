//! Why a file is refused, or an hour in lists of numbers: the first number of it
//! that is outside its range, in the order of refusals.

use crate::bits::BitReader;
use crate::exercise::{
    self, Edition, Hour, DAY_AHEAD, HEADER_BYTES, INTERVALS, MOST_PRICE, MOST_ROWS,
    MOST_TRANSACTIONS, PRICE_BYTES, ROW_BYTES,
};
use crate::hour::charged;
use crate::numbers;
use crate::split::{MOST_AMOUNT, MOST_SHARE};
use crate::write::{Given, ROW_NUMBERS, STRETCHES};
use crate::MOST_KW;

/// Refusal, part, number, field, found, least, most; all 0 where nothing is
/// refused.
pub type Cause = [i64; 7];

pub const FILE: i64 = 1;
pub const HEADER: i64 = 2;
pub const PRICE: i64 = 3;
pub const ROW: i64 = 4;
pub const TRANSACTION: i64 = 5;
pub const SURPLUS: i64 = 6;
pub const SHARE: i64 = 7;
pub const LIST: i64 = 8;

/// A number that is tested: its part, its place there and its field, what it is
/// and may be, and the refusal that it gets otherwise.
struct Test {
    place: (i64, usize, usize),
    found: i64,
    range: (i64, i64),
    refusal: i64,
}

impl Test {
    fn cause(&self) -> Option<Cause> {
        let (part, number, field) = self.place;
        let (least, most) = self.range;
        if (least..=most).contains(&self.found) {
            return None;
        }
        let place = [part, number as i64, field as i64];
        let [part, number, field] = place;
        Some([self.refusal, part, number, field, self.found, least, most])
    }
}

/// The cause that the first of some tests tells.
fn first(tests: Vec<Test>) -> Option<Cause> {
    tests.iter().find_map(Test::cause)
}

/// What `wz_find_cause` does and answers.
pub fn find_cause(file: &[u8], list: &mut Vec<u8>) -> u32 {
    tell(cause_of_file(file), list)
}

/// What `wz_find_list_cause` does and answers.
pub fn find_list_cause(given: &Given, list: &mut Vec<u8>) -> u32 {
    tell(cause_of_lists(given), list)
}

fn tell(cause: Cause, list: &mut Vec<u8>) -> u32 {
    if list.len() != 8 * cause.len() {
        return 1;
    }
    *list = numbers::bytes(&cause);
    0
}

pub fn cause_of_file(file: &[u8]) -> Cause {
    first(of_length(file))
        .or_else(|| first(of_edition(header(file)[EDITION])))
        .or_else(|| first(of_header(file)))
        .or_else(|| first(of_contents(&contents(file))))
        .or_else(|| first(of_hour(&hour(file))))
        .unwrap_or_default()
}

pub fn cause_of_lists(given: &Given) -> Cause {
    first(of_edition(given.edition))
        .or_else(|| first(of_counts(given)))
        .or_else(|| first(of_lists(given)))
        .or_else(|| first(of_contents(&given_contents(given))))
        .unwrap_or_default()
}

/// The field of the header that is the edition.
const EDITION: usize = 4;

fn of_edition(edition: i64) -> Vec<Test> {
    vec![Test {
        place: (HEADER, 0, EDITION),
        found: edition,
        range: (0, Edition::ALL.len() as i64 - 1),
        refusal: 9,
    }]
}

/// An edition that was tested.
fn tested(edition: i64) -> Edition {
    Edition::of(edition).expect("a known edition")
}

// Of a file's length and header.

const SHORTEST: i64 = 83;
const LONGEST: i64 = 19_077;

/// A file that has no header is of no length that a file can have.
fn of_length(file: &[u8]) -> Vec<Test> {
    if file.len() >= HEADER_BYTES {
        return vec![];
    }
    vec![Test {
        place: (FILE, 0, 0),
        found: file.len() as i64,
        range: (SHORTEST, LONGEST),
        refusal: 9,
    }]
}

/// Participants, locations, rows, transactions as counts, and the edition.
fn header(file: &[u8]) -> [i64; 5] {
    let mut bits = BitReader::new(file);
    let [participants, locations, rows, transactions, edition] =
        [6, 6, 12, 10, 6].map(|width| bits.take(width) as i64);
    [participants + 1, locations + 1, rows, transactions, edition]
}

fn of_header(file: &[u8]) -> Vec<Test> {
    let [_, locations, rows, transactions, edition] = header(file);
    let told = |field: usize, found: i64, most: usize| Test {
        place: (HEADER, 0, field),
        found,
        range: (0, most as i64),
        refusal: 1,
    };
    let prices = STRETCHES as i64 * locations;
    let length = HEADER_BYTES as i64
        + PRICE_BYTES as i64 * prices
        + ROW_BYTES as i64 * rows
        + tested(edition).transaction_bytes() as i64 * transactions;
    vec![
        told(2, rows, MOST_ROWS),
        told(3, transactions, MOST_TRANSACTIONS),
        Test {
            place: (FILE, 0, 0),
            found: file.len() as i64,
            range: (length, length),
            refusal: 9,
        },
    ]
}

// Of the counts and lengths of lists.

fn of_counts(given: &Given) -> Vec<Test> {
    let counts = [
        (given.participants, 1, 64),
        (given.locations, 1, 64),
        (given.rows, 0, MOST_ROWS as i64),
        (given.transactions, 0, MOST_TRANSACTIONS as i64),
    ];
    let tests = counts.into_iter().enumerate();
    let test = |(field, (found, least, most))| Test {
        place: (HEADER, 0, field),
        found,
        range: (least, most),
        refusal: 1,
    };
    tests.map(test).collect()
}

fn of_lists(given: &Given) -> Vec<Test> {
    let each = tested(given.edition).transaction_numbers() as i64;
    let lists = [
        (&given.prices, STRETCHES as i64 * given.locations),
        (&given.row_list, ROW_NUMBERS as i64 * given.rows),
        (&given.transaction_list, each * given.transactions),
    ];
    let tests = lists.into_iter().enumerate();
    let test = |(field, (list, numbers)): (usize, (&Vec<u8>, i64))| Test {
        place: (LIST, 0, field),
        found: list.len() as i64,
        range: (8 * numbers, 8 * numbers),
        refusal: 1,
    };
    tests.map(test).collect()
}

// Of prices, rows and transactions.

/// The numbers of an hour as they stand, right or not.
struct Contents {
    participants: i64,
    locations: i64,
    prices: Vec<i64>,
    /// Market, kind, interval, participant, location, kW and spare bits.
    rows: Vec<[i64; 7]>,
    transactions: Vec<Numbers>,
}

/// Numbers of a transaction in the order in which they stand and are tested,
/// each with the field that a cause has for it.
type Numbers = Vec<(usize, i64)>;

const SELLER: usize = 6;
const SPARE: usize = 7;

/// The fields of a transaction in a file, and their bits.
fn fields(edition: Edition) -> &'static [(usize, usize)] {
    match edition {
        Edition::PathOnly => &[(0, 1), (1, 4), (2, 6), (3, 6), (4, 6), (5, 25)],
        Edition::WithSeller => &[
            (0, 1),
            (1, 4),
            (2, 6),
            (SELLER, 6),
            (3, 6),
            (4, 6),
            (5, 25),
            (SPARE, 2),
        ],
    }
}

/// Those of a file that is as long as its header tells.
fn contents(file: &[u8]) -> Contents {
    let [participants, locations, rows, transactions, edition] = header(file);
    let mut bits = BitReader::new(&file[HEADER_BYTES..]);
    let prices = 0..STRETCHES as i64 * locations;
    let prices = prices.map(|_| bits.take_signed(8 * PRICE_BYTES)).collect();
    let mut take = |width: usize| bits.take(width) as i64;
    let rows = (0..rows).map(|_| [1, 3, 4, 6, 6, 25, 3].map(&mut take));
    let rows = rows.collect();
    let mut transaction = || -> Numbers {
        let fields = fields(tested(edition)).iter();
        fields.map(|&(field, width)| (field, take(width))).collect()
    };
    let transactions = (0..transactions).map(|_| transaction()).collect();
    Contents {
        participants,
        locations,
        prices,
        rows,
        transactions,
    }
}

/// Those of lists that are as long as their counts tell.
fn given_contents(given: &Given) -> Contents {
    let list = |bytes: &[u8]| numbers::read(bytes).expect("whole numbers");
    let rows = list(&given.row_list);
    let row = |six: &[i64]| [six, &[0]].concat().try_into().unwrap();
    let transactions = list(&given.transaction_list);
    let edition = tested(given.edition);
    // A list has no spare bits, which come last in a file.
    let fields = fields(edition).iter().map(|field| field.0);
    let transaction = |numbers: &[i64]| fields.clone().zip(numbers.iter().copied()).collect();
    let each = edition.transaction_numbers();
    Contents {
        participants: given.participants,
        locations: given.locations,
        prices: list(&given.prices),
        rows: rows.chunks(ROW_NUMBERS).map(row).collect(),
        transactions: transactions.chunks(each).map(transaction).collect(),
    }
}

fn of_contents(contents: &Contents) -> Vec<Test> {
    let prices = contents.prices.iter().enumerate();
    let price = |(at, &found)| Test {
        place: (PRICE, at, 0),
        found,
        range: (-MOST_PRICE, MOST_PRICE),
        refusal: 2,
    };
    let mut tests: Vec<Test> = prices.map(price).collect();
    for (at, row) in contents.rows.iter().enumerate() {
        tests.extend(of_row(at, row, contents));
    }
    for (at, transaction) in contents.transactions.iter().enumerate() {
        tests.extend(of_transaction(at, transaction, contents));
    }
    tests
}

/// How many kinds and intervals a market has.
fn of_market(market: i64) -> (i64, i64) {
    if market == DAY_AHEAD as i64 {
        (6, 1)
    } else {
        (4, INTERVALS as i64)
    }
}

fn of_row(at: usize, row: &[i64; 7], contents: &Contents) -> Vec<Test> {
    let (kinds, intervals) = of_market(row[0]);
    let counts_and_refusals = [
        (2, 4),
        (kinds, 4),
        (intervals, 4),
        (contents.participants, 3),
        (contents.locations, 3),
        (MOST_KW + 1, 2),
        (1, 9),
    ];
    let numbers: Numbers = row.iter().copied().enumerate().collect();
    of_entry(ROW, at, &numbers, &counts_and_refusals)
}

fn of_transaction(at: usize, transaction: &Numbers, contents: &Contents) -> Vec<Test> {
    let (_, market) = transaction[0];
    let (_, intervals) = of_market(market);
    let counts_and_refusals = [
        (2, 4),
        (intervals, 4),
        (contents.participants, 3),
        (contents.locations, 3),
        (contents.locations, 3),
        (MOST_KW + 1, 2),
        (contents.participants, 3),
        (1, 9),
    ];
    of_entry(TRANSACTION, at, transaction, &counts_and_refusals)
}

/// Each number is one of so many, counted from 0, by its field.
fn of_entry(part: i64, at: usize, numbers: &Numbers, counts: &[(i64, i64)]) -> Vec<Test> {
    let test = |&(field, found): &(usize, i64)| {
        let (count, refusal) = counts[field];
        Test {
            place: (part, at, field),
            found,
            range: (0, count - 1),
            refusal,
        }
    };
    numbers.iter().map(test).collect()
}

// Of what an hour comes to.

/// The hour of a file that is right to its last transaction.
fn hour(file: &[u8]) -> Hour {
    let header = exercise::read_header(file).expect("a right header");
    exercise::read_hour(file, &header).expect("right contents")
}

/// The surplus, the shares, and the surplus again where nobody has a share.
fn of_hour(hour: &Hour) -> Vec<Test> {
    let charged = charged(hour);
    let surplus = |most: i64, refusal: i64| Test {
        place: (SURPLUS, 0, 0),
        found: charged.loss.iter().sum::<i128>() as i64,
        range: (-most, most),
        refusal,
    };
    let share = |(participant, &found): (usize, &i64)| Test {
        place: (SHARE, participant, 0),
        found,
        range: (0, MOST_SHARE),
        refusal: 10,
    };
    let mut tests = vec![surplus(MOST_AMOUNT, 10)];
    tests.extend(charged.shares.iter().enumerate().map(share));
    if charged.shares.iter().all(|&share| share == 0) {
        tests.push(surplus(0, 7));
    }
    tests
}

#[cfg(test)]
mod tests {
    use super::*;
    use crate::cases::file::{document_01, File};
    use crate::numbers::{bytes, unhex};
    use crate::vectors;

    fn changed_of(edition: Edition, change: impl Fn(&mut File)) -> Cause {
        let mut file = File::of(edition, 2, 3);
        for _ in 0..4 {
            file.row(1, 0, 11, 1, 2, 600);
            match edition {
                Edition::PathOnly => file.transaction(1, 11, 1, 0, 2, 600),
                Edition::WithSeller => file.sale(1, 11, 1, 0, 0, 2, 600),
            }
        }
        change(&mut file);
        cause_of_file(&file.bytes())
    }

    fn changed(change: impl Fn(&mut File)) -> Cause {
        changed_of(Edition::PathOnly, change)
    }

    #[test]
    fn accepted() {
        assert_eq!(cause_of_file(&document_01()), [0; 7]);
        for edition in Edition::ALL {
            assert_eq!(changed_of(edition, |_| ()), [0; 7]);
        }
    }

    #[test]
    fn lengths_and_headers() {
        let file = document_01();
        let length = file.len() as i64;
        assert_eq!(cause_of_file(&[]), [9, FILE, 0, 0, 0, 83, 19_077]);
        assert_eq!(cause_of_file(&file[..4]), [9, FILE, 0, 0, 4, 83, 19_077]);
        assert_eq!(
            cause_of_file(&file[..5]),
            [9, FILE, 0, 0, 5, length, length]
        );
        for told in [2, 33, 63] {
            let edition = changed(|file| file.told_edition = Some(told));
            assert_eq!(edition, [9, HEADER, 0, 4, told, 0, 1]);
        }
        // Four transactions of the other edition are four bytes more, or less.
        let length = 5 + 78 * 3 + 4 * (6 + 6);
        let other = changed(|file| file.told_edition = Some(1));
        assert_eq!(other, [9, FILE, 0, 0, length, length + 4, length + 4]);
        let other = changed_of(Edition::WithSeller, |file| file.told_edition = Some(0));
        assert_eq!(other, [9, FILE, 0, 0, length + 4, length, length]);
        let rows = changed(|file| file.told_rows = Some(2_049));
        assert_eq!(rows, [1, HEADER, 0, 2, 2_049, 0, 2_048]);
        let transactions = changed(|file| file.told_transactions = Some(300));
        assert_eq!(transactions, [1, HEADER, 0, 3, 300, 0, 256]);
    }

    #[test]
    fn contents_in_their_places() {
        // Location 2 in interval 0 of congestion, and day-ahead of loss.
        let price = changed(|file| file.congestion[5] = -5_000_001);
        assert_eq!(price, [2, PRICE, 5, 0, -5_000_001, -5_000_000, 5_000_000]);
        let price = changed(|file| file.loss[2] = 5_000_001);
        assert_eq!(price, [2, PRICE, 41, 0, 5_000_001, -5_000_000, 5_000_000]);
        for (field, most, number, change) in row_changes() {
            let cause = changed(change);
            assert_eq!(cause, [number, ROW, 2, field, most + 1, 0, most]);
        }
        for edition in Edition::ALL {
            for (field, most, number, change) in transaction_changes() {
                let cause = changed_of(edition, change);
                assert_eq!(cause, [number, TRANSACTION, 3, field, most + 1, 0, most]);
            }
        }
        let seller = changed_of(Edition::WithSeller, |file| {
            file.transactions[3].seller = Some(2)
        });
        assert_eq!(seller, [3, TRANSACTION, 3, 6, 2, 0, 1]);
        for spare in 1..4 {
            let cause = changed_of(Edition::WithSeller, |file| {
                file.transaction_spares.push((3, spare))
            });
            assert_eq!(cause, [9, TRANSACTION, 3, 7, spare, 0, 0]);
        }
    }

    /// Participant, seller, source, sink, kW, spare bits.
    #[test]
    fn order_of_a_sale() {
        let mut cause = changed_of(Edition::WithSeller, spoil);
        let mut seen = vec![cause[3]];
        for mended in 1..6 {
            cause = changed_of(Edition::WithSeller, |file| {
                spoil(file);
                let sale = &mut file.transactions[1];
                for field in 0..mended {
                    match field {
                        0 => sale.participant = 0,
                        1 => sale.seller = Some(0),
                        2 => sale.source = 0,
                        3 => sale.sink = 0,
                        _ => sale.kw = 0,
                    }
                }
            });
            seen.push(cause[3]);
        }
        assert_eq!(cause, [9, TRANSACTION, 1, 7, 3, 0, 0]);
        assert_eq!(seen, [2, 6, 3, 4, 5, 7]);
    }

    /// All of a sale but its market and interval is wrong.
    fn spoil(file: &mut File) {
        let sale = &mut file.transactions[1];
        sale.participant = 2;
        sale.seller = Some(2);
        sale.source = 3;
        sale.sink = 3;
        sale.kw = 20_000_001;
        file.transaction_spares.push((1, 3));
    }

    /// A field, the most that may stand there, the refusal, and one more there.
    type Change = (i64, i64, i64, fn(&mut File));

    fn row_changes() -> [Change; 8] {
        [
            (1, 3, 4, |file| file.rows[2].kind = 4),
            (1, 5, 4, |file| {
                (file.rows[2].market, file.rows[2].kind) = (0, 6)
            }),
            (2, 11, 4, |file| file.rows[2].interval = 12),
            (2, 0, 4, |file| {
                (file.rows[2].market, file.rows[2].interval) = (0, 1)
            }),
            (3, 1, 3, |file| file.rows[2].participant = 2),
            (4, 2, 3, |file| file.rows[2].location = 3),
            (5, 20_000_000, 2, |file| file.rows[2].kw = 20_000_001),
            (6, 0, 9, |file| file.row_spares.push((2, 1))),
        ]
    }

    fn transaction_changes() -> [Change; 6] {
        [
            (1, 11, 4, |file| file.transactions[3].interval = 12),
            (1, 0, 4, |file| {
                file.transactions[3].market = 0;
                file.transactions[3].interval = 1;
            }),
            (2, 1, 3, |file| file.transactions[3].participant = 2),
            (3, 2, 3, |file| file.transactions[3].source = 3),
            (4, 2, 3, |file| file.transactions[3].sink = 3),
            (5, 20_000_000, 2, |file| {
                file.transactions[3].kw = 20_000_001
            }),
        ]
    }

    /// Of several the earliest, and in a row the earliest field.
    #[test]
    fn the_first_is_told() {
        let cause = changed(|file| {
            file.transactions[0].sink = 3;
            file.rows[3].kind = 7;
            file.rows[1].location = 9;
            file.rows[1].kw = 30_000_000;
        });
        assert_eq!(cause, [3, ROW, 1, 4, 9, 0, 2]);
    }

    #[test]
    fn what_an_hour_comes_to() {
        // 20,000,000 kW at 500 dollars a MWh are a milliard cents.
        let hour = |more: i64, shares: i64| {
            let mut file = File::new(3, 1);
            file.loss[0] = 500_000;
            file.row(0, 4, 0, 0, 0, 20_000_000);
            file.row(0, 4, 0, 1, 0, 20 * more);
            for _ in 0..200 {
                file.row(1, 0, 5, 2, 0, 20_000_000);
                file.row(1, 2, 5, 1, 0, 20_000_000);
            }
            file.row(1, 2, 5, 1, 0, shares);
            file.row(1, 2, 5, 2, 0, shares);
            cause_of_file(&file.bytes())
        };
        let (milliard, most) = (1_000_000_000, 4_000_000_000);
        assert_eq!(hour(0, 0), [0; 7]);
        let surplus = [10, SURPLUS, 0, 0, milliard + 1_000, -milliard, milliard];
        assert_eq!(hour(1, 0), surplus);
        assert_eq!(hour(1, 1), surplus);
        assert_eq!(hour(0, 1), [10, SHARE, 1, 0, most + 1, 0, most]);
    }

    #[test]
    fn a_surplus_that_nobody_shares() {
        let mut file = File::new(2, 1);
        file.loss[0] = -500;
        file.row(0, 4, 0, 0, 0, 20_000);
        let cause = cause_of_file(&file.bytes());
        assert_eq!(cause, [7, SURPLUS, 0, 0, -1_000, 0, 0]);
        file.loss[0] = 0;
        assert_eq!(cause_of_file(&file.bytes()), [0; 7]);
    }

    fn given(change: impl Fn(&mut Given)) -> Cause {
        let mut given = Given {
            participants: 2,
            locations: 1,
            rows: 1,
            transactions: 1,
            edition: 0,
            prices: vec![0; 8 * 26],
            row_list: bytes(&[1, 0, 11, 1, 0, 600]),
            transaction_list: bytes(&[0, 0, 1, 0, 0, 600]),
        };
        change(&mut given);
        cause_of_lists(&given)
    }

    #[test]
    fn lists() {
        assert_eq!(given(|_| ()), [0; 7]);
        let cause = given(|given| given.participants = 0);
        assert_eq!(cause, [1, HEADER, 0, 0, 0, 1, 64]);
        let cause = given(|given| given.locations = 65);
        assert_eq!(cause, [1, HEADER, 0, 1, 65, 1, 64]);
        let cause = given(|given| given.rows = -1);
        assert_eq!(cause, [1, HEADER, 0, 2, -1, 0, 2_048]);
        let cause = given(|given| given.transactions = i64::MAX);
        assert_eq!(cause, [1, HEADER, 0, 3, i64::MAX, 0, 256]);
        let cause = given(|given| given.prices.push(0));
        assert_eq!(cause, [1, LIST, 0, 0, 209, 208, 208]);
        let cause = given(|given| given.rows = 2);
        assert_eq!(cause, [1, LIST, 0, 1, 48, 96, 96]);
        let cause = given(|given| given.transactions = 0);
        assert_eq!(cause, [1, LIST, 0, 2, 48, 0, 0]);
        let cause = given(|given| given.row_list = bytes(&[2, 9, 99, -1, -1, -1]));
        assert_eq!(cause, [4, ROW, 0, 0, 2, 0, 1]);
        let cause = given(|given| given.transaction_list = bytes(&[0, 0, 0, 0, -1, -1]));
        assert_eq!(cause, [3, TRANSACTION, 0, 4, -1, 0, 0]);
    }

    #[test]
    fn lists_with_a_seller() {
        let sale = |seven: [i64; 7]| {
            given(|given| {
                given.edition = 1;
                given.transaction_list = bytes(&seven);
            })
        };
        assert_eq!(sale([0, 0, 1, 1, 0, 0, 600]), [0; 7]);
        for (seven, told) in [
            ([2, -1, 2, 2, 1, 1, -1], [4, TRANSACTION, 0, 0, 2, 0, 1]),
            ([0, -1, 2, 2, 1, 1, -1], [4, TRANSACTION, 0, 1, -1, 0, 0]),
            ([0, 0, 2, 2, 1, 1, -1], [3, TRANSACTION, 0, 2, 2, 0, 1]),
            ([0, 0, 1, 2, 1, 1, -1], [3, TRANSACTION, 0, 6, 2, 0, 1]),
            ([0, 0, 1, -1, 1, 1, -1], [3, TRANSACTION, 0, 6, -1, 0, 1]),
            ([0, 0, 1, 0, 1, 1, -1], [3, TRANSACTION, 0, 3, 1, 0, 0]),
            ([0, 0, 1, 0, 0, 1, -1], [3, TRANSACTION, 0, 4, 1, 0, 0]),
            (
                [0, 0, 1, 0, 0, 0, -1],
                [2, TRANSACTION, 0, 5, -1, 0, 20_000_000],
            ),
        ] {
            assert_eq!(sale(seven), told);
        }
        let cause = given(|given| given.edition = 1);
        assert_eq!(cause, [1, LIST, 0, 2, 48, 56, 56]);
        for edition in [-1, 2, 63, 64, i64::MIN, i64::MAX] {
            let cause = given(|given| {
                given.edition = edition;
                given.participants = 0;
            });
            assert_eq!(cause, [9, HEADER, 0, 4, edition, 0, 1]);
        }
    }

    #[test]
    fn a_cause_of_another_length() {
        for len in [0, 48, 55, 57, 64] {
            let mut list = vec![0x55; len];
            assert_eq!(find_cause(&[], &mut list), 1);
            assert_eq!(list, vec![0x55; len]);
        }
    }

    #[test]
    fn vectors() {
        for (line, f) in vectors::read("cause") {
            let mut list = unhex(&f[1]);
            let number = find_cause(&unhex(&f[0]), &mut list);
            assert_eq!(number.to_string(), f[2], "line {line}");
            assert!(list == unhex(&f[3]), "line {line}");
        }
        for (line, f) in vectors::read("list_cause") {
            let mut list = unhex(&f[8]);
            let number = find_list_cause(&Given::of(&f), &mut list);
            assert_eq!(number.to_string(), f[9], "line {line}");
            assert!(list == unhex(&f[10]), "line {line}");
        }
    }
}

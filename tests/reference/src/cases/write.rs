//! Cases of writing a file: sound hours by families, then ones with a fault or
//! two, each fault known by its stage in the order of refusals.

use super::faults::{beyond, pair, wrapped};
use super::file::File;
use super::hour;
use crate::exercise::{Edition, MOST_PRICE};
use crate::numbers::{self, hex};
use crate::random::Random;
use crate::write::{write_file, Given, ROW_NUMBERS, STRETCHES};
use crate::MOST_KW;

pub const HEADER: &str = "participants\tlocations\trows\ttransactions\tedition\tprices\trow_list\ttransaction_list\tfile before\tnumber\tfile after";

/// Market, kind, interval, participant, location, kW of a row.
type Row = [i64; ROW_NUMBERS];

/// Market, interval, participant, seller, source, sink, kW of a transaction; a
/// list of paths alone has it without the seller.
type Sale = [i64; 7];

const SELLER: usize = 3;

#[derive(Clone)]
pub struct Case {
    /// Participants, locations, rows and transactions as the call is told.
    counts: [i64; 4],
    /// The edition as the call is told.
    edition: i64,
    prices: Vec<i64>,
    rows: Vec<Row>,
    transactions: Vec<Sale>,
    /// What the list of transactions has of each.
    listed: Edition,
    /// Bytes more than each of the lists has, or less, at its end.
    excess: [i64; 3],
    /// Bytes more than the file has, or less, in the buffer.
    room: i64,
}

const PARTICIPANTS: usize = 0;
const LOCATIONS: usize = 1;
const ROWS: usize = 2;
const TRANSACTIONS: usize = 3;

const SMALLEST: [i64; 4] = [1, 1, 0, 0];
const LARGEST: [i64; 4] = [64, 64, 2_048, 256];

impl Case {
    /// The hour of a file.
    pub fn new(file: &File) -> Case {
        let rows = file.rows.iter().map(|row| row.numbers()).collect();
        let sale = |mut numbers: Vec<i64>| -> Sale {
            if file.edition == Edition::PathOnly {
                numbers.insert(SELLER, 0);
            }
            numbers.try_into().unwrap()
        };
        let transactions = file.transactions.iter().map(|entry| sale(entry.numbers()));
        let prices = [file.congestion.clone(), file.loss.clone()].concat();
        let transactions = transactions.collect();
        Case::of(file.edition, file.participants, prices, rows, transactions)
    }

    fn of(
        edition: Edition,
        participants: usize,
        prices: Vec<i64>,
        rows: Vec<Row>,
        transactions: Vec<Sale>,
    ) -> Case {
        let locations = prices.len() / STRETCHES;
        let counts = [participants, locations, rows.len(), transactions.len()];
        Case {
            counts: counts.map(|count| count as i64),
            edition: edition.number(),
            prices,
            rows,
            transactions,
            listed: edition,
            excess: [0; 3],
            room: 0,
        }
    }

    fn transaction_list(&self) -> Vec<i64> {
        let list = |sale: &Sale| -> Vec<i64> {
            let mut numbers = sale.to_vec();
            if self.listed == Edition::PathOnly {
                numbers.remove(SELLER);
            }
            numbers
        };
        self.transactions.iter().flat_map(list).collect()
    }

    /// Lists transactions with their sellers. Where the other edition was told,
    /// it is told still.
    fn list_sellers(&mut self) {
        if self.listed == Edition::PathOnly {
            self.listed = Edition::WithSeller;
            if let Some(edition) = Edition::of(self.edition) {
                self.edition = edition.other().number();
            }
        }
    }

    pub fn given(&self) -> Given {
        let list = |numbers: &[i64], excess: i64| {
            let mut bytes = numbers::bytes(numbers);
            let len = bytes.len() as i64 + excess;
            bytes.resize(len.max(0) as usize, 0);
            bytes
        };
        Given {
            participants: self.counts[PARTICIPANTS],
            locations: self.counts[LOCATIONS],
            rows: self.counts[ROWS],
            transactions: self.counts[TRANSACTIONS],
            edition: self.edition,
            prices: list(&self.prices, self.excess[0]),
            row_list: list(&self.rows.concat(), self.excess[1]),
            transaction_list: list(&self.transaction_list(), self.excess[2]),
        }
    }

    /// The bytes of the file that these numbers make.
    fn file_len(&self) -> usize {
        let each = self.listed.transaction_bytes();
        5 + 3 * self.prices.len() + 6 * self.rows.len() + each * self.transactions.len()
    }

    pub fn buffer_len(&self) -> usize {
        (self.file_len() as i64 + self.room).max(0) as usize
    }

    /// The file of a sound hour.
    pub fn file(&self) -> Vec<u8> {
        let mut file = vec![0x55; self.file_len()];
        assert_eq!(write_file(&self.given(), &mut file), 0);
        file
    }

    /// How many identities there are to name, also where a count is beyond.
    fn identities(&self, count: usize) -> i64 {
        self.counts[count].clamp(1, 64)
    }

    fn with_room(mut self, room: i64) -> Case {
        self.room = room;
        self
    }
}

/// The case of a turn, as a line.
pub fn line(turn: usize, random: &mut Random) -> String {
    let case = draw(turn, random);
    let given = case.given();
    let before = random.bytes(case.buffer_len());
    let mut after = before.clone();
    let number = write_file(&given, &mut after);
    format!(
        "{}\t{}\t{number}\t{}",
        fields(&given),
        hex(&before),
        hex(&after)
    )
}

/// An hour in lists as the fields of a case.
pub fn fields(given: &Given) -> String {
    let numbers = [
        given.participants,
        given.locations,
        given.rows,
        given.transactions,
        given.edition,
    ];
    let lists = [&given.prices, &given.row_list, &given.transaction_list];
    let numbers = numbers.map(|number| number.to_string()).join("\t");
    format!("{numbers}\t{}", lists.map(|list| hex(list)).join("\t"))
}

pub fn draw(turn: usize, random: &mut Random) -> Case {
    if turn % 200 == 199 {
        return large(turn / 200, random);
    }
    FAMILIES[turn % FAMILIES.len()](turn / FAMILIES.len(), random)
}

type Family = fn(usize, &mut Random) -> Case;

const FAMILIES: [Family; 22] = [
    small,
    medium,
    wide,
    without_rows,
    one_number,
    edges,
    edges,
    powers,
    powers,
    wraps,
    counts,
    editions,
    other_edition,
    lengths,
    buffers,
    noise,
    one_fault,
    one_fault,
    two_faults,
    two_faults,
    two_stages,
    one_entry,
];

// Sound hours.

fn small(_: usize, random: &mut Random) -> Case {
    let case = Case::new(&hour::small(random));
    case.with_room(random.pick(&[0, 0, 1, 7, 100]))
}

fn medium(_: usize, random: &mut Random) -> Case {
    Case::new(&hour::medium(random))
}

/// Every number is any of its range.
pub fn wide(_: usize, random: &mut Random) -> Case {
    let counts = [
        random.between(1, 64),
        random.between(1, 9),
        random.between(0, 12),
        random.between(0, 6),
    ];
    sound(any_edition(random), counts, random).with_room(random.pick(&[0, 0, 0, 1, 300]))
}

fn any_edition(random: &mut Random) -> Edition {
    random.pick(&Edition::ALL)
}

/// No row, of few locations or all; with the fewest the shortest file.
fn without_rows(round: usize, random: &mut Random) -> Case {
    let [mut participants, mut locations, rows, _] = SMALLEST;
    let transactions = [0, 1, 5][round / 4 % 3];
    if round % 2 == 1 {
        participants = 64;
    }
    if round / 2 % 2 == 1 {
        locations = random.pick(&[2, 63, 64]);
    }
    let counts = [participants, locations, rows, transactions];
    sound(any_edition(random), counts, random)
}

fn sound(edition: Edition, counts: [i64; 4], random: &mut Random) -> Case {
    let [participants, locations, rows, transactions] = counts;
    let prices = (0..STRETCHES as i64 * locations).map(|_| price(random));
    let prices = prices.collect();
    let rows = (0..rows)
        .map(|_| row(participants, locations, random))
        .collect();
    let transactions = (0..transactions)
        .map(|_| transaction(participants, locations, random))
        .collect();
    Case::of(edition, participants as usize, prices, rows, transactions)
}

fn price(random: &mut Random) -> i64 {
    match random.index(12) {
        0 => MOST_PRICE,
        1 => -MOST_PRICE,
        2 => random.pick(&[0, 1, -1]),
        _ => random.between(-MOST_PRICE, MOST_PRICE),
    }
}

fn kw(random: &mut Random) -> i64 {
    match random.index(8) {
        0 => 0,
        1 => MOST_KW,
        _ => random.between(0, MOST_KW),
    }
}

fn row(participants: i64, locations: i64, random: &mut Random) -> Row {
    let (market, kinds, intervals) = random.pick(&[(0, 6, 1), (1, 4, 12)]);
    [
        market,
        random.between(0, kinds - 1),
        random.between(0, intervals - 1),
        random.between(0, participants - 1),
        random.between(0, locations - 1),
        kw(random),
    ]
}

fn transaction(participants: i64, locations: i64, random: &mut Random) -> Sale {
    let (market, intervals) = random.pick(&[(0, 1), (1, 12)]);
    [
        market,
        random.between(0, intervals - 1),
        random.between(0, participants - 1),
        random.between(0, participants - 1),
        random.between(0, locations - 1),
        random.between(0, locations - 1),
        kw(random),
    ]
}

/// The longest files and others with the most of something, first of one
/// edition and then of the other; every second is wrong at its end only.
pub fn large(round: usize, random: &mut Random) -> Case {
    let counts = [
        LARGEST,
        [1, 1, 2_048, 0],
        [64, 1, 2_048, 256],
        [1, 64, 0, 256],
        [64, 64, 0, 0],
    ];
    let edition = Edition::ALL[round / 2 / counts.len() % 2];
    let mut case = sound(edition, counts[round / 2 % counts.len()], random);
    if round % 2 == 0 {
        case.room = random.pick(&[0, 1, 2_000]);
        return case;
    }
    match round / 2 % 4 {
        0 => *case.prices.last_mut().unwrap() = -MOST_PRICE - 1,
        1 => case.room = -1,
        2 if !case.rows.is_empty() => case.rows.last_mut().unwrap()[1] = 6,
        2 => case.excess[1] = 1,
        _ if !case.transactions.is_empty() => {
            case.transactions.last_mut().unwrap()[6] = MOST_KW + 1
        }
        _ => case.excess[2] = 48,
    }
    case
}

// Hours that are sound or not, by chance.

/// All numbers are 0 but for one, which has a single bit or is at its limit.
fn one_number(round: usize, random: &mut Random) -> Case {
    let mut case = Case::new(&File::of(any_edition(random), 64, 64));
    case.rows = vec![[0; 6]; 3];
    case.transactions = vec![[0; 7]; 3];
    case.counts = [64, 64, 3, 3];
    let bit = 1 << (round / 3 % 25);
    let at = random.index(3);
    match round % 3 {
        0 => {
            let at = random.index(case.prices.len());
            case.prices[at] = random.pick(&[bit, -bit, MOST_PRICE, -MOST_PRICE]);
        }
        1 => case.rows[at][random.pick(&[0, 1, 3, 4, 5, 5, 5])] = bit,
        _ => case.transactions[at][random.pick(&[0, 2, 3, 4, 5, 6, 6])] = bit,
    }
    case
}

/// A row or two and a transaction of numbers near the ends of their ranges.
fn edges(_: usize, random: &mut Random) -> Case {
    let counts = [
        random.between(1, 3),
        random.between(1, 2),
        random.between(1, 2),
        random.between(0, 1),
    ];
    let mut case = sound(any_edition(random), counts, random);
    let [participants, locations, ..] = counts;
    for entry in &mut case.rows {
        let most = [1, 5, 11, participants - 1, locations - 1, MOST_KW];
        move_to_edges(entry, most, random);
    }
    for entry in &mut case.transactions {
        let most = [
            1,
            11,
            participants - 1,
            participants - 1,
            locations - 1,
            locations - 1,
            MOST_KW,
        ];
        move_to_edges(entry, most, random);
    }
    case
}

fn move_to_edges<const NUMBERS: usize>(
    entry: &mut [i64; NUMBERS],
    most: [i64; NUMBERS],
    random: &mut Random,
) {
    for (number, most) in entry.iter_mut().zip(most) {
        match random.index(24) {
            0 => *number = most + 1,
            1 => *number = -1,
            2..=5 => *number = most,
            6..=9 => *number = 0,
            _ => {}
        }
    }
}

/// The kinds of numbers: the counts, the edition, a price of congestion and of
/// loss, the numbers of a row and of a transaction.
const KINDS: usize = 4 + 1 + 2 + 6 + 7;

/// Some number of a kind.
fn some<'a>(case: &'a mut Case, kind: usize, random: &mut Random) -> &'a mut i64 {
    let half = case.prices.len() / 2;
    let row = random.index(case.rows.len());
    let transaction = random.index(case.transactions.len());
    match kind {
        0..=3 => &mut case.counts[kind],
        4 => &mut case.edition,
        5 | 6 => &mut case.prices[(kind - 5) * half + random.index(half)],
        7..=12 => &mut case.rows[row][kind - 7],
        _ => {
            let field = kind - 13;
            if field == SELLER {
                case.list_sellers();
            }
            &mut case.transactions[transaction][field]
        }
    }
}

/// A bit about where fields, and words, end.
fn bit(random: &mut Random) -> usize {
    let low = random.index(27);
    let high = random.pick(&[31, 32, 33, 47, 48, 56, 60, 61, 62, 63]);
    random.pick(&[low, high])
}

/// A number of each kind is next to a power of two, of either sign.
fn powers(round: usize, random: &mut Random) -> Case {
    let mut case = faultless(random);
    let power: i64 = 1 << bit(random);
    let near = [
        power,
        power.wrapping_sub(1),
        power.wrapping_neg(),
        power.wrapping_neg().wrapping_sub(1),
    ];
    *some(&mut case, round % KINDS, random) = random.pick(&near);
    case
}

/// A number of each kind differs from a right one by a power of two.
fn wraps(round: usize, random: &mut Random) -> Case {
    let mut case = faultless(random);
    let power = 1 << bit(random);
    let number = some(&mut case, round % KINDS, random);
    *number = number.wrapping_add(power);
    case
}

/// A count within its range or beyond; where that can be, by chance, the lists
/// are as long as it tells.
fn counts(round: usize, random: &mut Random) -> Case {
    let mut case = faultless(random);
    let at = round % 4;
    let right = case.counts[at];
    let count = random.pick(&[
        0,
        1,
        63,
        64,
        65,
        -1,
        -right,
        255,
        256,
        257,
        2_047,
        2_048,
        2_049,
        4_096,
        right + 256,
        right + 4_096,
        (1 << 16) + right,
        (1 << 32) + right,
        1 << 40,
        // Times 48, 56 or 208 this is a multiple of 2^64.
        (1 << 60) + right,
        (1 << 61) + right,
        (1 << 62) + right,
        i64::MAX,
        i64::MIN,
        i64::MIN + right,
    ]);
    case.counts[at] = count;
    if (0..=4_096).contains(&count) && random.once_in(2) {
        let count = count as usize;
        match at {
            LOCATIONS => case.prices.resize(STRETCHES * count, 0),
            ROWS => case.rows.resize(count, [0; 6]),
            TRANSACTIONS => case.transactions.resize(count, [0; 7]),
            _ => {}
        }
    }
    case
}

/// Editions that there are and others, with transactions or without.
fn editions(round: usize, random: &mut Random) -> Case {
    let transactions = [0, 2][round % 2];
    let right = any_edition(random);
    let mut case = sound(right, [2, 1, 1, transactions], random);
    let right = right.number();
    case.edition = random.pick(&[
        0,
        1,
        -1,
        2,
        3,
        62,
        63,
        64,
        65,
        128,
        255,
        256,
        -right,
        right + 64,
        right + 256,
        right + (1 << 32),
        right + (1 << 63),
        i64::MIN,
        i64::MAX,
    ]);
    case
}

/// A list of one edition told as of the other: with as many transactions, or
/// with as many as then have all its numbers, which by chance are right so, too.
fn other_edition(round: usize, random: &mut Random) -> Case {
    let listed = Edition::ALL[round % 2];
    let numbers = listed.transaction_numbers() as i64;
    let other = listed.other();
    let others = other.transaction_numbers() as i64;
    let times = 1 + random.index(2) as i64;
    let count = others * times;
    let mut case = sound(listed, [64, 64, random.between(0, 2), count], random);
    for sale in &mut case.transactions {
        for number in sale.iter_mut() {
            *number = random.pick(&[0, 0, 0, 0, 0, 0, 0, 0, 1, 63]);
        }
    }
    case.edition = other.number();
    if round / 2 % 4 != 0 {
        case.counts[TRANSACTIONS] = numbers * times;
    }
    case
}

/// A list is a few bytes shorter or longer, or empty, or two lists make up for
/// each other.
fn lengths(round: usize, random: &mut Random) -> Case {
    let mut case = faultless(random);
    let list = round % 3;
    let other = (list + 1) % 3;
    match round / 3 % 25 {
        0 => case.excess[list] = EMPTY,
        1 => case.excess = [EMPTY; 3],
        2 => (case.excess[list], case.excess[other]) = (8, -8),
        3 => (case.excess[list], case.excess[other]) = (48, -48),
        4 => (case.excess[list], case.excess[other]) = (1, -1),
        5 => exchange(&mut case),
        n @ 6..=12 => case.excess[list] = n as i64 - 5,
        n @ 13..=19 => case.excess[list] = 12 - n as i64,
        20 => (case.excess[list], case.excess[other]) = (56, -56),
        _ => case.excess[list] = random.pick(&[-8, 8, -48, 48, -208, 208, 416, 4_096]),
    }
    case
}

/// The rows stand where the transactions should, and these there.
fn exchange(case: &mut Case) {
    let paths = case.transactions.iter().map(|sale| {
        let [market, interval, participant, _, source, sink, kw] = *sale;
        [market, interval, participant, source, sink, kw]
    });
    let paths: Vec<Row> = paths.collect();
    let sales = case.rows.iter().map(|row| {
        let [a, b, c, d, e, kw] = *row;
        [a, b, c, 0, d, e, kw]
    });
    case.transactions = sales.collect();
    case.rows = paths;
}

const EMPTY: i64 = i64::MIN / 2;

/// The buffer has none or few bytes, or about as many as the file.
fn buffers(round: usize, random: &mut Random) -> Case {
    let case = wide(0, random);
    let len = case.file_len() as i64;
    let lens = [
        0,
        1,
        4,
        5,
        6,
        len / 2,
        len - 6,
        len - 1,
        len,
        len + 1,
        len + 2,
        len + 6,
        len + 100,
        18_820,
        18_821,
        18_822,
        19_076,
        19_077,
        19_078,
    ];
    case.with_room(lens[round % lens.len()] - len)
}

/// Any bytes, mostly in lists as long as the counts tell.
fn noise(_: usize, random: &mut Random) -> Case {
    let any = |random: &mut Random| random.any() >> random.pick(&[0, 32, 40, 56, 60, 62]);
    let counts = [0, 1, 2, 3].map(|_| random.between(0, 3));
    let rows = (0..counts[ROWS]).map(|_| [0; 6].map(|_: i64| any(random)));
    let rows = rows.collect();
    let transactions = (0..counts[TRANSACTIONS]).map(|_| [0; 7].map(|_: i64| any(random)));
    let transactions = transactions.collect();
    let prices = (0..STRETCHES as i64 * counts[LOCATIONS]).map(|_| match random.index(40) {
        0 => any(random),
        _ => price(random),
    });
    let prices = prices.collect();
    let mut case = Case::of(any_edition(random), 0, prices, rows, transactions);
    if random.once_in(8) {
        case.edition = any(random);
    }
    case.counts[PARTICIPANTS] = counts[PARTICIPANTS];
    if random.once_in(8) {
        case.excess = [0; 3].map(|_: i64| random.pick(&[0, 0, 1, -1, 8, -8]));
    }
    case.with_room(random.between(-9, 9))
}

// Hours with faults.

/// A sound hour with rows and transactions enough to spoil.
fn faultless(random: &mut Random) -> Case {
    Case::new(&hour::faultless(random).file)
}

fn one_fault(round: usize, random: &mut Random) -> Case {
    spoilt(&[&FAULTS[round % FAULTS.len()]], random)
}

fn two_faults(_: usize, random: &mut Random) -> Case {
    let any = random.index(FAULTS.len() * (FAULTS.len() - 1));
    let (first, second) = pair(any, FAULTS.len());
    spoilt(&[&FAULTS[first], &FAULTS[second]], random)
}

/// The n-th of all pairs of faults, but for those of the buffer.
pub fn with_two_faults(n: usize, random: &mut Random) -> Case {
    let faults: Vec<&Fault> = FAULTS.iter().filter(|fault| fault.0 != OF_BUFFER).collect();
    let (first, second) = pair(n, faults.len());
    spoilt(&[faults[first], faults[second]], random)
}

/// Some faults of rows or of transactions, in as many of them.
pub fn many_entries(random: &mut Random) -> Case {
    let faults = faults_of(random.pick(&[OF_ROWS, OF_TRANSACTIONS]));
    let drawn: Vec<&Fault> = (0..2 + random.index(4))
        .map(|_| random.pick(&faults))
        .collect();
    spoilt(&drawn, random)
}

/// Faults of each pair of stages.
fn two_stages(round: usize, random: &mut Random) -> Case {
    let (first, second) = pair(round, STAGES);
    let faults = [first, second].map(|stage| random.pick(&faults_of(stage)));
    spoilt(&faults, random)
}

/// Two faults with different numbers, by chance in the same entry.
fn one_entry(_: usize, random: &mut Random) -> Case {
    let mut case = faultless(random);
    let stage = random.pick(&[OF_ROWS, OF_TRANSACTIONS]);
    let mut faults = faults_of(stage);
    let first = random.pick(&faults);
    faults.retain(|fault| fault.1 != first.1);
    if random.once_in(2) {
        case.rows.truncate(1);
        case.transactions.truncate(1);
        case.counts[ROWS] = 1;
        case.counts[TRANSACTIONS] = 1;
    }
    first.2(&mut case, random);
    random.pick(&faults).2(&mut case, random);
    case
}

/// The n-th of all pairs of faults of a transaction, both in the only one.
pub fn one_transaction(n: usize, random: &mut Random) -> Case {
    let mut case = faultless(random);
    case.transactions.truncate(1);
    case.counts[TRANSACTIONS] = 1;
    let faults = faults_of(OF_TRANSACTIONS);
    let (first, second) = pair(n, faults.len());
    for fault in [first, second] {
        faults[fault].2(&mut case, random);
    }
    case
}

/// A way to be refused: its stage in the order, the number it gets when it
/// stands alone, and how a case comes to it. None undoes another.
type Fault = (usize, u32, fn(&mut Case, &mut Random));

const OF_EDITION: usize = 0;
const OF_LENGTHS: usize = 1;
const OF_PRICES: usize = 2;
const OF_ROWS: usize = 3;
const OF_TRANSACTIONS: usize = 4;
const OF_BUFFER: usize = 5;
const STAGES: usize = 6;

const FAULTS: &[Fault] = &[
    (OF_EDITION, 9, |case, random| {
        stray(&mut case.edition, 0, 1, random)
    }),
    (OF_EDITION, 9, |case, random| {
        case.edition = random.pick(&[-1, 2, 63, 64, i64::MIN, i64::MAX]);
    }),
    (OF_LENGTHS, 1, |case, random| {
        stray(&mut case.counts[PARTICIPANTS], 1, 64, random);
    }),
    (OF_LENGTHS, 1, |case, random| {
        stray(&mut case.counts[LOCATIONS], 1, 64, random);
    }),
    (OF_LENGTHS, 1, |case, random| {
        stray(&mut case.counts[ROWS], 0, 2_048, random);
    }),
    (OF_LENGTHS, 1, |case, random| {
        stray(&mut case.counts[TRANSACTIONS], 0, 256, random);
    }),
    (OF_LENGTHS, 1, |case, _| {
        // One more than there may be, and truly there.
        case.counts[LOCATIONS] = 65;
        case.prices.resize(65 * STRETCHES, 0);
    }),
    (OF_LENGTHS, 1, |case, _| {
        case.counts[ROWS] = 2_049;
        case.rows.resize(2_049, case.rows[0]);
    }),
    (OF_LENGTHS, 1, |case, _| {
        case.counts[TRANSACTIONS] = 257;
        case.transactions.resize(257, case.transactions[0]);
    }),
    // Two more than there are, as one would make up for an entry.
    (OF_LENGTHS, 1, |case, _| {
        case.counts[LOCATIONS] = (case.prices.len() / STRETCHES) as i64 + 2;
    }),
    (OF_LENGTHS, 1, |case, _| {
        case.counts[ROWS] = case.rows.len() as i64 + 2;
    }),
    (OF_LENGTHS, 1, |case, _| {
        case.counts[TRANSACTIONS] = case.transactions.len() as i64 + 2;
    }),
    (OF_LENGTHS, 1, |case, random| {
        if random.once_in(2) {
            case.rows.pop();
        } else {
            case.rows.push(case.rows[0]);
        }
    }),
    (OF_LENGTHS, 1, |case, random| {
        if random.once_in(2) {
            case.transactions.pop();
        } else {
            case.transactions.push(case.transactions[0]);
        }
    }),
    (OF_LENGTHS, 1, |case, _| {
        // Numbers of the other edition, unless they are already.
        if case.edition == case.listed.number() {
            case.listed = case.listed.other();
        }
    }),
    (OF_LENGTHS, 1, |case, random| spoil_bytes(case, 0, random)),
    (OF_LENGTHS, 1, |case, random| spoil_bytes(case, 1, random)),
    (OF_LENGTHS, 1, |case, random| spoil_bytes(case, 2, random)),
    (OF_PRICES, 2, |case, random| {
        let at = random.index(case.prices.len());
        stray(&mut case.prices[at], -MOST_PRICE, MOST_PRICE, random);
    }),
    (OF_PRICES, 2, |case, random| {
        let last = case.prices.len() - 1;
        let at = random.pick(&[0, last]);
        stray(&mut case.prices[at], -MOST_PRICE, MOST_PRICE, random);
    }),
    (OF_ROWS, 4, |case, random| {
        stray(&mut any(&mut case.rows, random)[0], 0, 1, random)
    }),
    (OF_ROWS, 4, |case, random| {
        stray(&mut any(&mut case.rows, random)[1], 0, 5, random)
    }),
    (OF_ROWS, 4, |case, random| {
        let row = any(&mut case.rows, random);
        row[0] = 1;
        row[1] = random.pick(&[4, 5]);
    }),
    (OF_ROWS, 4, |case, random| {
        stray(&mut any(&mut case.rows, random)[2], 0, 11, random)
    }),
    (OF_ROWS, 4, |case, random| {
        let row = any(&mut case.rows, random);
        row[0] = 0;
        row[2] = random.between(1, 11);
    }),
    (OF_ROWS, 3, |case, random| {
        let last = case.identities(PARTICIPANTS) - 1;
        stray(&mut any(&mut case.rows, random)[3], 0, last, random);
    }),
    (OF_ROWS, 3, |case, random| {
        let last = case.identities(LOCATIONS) - 1;
        stray(&mut any(&mut case.rows, random)[4], 0, last, random);
    }),
    (OF_ROWS, 2, |case, random| {
        stray(&mut any(&mut case.rows, random)[5], 0, MOST_KW, random)
    }),
    (OF_TRANSACTIONS, 4, |case, random| {
        stray(&mut any(&mut case.transactions, random)[0], 0, 1, random);
    }),
    (OF_TRANSACTIONS, 4, |case, random| {
        stray(&mut any(&mut case.transactions, random)[1], 0, 11, random);
    }),
    (OF_TRANSACTIONS, 4, |case, random| {
        let transaction = any(&mut case.transactions, random);
        transaction[0] = 0;
        transaction[1] = random.between(1, 11);
    }),
    (OF_TRANSACTIONS, 3, |case, random| {
        let last = case.identities(PARTICIPANTS) - 1;
        stray(&mut any(&mut case.transactions, random)[2], 0, last, random);
    }),
    (OF_TRANSACTIONS, 3, |case, random| {
        case.list_sellers();
        let last = case.identities(PARTICIPANTS) - 1;
        let seller = &mut any(&mut case.transactions, random)[SELLER];
        stray(seller, 0, last, random);
    }),
    (OF_TRANSACTIONS, 3, |case, random| {
        let last = case.identities(LOCATIONS) - 1;
        stray(&mut any(&mut case.transactions, random)[4], 0, last, random);
    }),
    (OF_TRANSACTIONS, 3, |case, random| {
        let last = case.identities(LOCATIONS) - 1;
        stray(&mut any(&mut case.transactions, random)[5], 0, last, random);
    }),
    (OF_TRANSACTIONS, 2, |case, random| {
        let kw = &mut any(&mut case.transactions, random)[6];
        stray(kw, 0, MOST_KW, random);
    }),
    (OF_BUFFER, 1, |case, random| {
        case.room = random.pick(&[-1, -1, -5, -6, -48, EMPTY]);
    }),
];

fn faults_of(stage: usize) -> Vec<&'static Fault> {
    FAULTS.iter().filter(|fault| fault.0 == stage).collect()
}

/// An hour that came to some faults, one after the other.
fn spoilt(faults: &[&Fault], random: &mut Random) -> Case {
    let mut case = faultless(random);
    for fault in faults {
        fault.2(&mut case, random);
    }
    case
}

fn any<'a, T>(entries: &'a mut [T], random: &mut Random) -> &'a mut T {
    let at = random.index(entries.len());
    &mut entries[at]
}

/// Takes a number out of its range.
fn stray(number: &mut i64, low: i64, high: i64, random: &mut Random) {
    *number = if random.once_in(2) {
        beyond(low, high, random)
    } else {
        wrapped(*number, low, high, random)
    };
}

/// Not as many bytes as an entry has, which would make up for one.
fn spoil_bytes(case: &mut Case, list: usize, random: &mut Random) {
    let ragged = random.between(1, 7);
    case.excess[list] = random.pick(&[8, -8, ragged, -ragged, EMPTY]);
}

#[cfg(test)]
mod tests {
    use super::*;
    use crate::exercise::{self, read_header};
    use crate::read::{lens_of, read_file};
    use std::cmp::Ordering;
    use std::collections::BTreeSet;

    fn number(case: &Case) -> u32 {
        write_file(&case.given(), &mut vec![0; case.buffer_len()])
    }

    #[test]
    fn sound_hours_are_accepted() {
        let mut random = Random::new(1);
        let families: [Family; 5] = [small, medium, wide, without_rows, |round, random| {
            large(2 * round, random)
        }];
        for family in families {
            for round in 0..50 {
                assert_eq!(number(&family(round, &mut random)), 0);
            }
        }
    }

    #[test]
    fn faults_get_their_numbers() {
        let mut random = Random::new(2);
        for (at, fault) in FAULTS.iter().enumerate() {
            for _ in 0..50 {
                assert_eq!(
                    number(&spoilt(&[fault], &mut random)),
                    fault.1,
                    "fault {at}"
                );
            }
        }
    }

    /// Of two faults the one of the earlier stage decides, whichever came first.
    #[test]
    fn pairs_get_the_earlier_number() {
        let mut random = Random::new(3);
        for n in 0..10 * FAULTS.len() * (FAULTS.len() - 1) {
            let (at, other) = pair(n, FAULTS.len());
            let (first, second) = (&FAULTS[at], &FAULTS[other]);
            let number = number(&spoilt(&[first, second], &mut random));
            match first.0.cmp(&second.0) {
                Ordering::Less => assert_eq!(number, first.1, "faults {at}, {other}"),
                Ordering::Greater => assert_eq!(number, second.1, "faults {at}, {other}"),
                // In one stage it's the earlier row or transaction that decides.
                Ordering::Equal => {
                    assert!(
                        [first.1, second.1].contains(&number),
                        "faults {at}, {other}: {number}"
                    )
                }
            }
        }
    }

    /// A written file is accepted, and read it gives the numbers back.
    #[test]
    fn written_files_read_as_their_numbers() {
        let mut random = Random::new(4);
        let mut tried = 0;
        for turn in 0..3_000 {
            let case = draw(turn, &mut random);
            if number(&case) != 0 {
                continue;
            }
            tried += 1;
            let file = case.file();
            let header = read_header(&file).unwrap();
            let mut lists = lens_of(&header).map(|len| vec![0x55; len]);
            assert_eq!(read_file(&file, &mut lists), 0);
            let given = case.given();
            assert_eq!(header.participants as i64, given.participants);
            assert_eq!(header.edition.number(), given.edition);
            assert!(lists == [given.prices, given.row_list, given.transaction_list]);
        }
        assert!(tried > 800, "{tried}");
    }

    /// Content that fits the fields is refused as its file would be.
    #[test]
    fn contents_are_refused_as_their_files() {
        let mut random = Random::new(5);
        let faults = hour::faults_of_files();
        // A number 9 is a file's own: numbers have no length and no spare bits.
        let faults = faults
            .iter()
            .filter(|fault| fault.0 > hour::LISTS && fault.1 != 9);
        let faults: Vec<_> = faults.collect();
        let mut seen = BTreeSet::new();
        for n in 0..20 * faults.len() * (faults.len() - 1) {
            let (first, second) = pair(n, faults.len());
            let file = hour::spoilt(&[faults[first], faults[second]], &mut random).file;
            let refusal = exercise::check(&file.bytes());
            assert_eq!(number(&Case::new(&file)), refusal);
            seen.insert(refusal);
        }
        assert!(seen.into_iter().eq([2, 3, 4]));
    }

    /// The cases that tests/run tries have each shape among them.
    #[test]
    fn families_reach_every_shape() {
        let mut seen = BTreeSet::new();
        let mut random = Random::new(1);
        for turn in 0..6_000 {
            seen.extend(shapes(&draw(turn, &mut random)));
        }
        // Two files of each edition, three lengths of buffers, four of each
        // list, the counts and the edition below and above, the counts above
        // with their lists, too, a price of either sign, and lists of either
        // edition told as of the other, refused and accepted.
        assert_eq!(
            seen.len(),
            2 * 2 + 3 + 4 * 3 + 2 * 5 + 3 + 2 + 2 * 2,
            "{seen:#?}"
        );
    }

    fn shapes(case: &Case) -> Vec<String> {
        let given = case.given();
        let lists = [&given.prices, &given.row_list, &given.transaction_list];
        let buffer = case.buffer_len().cmp(&case.file_len());
        let number = number(case);
        let mut shapes = Vec::new();
        if number == 0 {
            let longest = case.counts == LARGEST;
            let shortest = case.counts == SMALLEST;
            let name = if longest { Some("the longest") } else { None };
            let name = if shortest { Some("the shortest") } else { name };
            shapes.extend(name.map(|name| format!("{name} of edition {}", case.edition)));
            let signs = [(MOST_PRICE, "most"), (-MOST_PRICE, "least")];
            let signs = signs.iter().filter(|sign| case.prices.contains(&sign.0));
            shapes.extend(signs.map(|sign| format!("the {} price", sign.1)));
        }
        if number == 0 || (number == 1 && write_file(&given, &mut [0; 300_000]) == 0) {
            shapes.push(format!("buffer {buffer:?}"));
        }
        let each = Edition::of(case.edition).map_or(0, Edition::transaction_numbers);
        if each == 0 {
            let shape = if case.edition < 0 { "below" } else { "above" };
            shapes.push(format!("edition {shape}"));
        } else if case.edition != case.listed.number() && !case.transactions.is_empty() {
            let verdict = if number == 0 { "accepted" } else { "refused" };
            shapes.push(format!("{:?} as the other {verdict}", case.listed));
        }
        let limits = [(1, 64), (1, 64), (0, 2_048), (0, 256)];
        for (at, (least, most)) in limits.into_iter().enumerate() {
            let count = case.counts[at];
            let per = [0, 8 * STRETCHES, 48, 8 * each][at];
            let fits = at > 0 && count.checked_mul(per as i64) == Some(lists[at - 1].len() as i64);
            if count < least {
                shapes.push(format!("count {at} below"));
            } else if count > most {
                shapes.push(format!("count {at} above"));
                if fits {
                    shapes.push(format!("count {at} above with its list"));
                }
            } else if at > 0 && !fits {
                let len = lists[at - 1].len();
                let shape = match len {
                    0 => "empty",
                    _ if len % 8 != 0 => "ragged",
                    _ if len < per * count as usize => "short",
                    _ => "long",
                };
                shapes.push(format!("list {at} {shape}"));
            }
        }
        shapes
    }

    #[test]
    fn families_reach_every_number() {
        let mut random = Random::new(6);
        let mut seen = [0; 11];
        for turn in 0..2_400 {
            seen[number(&draw(turn, &mut random)) as usize] += 1;
        }
        assert!(seen[0] > 600, "{seen:?}");
        for number in [1, 2, 3, 4, 9] {
            assert!(seen[number] > 150, "{seen:?}");
        }
        let known = [0, 1, 2, 3, 4, 9].map(|number: usize| seen[number]);
        assert_eq!(seen.iter().sum::<i32>(), known.iter().sum(), "{seen:?}");
    }
}

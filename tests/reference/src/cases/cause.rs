//! Cases of a file's cause: files of every family, every pair of faults, each
//! number at its limit and one beyond, rows and transactions with several
//! faults; the list as long as it must be or not.

use super::counts::list_len;
use super::file::File;
use super::hour::{self, Case};
use super::{check, read};
use crate::cause::{find_cause, Cause};
use crate::exercise::{DAY_AHEAD, LOAD, MOST_PRICE, REAL_TIME};
use crate::numbers::hex;
use crate::random::Random;
use crate::MOST_KW;

pub const HEADER: &str = "file\tcause before\tnumber\tcause after";

/// Numbers of a cause.
pub const NUMBERS: usize = std::mem::size_of::<Cause>() / 8;

/// The case of a turn, as a line.
pub fn line(turn: usize, random: &mut Random) -> String {
    let file = draw(turn, random);
    let len = list_len(NUMBERS, random);
    let before = random.bytes(len);
    let mut after = before.clone();
    let number = find_cause(&file, &mut after);
    format!(
        "{}\t{}\t{number}\t{}",
        hex(&file),
        hex(&before),
        hex(&after)
    )
}

/// The file of a turn.
pub fn draw(turn: usize, random: &mut Random) -> Vec<u8> {
    let round = turn / 13;
    match turn % 13 {
        0 | 1 => hour::draw(2 * round + turn % 2, random).0,
        2 => check::draw(round, random),
        3 => read::one_bit(round, random).0,
        4 => hour::one_entry(random).bytes(),
        5 => hour::many_entries(random),
        6 => outcome(round, random).bytes(),
        n @ 7..=9 => hour::file_with_any_two_faults(3 * round + n - 7, random),
        10 => hour::one_transaction(round, random).bytes(),
        _ => at_limit(2 * round + turn % 2, random),
    }
}

/// A surplus or shares at their limits or beyond, or a surplus without shares.
fn outcome(round: usize, random: &mut Random) -> File {
    let file = match round % 4 {
        0 => hour::surplus_limit,
        1 => hour::share_limit,
        2 => hour::no_shares,
        _ => shares_beyond,
    };
    file(round / 4, random)
}

/// Shares beyond their limit, of some participants or all.
fn shares_beyond(round: usize, random: &mut Random) -> File {
    let mut file = hour::share_limit(round, random);
    for participant in 0..file.participants {
        if random.once_in(4) {
            continue;
        }
        for _ in 0..random.between(1, 201) {
            file.row(REAL_TIME, LOAD, random.index(12), participant, 0, MOST_KW);
        }
    }
    file
}

/// A number of a file at its limit, or so much beyond, at some place.
type Limit = fn(&mut Case, i64, &mut Random);

/// Each number in turn at its limit, one beyond, and further.
fn at_limit(round: usize, random: &mut Random) -> Vec<u8> {
    let mut case = hour::faultless(random);
    let beyond = [0, 1, 2][round / LIMITS.len() % 3];
    LIMITS[round % LIMITS.len()](&mut case, beyond, random);
    case.bytes()
}

/// One of so many places: the first, the last or any.
fn place(len: usize, random: &mut Random) -> usize {
    let any = random.index(len);
    random.pick(&[0, len - 1, any])
}

macro_rules! entry {
    ($case:ident.$list:ident, $random:ident) => {{
        let at = place($case.file.$list.len(), $random);
        &mut $case.file.$list[at]
    }};
}

const LIMITS: &[Limit] = &[
    |case, beyond, random| {
        hour::give_sellers(case, random);
        case.file.told_edition = Some(1 + beyond);
    },
    |case, beyond, _| case.file.told_rows = Some(2_048 + beyond),
    |case, beyond, _| case.file.told_transactions = Some(256 + beyond),
    |case, beyond, _| {
        let row = case.file.rows[0].clone();
        case.file.rows.resize(2_048 + beyond as usize, row);
    },
    |case, beyond, _| {
        let transaction = case.file.transactions[0].clone();
        let count = 256 + beyond as usize;
        case.file.transactions.resize(count, transaction);
    },
    |case, beyond, _| case.excess = beyond,
    |case, beyond, _| case.excess = -beyond,
    |case, beyond, random| *entry!(case.congestion, random) = MOST_PRICE + beyond,
    |case, beyond, random| *entry!(case.congestion, random) = -MOST_PRICE - beyond,
    |case, beyond, random| *entry!(case.loss, random) = MOST_PRICE + beyond,
    |case, beyond, random| *entry!(case.loss, random) = -MOST_PRICE - beyond,
    |case, beyond, random| {
        let row = entry!(case.rows, random);
        (row.market, row.interval) = (DAY_AHEAD, 0);
        row.kind = 5 + beyond as usize;
    },
    |case, beyond, random| {
        let row = entry!(case.rows, random);
        row.market = REAL_TIME;
        row.kind = 3 + beyond as usize;
    },
    |case, beyond, random| {
        let row = entry!(case.rows, random);
        row.market = DAY_AHEAD;
        row.interval = beyond as usize;
    },
    |case, beyond, random| {
        let row = entry!(case.rows, random);
        (row.market, row.kind) = (REAL_TIME, LOAD);
        row.interval = 11 + beyond as usize;
    },
    |case, beyond, random| {
        let last = case.file.participants - 1;
        entry!(case.rows, random).participant = last + beyond as usize;
    },
    |case, beyond, random| {
        let last = case.file.locations - 1;
        entry!(case.rows, random).location = last + beyond as usize;
    },
    |case, beyond, random| entry!(case.rows, random).kw = MOST_KW + beyond,
    |case, beyond, random| {
        let at = place(case.file.rows.len(), random);
        let spare = beyond << random.index(2);
        case.file.row_spares.push((at, spare));
    },
    |case, beyond, random| {
        let transaction = entry!(case.transactions, random);
        transaction.market = DAY_AHEAD;
        transaction.interval = beyond as usize;
    },
    |case, beyond, random| {
        let transaction = entry!(case.transactions, random);
        transaction.market = REAL_TIME;
        transaction.interval = 11 + beyond as usize;
    },
    |case, beyond, random| {
        let last = case.file.participants - 1;
        entry!(case.transactions, random).participant = last + beyond as usize;
    },
    |case, beyond, random| {
        let last = case.file.locations - 1;
        entry!(case.transactions, random).source = last + beyond as usize;
    },
    |case, beyond, random| {
        let last = case.file.locations - 1;
        entry!(case.transactions, random).sink = last + beyond as usize;
    },
    |case, beyond, random| entry!(case.transactions, random).kw = MOST_KW + beyond,
    |case, beyond, random| {
        hour::give_sellers(case, random);
        let last = case.file.participants - 1;
        entry!(case.transactions, random).seller = Some(last + beyond as usize);
    },
    |case, beyond, random| {
        hour::give_sellers(case, random);
        let at = place(case.file.transactions.len(), random);
        let spare = random.pick(&[beyond, 3 * beyond.min(1)]);
        case.file.transaction_spares.push((at, spare));
    },
];

#[cfg(test)]
pub mod tests {
    use super::*;
    use crate::bits::BitReader;
    use crate::cause::{self, cause_of_file, PRICE, ROW, TRANSACTION};
    use crate::exercise::{self, read_header, Edition};
    use crate::hour::{charged, settle_hour};
    use crate::split::MOST_SHARE;
    use std::collections::{BTreeMap, BTreeSet};

    /// What `wz_settle_hour` answers with lists of the right length.
    fn settled(file: &[u8]) -> i64 {
        let participants = file.first().map_or(1, |byte| (byte >> 2) as usize + 1);
        let mut lists = [(); 4].map(|_| vec![0; 8 * participants]);
        i64::from(settle_hour(file, &mut lists))
    }

    /// The refusal that is told is the one that the file gets, by the hour and,
    /// up to the last transaction, by the check; and what is told is outside.
    #[test]
    fn causes_are_the_refusals() {
        let mut random = Random::new(1);
        for turn in 0..8_000 {
            let file = draw(turn, &mut random);
            let cause = cause_of_file(&file);
            let [refusal, part, .., found, least, most] = cause;
            assert_eq!(refusal, settled(&file), "turn {turn}");
            match i64::from(exercise::check(&file)) {
                0 => assert!([0, cause::SURPLUS, cause::SHARE].contains(&part)),
                checked => assert_eq!(refusal, checked, "turn {turn}"),
            }
            match refusal {
                0 => assert_eq!(cause, [0; NUMBERS]),
                _ => assert!(found < least || found > most, "turn {turn}"),
            }
        }
    }

    /// The bits of a number of a price, row or transaction: where they begin in
    /// the file, and how many they are.
    fn bits_of(file: &[u8], part: i64, number: i64, field: i64) -> (usize, usize) {
        let header = read_header(file).unwrap();
        let number = number as usize;
        let (start, widths): (usize, &[usize]) = match part {
            PRICE => (5 + 3 * number, &[24]),
            ROW => (header.rows_start() + 6 * number, &[1, 3, 4, 6, 6, 25, 3]),
            TRANSACTION => (
                header.transactions_start() + header.edition.transaction_bytes() * number,
                match header.edition {
                    Edition::PathOnly => &[1, 4, 6, 6, 6, 25],
                    Edition::WithSeller => &[1, 4, 6, 6, 6, 6, 25, 2],
                },
            ),
            _ => panic!("part {part}"),
        };
        let field = turn_of(header.edition, part, field) as usize;
        (
            8 * start + widths[..field].iter().sum::<usize>(),
            widths[field],
        )
    }

    /// Where a field stands among those of its part, and is tested: a seller
    /// behind the participant.
    pub fn turn_of(edition: Edition, part: i64, field: i64) -> i64 {
        match (part, edition, field) {
            (TRANSACTION, Edition::WithSeller, 6) => 3,
            (TRANSACTION, Edition::WithSeller, 3..=5) => field + 1,
            _ => field,
        }
    }

    fn found_in(file: &[u8], (start, width): (usize, usize)) -> i64 {
        let mut bits = BitReader::new(file);
        for _ in 0..start {
            bits.take(1);
        }
        if width == 24 {
            bits.take_signed(width)
        } else {
            bits.take(width) as i64
        }
    }

    fn put(file: &mut [u8], (start, width): (usize, usize), number: i64) {
        for bit in 0..width {
            let (at, mask) = ((start + bit) / 8, 0x80 >> ((start + bit) % 8));
            file[at] &= !mask;
            if number >> (width - 1 - bit) & 1 == 1 {
                file[at] |= mask;
            }
        }
    }

    /// What is told stands there; with a right number in its place the file gets
    /// further, to a later place, until there is none.
    #[test]
    fn mended_places_are_right() {
        let mut random = Random::new(2);
        let mut mended = 0;
        for turn in 0..4_000 {
            let mut file = draw(turn, &mut random);
            let mut before = (0, 0, -1);
            loop {
                let [_, part, number, field, found, least, most] = cause_of_file(&file);
                if ![PRICE, ROW, TRANSACTION].contains(&part) {
                    break;
                }
                let edition = read_header(&file).unwrap().edition;
                let place = (part, number, turn_of(edition, part, field));
                assert!(place > before, "turn {turn}");
                before = place;
                let bits = bits_of(&file, part, number, field);
                assert_eq!(found_in(&file, bits), found, "turn {turn}");
                let right = random.pick(&[least, most]);
                put(&mut file, bits, right);
                mended += 1;
            }
        }
        assert!(mended > 2_000, "{mended}");
    }

    /// The cases that tests/run tries have every part and field with each of its
    /// refusals, next to its range on either side, and in rows and transactions
    /// at the first and at a later place.
    #[test]
    fn families_reach_every_test() {
        let mut seen = BTreeMap::new();
        let mut near = BTreeSet::new();
        let mut random = Random::new(1);
        for turn in 0..6_000 {
            let file = draw(turn, &mut random);
            let cause = cause_of_file(&file);
            let [refusal, part, number, field, found, least, most] = cause;
            *seen.entry((part, field, refusal)).or_insert(0) += 1;
            if found == least - 1 {
                near.insert((part, field, "below"));
            }
            if found == most + 1 {
                near.insert((part, field, "above"));
            }
            near.insert((part, field, if number == 0 { "first" } else { "later" }));
            if part == cause::SHARE && shares_beyond_limit(&file) > 1 {
                near.insert((part, field, "one of several"));
            }
        }
        // Accepted; the length; three of the header; a price; six of a row;
        // seven of a transaction; the surplus beyond, and alone; a share.
        assert_eq!(seen.len(), 1 + 1 + 3 + 1 + 6 + 7 + 2 + 1, "{seen:#?}");
        assert!(seen.values().all(|&times| times > 20), "{seen:#?}");
        for (part, fields) in [(PRICE, 0..=0), (ROW, 1..=6), (TRANSACTION, 1..=7)] {
            for field in fields {
                for name in ["above", "first", "later"] {
                    assert!(near.contains(&(part, field, name)), "{part} {field} {name}");
                }
            }
        }
        for part in [cause::FILE, PRICE, cause::SURPLUS] {
            for name in ["below", "above"] {
                assert!(near.contains(&(part, 0, name)), "{part} {name}");
            }
        }
        for name in ["above", "later", "one of several"] {
            assert!(near.contains(&(cause::SHARE, 0, name)), "{name}");
        }
    }

    fn shares_beyond_limit(file: &[u8]) -> usize {
        let header = read_header(file).unwrap();
        let hour = exercise::read_hour(file, &header).unwrap();
        let shares = charged(&hour).shares;
        shares.iter().filter(|&&share| share > MOST_SHARE).count()
    }
}

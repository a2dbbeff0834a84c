//! Cases for `wz_split`: families that each try one thing, in turn.

use crate::numbers;
use crate::random::Random;
use crate::split::{split, MOST_AMOUNT, MOST_PARTIES, MOST_SHARE};

pub struct Case {
    pub amount: i64,
    pub shares: Vec<u8>,
    /// What the output list holds before the call.
    pub parts: Vec<u8>,
}

pub const HEADER: &str = "amount\tshares\tparts before\tnumber\tparts after";

/// The case of a turn, as a line.
pub fn line(turn: usize, random: &mut Random) -> String {
    let case = case(turn, random);
    let mut after = case.parts.clone();
    let number = split(case.amount, &case.shares, &mut after);
    format!(
        "{}\t{}\t{}\t{}\t{}",
        case.amount,
        numbers::hex(&case.shares),
        numbers::hex(&case.parts),
        number,
        numbers::hex(&after)
    )
}

/// A case of the family whose turn it is.
pub fn case(turn: usize, random: &mut Random) -> Case {
    FAMILIES[turn % FAMILIES.len()](random)
}

type Family = fn(&mut Random) -> Case;

const FAMILIES: [Family; 24] = [
    wide,
    small,
    one_party,
    equal_shares,
    few_values,
    near_values,
    mostly_zeros,
    one_holds_all,
    multiple_of_total,
    fewer_units_than_parties,
    units_left,
    at_the_limits,
    word_edges,
    no_amount,
    nothing_over_nothing,
    something_over_nothing,
    amount_beyond,
    share_beyond,
    shares_cancel,
    wrong_count,
    ragged,
    two_reasons,
    many_reasons,
    noise,
];

/// A case whose output list is as long as its shares.
fn fitting(amount: i64, shares: &[i64], random: &mut Random) -> Case {
    let shares = numbers::bytes(shares);
    let parts = random.bytes(shares.len());
    Case {
        amount,
        shares,
        parts,
    }
}

fn parties(random: &mut Random) -> usize {
    random.between(1, MOST_PARTIES as i64) as usize
}

/// An amount within its range, of any order of size.
fn any_amount(random: &mut Random) -> i64 {
    let most = random.pick(&[1, 12, 100, 99_999, MOST_AMOUNT]);
    random.between(-most, most)
}

fn nonzero_amount(random: &mut Random) -> i64 {
    match any_amount(random) {
        0 => 1,
        amount => amount,
    }
}

fn shares_to(most: i64, count: usize, random: &mut Random) -> Vec<i64> {
    (0..count).map(|_| random.between(0, most)).collect()
}

// Accepted splits (some of small shares may total 0).

fn wide(random: &mut Random) -> Case {
    let amount = random.between(-MOST_AMOUNT, MOST_AMOUNT);
    let shares = shares_to(MOST_SHARE, parties(random), random);
    fitting(amount, &shares, random)
}

fn small(random: &mut Random) -> Case {
    let amount = random.between(-30, 30);
    let count = random.pick(&[2, 3, 4, 5, 9]);
    let shares = shares_to(random.pick(&[1, 2, 5, 12]), count, random);
    fitting(amount, &shares, random)
}

fn one_party(random: &mut Random) -> Case {
    let share = random.pick(&[1, 2, 3, 1_000_000, MOST_SHARE]);
    fitting(any_amount(random), &[share], random)
}

/// Every remainder is equal.
fn equal_shares(random: &mut Random) -> Case {
    let most = random.pick(&[1, 10, MOST_SHARE]);
    let share = random.between(1, most);
    fitting(any_amount(random), &vec![share; parties(random)], random)
}

/// Many ties among few remainders.
fn few_values(random: &mut Random) -> Case {
    let most = random.pick(&[3, 100, MOST_SHARE]);
    let values = [
        random.between(1, most),
        random.between(1, most),
        random.between(0, most),
    ];
    let shares: Vec<i64> = (0..parties(random)).map(|_| random.pick(&values)).collect();
    fitting(any_amount(random), &shares, random)
}

/// Shares that are almost alike.
fn near_values(random: &mut Random) -> Case {
    let middle = random.pick(&[2, 1_000, 123_456_789, MOST_SHARE - 1]);
    let shares: Vec<i64> = (0..parties(random))
        .map(|_| middle + random.between(-1, 1))
        .collect();
    fitting(any_amount(random), &shares, random)
}

fn mostly_zeros(random: &mut Random) -> Case {
    let most = random.pick(&[1, 7, MOST_SHARE]);
    let mut shares: Vec<i64> = (0..parties(random))
        .map(|_| {
            if random.once_in(6) {
                random.between(1, most)
            } else {
                0
            }
        })
        .collect();
    let kept = random.index(shares.len());
    shares[kept] = most;
    fitting(any_amount(random), &shares, random)
}

fn one_holds_all(random: &mut Random) -> Case {
    let mut shares = vec![0; parties(random)];
    let last = shares.len() - 1;
    let holder = random.pick(&[0, last, last / 2]);
    shares[holder] = random.pick(&[1, MOST_SHARE]);
    fitting(any_amount(random), &shares, random)
}

/// The total divides the amount, or all but one unit of it.
fn multiple_of_total(random: &mut Random) -> Case {
    let mut shares = shares_to(random.pick(&[1, 9, 100_000]), parties(random), random);
    shares[0] += 1;
    let total: i64 = shares.iter().sum();
    let times = random.between(1, 100.min(MOST_AMOUNT / total));
    let size = times * total + random.between(-1, 1);
    fitting(random.pick(&[1, -1]) * size, &shares, random)
}

/// Every part is cut to 0 or 1, so the remainders decide alone.
fn fewer_units_than_parties(random: &mut Random) -> Case {
    let shares = shares_to(random.pick(&[3, 50, MOST_SHARE]), parties(random), random);
    let size = random.between(1, shares.len() as i64);
    fitting(random.pick(&[1, -1]) * size, &shares, random)
}

/// One unit is left, or all but one. A share is some times `whole`, which stands
/// for a unit, and a rest; the rests total `whole`, or what they lack of it does.
fn units_left(random: &mut Random) -> Case {
    let count = parties(random);
    let whole = random.between(3_000, 4_000);
    let mut ends: Vec<i64> = (1..count).map(|_| random.between(0, whole)).collect();
    ends.extend([0, whole]);
    ends.sort_unstable();
    let one = random.once_in(2);
    let mut size = if one { 1 } else { count as i64 - 1 };
    let shares: Vec<i64> = ends
        .windows(2)
        .map(|end| {
            let part = random.between(0, 999_999);
            let rest = end[1] - end[0];
            size += part;
            whole * part + if one { rest } else { whole - rest }
        })
        .collect();
    fitting(random.pick(&[1, -1]) * size, &shares, random)
}

fn at_the_limits(random: &mut Random) -> Case {
    let amount = random.pick(&[MOST_AMOUNT, -MOST_AMOUNT, MOST_AMOUNT - 1, 1 - MOST_AMOUNT]);
    let count = random.pick(&[1, 2, 3, 63, 64]);
    let values = random.pick(&[
        [MOST_SHARE, MOST_SHARE],
        [MOST_SHARE, MOST_SHARE - 1],
        [MOST_SHARE, 1],
        [MOST_SHARE, 0],
    ]);
    let mut shares: Vec<i64> = (0..count).map(|_| random.pick(&values)).collect();
    shares[random.index(count)] = MOST_SHARE;
    fitting(amount, &shares, random)
}

/// Where 16, 31 and 32 bits end; 32 bits end beyond the range of a share.
fn word_edges(random: &mut Random) -> Case {
    let edges = [
        0xffff,
        0x1_0000,
        0x7fff_ffff,
        0x8000_0000,
        0x8000_0001,
        MOST_SHARE,
    ];
    let beyond = [0xffff_ffff, 0x1_0000_0000, 0x1_0000_0001];
    let mut shares: Vec<i64> = (0..parties(random)).map(|_| random.pick(&edges)).collect();
    if random.once_in(4) {
        let place = random.index(shares.len());
        shares[place] = random.pick(&beyond);
    }
    let amount = random.pick(&[
        0x1_0000,
        0x1fff_ffff,
        0x2000_0000,
        -0x2000_0001,
        999_999_937,
    ]);
    fitting(amount, &shares, random)
}

fn no_amount(random: &mut Random) -> Case {
    let shares = shares_to(random.pick(&[1, MOST_SHARE]), parties(random), random);
    fitting(0, &shares, random)
}

fn nothing_over_nothing(random: &mut Random) -> Case {
    fitting(0, &vec![0; parties(random)], random)
}

// Refused for one reason.

fn something_over_nothing(random: &mut Random) -> Case {
    fitting(nonzero_amount(random), &vec![0; parties(random)], random)
}

fn amount_beyond(random: &mut Random) -> Case {
    let shares = shares_to(random.pick(&[5, MOST_SHARE]), parties(random), random);
    fitting(beyond_amount(random), &shares, random)
}

fn share_beyond(random: &mut Random) -> Case {
    let mut shares = shares_to(random.pick(&[0, 5, MOST_SHARE]), parties(random), random);
    spoil_shares(&mut shares, random);
    fitting(any_amount(random), &shares, random)
}

/// Shares outside their range that total 0, some only where 64 bits overflow.
fn shares_cancel(random: &mut Random) -> Case {
    let pair = random.pick(&[
        [1, -1],
        [MOST_SHARE, -MOST_SHARE],
        [i64::MIN, i64::MIN],
        [i64::MAX, -i64::MAX],
    ]);
    let mut shares = vec![0; random.between(0, 62) as usize];
    for share in pair {
        shares.insert(random.between(0, shares.len() as i64) as usize, share);
    }
    fitting(any_amount(random), &shares, random)
}

fn beyond_amount(random: &mut Random) -> i64 {
    let size = random.pick(&[
        MOST_AMOUNT + 1,
        MOST_AMOUNT + 2,
        0x7fff_ffff,
        0x1_0000_0000,
        0x1_0000_000a,
        i64::MAX,
    ]);
    match random.index(6) {
        0 => i64::MIN,
        1 => random.between(MOST_AMOUNT + 1, i64::MAX),
        2 => random.between(i64::MIN, -MOST_AMOUNT - 1),
        3 => -size,
        _ => size,
    }
}

fn spoil_shares(shares: &mut [i64], random: &mut Random) {
    for _ in 0..random.pick(&[1, 1, 1, 2, 5]) {
        let place = random.index(shares.len());
        let place = random.pick(&[0, shares.len() - 1, place]);
        shares[place] = match random.index(3) {
            0 => random.pick(&[MOST_SHARE + 1, -1]),
            1 => random.pick(&[i64::MIN, i64::MAX, -MOST_SHARE, 0x1_0000_0005]),
            _ => random.pick(&[1, -1]) * random.between(MOST_SHARE + 1, i64::MAX),
        };
    }
}

/// Too few shares, too many, or another number of parts.
fn wrong_count(random: &mut Random) -> Case {
    let mut case = wide(random);
    spoil_count(&mut case, random);
    case
}

fn spoil_count(case: &mut Case, random: &mut Random) {
    let len = case.shares.len();
    match random.index(6) {
        0 => case.shares.clear(),
        1 => case.parts.clear(),
        2 => {
            case.shares.clear();
            case.parts.clear();
        }
        3 => {
            let count = random.pick(&[65, 66, 100, 128, 256, 320]);
            case.shares.resize(8 * count, 0);
            case.parts = random.bytes(8 * count);
        }
        4 => {
            let more = random.pick(&[1, 2, 7, 64]);
            case.parts = random.bytes(len + 8 * more);
        }
        _ => case
            .parts
            .truncate(len.saturating_sub(8 * random.pick(&[1, 1, 2, 63]))),
    }
}

/// A length that is no multiple of eight, on either list or on both.
fn ragged(random: &mut Random) -> Case {
    let mut case = wide(random);
    spoil_bytes(&mut case, random);
    case
}

fn spoil_bytes(case: &mut Case, random: &mut Random) {
    let list = random.index(3);
    let by = random.between(-7, 7);
    let by = if by == 0 { 1 } else { by };
    if list != 1 {
        resize(&mut case.shares, by);
    }
    if list != 0 {
        resize(&mut case.parts, by);
    }
}

fn resize(list: &mut Vec<u8>, by: i64) {
    let len = (list.len() as i64 + by).max(1);
    list.resize(len as usize, 0);
}

// Refused for several reasons, so that their order is tried.

#[derive(Clone, Copy, PartialEq, Debug)]
enum Reason {
    Length,
    Amount,
    Share,
    Nothing,
}

const REASONS: [Reason; 4] = [
    Reason::Length,
    Reason::Amount,
    Reason::Share,
    Reason::Nothing,
];

fn two_reasons(random: &mut Random) -> Case {
    let first = random.index(4);
    let second = (first + 1 + random.index(3)) % 4;
    with_reasons(&[REASONS[first], REASONS[second]], random)
}

fn many_reasons(random: &mut Random) -> Case {
    let left_out = random.index(5);
    let reasons: Vec<Reason> = (0..4)
        .filter(|&reason| reason != left_out)
        .map(|reason| REASONS[reason])
        .collect();
    with_reasons(&reasons, random)
}

fn with_reasons(reasons: &[Reason], random: &mut Random) -> Case {
    let mut shares = shares_to(MOST_SHARE, parties(random).max(2), random);
    if reasons.contains(&Reason::Nothing) {
        shares.fill(0);
    }
    if reasons.contains(&Reason::Share) {
        if reasons.contains(&Reason::Nothing) {
            // Outside the range, and the total is 0 all the same.
            let beyond = random.pick(&[1, MOST_SHARE + 1, i64::MAX]);
            let last = shares.len() - 1;
            shares[0] = beyond;
            shares[last] = -beyond;
        } else {
            spoil_shares(&mut shares, random);
        }
    }
    let amount = if reasons.contains(&Reason::Amount) {
        beyond_amount(random)
    } else {
        nonzero_amount(random)
    };
    let mut case = fitting(amount, &shares, random);
    if reasons.contains(&Reason::Length) {
        if random.once_in(2) {
            spoil_bytes(&mut case, random);
        } else {
            spoil_count(&mut case, random);
        }
    }
    case
}

/// Any bytes at all.
fn noise(random: &mut Random) -> Case {
    let amount = if random.once_in(2) {
        random.any()
    } else {
        any_amount(random)
    };
    let shares_len = random.index(600);
    let parts_len = if random.once_in(2) {
        random.index(600)
    } else {
        shares_len
    };
    Case {
        amount,
        shares: random.bytes(shares_len),
        parts: random.bytes(parts_len),
    }
}

#[cfg(test)]
mod tests {
    use super::*;

    fn number(case: &Case) -> u32 {
        split(case.amount, &case.shares, &mut case.parts.clone())
    }

    #[test]
    fn families_are_refused_as_meant() {
        let mut random = Random::new(1);
        let meant: [(Family, u32); 14] = [
            (wide, 0),
            (one_party, 0),
            (equal_shares, 0),
            (mostly_zeros, 0),
            (one_holds_all, 0),
            (multiple_of_total, 0),
            (at_the_limits, 0),
            (no_amount, 0),
            (nothing_over_nothing, 0),
            (something_over_nothing, 7),
            (amount_beyond, 2),
            (share_beyond, 2),
            (wrong_count, 1),
            (ragged, 1),
        ];
        for (family, refusal) in meant {
            for _ in 0..2_000 {
                assert_eq!(number(&family(&mut random)), refusal);
            }
        }
    }

    #[test]
    fn the_first_reason_wins() {
        let mut random = Random::new(2);
        for (place, first) in REASONS.into_iter().enumerate() {
            for second in REASONS.into_iter().skip(place) {
                for _ in 0..500 {
                    let case = with_reasons(&[first, second], &mut random);
                    assert_eq!(number(&case), [1, 2, 2, 7][place]);
                }
            }
        }
    }

    #[test]
    fn what_must_come_up_comes_up() {
        let mut random = Random::new(3);
        let cases: Vec<Case> = (0..20_000).map(|turn| case(turn, &mut random)).collect();
        for refusal in [0, 1, 2, 7] {
            assert!(cases.iter().any(|case| number(case) == refusal));
        }
        for count in 1..=MOST_PARTIES {
            assert!(cases
                .iter()
                .any(|case| case.shares.len() == 8 * count && number(case) == 0));
        }
        for beyond in [1, 7] {
            for (shares, parts) in [(8 + beyond, 8), (8, 8 + beyond), (8 + beyond, 8 + beyond)] {
                assert!(cases
                    .iter()
                    .any(|case| case.shares.len() % 8 == shares % 8
                        && case.parts.len() % 8 == parts % 8));
            }
        }
        for amount in [
            0,
            MOST_AMOUNT,
            -MOST_AMOUNT,
            MOST_AMOUNT + 1,
            -MOST_AMOUNT - 1,
            i64::MIN,
            i64::MAX,
        ] {
            assert!(cases.iter().any(|case| case.amount == amount));
        }
        for share in [0, MOST_SHARE, MOST_SHARE + 1, -1, i64::MIN, i64::MAX] {
            let there = |case: &Case| {
                numbers::read(&case.shares).map_or(false, |shares| shares.contains(&share))
            };
            assert!(cases.iter().any(there));
        }
    }
}

//! wz_split.

use crate::plain;
use crate::timing::{self, Case, INPUTS};
use reference::random::Random;
use reference::{cases, numbers};

const MOST: i64 = 4_000_000_000;

timing::engines!(
    wz_split,
    before_wz_split,
    (
        amount: i64,
        shares: *const u8,
        shares_len: usize,
        parts: *mut u8,
        parts_len: usize,
    )
);

struct Split {
    amount: i64,
    shares: Vec<u8>,
    out_len: usize,
}

impl Split {
    fn new(amount: i64, shares: &[i64]) -> Split {
        Split {
            amount,
            shares: numbers::bytes(shares),
            out_len: 8 * shares.len(),
        }
    }

    fn call(&self, call: Call, out: &mut [u8]) -> u32 {
        let shares = &self.shares;
        // Both lists are lent with their own lengths.
        unsafe {
            call(
                self.amount,
                shares.as_ptr(),
                shares.len(),
                out.as_mut_ptr(),
                out.len(),
            )
        }
    }
}

impl Case for Split {
    fn inputs(&self) -> Vec<&[u8]> {
        vec![&self.shares]
    }

    fn out_len(&self) -> usize {
        self.out_len
    }

    fn engine(&self, out: &mut [u8]) -> u32 {
        self.call(wz_split, out)
    }

    #[cfg(feature = "before")]
    fn before() -> Option<timing::Answer<Split>> {
        Some(|case, out| case.call(before_wz_split, out))
    }

    fn plain(&self, out: &mut [u8]) -> plain::Answer {
        plain::split(self.amount, &self.shares, out)
    }

    fn reference(&self, out: &mut [u8]) -> u32 {
        reference::split::split(self.amount, &self.shares, out)
    }

    fn draw(turn: usize, random: &mut Random) -> Split {
        let case = cases::split::case(turn, random);
        Split {
            amount: case.amount,
            shares: case.shares,
            out_len: case.parts.len(),
        }
    }
}

type Draw = fn(usize, &mut Random) -> Split;

const FAMILIES: [(&str, Draw); 7] = [
    ("random", random_shares),
    ("equal", equal_shares),
    ("of two values", two_values),
    ("equal, one of them 0", equal_but_one),
    ("nearly equal", nearly_equal),
    ("one unit left", |count, random| left(1, count, random)),
    ("all but one left", |count, random| {
        left(count - 1, count, random)
    }),
];

pub fn compare() {
    timing::try_plain::<Split>();
    for count in [3, 16, 64] {
        println!("split over {count} shares");
        for (name, draw) in FAMILIES {
            let mut random = Random::new(count as u64);
            let cases: Vec<Split> = (0..INPUTS).map(|_| draw(count, &mut random)).collect();
            timing::compare(name, &cases);
        }
    }
}

fn amount(random: &mut Random) -> i64 {
    random.between(-1_000_000_000, 1_000_000_000)
}

/// A share, of some size.
fn share(random: &mut Random) -> i64 {
    let most = random.pick(&[20_000, 20_000_000, MOST]);
    random.between(1, most)
}

fn random_shares(count: usize, random: &mut Random) -> Split {
    let most = share(random);
    let shares: Vec<i64> = (0..count).map(|_| random.between(1, most)).collect();
    Split::new(amount(random), &shares)
}

fn equal_shares(count: usize, random: &mut Random) -> Split {
    let shares = vec![share(random); count];
    Split::new(amount(random), &shares)
}

fn two_values(count: usize, random: &mut Random) -> Split {
    let values = [share(random), share(random)];
    let shares: Vec<i64> = (0..count).map(|_| random.pick(&values)).collect();
    Split::new(amount(random), &shares)
}

fn equal_but_one(count: usize, random: &mut Random) -> Split {
    let mut shares = vec![share(random); count];
    shares[random.between(0, count as i64 - 1) as usize] = 0;
    Split::new(amount(random), &shares)
}

fn nearly_equal(count: usize, random: &mut Random) -> Split {
    let shares: Vec<i64> = (0..count)
        .map(|_| random.between(990_000, 1_010_000))
        .collect();
    Split::new(random.between(1, 20_000), &shares)
}

/// Shares that leave one unit, or all but one: each is some times `whole`, which
/// stands for a unit, and a rest; the rests total `whole` once, or as many times as
/// there are parties but one.
fn left(units: usize, count: usize, random: &mut Random) -> Split {
    let whole = random.between(1_000, 3_000);
    let spare = whole - count as i64;
    let mut ends: Vec<i64> = (1..count).map(|_| random.between(0, spare)).collect();
    ends.extend([0, spare]);
    ends.sort_unstable();
    let mut size = units as i64;
    let shares: Vec<i64> = ends
        .windows(2)
        .map(|end| {
            let part = random.between(1, 1_000_000);
            let rest = end[1] - end[0] + 1;
            size += part;
            whole * part + if units == 1 { rest } else { whole - rest }
        })
        .collect();
    Split::new(random.pick(&[size, -size]), &shares)
}

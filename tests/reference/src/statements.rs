//! The exercise files of `tests/statements/`, by what is in them: limits that
//! pass, and each way in which a file is refused.

use crate::cases::file::{prices, File};
use crate::exercise::{
    Edition, DAY_AHEAD, DECREMENT, EXPORT, GENERATION, IMPORT, INCREMENT, INTERVALS, LOAD,
    MOST_PRICE, REAL_TIME,
};
use crate::files::Made;
use crate::MOST_KW;

pub const ALL: [Made; 68] = [
    ("smallest", || File::new(1, 1).bytes()),
    ("largest", || largest().bytes()),
    ("largest-with-seller", || largest_with_seller().bytes()),
    ("sound", || sound().bytes()),
    ("sound-with-seller", || sound_with_seller().bytes()),
    ("no-sale", || spoilt_sale(|file| file.transactions.clear())),
    ("negative-charges", negative_charges),
    ("no-surplus-no-shares", no_surplus_no_shares),
    ("limit-surplus-above", || surplus(LOAD, 499)),
    ("limit-surplus-below", || surplus(GENERATION, 499)),
    ("limit-share", limit_share),
    ("limit-charge-above", || largest_charge(MOST_PRICE)),
    ("limit-charge-below", || largest_charge(-MOST_PRICE)),
    // 1: counts.
    ("refused-1-rows", || {
        spoilt(|file| file.told_rows = Some(2_049))
    }),
    ("refused-1-transactions", || {
        spoilt(|file| file.told_transactions = Some(257))
    }),
    // 2: ranges.
    ("refused-2-congestion-price", || {
        spoilt(|file| file.congestion[0] = MOST_PRICE + 1)
    }),
    ("refused-2-loss-price", || {
        spoilt(|file| *file.loss.last_mut().unwrap() = -MOST_PRICE - 1)
    }),
    ("refused-2-row-kw", || {
        spoilt(|file| file.rows[1].kw = MOST_KW + 1)
    }),
    ("refused-2-transaction-kw", || {
        spoilt(|file| file.transactions[1].kw = MOST_KW + 1)
    }),
    // 3: identities.
    ("refused-3-row-participant", || {
        spoilt(|file| file.rows[1].participant = 2)
    }),
    ("refused-3-row-location", || {
        spoilt(|file| file.rows[1].location = 3)
    }),
    ("refused-3-transaction-participant", || {
        spoilt(|file| file.transactions[1].participant = 2)
    }),
    ("refused-3-transaction-seller", || {
        spoilt_sale(|file| file.transactions[1].seller = Some(2))
    }),
    ("refused-3-transaction-source", || {
        spoilt(|file| file.transactions[1].source = 3)
    }),
    ("refused-3-transaction-sink", || {
        spoilt(|file| file.transactions[1].sink = 3)
    }),
    // 4: kind, market and interval.
    ("refused-4-kind-6", || spoilt(|file| file.rows[0].kind = 6)),
    ("refused-4-kind-7", || spoilt(|file| file.rows[1].kind = 7)),
    ("refused-4-decrement-in-real-time", || {
        spoilt(|file| file.rows[1].kind = DECREMENT)
    }),
    ("refused-4-increment-in-real-time", || {
        spoilt(|file| file.rows[1].kind = INCREMENT)
    }),
    ("refused-4-row-interval-12", || {
        spoilt(|file| file.rows[1].interval = 12)
    }),
    ("refused-4-row-interval-day-ahead", || {
        spoilt(|file| file.rows[0].interval = 1)
    }),
    ("refused-4-transaction-interval-12", || {
        spoilt(|file| file.transactions[1].interval = 12)
    }),
    ("refused-4-transaction-interval-day-ahead", || {
        spoilt(|file| file.transactions[0].interval = 1)
    }),
    // 7: a surplus, and no real-time load or exports to share it.
    ("refused-7-generation", || {
        spoilt(|file| file.rows[1].kind = GENERATION)
    }),
    ("refused-7-import", || {
        spoilt(|file| file.rows[1].kind = IMPORT)
    }),
    ("refused-7-load-day-ahead", || {
        spoilt(|file| {
            file.rows[1].market = DAY_AHEAD;
            file.rows[1].interval = 0;
        })
    }),
    ("refused-7-decrement", || {
        spoilt(|file| {
            file.rows[1].market = DAY_AHEAD;
            file.rows[1].interval = 0;
            file.rows[1].kind = DECREMENT;
        })
    }),
    ("refused-7-load-of-0-kw", || {
        spoilt(|file| file.rows[1].kw = 0)
    }),
    ("refused-7-sale", || {
        spoilt_sale(|file| file.rows[1].kind = GENERATION)
    }),
    // 9: lengths, editions and spare bits.
    ("refused-9-empty", Vec::new),
    ("refused-9-four-bytes", || sound().bytes()[..4].to_vec()),
    ("refused-9-header-alone", || sound().bytes()[..5].to_vec()),
    ("refused-9-one-byte-short", || {
        let mut file = sound().bytes();
        file.pop();
        file
    }),
    ("refused-9-one-byte-long", || {
        let mut file = sound().bytes();
        file.push(0);
        file
    }),
    ("refused-9-longer-than-longest", || {
        let mut file = largest().bytes();
        file.push(0);
        file
    }),
    ("refused-9-longer-than-longest-with-seller", || {
        let mut file = largest_with_seller().bytes();
        file.push(0);
        file
    }),
    ("refused-9-much-longer", || {
        let file = largest().bytes();
        file.iter().cycle().take(40_000).copied().collect()
    }),
    ("refused-9-edition-2", || {
        spoilt_sale(|file| file.told_edition = Some(2))
    }),
    ("refused-9-edition-32", || {
        spoilt(|file| file.told_edition = Some(32))
    }),
    ("refused-9-edition-63", || {
        spoilt(|file| file.told_edition = Some(63))
    }),
    // With the length that the other edition has.
    ("refused-9-paths-as-edition-1", || {
        spoilt(|file| file.told_edition = Some(1))
    }),
    ("refused-9-sales-as-edition-0", || {
        spoilt_sale(|file| file.told_edition = Some(0))
    }),
    ("refused-9-row-spare-first", || {
        spoilt(|file| file.row_spares.push((1, 0b100)))
    }),
    ("refused-9-row-spare-last", || {
        spoilt(|file| file.row_spares.push((1, 1)))
    }),
    ("refused-9-transaction-spare-first", || {
        spoilt_sale(|file| file.transaction_spares.push((1, 0b10)))
    }),
    ("refused-9-transaction-spare-last", || {
        spoilt_sale(|file| file.transaction_spares.push((1, 1)))
    }),
    // 10: limits of the surplus and of a share.
    ("refused-10-surplus-above", || surplus(LOAD, 500)),
    ("refused-10-surplus-below", || surplus(GENERATION, 500)),
    ("refused-10-share", || share(1).bytes()),
    // The order of refusals.
    ("refused-9-before-1", || {
        spoilt(|file| {
            file.told_edition = Some(2);
            file.told_rows = Some(2_049);
        })
    }),
    ("refused-2-before-4", || {
        spoilt(|file| {
            *file.loss.last_mut().unwrap() = MOST_PRICE + 1;
            file.rows[0].kind = 6;
        })
    }),
    ("refused-4-before-3", || {
        spoilt(|file| {
            file.rows[1].interval = 12;
            file.rows[1].participant = 2;
        })
    }),
    ("refused-3-before-2", || {
        spoilt(|file| {
            file.rows[1].location = 3;
            file.rows[1].kw = MOST_KW + 1;
        })
    }),
    ("refused-2-before-9", || {
        spoilt(|file| {
            file.rows[1].kw = MOST_KW + 1;
            file.row_spares.push((1, 1));
        })
    }),
    ("refused-2-before-9-of-a-sale", || {
        spoilt_sale(|file| {
            file.transactions[1].kw = MOST_KW + 1;
            file.transaction_spares.push((1, 1));
        })
    }),
    ("refused-9-before-4", || {
        spoilt(|file| {
            file.row_spares.push((0, 1));
            file.rows[1].kind = 6;
        })
    }),
    ("refused-2-before-10", || {
        let mut file = share(1);
        file.transaction(DAY_AHEAD, 0, 0, 0, 0, MOST_KW + 1);
        file.bytes()
    }),
    ("refused-10-before-7", || {
        let mut file = File::new(1, 1);
        file.loss = prices([MOST_PRICE], |_| [0]);
        file.row(DAY_AHEAD, LOAD, 0, 0, 0, MOST_KW);
        file.bytes()
    }),
];

/// A small hour that is accepted. A file with a fault is this one with it.
fn sound() -> File {
    let mut file = File::new(2, 3);
    file.congestion = prices([0, 1_000, 2_000], |_| [0, 1_200, 2_400]);
    file.loss = prices([0, 100, 200], |_| [0, 120, 240]);
    file.row(DAY_AHEAD, LOAD, 0, 0, 2, 20_000);
    file.row(REAL_TIME, LOAD, 11, 1, 2, 30_000);
    file.transaction(DAY_AHEAD, 0, 0, 0, 2, 5_000);
    file.transaction(REAL_TIME, 11, 1, 0, 2, 7_000);
    file
}

fn spoilt(fault: fn(&mut File)) -> Vec<u8> {
    let mut file = sound();
    fault(&mut file);
    file.bytes()
}

/// The prices and rows of `sound`, and a sale day-ahead and one in real time,
/// each of one participant to the other.
///
/// By hand, congestion in cents, 10,000 of kW times mills each. Participant 0:
///
/// - day-ahead its load is 20,000 x 2,000, 4,000; what it buys, an injection at
///   location 2, -5,000 x 2,000, -1,000; and the path to it from location 1
///   5,000 x (2,000 - 1,000), 500;
/// - in real time, in each interval at location 2, A is 0, B 20,000, D 0 and E
///   5,000: -15,000 x 2,400 / 12, -300, and -3,600 in all; the path falls short
///   by 5,000 at (2,400 - 1,200) / 12, -50, and -600 in all; what it sells in
///   interval 11, a withdrawal at location 1, is 7,000 x 1,200 / 12, 70.
///
/// That is -630. Participant 1:
///
/// - day-ahead what it sells is a withdrawal at location 1, 5,000 x 1,000, 500;
/// - in real time, in each interval at location 1, B is 5,000: -5,000 x 1,200 /
///   12, -50, and -600 in all; in interval 11 at location 2 A is 30,000 and D,
///   what it buys, 7,000: 23,000 x 2,400 / 12, 460; and the path 7,000 x (2,400
///   - 1,200) / 12, 70.
///
/// That is 430, and together -200, as without the sales: 4,000 - 4,800 + 600.
/// Loss prices are a tenth of those of congestion, and so are the charges, -63
/// and 43. Only participant 1 has real-time load: all of the surplus, -20, is
/// its credit.
fn sound_with_seller() -> File {
    let mut file = sound();
    file.edition = Edition::WithSeller;
    file.transactions.clear();
    file.sale(DAY_AHEAD, 0, 0, 1, 1, 2, 5_000);
    file.sale(REAL_TIME, 11, 1, 0, 1, 2, 7_000);
    file
}

fn spoilt_sale(fault: fn(&mut File)) -> Vec<u8> {
    let mut file = sound_with_seller();
    fault(&mut file);
    file.bytes()
}

/// Prices and charges of both signs in either list, every kind of row, an
/// excess and shortfalls, and a tie for the odd cents of a negative surplus.
fn negative_charges() -> Vec<u8> {
    let mut file = File::new(4, 3);
    file.congestion = prices([-2_000, 0, 3_500], |interval| {
        let step = 100 * interval as i64;
        [-2_400 + step, 500 - step, 3_000 + 2 * step]
    });
    file.loss = prices([300, -150, -520], |interval| {
        let step = 10 * interval as i64;
        [350 + step, 2 * step - 100, -480 - step]
    });
    file.row(DAY_AHEAD, LOAD, 0, 0, 0, 40_000);
    file.row(DAY_AHEAD, GENERATION, 0, 1, 2, 25_000);
    file.row(DAY_AHEAD, EXPORT, 0, 2, 1, 8_000);
    file.row(DAY_AHEAD, IMPORT, 0, 2, 2, 6_000);
    file.row(DAY_AHEAD, DECREMENT, 0, 3, 0, 10_000);
    file.row(DAY_AHEAD, INCREMENT, 0, 3, 2, 12_000);
    file.row(REAL_TIME, LOAD, 0, 0, 0, 45_000);
    file.row(REAL_TIME, LOAD, 1, 1, 0, 45_000);
    file.row(REAL_TIME, EXPORT, 2, 2, 1, 20_000);
    file.row(REAL_TIME, LOAD, 7, 2, 0, 25_000);
    file.row(REAL_TIME, GENERATION, 7, 1, 2, 26_000);
    file.row(REAL_TIME, IMPORT, 11, 3, 2, 3_500);
    file.transaction(DAY_AHEAD, 0, 0, 2, 0, 9_000);
    file.transaction(REAL_TIME, 3, 0, 2, 0, 11_000);
    file.transaction(DAY_AHEAD, 0, 3, 0, 1, 4_000);
    file.transaction(REAL_TIME, 5, 1, 1, 1, 7_000);
    file.bytes()
}

/// Loss charges far beyond a surplus's limit that cancel, and nobody has load.
fn no_surplus_no_shares() -> Vec<u8> {
    let mut file = File::new(2, 1);
    file.loss = prices([MOST_PRICE], |_| [0]);
    file.row(DAY_AHEAD, DECREMENT, 0, 0, 0, MOST_KW);
    file.row(DAY_AHEAD, INCREMENT, 0, 1, 0, MOST_KW);
    file.bytes()
}

/// A surplus of a thousand million cents and, for each of some kW more, a
/// thousandth of a cent.
fn surplus(kind: usize, kw: i64) -> Vec<u8> {
    let mut file = File::new(1, 2);
    file.loss = prices([MOST_PRICE, 10], |_| [0, 0]);
    file.row(DAY_AHEAD, kind, 0, 0, 0, 2_000_000);
    file.row(DAY_AHEAD, kind, 0, 0, 1, kw);
    file.row(REAL_TIME, LOAD, 0, 0, 0, 1);
    file.bytes()
}

/// The largest share, 200 rows of the most kW, and some kW more.
fn share(kw: i64) -> File {
    let mut file = File::new(3, 1);
    for _ in 0..200 {
        file.row(REAL_TIME, LOAD, 0, 0, 0, MOST_KW);
    }
    file.row(REAL_TIME, EXPORT, 0, 0, 0, kw);
    file
}

/// The largest surplus below zero over the largest share, one kW less, and a kW.
fn limit_share() -> Vec<u8> {
    let mut file = share(0);
    for _ in 0..199 {
        file.row(REAL_TIME, LOAD, 0, 1, 0, MOST_KW);
    }
    file.row(REAL_TIME, EXPORT, 0, 1, 0, MOST_KW - 1);
    file.row(REAL_TIME, LOAD, 0, 2, 0, 1);
    file.loss = prices([MOST_PRICE], |_| [0]);
    file.row(DAY_AHEAD, GENERATION, 0, 1, 0, 2_000_000);
    file.bytes()
}

/// The congestion charge that is largest in size: as many rows and
/// transactions as there can be, all of one participant, of the most kW, and
/// prices that are as far apart as can be.
fn largest_charge(price: i64) -> Vec<u8> {
    let mut file = File::new(1, 2);
    file.congestion = prices([-price, price], |_| [price, -price]);
    for _ in 0..2_048 {
        file.row(DAY_AHEAD, LOAD, 0, 0, 1, MOST_KW);
    }
    for _ in 0..256 {
        file.transaction(DAY_AHEAD, 0, 0, 0, 1, MOST_KW);
    }
    file.bytes()
}

/// As much of everything as there can be, with prices and kW from their limits
/// on. What one participant withdraws another injects, but for 999 kW, and what
/// one has over a path another has the other way, so that loss charges of
/// either sign are large and the surplus isn't.
fn largest() -> File {
    let mut file = File::new(64, 64);
    for at in 0..13 * 64 {
        let sign = |below: bool| if below { -1 } else { 1 };
        file.congestion[at] = sign(at % 3 == 0) * (MOST_PRICE - 5_003 * at as i64);
        file.loss[at] = sign(at % 5 < 3) * (MOST_PRICE - 4_999 * at as i64);
    }
    for pair in 0..1_024 {
        let market = pair / 64 % 2;
        let interval = market * (pair % INTERVALS);
        // Bids and offers are day-ahead alone. The next kind injects.
        let kind = [[LOAD, EXPORT, DECREMENT], [LOAD, EXPORT, LOAD]][market][pair % 3];
        let (one, other) = (pair % 64, (pair + 1 + pair / 64) % 64);
        let location = 63 - 11 * pair % 64;
        let kw = MOST_KW - 13_007 * pair as i64;
        file.row(market, kind, interval, one, location, kw);
        file.row(market, kind + 1, interval, other, location, kw - 999);
    }
    for pair in 0..128 {
        let market = pair / 32 % 2;
        let interval = market * (pair % INTERVALS);
        let (one, other) = (pair % 64, 63 - pair % 64);
        let (source, sink) = (pair % 64, 7 * pair % 64);
        let kw = MOST_KW - 100_003 * pair as i64;
        file.transaction(market, interval, one, source, sink, kw);
        file.transaction(market, interval, other, sink, source, kw - 999);
    }
    file
}

/// The same with a seller of each transaction, once in 16 the buyer itself.
fn largest_with_seller() -> File {
    let mut file = largest();
    file.edition = Edition::WithSeller;
    for (at, transaction) in file.transactions.iter_mut().enumerate() {
        let step = 1 + at % 63;
        let seller = (transaction.participant + step) % 64;
        let is_buyer = at % 16 == 7;
        transaction.seller = Some(if is_buyer {
            transaction.participant
        } else {
            seller
        });
    }
    file
}

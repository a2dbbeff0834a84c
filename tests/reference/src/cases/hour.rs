//! Cases of settling an hour: sound ones by families, then files and lists with
//! a fault or two, each fault known by its stage in the order of refusals.

use super::faults::pair;
use super::file::File;
use crate::exercise::{
    Edition, DAY_AHEAD, EXPORT, GENERATION, INTERVALS, LOAD, MOST_PRICE, REAL_TIME,
};
use crate::hour::settle_hour;
use crate::numbers::hex;
use crate::random::Random;
use crate::MOST_KW;

pub const HEADER: &str = "file\tcongestion before\tloss before\tcredit before\tnet before\tnumber\tcongestion after\tloss after\tcredit after\tnet after";

#[derive(Clone)]
pub struct Case {
    pub file: File,
    /// Bytes more than the file has, or less, at its end.
    pub excess: i64,
    /// How much is left of a file of under five bytes.
    stub: Option<usize>,
    /// The lengths of the output lists in bytes.
    lists: [usize; 4],
}

impl Case {
    fn new(file: File) -> Self {
        let lists = [8 * file.participants; 4];
        Case {
            file,
            excess: 0,
            stub: None,
            lists,
        }
    }

    /// The file.
    pub fn bytes(&self) -> Vec<u8> {
        let mut bytes = self.file.bytes();
        let length = bytes.len() as i64 + self.excess;
        bytes.resize(length.max(0) as usize, 0);
        if let Some(length) = self.stub {
            bytes.truncate(length);
        }
        bytes
    }
}

/// The case of a turn, as a line.
pub fn line(turn: usize, random: &mut Random) -> String {
    let (file, lens) = draw(turn, random);
    let mut lists = lens.map(|len| random.bytes(len));
    let before = fields(&lists);
    let number = settle_hour(&file, &mut lists);
    format!("{}\t{before}\t{number}\t{}", hex(&file), fields(&lists))
}

fn fields(lists: &[Vec<u8>; 4]) -> String {
    lists.clone().map(|list| hex(&list)).join("\t")
}

/// A file, and the lengths of the output lists in bytes.
pub fn draw(turn: usize, random: &mut Random) -> (Vec<u8>, [usize; 4]) {
    let round = turn / 26;
    if turn % 200 == 199 {
        let round = turn / 200;
        let case = if round % 2 == 1 {
            large_with_fault(round / 2, random)
        } else {
            Case::new(large(round / 2, random))
        };
        return (case.bytes(), case.lists);
    }
    let case = match turn % 26 {
        0..=4 => Case::new(small(random)),
        5 => Case::new(medium(random)),
        6 => Case::new(day_ahead_only(round, random)),
        7 => Case::new(negative_surplus(random)),
        8 => Case::new(ties(random)),
        9 if round % 10 == 9 => Case::new(without_rows(round / 10, random)),
        9 => Case::new(single_participant(random)),
        10 => Case::new(mirrored(4, 4, 20, 6, random)),
        11 => Case::new(halves(random)),
        12 => Case::new(surplus_limit(round, random)),
        13 => Case::new(share_limit(round, random)),
        14 => Case::new(no_shares(round, random)),
        15 => Case::new(paths(Edition::PathOnly, random)),
        16 | 24 => Case::new(paths(Edition::WithSeller, random)),
        17 | 18 => {
            let fault = 2 * round + turn % 2;
            spoilt(&[&FAULTS[fault % FAULTS.len()]], random)
        }
        19 => {
            let any = random.index(FAULTS.len() * (FAULTS.len() - 1));
            let (first, second) = pair(any, FAULTS.len());
            spoilt(&[&FAULTS[first], &FAULTS[second]], random)
        }
        20 => {
            let (first, second) = pair(round, STAGES);
            let faults = [first, second].map(|stage| random.pick(&faults_of(stage)));
            spoilt(&faults, random)
        }
        21 => one_entry(random),
        22 => other_edition(random),
        23 => return damaged(random),
        _ => return crumbs(round, random),
    };
    (case.bytes(), case.lists)
}

/// None to six bytes: zeros, noise or the start of a sound file.
fn crumbs(round: usize, random: &mut Random) -> (Vec<u8>, [usize; 4]) {
    let length = round % 7;
    let file = match round / 7 % 3 {
        0 => vec![0; length],
        1 => random.bytes(length),
        _ => File::new(1 + random.index(64), 1 + random.index(64)).bytes()[..length].to_vec(),
    };
    let participants = file.first().map_or(1, |byte| (byte >> 2) as usize + 1);
    let lists = random.pick(&[0, 8, 8 * participants, 9]);
    (file, [lists; 4])
}

/// A sound file with some bits turned over, or bytes that are no file.
fn damaged(random: &mut Random) -> (Vec<u8>, [usize; 4]) {
    let case = faultless(random);
    let mut file = case.bytes();
    if random.once_in(8) {
        let length = random.index(300);
        return (random.bytes(length), case.lists);
    }
    for _ in 0..1 + random.index(2) {
        let at = if random.once_in(4) {
            random.index(40)
        } else {
            random.index(8 * file.len())
        };
        file[at / 8] ^= 0x80 >> (at % 8);
    }
    (file, case.lists)
}

/// How large the numbers of an hour are.
struct Sizes {
    kw: i64,
    congestion: i64,
    loss: i64,
}

impl Sizes {
    fn any(random: &mut Random) -> Self {
        let (kw, loss) = random.pick(&[
            (12, 500),
            (12, MOST_PRICE),
            (1_000, 60_000),
            (200_000, 800),
            (200_000, MOST_PRICE),
            (MOST_KW, 0),
            (MOST_KW, 3),
            (MOST_KW, 60_000),
            (MOST_KW, MOST_PRICE),
        ]);
        let congestion = random.pick(&[0, 7, 30_000, MOST_PRICE]);
        Sizes {
            kw,
            congestion,
            loss,
        }
    }

    /// Those of an hour with as many rows as there may be.
    fn large(random: &mut Random) -> Self {
        Sizes {
            kw: random.pick(&[1_000, 200_000]),
            congestion: MOST_PRICE,
            loss: random.pick(&[500, 9_000]),
        }
    }
}

fn price(most: i64, random: &mut Random) -> i64 {
    match random.index(8) {
        0 => most,
        1 => -most,
        2 => 0,
        _ => random.between(-most, most),
    }
}

fn price_all(file: &mut File, sizes: &Sizes, random: &mut Random) {
    file.congestion
        .fill_with(|| price(sizes.congestion, random));
    file.loss.fill_with(|| price(sizes.loss, random));
}

fn kw(most: i64, random: &mut Random) -> i64 {
    match random.index(10) {
        0 => 0,
        1 => most,
        _ => random.between(0, most),
    }
}

fn add_row(file: &mut File, most: i64, random: &mut Random) {
    let real_time = !random.once_in(3);
    let (market, kinds, intervals) = if real_time {
        (REAL_TIME, 4, INTERVALS)
    } else {
        (DAY_AHEAD, 6, 1)
    };
    let kind = random.index(kinds);
    let interval = random.index(intervals);
    let participant = random.index(file.participants);
    let location = random.index(file.locations);
    file.row(
        market,
        kind,
        interval,
        participant,
        location,
        kw(most, random),
    );
}

fn add_transaction(file: &mut File, most: i64, random: &mut Random) {
    let (market, intervals) = random.pick(&[(DAY_AHEAD, 1), (REAL_TIME, INTERVALS)]);
    let interval = random.index(intervals);
    let participant = random.index(file.participants);
    let source = random.index(file.locations);
    let sink = random.index(file.locations);
    file.transaction(
        market,
        interval,
        participant,
        source,
        sink,
        kw(most, random),
    );
    name_sellers(file, random);
}

fn any_edition(random: &mut Random) -> Edition {
    random.pick(&Edition::ALL)
}

/// Gives transactions of a file sellers, where its edition has them and they
/// have none; once in four the buyer is the seller.
fn name_sellers(file: &mut File, random: &mut Random) {
    if file.edition == Edition::PathOnly {
        return;
    }
    for transaction in &mut file.transactions {
        let other = random.index(file.participants);
        let seller = random.pick(&[transaction.participant, other, other, other]);
        transaction.seller.get_or_insert(seller);
    }
}

fn noise(
    edition: Edition,
    participants: usize,
    locations: usize,
    rows: usize,
    transactions: usize,
    sizes: &Sizes,
    random: &mut Random,
) -> File {
    let mut file = File::of(edition, participants, locations);
    price_all(&mut file, sizes, random);
    for _ in 0..rows {
        add_row(&mut file, sizes.kw, random);
    }
    for _ in 0..transactions {
        add_transaction(&mut file, sizes.kw, random);
    }
    file
}

/// Noise of either edition.
fn any_noise(
    participants: usize,
    locations: usize,
    rows: usize,
    transactions: usize,
    sizes: &Sizes,
    random: &mut Random,
) -> File {
    let edition = any_edition(random);
    noise(
        edition,
        participants,
        locations,
        rows,
        transactions,
        sizes,
        random,
    )
}

pub fn small(random: &mut Random) -> File {
    let sizes = Sizes::any(random);
    let (participants, locations) = (1 + random.index(5), 1 + random.index(4));
    let (rows, transactions) = (random.index(16), random.index(5));
    any_noise(participants, locations, rows, transactions, &sizes, random)
}

pub fn medium(random: &mut Random) -> File {
    let sizes = Sizes {
        kw: random.pick(&[1_000, 200_000]),
        congestion: random.pick(&[30_000, MOST_PRICE]),
        loss: random.pick(&[500, 9_000]),
    };
    let (participants, locations) = (1 + random.index(64), 1 + random.index(16));
    let (rows, transactions) = (random.index(120), random.index(40));
    any_noise(participants, locations, rows, transactions, &sizes, random)
}

/// The largest hours by kinds, first of one edition and then of the other.
fn large(round: usize, random: &mut Random) -> File {
    let edition = Edition::ALL[round / 6 % 2];
    let sizes = Sizes::large(random);
    match round % 6 {
        0 => noise(edition, 64, 64, 2_048, 256, &sizes, random),
        1 => {
            let participants = random.pick(&[1, 2, 64]);
            noise(edition, participants, 1, 2_048, 0, &sizes, random)
        }
        2 => {
            // At one of several locations.
            let location = random.index(5);
            let participants = random.pick(&[1, 2, 64]);
            let mut file = noise(edition, participants, 5, 2_048, 9, &sizes, random);
            for row in &mut file.rows {
                row.location = location;
            }
            file
        }
        3 => largest_charge(edition, random),
        4 => mirrored(64, 64, 2_048, 256, random),
        _ => {
            let (participants, locations) = (1 + random.index(64), 1 + random.index(64));
            let (rows, transactions) = (random.index(2_049), random.index(257));
            any_noise(participants, locations, rows, transactions, &sizes, random)
        }
    }
}

/// The longest file of either edition, wrong at its end only.
fn large_with_fault(round: usize, random: &mut Random) -> Case {
    let edition = Edition::ALL[round % 2];
    let sizes = Sizes::large(random);
    // One participant less, so that there is one beyond the last.
    let mut case = Case::new(noise(edition, 63, 64, 2_048, 256, &sizes, random));
    let file = &mut case.file;
    match round % 11 {
        0 => case.excess = -1,
        1 => file.transaction_spares.push((255, 1)),
        2 => file.rows[2_047].kind = 6,
        3 => file.row_spares.push((2_047, 1)),
        4 => file.transactions[255].kw = MOST_KW + 1,
        5 => add_row(file, MOST_KW, random),
        6 => add_transaction(file, MOST_KW, random),
        7 => case.excess = 1,
        8 => file.told_edition = Some(2),
        9 if edition == Edition::WithSeller => file.transactions[255].seller = Some(63),
        9 => file.transactions[255].participant = 63,
        _ => *file.loss.last_mut().unwrap() = -MOST_PRICE - 1,
    }
    case
}

/// Every row and transaction adds to one participant's congestion as much as
/// one can, of either sign; of sales those that another buys.
fn largest_charge(edition: Edition, random: &mut Random) -> File {
    let sign = random.pick(&[1, -1]);
    let participants = match edition {
        Edition::PathOnly => 1 + random.index(2),
        Edition::WithSeller => 2,
    };
    let mut file = File::of(edition, participants, 2);
    for (at, price) in file.congestion.iter_mut().enumerate() {
        let day_ahead = at < 2;
        let first = at % 2 == 0;
        *price = if day_ahead == first { sign } else { -sign } * MOST_PRICE;
    }
    for _ in 0..2_048 {
        let (kind, location) = random.pick(&[(0, 0), (2, 0), (4, 0), (1, 1), (3, 1), (5, 1)]);
        file.row(DAY_AHEAD, kind, 0, 0, location, MOST_KW);
    }
    for _ in 0..256 {
        match edition {
            Edition::PathOnly => file.transaction(DAY_AHEAD, 0, 0, 1, 0, MOST_KW),
            Edition::WithSeller => file.sale(DAY_AHEAD, 0, 1, 0, 0, 1, MOST_KW),
        }
    }
    file
}

/// No real-time row: without a loss charge, with one that rounds to 0, with a
/// surplus that nobody has a share in.
fn day_ahead_only(round: usize, random: &mut Random) -> File {
    let mut file = small(random);
    file.rows.retain(|row| row.market == DAY_AHEAD);
    file.row(DAY_AHEAD, 4, 0, 0, 0, random.between(1, 400));
    match round % 3 {
        0 => file.loss.fill(0),
        1 => {
            file.loss.fill(0);
            file.loss[0] = random.pick(&[1, -1]);
            file.rows.retain(|row| row.kw <= 400);
        }
        _ => {}
    }
    file
}

fn negative_surplus(random: &mut Random) -> File {
    let sizes = Sizes {
        kw: random.pick(&[1_000, 200_000, MOST_KW]),
        congestion: random.pick(&[0, 30_000]),
        loss: random.pick(&[3, 500, 9_000]),
    };
    let (participants, rows) = (1 + random.index(7), 3 + random.index(20));
    let transactions = random.pick(&[0, 0, 3]);
    let mut file = any_noise(participants, 2, rows, transactions, &sizes, random);
    for price in &mut file.loss {
        *price = -price.abs();
    }
    for row in &mut file.rows {
        if row.market == REAL_TIME && random.once_in(2) {
            row.kind = random.pick(&[LOAD, EXPORT]);
        } else {
            row.market = REAL_TIME;
            row.kind &= 2;
        }
    }
    file
}

/// Equal shares, and a surplus that they mostly don't divide.
fn ties(random: &mut Random) -> File {
    let participants = 2 + random.index(9);
    let mut file = File::new(participants, 2);
    file.loss[0] = random.pick(&[1, -1, 7, -7]);
    file.congestion[1] = price(30_000, random);
    let share = random.pick(&[1, 600, MOST_KW]);
    for participant in 0..participants {
        if !random.once_in(4) {
            let (kind, interval) = (random.pick(&[LOAD, EXPORT]), random.index(12));
            file.row(REAL_TIME, kind, interval, participant, 1, share);
        }
    }
    for _ in 0..1 + random.index(3) {
        let participant = random.index(participants);
        let kw = random.between(0, 40) * 10_000;
        file.row(DAY_AHEAD, random.index(6), 0, participant, 0, kw);
    }
    file
}

fn single_participant(random: &mut Random) -> File {
    let sizes = Sizes::any(random);
    let (locations, rows) = (1 + random.index(6), 1 + random.index(20));
    any_noise(1, locations, rows, random.index(6), &sizes, random)
}

/// No row, and with the fewest locations the shortest file there is.
fn without_rows(round: usize, random: &mut Random) -> File {
    let sizes = Sizes::any(random);
    let (participants, locations) = [(1, 1), (64, 1), (1, 64), (64, 64)][round % 4];
    let transactions = [0, 1, 256][round / 4 % 3];
    any_noise(participants, locations, 0, transactions, &sizes, random)
}

/// Prices and kW at their limits, and to every row or transaction but a few its
/// opposite by another participant, so that the surplus stays small.
fn mirrored(
    participants: usize,
    locations: usize,
    rows: usize,
    transactions: usize,
    random: &mut Random,
) -> File {
    let sizes = Sizes {
        kw: MOST_KW,
        congestion: MOST_PRICE,
        loss: MOST_PRICE,
    };
    let mut file = any_noise(participants, locations, 0, 0, &sizes, random);
    // Shares stay below their limit.
    let most = MOST_KW.min(4_000_000_000 / rows as i64);
    while file.rows.len() + 4 < rows {
        add_row(&mut file, most, random);
        let mut row = file.rows.last().unwrap().clone();
        row.kind ^= 1;
        row.participant = random.index(participants);
        file.rows.push(row);
    }
    while file.transactions.len() + 2 <= transactions {
        add_transaction(&mut file, MOST_KW, random);
        let mut transaction = file.transactions.last().unwrap().clone();
        std::mem::swap(&mut transaction.source, &mut transaction.sink);
        transaction.participant = random.index(participants);
        file.transactions.push(transaction);
    }
    while file.rows.len() < rows {
        add_row(&mut file, 500, random);
    }
    file
}

/// Charges at half a cent and next to it, in one piece or several.
fn halves(random: &mut Random) -> File {
    let participants = 1 + random.index(4);
    let mut file = File::new(participants, 2);
    let sign = random.pick(&[1, -1]);
    for interval in 0..INTERVALS {
        file.congestion[2 * (1 + interval)] = -sign;
        file.loss[2 * (1 + interval)] = sign;
    }
    for participant in 0..participants {
        let whole = random.pick(&[0, 120_000, 1_200_000]);
        let mut left = whole + random.pick(&[59_999, 60_000, 60_001, 119_999, 120_000]);
        let kind = random.index(4);
        while left > 0 {
            let kw = random.pick(&[left, left, 1, 7, 60_000]).min(left);
            file.row(REAL_TIME, kind, random.index(12), participant, 0, kw);
            left -= kw;
        }
        file.row(REAL_TIME, LOAD, 0, participant, 1, random.between(0, 9));
    }
    file
}

/// A surplus of a milliard cents, or next to that, of either sign; by chance as
/// the difference of charges that are larger still.
pub fn surplus_limit(round: usize, random: &mut Random) -> File {
    let participants = 2 + random.index(3);
    let mut file = File::new(participants, 3);
    let negative = round / 6 % 2;
    let more = random.index(3);
    file.loss[0] = 500_000;
    file.loss[1] = 1;
    for _ in 0..1 + more {
        let kind = 4 + negative;
        file.row(DAY_AHEAD, kind, 0, 0, 0, MOST_KW);
    }
    for _ in 0..more {
        let kind = 5 - negative;
        file.row(DAY_AHEAD, kind, 0, 1, 0, MOST_KW);
    }
    // A cent is 10,000 kW at the second location.
    let (kind, kw) = [
        (4, 0),
        (4, 10_000),
        (5, 10_000),
        (4, 5_000),
        (4, 4_999),
        (5, 20_000),
    ][round % 6];
    let participant = random.index(participants);
    file.row(DAY_AHEAD, kind ^ negative, 0, participant, 1, kw);
    for participant in 0..participants {
        let kw = random.between(0, MOST_KW);
        file.row(REAL_TIME, LOAD, random.index(12), participant, 2, kw);
    }
    file
}

/// Shares of 4,000,000,000 kW, or one more, with a surplus and without.
pub fn share_limit(round: usize, random: &mut Random) -> File {
    let participants = 1 + random.index(3);
    let mut file = File::of(any_edition(random), participants, 2);
    let many = 1 + random.index(participants);
    for participant in 0..many {
        for _ in 0..200 {
            let kind = random.pick(&[LOAD, EXPORT]);
            let location = random.index(2);
            file.row(
                REAL_TIME,
                kind,
                random.index(12),
                participant,
                location,
                MOST_KW,
            );
        }
        // None of these is part of a share.
        file.row(DAY_AHEAD, LOAD, 0, participant, 0, MOST_KW);
        file.row(DAY_AHEAD, 4, 0, participant, 0, MOST_KW);
        file.row(REAL_TIME, GENERATION, 3, participant, 0, MOST_KW);
        file.transaction(REAL_TIME, 0, participant, 0, 1, MOST_KW);
        name_sellers(&mut file, random);
    }
    if round % 2 == 1 {
        let kind = random.pick(&[LOAD, EXPORT]);
        file.row(REAL_TIME, kind, 5, random.index(many), 0, 1);
    }
    match round / 2 % 3 {
        0 => {}
        1 => file.loss[0] = random.pick(&[1, -1, 11]),
        _ => {
            // The largest amount over the largest shares.
            file.rows.retain(|row| row.market == REAL_TIME);
            file.loss[1] = random.pick(&[500_000, -500_000]);
            file.row(DAY_AHEAD, LOAD, 0, 0, 1, MOST_KW);
        }
    }
    file
}

/// Shares that total 0, with a surplus and without.
pub fn no_shares(round: usize, random: &mut Random) -> File {
    let mut file = small(random);
    for row in &mut file.rows {
        if row.market == REAL_TIME {
            match row.kind {
                LOAD | EXPORT if random.once_in(2) => row.kw = 0,
                LOAD | EXPORT => row.kind += 1,
                _ => {}
            }
        }
    }
    match round % 4 {
        0 => file.loss.fill(0),
        1 => {
            // Charges that cancel, but for their rounding.
            for row in std::mem::take(&mut file.rows) {
                let buyer = random.index(file.participants);
                let seller = random.index(file.participants);
                file.row(DAY_AHEAD, 4, 0, buyer, row.location, row.kw);
                file.row(DAY_AHEAD, 5, 0, seller, row.location, row.kw);
            }
            // Sales cancel by themselves.
            if file.edition == Edition::PathOnly {
                file.transactions.clear();
            }
        }
        _ => {}
    }
    file
}

/// Transactions over few paths, so that the markets meet: with excess,
/// shortfall, none; both directions; a source that is its sink.
fn paths(edition: Edition, random: &mut Random) -> File {
    let sizes = Sizes {
        kw: random.pick(&[1_000, 200_000]),
        congestion: random.pick(&[30_000, MOST_PRICE]),
        loss: random.pick(&[500, 60_000]),
    };
    let participants = 1 + random.index(3);
    let rows = random.index(4);
    let mut file = noise(edition, participants, 3, rows, 0, &sizes, random);
    file.row(
        REAL_TIME,
        LOAD,
        random.index(12),
        0,
        0,
        random.between(1, 99),
    );
    let equal = random.once_in(3);
    let same = kw(sizes.kw, random);
    let markets: &[usize] = random.pick(&[&[0, 1, 1][..], &[0], &[1]]);
    for _ in 0..1 + random.index(14) {
        let (source, sink) = random.pick(&[(0, 1), (0, 1), (1, 0), (2, 2), (2, 1)]);
        let market = random.pick(markets);
        let interval = market * random.pick(&[0, 0, 1, 11]);
        let kw = if equal { same } else { kw(sizes.kw, random) };
        let participant = random.index(participants);
        file.transaction(market, interval, participant, source, sink, kw);
        name_sellers(&mut file, random);
    }
    if random.once_in(3) {
        // The day-ahead schedule kept in every interval.
        for transaction in file.transactions.clone() {
            if transaction.market == DAY_AHEAD {
                for interval in 0..INTERVALS {
                    let mut kept = transaction.clone();
                    kept.market = REAL_TIME;
                    kept.interval = interval;
                    file.transactions.push(kept);
                }
            }
        }
    }
    file
}

/// An hour that is told as one of the other edition and is as long as that one
/// would be. What its transactions then are is right by chance.
fn other_edition(random: &mut Random) -> Case {
    let sizes = Sizes {
        kw: random.pick(&[1_000, 200_000, MOST_KW]),
        congestion: 30_000,
        loss: 500,
    };
    let (participants, locations) = (1 + random.index(5), 1 + random.index(5));
    let transactions = random.pick(&[0, 1, 1, 1, 2, 3]);
    let mut case = Case::new(any_noise(
        participants,
        locations,
        2,
        transactions,
        &sizes,
        random,
    ));
    let other = case.file.edition.other();
    case.file.told_edition = Some(other.number());
    case.excess = match other {
        Edition::PathOnly => -(transactions as i64),
        Edition::WithSeller => transactions as i64,
    };
    case
}

/// An accepted hour with rows and transactions enough to spoil.
pub fn faultless(random: &mut Random) -> Case {
    let (participants, locations) = (2 + random.index(4), 2 + random.index(3));
    let (rows, transactions) = (3 + random.index(6), 2 + random.index(4));
    let edition = any_edition(random);
    accepted(edition, participants, locations, rows, transactions, random)
}

/// An accepted hour of an edition and a size.
pub fn accepted(
    edition: Edition,
    participants: usize,
    locations: usize,
    rows: usize,
    transactions: usize,
    random: &mut Random,
) -> Case {
    let sizes = Sizes {
        kw: random.pick(&[1_000, 200_000]),
        congestion: 30_000,
        loss: 500,
    };
    loop {
        let case = Case::new(noise(
            edition,
            participants,
            locations,
            rows,
            transactions,
            &sizes,
            random,
        ));
        if settled(&case) == 0 {
            return case;
        }
    }
}

fn settled(case: &Case) -> u32 {
    settle_hour(&case.bytes(), &mut case.lists.map(|len| vec![0; len]))
}

/// A way to be refused: its stage in the order, the number it gets when it
/// stands alone, and how a case comes to it. None undoes another: a number that
/// is wrong stays wrong, and a fault that needs prices or rows has its own.
pub type Fault = (usize, u32, fn(&mut Case, &mut Random));

const UNDER_FIVE: usize = 0;
const EDITION: usize = 1;
const COUNTS: usize = 2;
const LENGTH: usize = 3;
pub const LISTS: usize = 4;
const PRICES: usize = 5;
const ROWS: usize = 6;
const TRANSACTIONS: usize = 7;
const LIMITS: usize = 8;
const NO_SHARES: usize = 9;
const STAGES: usize = 10;

const FAULTS: &[Fault] = &[
    (UNDER_FIVE, 9, |case, random| {
        case.stub = Some(random.index(5));
    }),
    (EDITION, 9, |case, random| {
        // One bit more than a right one has.
        let right = case.file.edition.number();
        case.file.told_edition = Some(right | 2 << random.index(5));
    }),
    (EDITION, 9, |case, random| {
        let any = random.between(2, 63);
        case.file.told_edition = Some(random.pick(&[2, any, 63]));
    }),
    (COUNTS, 1, |case, random| {
        case.file.told_rows = Some(random.pick(&[2_049, 2_049, 2_050, 4_095]));
    }),
    (COUNTS, 1, |case, random| {
        case.file.told_transactions = Some(random.pick(&[257, 257, 258, 512, 1_023]));
    }),
    (COUNTS, 1, |case, _| {
        // One more than there may be, and truly there.
        let last = case.file.transactions.last().unwrap().clone();
        case.file.transactions.resize(257, last);
        // A count that was told wrongly is beyond its size, too.
        if let Some(told) = &mut case.file.told_transactions {
            *told = 258;
        }
    }),
    (LENGTH, 9, |case, random| {
        // Not a row or two, which would make up for counts that are told wrongly.
        case.excess = random.pick(&[-1, 1, -1, 1, -18, 18, -7, 7, 256]);
    }),
    (LENGTH, 9, |case, random| {
        // One more or less than there are, unless the count is wrong already.
        let rows = case.file.rows.len() as i64 + random.pick(&[-1, 1]);
        case.file.told_rows.get_or_insert(rows);
    }),
    (LENGTH, 9, |case, random| {
        // Two, as one would make up for a row; and of too many two more.
        let transactions = case.file.transactions.len() as i64;
        let more = if transactions > 256 {
            2
        } else {
            random.pick(&[-2, 2])
        };
        case.file
            .told_transactions
            .get_or_insert(transactions + more);
    }),
    (LENGTH, 9, |case, _| {
        // The other edition, unless it is wrong already.
        let other = case.file.edition.other().number();
        case.file.told_edition.get_or_insert(other);
    }),
    (LENGTH, 9, |case, _| {
        // The header alone.
        case.excess = 5 - case.file.bytes().len() as i64;
    }),
    (LISTS, 1, |case, random| spoil_list(case, 0, random)),
    (LISTS, 1, |case, random| spoil_list(case, 1, random)),
    (LISTS, 1, |case, random| spoil_list(case, 2, random)),
    (LISTS, 1, |case, random| spoil_list(case, 3, random)),
    (LISTS, 1, |case, random| {
        // All four alike.
        let length = 8 * case.file.participants;
        case.lists = [random.pick(&[0, length - 8, length + 8, 512]); 4];
    }),
    (PRICES, 2, |case, random| {
        let at = random.index(case.file.congestion.len());
        case.file.congestion[at] = price_beyond(random);
    }),
    (PRICES, 2, |case, random| {
        let at = random.index(case.file.loss.len());
        case.file.loss[at] = price_beyond(random);
    }),
    (ROWS, 4, |case, random| {
        let at = random.index(case.file.rows.len());
        case.file.rows[at].kind = 6 + random.index(2);
    }),
    (ROWS, 4, |case, random| {
        let at = random.index(case.file.rows.len());
        case.file.rows[at].market = REAL_TIME;
        case.file.rows[at].kind = 4 + random.index(2);
    }),
    (ROWS, 4, |case, random| {
        let at = random.index(case.file.rows.len());
        case.file.rows[at].market = DAY_AHEAD;
        case.file.rows[at].interval = 1 + random.index(15);
    }),
    (ROWS, 4, |case, random| {
        let at = random.index(case.file.rows.len());
        case.file.rows[at].market = REAL_TIME;
        case.file.rows[at].kind = random.index(4);
        case.file.rows[at].interval = 12 + random.index(4);
    }),
    (ROWS, 3, |case, random| {
        let at = random.index(case.file.rows.len());
        case.file.rows[at].participant = identity_beyond(case.file.participants, random);
    }),
    (ROWS, 3, |case, random| {
        let at = random.index(case.file.rows.len());
        case.file.rows[at].location = identity_beyond(case.file.locations, random);
    }),
    (ROWS, 2, |case, random| {
        let at = random.index(case.file.rows.len());
        case.file.rows[at].kw = kw_beyond(random);
    }),
    (ROWS, 9, |case, random| {
        let at = random.index(case.file.rows.len());
        let spare = random.pick(&[1, 2, 4, 1, 2, 4, 3, 5, 6, 7]);
        case.file.row_spares.push((at, spare));
    }),
    (TRANSACTIONS, 4, |case, random| {
        let at = random.index(case.file.transactions.len());
        case.file.transactions[at].market = DAY_AHEAD;
        case.file.transactions[at].interval = 1 + random.index(15);
    }),
    (TRANSACTIONS, 4, |case, random| {
        let at = random.index(case.file.transactions.len());
        case.file.transactions[at].market = REAL_TIME;
        case.file.transactions[at].interval = 12 + random.index(4);
    }),
    (TRANSACTIONS, 3, |case, random| {
        let at = random.index(case.file.transactions.len());
        let participant = identity_beyond(case.file.participants, random);
        case.file.transactions[at].participant = participant;
    }),
    (TRANSACTIONS, 3, |case, random| {
        give_sellers(case, random);
        let at = random.index(case.file.transactions.len());
        let seller = identity_beyond(case.file.participants, random);
        case.file.transactions[at].seller = Some(seller);
    }),
    (TRANSACTIONS, 3, |case, random| {
        let at = random.index(case.file.transactions.len());
        case.file.transactions[at].source = identity_beyond(case.file.locations, random);
    }),
    (TRANSACTIONS, 3, |case, random| {
        let at = random.index(case.file.transactions.len());
        case.file.transactions[at].sink = identity_beyond(case.file.locations, random);
    }),
    (TRANSACTIONS, 2, |case, random| {
        let at = random.index(case.file.transactions.len());
        case.file.transactions[at].kw = kw_beyond(random);
    }),
    (TRANSACTIONS, 9, |case, random| {
        give_sellers(case, random);
        let at = random.index(case.file.transactions.len());
        let spare = random.pick(&[1, 2, 3]);
        case.file.transaction_spares.push((at, spare));
    }),
    (LIMITS, 10, |case, random| {
        let kind = 4 + random.index(2);
        without_loss(case);
        price_loss(case, 0, MOST_PRICE);
        for _ in 0..20 {
            case.file.row(DAY_AHEAD, kind, 0, 0, 0, MOST_KW);
        }
    }),
    (LIMITS, 10, |case, random| {
        let participant = random.index(case.file.participants);
        for _ in 0..200 {
            case.file.row(REAL_TIME, LOAD, 0, participant, 0, MOST_KW);
        }
        case.file.row(REAL_TIME, EXPORT, 0, participant, 0, 1);
        without_loss(case);
    }),
    (NO_SHARES, 7, |case, random| {
        let kind = 4 + random.index(2);
        for row in &mut case.file.rows {
            if row.market == REAL_TIME && row.kind % 2 == 0 {
                row.kind += 1;
            }
        }
        without_loss(case);
        price_loss(case, 1, random.pick(&[1, -1]));
        for _ in 0..20 {
            case.file.row(DAY_AHEAD, kind, 0, 0, 1, MOST_KW);
        }
    }),
];

/// Makes all transactions sales. Where the other edition was told, it is told
/// still.
pub fn give_sellers(case: &mut Case, random: &mut Random) {
    let file = &mut case.file;
    if file.edition == Edition::WithSeller {
        return;
    }
    if let Some(edition) = file.told_edition.and_then(Edition::of) {
        file.told_edition = Some(edition.other().number());
    }
    file.edition = Edition::WithSeller;
    name_sellers(file, random);
}

/// Takes the loss prices to 0, but for those that are a fault's own.
fn without_loss(case: &mut Case) {
    case.file.loss.iter_mut().for_each(|price| {
        if price.abs() < MOST_PRICE {
            *price = 0;
        }
    });
}

/// Gives a location a loss price day-ahead, unless the one it has is beyond.
fn price_loss(case: &mut Case, location: usize, price: i64) {
    if case.file.loss[location].abs() <= MOST_PRICE {
        case.file.loss[location] = price;
    }
}

fn faults_of(stage: usize) -> Vec<&'static Fault> {
    FAULTS.iter().filter(|fault| fault.0 == stage).collect()
}

/// An hour that came to some faults, one after the other.
pub fn spoilt(faults: &[&Fault], random: &mut Random) -> Case {
    let mut case = faultless(random);
    for fault in faults {
        fault.2(&mut case, random);
    }
    case
}

/// Some faults of rows or of transactions, in as many of them.
pub fn many_entries(random: &mut Random) -> Vec<u8> {
    let stage = random.pick(&[ROWS, ROWS, TRANSACTIONS]);
    let faults = faults_of(stage);
    let drawn: Vec<&Fault> = (0..2 + random.index(4))
        .map(|_| random.pick(&faults))
        .collect();
    spoilt(&drawn, random).bytes()
}

/// Two faults of rows or of transactions with different numbers, by chance in
/// the same entry.
pub fn one_entry(random: &mut Random) -> Case {
    let mut case = faultless(random);
    let stage = random.pick(&[ROWS, TRANSACTIONS]);
    let mut faults = faults_of(stage);
    let first = random.pick(&faults);
    faults.retain(|fault| fault.1 != first.1);
    if random.once_in(2) {
        case.file.rows.truncate(1);
        case.file.transactions.truncate(1);
    }
    first.2(&mut case, random);
    random.pick(&faults).2(&mut case, random);
    case
}

/// The n-th of all pairs of faults of a transaction, both in the only one.
pub fn one_transaction(n: usize, random: &mut Random) -> Case {
    let mut case = faultless(random);
    case.file.transactions.truncate(1);
    let faults = faults_of(TRANSACTIONS);
    let (first, second) = pair(n, faults.len());
    for fault in [first, second] {
        faults[fault].2(&mut case, random);
    }
    case
}

/// The faults that a check of the file looks for.
pub fn faults_of_files() -> Vec<&'static Fault> {
    FAULTS
        .iter()
        .filter(|fault| fault.0 <= TRANSACTIONS && fault.0 != LISTS)
        .collect()
}

/// A file with the n-th of all pairs of faults, but for those of output lists.
pub fn file_with_any_two_faults(n: usize, random: &mut Random) -> Vec<u8> {
    let faults: Vec<&Fault> = FAULTS.iter().filter(|fault| fault.0 != LISTS).collect();
    let (first, second) = pair(n, faults.len());
    spoilt(&[faults[first], faults[second]], random).bytes()
}

/// A file with the n-th of all pairs of faults that the check looks for.
pub fn file_with_two_faults(n: usize, random: &mut Random) -> Vec<u8> {
    let of_files = faults_of_files();
    let (first, second) = pair(n, of_files.len());
    spoilt(&[of_files[first], of_files[second]], random).bytes()
}

fn spoil_list(case: &mut Case, list: usize, random: &mut Random) {
    let length = 8 * case.file.participants;
    let lengths = [
        0,
        length - 8,
        length + 8,
        length - 1,
        length + 1,
        length + 4,
        512,
        520,
        4_096,
    ];
    case.lists[list] = random.pick(&lengths);
}

fn price_beyond(random: &mut Random) -> i64 {
    let any = random.between(MOST_PRICE + 1, (1 << 23) - 1);
    random.pick(&[
        MOST_PRICE + 1,
        -MOST_PRICE - 1,
        (1 << 23) - 1,
        -(1 << 23),
        any,
        -any,
    ])
}

fn kw_beyond(random: &mut Random) -> i64 {
    let most = (1 << 25) - 1;
    let any = random.between(MOST_KW + 1, most);
    random.pick(&[MOST_KW + 1, any, most])
}

fn identity_beyond(count: usize, random: &mut Random) -> usize {
    let any = random.between(count as i64, 63) as usize;
    random.pick(&[count, any, 63])
}

#[cfg(test)]
mod tests {
    use super::*;
    use crate::exercise;
    use crate::numbers::{self, unhex};
    use std::cmp::Ordering;
    use std::collections::BTreeMap;

    #[test]
    fn faults_get_their_numbers() {
        let mut random = Random::new(1);
        for (at, fault) in FAULTS.iter().enumerate() {
            for _ in 0..20 {
                let case = spoilt(&[fault], &mut random);
                assert_eq!(settled(&case), fault.1, "fault {at}");
            }
        }
    }

    /// The two faults that no hour can have both: a share above its limit, and
    /// no shares at all.
    const APART: [usize; 2] = [FAULTS.len() - 2, FAULTS.len() - 1];

    /// Of two faults the one of the earlier stage decides, whichever came first.
    #[test]
    fn pairs_get_the_earlier_number() {
        let mut random = Random::new(2);
        for n in 0..10 * FAULTS.len() * (FAULTS.len() - 1) {
            let (at, other) = pair(n, FAULTS.len());
            if APART.contains(&at) && APART.contains(&other) {
                continue;
            }
            let (first, second) = (&FAULTS[at], &FAULTS[other]);
            let number = settled(&spoilt(&[first, second], &mut random));
            match first.0.cmp(&second.0) {
                Ordering::Less => assert_eq!(number, first.1, "faults {at}, {other}"),
                Ordering::Greater => assert_eq!(number, second.1, "faults {at}, {other}"),
                // In one stage it's the earlier row or transaction that decides.
                Ordering::Equal => {
                    assert!(
                        [first.1, second.1].contains(&number),
                        "faults {at}, {other}: {number}"
                    )
                }
            }
        }
    }

    #[test]
    fn credits_total_the_loss_charges() {
        let mut random = Random::new(4);
        for turn in 0..1_200 {
            let line = line(turn, &mut random);
            let fields: Vec<&str> = line.split('\t').collect();
            if fields[5] != "0" {
                assert_eq!(fields[1..5], fields[6..10]);
                continue;
            }
            let list = |at: usize| numbers::read(&unhex(fields[at])).unwrap();
            let (congestion, loss, credit, net) = (list(6), list(7), list(8), list(9));
            assert_eq!(loss.iter().sum::<i64>(), credit.iter().sum());
            for p in 0..net.len() {
                assert_eq!(net[p], congestion[p] + loss[p] - credit[p]);
            }
        }
    }

    /// The check tells what the hour does, but for output lists, 10 and 7.
    #[test]
    fn check_agrees_with_the_hour() {
        let mut random = Random::new(5);
        for turn in 0..1_200 {
            let (file, lists) = draw(turn, &mut random);
            let number = settle_hour(&file, &mut lists.map(|len| vec![0; len]));
            match exercise::check(&file) {
                0 => {
                    assert!([0, 1, 7, 10].contains(&number));
                    let header = exercise::read_header(&file).unwrap();
                    let stretch = (header.rows_start(), 6 * header.rows);
                    let stretch = if header.rows > 0 { stretch } else { (0, 0) };
                    assert_eq!(exercise::rows_stretch(&file), stretch);
                }
                refused => {
                    assert!(number == refused || number == 1);
                    assert_eq!(exercise::rows_stretch(&file), (0, 0));
                }
            }
        }
    }

    /// What can be said of an accepted hour.
    fn shapes(file: &[u8], lists: &[Vec<u8>; 4]) -> Vec<String> {
        let header = exercise::read_header(file).unwrap();
        let hour = exercise::read_hour(file, &header).unwrap();
        let [congestion, loss, ..] = lists.clone().map(|list| numbers::read(&list).unwrap());
        let surplus: i64 = loss.iter().sum();
        let mut shares = vec![0; hour.participants];
        for row in &hour.rows {
            if row.market == REAL_TIME && [LOAD, EXPORT].contains(&row.kind) {
                shares[row.participant] += row.kw;
            }
        }
        let sharing: Vec<i64> = shares.iter().copied().filter(|&share| share > 0).collect();
        let all_equal = sharing.iter().all(|&share| share == sharing[0]);
        let odd_cents = !sharing.is_empty() && surplus % sharing.len() as i64 != 0;
        let has_price = |price| {
            let stretches = [&hour.congestion, &hour.loss];
            stretches.iter().any(|list| {
                list.day_ahead.contains(&price)
                    || list.real_time.iter().flatten().any(|&p| p == price)
            })
        };
        let has_sale = |is: &dyn Fn(&exercise::Transaction) -> bool| {
            let mut sales = hour.transactions.iter().filter(|t| t.seller.is_some());
            sales.any(is)
        };
        let place = |at: usize| hour.rows[at].location;
        let one_location = (1..hour.rows.len()).all(|at| place(at) == place(0));
        [
            (
                "only day-ahead rows",
                !hour.rows.is_empty()
                    && hour.rows.iter().all(|row| row.market == DAY_AHEAD)
                    && congestion.iter().any(|&charge| charge != 0),
            ),
            ("a negative surplus", surplus < 0),
            (
                "equal remainders, odd cents",
                sharing.len() > 1 && all_equal && odd_cents,
            ),
            (
                "equal remainders, odd cents below 0",
                sharing.len() > 1 && all_equal && odd_cents && surplus < 0,
            ),
            (
                "a single participant",
                hour.participants == 1 && surplus != 0,
            ),
            (
                "2,048 rows at one location",
                hour.rows.len() == 2_048 && one_location,
            ),
            (
                "2,048 rows at one of several locations",
                hour.rows.len() == 2_048 && one_location && hour.locations > 1,
            ),
            (
                "prices at both limits",
                has_price(MOST_PRICE) && has_price(-MOST_PRICE),
            ),
            ("the longest file", file.len() == 19_077),
            (
                "the longest file of paths",
                file.len() == 18_821 && header.edition == Edition::PathOnly,
            ),
            (
                "the shortest file",
                file.len() == 83 && header.edition == Edition::PathOnly,
            ),
            (
                "the shortest file with sellers",
                file.len() == 83 && header.edition == Edition::WithSeller,
            ),
            (
                "transactions alone",
                hour.rows.is_empty() && congestion.iter().any(|&charge| charge != 0),
            ),
            (
                "a sale day-ahead",
                has_sale(&|sale| sale.market == DAY_AHEAD && sale.kw > 0),
            ),
            (
                "a sale in real time",
                has_sale(&|sale| sale.market == REAL_TIME && sale.kw > 0),
            ),
            (
                "a buyer who sells",
                has_sale(&|sale| sale.seller == Some(sale.participant)),
            ),
            (
                "a sale at one location",
                has_sale(&|sale| sale.source == sale.sink && sale.kw > 0),
            ),
            (
                "a seller without shares",
                has_sale(&|sale| {
                    sale.market == REAL_TIME && sale.kw > 0 && shares[sale.seller.unwrap()] == 0
                }) && surplus != 0,
            ),
            ("the largest surplus", surplus == 1_000_000_000),
            ("the least surplus", surplus == -1_000_000_000),
            ("the largest share", shares.contains(&4_000_000_000)),
        ]
        .into_iter()
        .filter(|shape| shape.1)
        .map(|shape| shape.0.to_string())
        .collect()
    }

    /// The lengths of output lists that must be refused, by list.
    fn shapes_of_lists(participants: usize, lists: &[Vec<u8>; 4]) -> Vec<String> {
        let right = 8 * participants;
        let shape = |len: usize| match len {
            0 => Some("empty"),
            _ if len % 8 != 0 => Some("ragged"),
            _ if len > 512 => Some("overlong"),
            _ if len < right => Some("short"),
            _ if len > right => Some("long"),
            _ => None,
        };
        (0..4)
            .filter_map(|at| Some(format!("list {at} {}", shape(lists[at].len())?)))
            .collect()
    }

    /// The cases that tests/run tries have each shape among them.
    #[test]
    fn families_reach_every_shape() {
        let mut seen = BTreeMap::new();
        let mut random = Random::new(1);
        for turn in 0..6_000 {
            let line = line(turn, &mut random);
            let fields: Vec<&str> = line.split('\t').collect();
            let file = unhex(fields[0]);
            let after = [6, 7, 8, 9].map(|at| unhex(fields[at]));
            let shapes = match fields[5] {
                "0" => shapes(&file, &after),
                "1" if exercise::check(&file) == 0 => {
                    let header = exercise::read_header(&file).unwrap();
                    shapes_of_lists(header.participants, &after)
                }
                _ if file.is_empty() => vec!["no file".to_string()],
                _ => vec![],
            };
            for shape in shapes {
                *seen.entry(shape).or_insert(0) += 1;
            }
        }
        // 21 of an hour, five lengths of each list, and the empty file.
        assert_eq!(seen.len(), 21 + 5 * 4 + 1, "{seen:#?}");
    }

    #[test]
    fn families_reach_every_number() {
        let mut random = Random::new(3);
        let mut seen = [0; 11];
        for turn in 0..2_400 {
            let line = line(turn, &mut random);
            let number: usize = line.split('\t').nth(5).unwrap().parse().unwrap();
            seen[number] += 1;
        }
        assert!(seen[0] > 900, "{seen:?}");
        for number in [1, 2, 3, 4, 7, 9, 10] {
            assert!(seen[number] > 30, "{seen:?}");
        }
    }
}

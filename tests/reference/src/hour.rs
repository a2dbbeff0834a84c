//! Settling an hour the way sections 5.1 and 5.4 of the tariff go: for each
//! participant, location and interval, and for each path. A sale is a position
//! of the buyer and one of the seller besides (ticket 2 of document 02).

use std::collections::BTreeMap;

use crate::exercise::{
    self, Hour, Prices, Transaction, DAY_AHEAD, EXPORT, INTERVALS, LOAD, REAL_TIME,
};
use crate::numbers;
use crate::split::{parts_of, MOST_AMOUNT, MOST_SHARE};

const TWELFTHS_PER_CENT: i128 = 120_000;

/// A participant's kW at one location.
#[derive(Clone, Default)]
struct Position {
    withdrawn_day_ahead: i64,
    injected_day_ahead: i64,
    withdrawn_real_time: [i64; INTERVALS],
    injected_real_time: [i64; INTERVALS],
}

/// A participant's kW from one source to one sink.
#[derive(Clone, Default)]
struct Path {
    day_ahead: i64,
    real_time: [i64; INTERVALS],
}

impl Position {
    fn post(&mut self, market: usize, interval: usize, withdraws: bool, kw: i64) {
        let to = match (market, withdraws) {
            (DAY_AHEAD, true) => &mut self.withdrawn_day_ahead,
            (DAY_AHEAD, false) => &mut self.injected_day_ahead,
            (_, true) => &mut self.withdrawn_real_time[interval],
            (_, false) => &mut self.injected_real_time[interval],
        };
        *to += kw;
    }
}

/// What one participant has in the hour.
struct Account {
    positions: Vec<Position>,
    paths: BTreeMap<(usize, usize), Path>,
    /// Real-time load and exports, added up over the rows.
    share: i64,
}

/// What `wz_settle_hour` does and answers. The lists are those of congestion,
/// loss, credit and net.
pub fn settle_hour(file: &[u8], lists: &mut [Vec<u8>; 4]) -> u32 {
    let lens: Vec<usize> = lists.iter().map(Vec::len).collect();
    match settle(file, &lens) {
        Ok(cents) => {
            *lists = cents.map(|list| numbers::bytes(&list));
            0
        }
        Err(number) => number,
    }
}

/// What the statement program of document 01 prints for a file.
pub fn statement(file: &[u8]) -> String {
    let participants = file.first().map_or(1, |byte| (byte >> 2) as usize + 1);
    let lists = match settle(file, &[8 * participants; 4]) {
        Ok(lists) => lists,
        Err(number) => return format!("refused {number}\n"),
    };
    let line = |name: String, cents: [i64; 4]| {
        let fields = cents.map(|c| c.to_string()).join(" ");
        format!("{name} {fields}\n")
    };
    let participant = |p: usize| line(p.to_string(), [0, 1, 2, 3].map(|l: usize| lists[l][p]));
    let mut text: String = (0..participants).map(participant).collect();
    let totals = [0, 1, 2, 3].map(|l: usize| lists[l].iter().sum());
    text += &line("total".to_string(), totals);
    text
}

/// Each participant's cents: congestion, loss, credit, net.
fn settle(file: &[u8], lens: &[usize]) -> Result<[Vec<i64>; 4], u32> {
    let header = exercise::read_header(file)?;
    if lens.iter().any(|&len| len != 8 * header.participants) {
        return Err(1);
    }
    let hour = exercise::read_hour(file, &header)?;
    let Charged {
        congestion,
        loss,
        shares,
    } = charged(&hour);

    let surplus: i128 = loss.iter().sum();
    // Beyond these the surplus could not be split.
    if surplus.abs() > i128::from(MOST_AMOUNT) || shares.iter().any(|&share| share > MOST_SHARE) {
        return Err(10);
    }
    if surplus != 0 && shares.iter().all(|&share| share == 0) {
        return Err(7);
    }
    let congestion = narrow(&congestion);
    let loss = narrow(&loss);
    let credit = parts_of(surplus as i64, &shares);
    let net = (0..hour.participants)
        .map(|p| congestion[p] + loss[p] - credit[p])
        .collect();
    Ok([congestion, loss, credit, net])
}

/// What each participant is charged in cents, and its share of the surplus in kW.
pub struct Charged {
    pub congestion: Vec<i128>,
    pub loss: Vec<i128>,
    pub shares: Vec<i64>,
}

pub fn charged(hour: &Hour) -> Charged {
    let accounts = accounts(hour);
    let rounded = |prices: &Prices| exact(&accounts, prices).into_iter().map(cents).collect();
    Charged {
        congestion: rounded(&hour.congestion),
        loss: rounded(&hour.loss),
        shares: accounts.iter().map(|account| account.share).collect(),
    }
}

/// Each participant's charge in twelfths.
fn exact(accounts: &[Account], prices: &Prices) -> Vec<i128> {
    let charges = accounts.iter().map(|account| charge(account, prices));
    charges.collect()
}

fn accounts(hour: &Hour) -> Vec<Account> {
    let mut accounts: Vec<Account> = (0..hour.participants)
        .map(|_| Account {
            positions: vec![Position::default(); hour.locations],
            paths: BTreeMap::new(),
            share: 0,
        })
        .collect();
    for row in &hour.rows {
        let account = &mut accounts[row.participant];
        let position = &mut account.positions[row.location];
        // Load, exports and decrement bids are the even kinds.
        let withdraws = row.kind % 2 == 0;
        position.post(row.market, row.interval, withdraws, row.kw);
        if row.market == REAL_TIME && (row.kind == LOAD || row.kind == EXPORT) {
            account.share += row.kw;
        }
    }
    for transaction in &hour.transactions {
        let paths = &mut accounts[transaction.participant].paths;
        let path = paths
            .entry((transaction.source, transaction.sink))
            .or_default();
        if transaction.market == DAY_AHEAD {
            path.day_ahead += transaction.kw;
        } else {
            path.real_time[transaction.interval] += transaction.kw;
        }
        if let Some(seller) = transaction.seller {
            post_sale(&mut accounts, transaction, seller);
        }
    }
    accounts
}

/// The buyer injects at the sink, and the seller withdraws at the source.
/// Neither is load or an export.
fn post_sale(accounts: &mut [Account], sale: &Transaction, seller: usize) {
    for (participant, location, withdraws) in [
        (sale.participant, sale.sink, false),
        (seller, sale.source, true),
    ] {
        let position = &mut accounts[participant].positions[location];
        position.post(sale.market, sale.interval, withdraws, sale.kw);
    }
}

/// A participant's exact charge in twelfths of a millionth of a dollar.
fn charge(account: &Account, prices: &Prices) -> i128 {
    let mut total = 0;
    for (location, position) in account.positions.iter().enumerate() {
        let b = position.withdrawn_day_ahead as i128;
        let e = position.injected_day_ahead as i128;
        total += 12 * (b - e) * prices.day_ahead[location] as i128;
        for interval in 0..INTERVALS {
            let a = position.withdrawn_real_time[interval] as i128;
            let d = position.injected_real_time[interval] as i128;
            let c = prices.real_time[interval][location] as i128;
            total += ((a - b) - (d - e)) * c;
        }
    }
    for (&(source, sink), path) in &account.paths {
        let scheduled = path.day_ahead as i128;
        total += 12 * scheduled * rise(&prices.day_ahead, source, sink);
        for interval in 0..INTERVALS {
            let used = path.real_time[interval] as i128;
            let rise = rise(&prices.real_time[interval], source, sink);
            if used > scheduled {
                let excess = used - scheduled;
                total += excess * rise;
            } else {
                let shortfall = scheduled - used;
                total -= shortfall * rise;
            }
        }
    }
    total
}

/// The price at the sink less the price at the source.
fn rise(prices: &[i64], source: usize, sink: usize) -> i128 {
    (prices[sink] - prices[source]) as i128
}

/// Twelfths to the nearest cent, halves away from zero.
pub fn cents(twelfths: i128) -> i128 {
    let size = (twelfths.abs() + TWELFTHS_PER_CENT / 2) / TWELFTHS_PER_CENT;
    size * twelfths.signum()
}

/// No charge exceeds 10^14 cents.
fn narrow(cents: &[i128]) -> Vec<i64> {
    cents.iter().map(|&c| c.try_into().unwrap()).collect()
}

#[cfg(test)]
mod tests {
    use super::*;
    use crate::cases::file::{document_01, prices, File};
    use crate::cases::hour::draw;
    use crate::exercise::{read_header, read_hour, Edition, GENERATION};
    use crate::numbers::unhex;
    use crate::random::Random;
    use crate::vectors;

    fn settled(file: &[u8], participants: usize) -> (u32, [Vec<i64>; 4]) {
        let mut lists = [(); 4].map(|_| vec![0x55; 8 * participants]);
        let number = settle_hour(file, &mut lists);
        (number, lists.map(|list| numbers::read(&list).unwrap()))
    }

    #[test]
    fn rounding() {
        assert_eq!(cents(60_000), 1); // P8
        assert_eq!(cents(59_999), 0); // P9
        assert_eq!(cents(-60_000), -1); // P10
        assert_eq!(cents(-59_999), 0);
        assert_eq!(cents(180_000), 2);
    }

    #[test]
    fn statement_exercise() {
        let (number, [congestion, loss, credit, net]) = settled(&document_01(), 2);
        assert_eq!(number, 0);
        assert_eq!(congestion, [0, 0]);
        assert_eq!(loss, [1000, 390]);
        assert_eq!(credit, [927, 463]);
        assert_eq!(net, [73, -73]);
    }

    /// Prices that differ by market, interval and location, so that a leg in
    /// another place costs something else.
    fn priced(edition: Edition) -> File {
        let mut file = File::of(edition, 3, 2);
        file.congestion = prices([1_000, 3_000], |interval| {
            let step = 12 * interval as i64;
            [5_000 + step, 9_000 + 2 * step]
        });
        file
    }

    fn congestion_of(file: &File) -> Vec<i128> {
        let file = file.bytes();
        let hour = read_hour(&file, &read_header(&file).unwrap()).unwrap();
        exact(&accounts(&hour), &hour.congestion)
    }

    /// 10 kW from location 0 to location 1, in interval 2 and day-ahead: what
    /// the buyer and the seller have are a generator's and a load's rows.
    #[test]
    fn legs_are_positions() {
        for (market, interval) in [(REAL_TIME, 2), (DAY_AHEAD, 0)] {
            let mut sale = priced(Edition::WithSeller);
            sale.sale(market, interval, 1, 2, 0, 1, 10);
            let mut rows = priced(Edition::PathOnly);
            rows.transaction(market, interval, 1, 0, 1, 10);
            rows.row(market, GENERATION, interval, 1, 1, 10);
            rows.row(market, LOAD, interval, 2, 0, 10);
            assert_eq!(congestion_of(&sale), congestion_of(&rows));
        }
    }

    /// By hand. In real time the path is 10 x (9,048 - 5,024), the injection at
    /// the sink -10 x 9,048 and the withdrawal at the source 10 x 5,024. A
    /// day-ahead kW costs 12 times the day-ahead price less the sum of the
    /// intervals': at the source 12,000 - 60,792, at the sink 36,000 - 109,584.
    #[test]
    fn what_a_sale_costs() {
        let mut file = priced(Edition::WithSeller);
        file.sale(REAL_TIME, 2, 1, 2, 0, 1, 10);
        assert_eq!(congestion_of(&file), [0, 40_240 - 90_480, 50_240]);
        let mut file = priced(Edition::WithSeller);
        file.sale(DAY_AHEAD, 0, 1, 2, 0, 1, 10);
        let path = 10 * (-73_584 + 48_792);
        assert_eq!(congestion_of(&file), [0, path + 735_840, -487_920]);
        // One who buys of itself pays for nothing.
        let mut file = priced(Edition::WithSeller);
        file.sale(DAY_AHEAD, 0, 1, 1, 0, 1, 10);
        file.sale(REAL_TIME, 11, 0, 0, 1, 0, 7);
        assert_eq!(congestion_of(&file), [0; 3]);
    }

    /// A sale adds exactly nothing to the total of all, whatever else there is.
    #[test]
    fn sales_add_nothing_to_the_total() {
        let mut random = Random::new(1);
        let mut tried = 0;
        for turn in 0..2_000 {
            let (file, _) = draw(turn, &mut random);
            let with_seller = read_header(&file)
                .ok()
                .filter(|header| header.edition == Edition::WithSeller);
            let mut hour = match with_seller.map(|header| read_hour(&file, &header)) {
                Some(Ok(hour)) => hour,
                _ => continue,
            };
            let totals = |hour: &Hour| {
                let accounts = accounts(hour);
                let total = |prices| exact(&accounts, prices).iter().sum::<i128>();
                [total(&hour.congestion), total(&hour.loss)]
            };
            let with = totals(&hour);
            tried += usize::from(!hour.transactions.is_empty());
            hour.transactions.clear();
            assert_eq!(with, totals(&hour), "turn {turn}");
        }
        assert!(tried > 300, "{tried}");
    }

    /// A sale is no share of the surplus: that of an hour with sales alone finds
    /// nobody to go to.
    #[test]
    fn sales_are_no_shares() {
        let mut file = priced(Edition::WithSeller);
        file.loss = prices([0, 0], |_| [12_000, 1]);
        file.sale(REAL_TIME, 0, 1, 2, 0, 1, 600_000);
        assert_eq!(settled(&file.bytes(), 3).0, 0);
        file.row(DAY_AHEAD, GENERATION, 0, 0, 0, 600_000);
        assert_eq!(settled(&file.bytes(), 3).0, 7);
        file.row(REAL_TIME, LOAD, 0, 0, 1, 1);
        let (number, [_, loss, credit, _]) = settled(&file.bytes(), 3);
        assert_eq!(number, 0);
        assert_eq!(credit, [loss.iter().sum(), 0, 0]);
    }

    /// Without a transaction the edition makes no difference.
    #[test]
    fn editions_agree_without_transactions() {
        let mut random = Random::new(2);
        let mut tried = 0;
        for turn in 0..2_000 {
            let (mut file, _) = draw(turn, &mut random);
            let is_tried = read_header(&file).map_or(false, |header| header.transactions == 0);
            if !is_tried {
                continue;
            }
            let before = statement(&file);
            file[4] ^= 1;
            assert_eq!(statement(&file), before, "turn {turn}");
            tried += 1;
        }
        assert!(tried > 100, "{tried}");
    }

    /// A transaction of edition 0 posts nothing.
    #[test]
    fn paths_post_nothing() {
        let mut file = priced(Edition::PathOnly);
        file.transaction(REAL_TIME, 2, 1, 0, 1, 10);
        assert_eq!(congestion_of(&file), [0, 10 * (9_048 - 5_024), 0]);
    }

    #[test]
    fn vectors() {
        for (line, f) in vectors::read("hour") {
            let mut lists = [1, 2, 3, 4].map(|list| unhex(&f[list]));
            let number = settle_hour(&unhex(&f[0]), &mut lists);
            assert_eq!(number.to_string(), f[5], "line {line}");
            for (list, after) in lists.iter().zip(&f[6..10]) {
                assert!(*list == unhex(after), "line {line}");
            }
        }
    }
}

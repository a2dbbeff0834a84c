//! Settling an hour: one pass over the rows, each adding its kW times a weight.

use super::file::{File, PRICES, STAGES};
use super::row::Row;
use super::split::{with_sign, Room};
use super::{numbers, put_numbers, Answer, FEW, MOST};

pub fn settle(file: &[u8], lists: [&mut [u8]; 4]) -> Answer {
    let file = File::new(file)?;
    if lists.iter().any(|list| list.len() != 8 * file.participants) {
        return Err(1);
    }
    if file.participants.max(file.locations) <= FEW {
        settle_in::<FEW, { PRICES * FEW }>(&file, lists)
    } else {
        settle_in::<MOST, { PRICES * MOST }>(&file, lists)
    }
}

/// A participant's congestion and loss in twelfths, later in cents, and its share.
#[derive(Clone, Copy, Default)]
struct Account {
    congestion: i64,
    loss: i64,
    share: i64,
}

fn settle_in<const ROOM: usize, const PRICES: usize>(file: &File, lists: [&mut [u8]; 4]) -> Answer {
    let mut prices = [0; PRICES];
    let half = STAGES * file.locations;
    let prices = &mut prices[..2 * half];
    file.read_prices(prices)?;
    let (congestion, loss) = prices.split_at_mut(half);
    weigh(congestion, file.locations);
    weigh(loss, file.locations);

    let mut accounts = [Account::default(); ROOM];
    charge(file, congestion, loss, &mut accounts)?;
    bill::<ROOM>(&mut accounts[..file.participants], lists)
}

/// In real time a weight is the price. A day-ahead kW also stands, with the other
/// sign, in each interval; its weight comes in the place of its price.
fn weigh(prices: &mut [i32], locations: usize) {
    let (day_ahead, real_time) = prices.split_at_mut(locations);
    if locations <= FEW {
        for (location, weight) in day_ahead.iter_mut().enumerate() {
            let intervals = real_time[location..].iter().step_by(locations);
            *weight = 12 * *weight - intervals.sum::<i32>();
        }
        return;
    }
    for weight in day_ahead.iter_mut() {
        *weight *= 12;
    }
    for interval in real_time.chunks_exact(locations) {
        for (weight, price) in day_ahead.iter_mut().zip(interval) {
            *weight -= price;
        }
    }
}

fn charge<const ROOM: usize>(
    file: &File,
    congestion: &[i32],
    loss: &[i32],
    accounts: &mut [Account; ROOM],
) -> Answer {
    let loss = &loss[..congestion.len()];
    let weights = |row: &Row, location: u64| {
        let stage = (row.market + row.interval) as usize;
        let at = stage * file.locations + location as usize;
        [i64::from(congestion[at]), i64::from(loss[at])]
    };
    file.rows(|row| {
        let [congestion, loss] = weights(&row, row.location);
        let injects = row.kind as i64 & 1;
        let kw = (row.kw as i64 ^ -injects) + injects;
        let account = &mut accounts[row.participant as usize];
        account.congestion += kw * congestion;
        account.loss += kw * loss;
        // Without a branch, as nothing foretells which rows count.
        account.share += kw & -(row.market as i64 & !injects);
    })?;
    if file.sells {
        // At the sink the path costs the buyer what it is paid for the purchase.
        return file.sales(|sale| {
            let [congestion, loss] = weights(&sale, sale.location);
            let (congestion, loss) = (sale.kw as i64 * congestion, sale.kw as i64 * loss);
            let buyer = &mut accounts[sale.participant as usize];
            buyer.congestion -= congestion;
            buyer.loss -= loss;
            let seller = &mut accounts[sale.seller as usize];
            seller.congestion += congestion;
            seller.loss += loss;
        });
    }
    file.paths(|path| {
        let source = weights(&path, path.location);
        let sink = weights(&path, path.sink);
        let account = &mut accounts[path.participant as usize];
        account.congestion += path.kw as i64 * (sink[0] - source[0]);
        account.loss += path.kw as i64 * (sink[1] - source[1]);
    })
}

fn bill<const ROOM: usize>(accounts: &mut [Account], lists: [&mut [u8]; 4]) -> Answer {
    let (mut surplus, mut total, mut most) = (0, 0, 0);
    for account in accounts.iter_mut() {
        account.congestion = cents(account.congestion);
        account.loss = cents(account.loss);
        surplus += account.loss;
        total += account.share;
        most = account.share.max(most);
    }
    if surplus.abs() > 1_000_000_000 || most > 4_000_000_000 {
        return Err(10);
    }
    if total == 0 && surplus != 0 {
        return Err(7);
    }
    let [congestion, loss, credit, net] = lists;
    put_numbers(
        congestion,
        accounts.iter().map(|account| account.congestion),
    );
    put_numbers(loss, accounts.iter().map(|account| account.loss));
    let mut room = Room::<ROOM>::new();
    let shares = accounts.iter().map(|account| account.share as u64);
    let parts = room.parts(surplus.unsigned_abs(), total.max(1) as u64, shares);
    put_numbers(credit, parts.map(|part| with_sign(surplus, part)));
    let charges = accounts
        .iter()
        .map(|account| account.congestion + account.loss);
    let nets = charges
        .zip(numbers(credit))
        .map(|(charge, credit)| charge - credit);
    put_numbers(net, nets);
    Ok(())
}

/// Twelfths to cents, halves away from zero.
fn cents(twelfths: i64) -> i64 {
    let half = if twelfths < 0 { -60_000 } else { 60_000 };
    (twelfths + half) / 120_000
}

//! Assigning a load: the contracts, then what is left at each bus.

use super::split::Room;
use super::{beyond, number, numbers, put_numbers, sizes, Answer, FEW, MOST, MOST_KW};
use reference::load::Given;

const PARTICIPANTS: usize = MOST;
const AREAS: i64 = 16;
const CONTRACTS: usize = 256;
const WHOLE: i64 = 1_000_000;
const MOST_TRANCHES: i64 = 10_000;

/// Three sizes of the table.
const FEW_CELLS: usize = 128;
const SOME_CELLS: usize = 1_024;
const ALL_CELLS: usize = PARTICIPANTS * MOST;

pub fn assign(given: &Given, out: &mut [u8]) -> Answer {
    test_lengths(given, out.len())?;
    test_ranges(given)?;
    test_identities(given)?;
    test_areas(given)?;
    let buses = given.loads.len() / 8;
    let winners = Winners::new(&given.tranches);
    let cells = buses * (given.contracts.len() / 24 + winners.count.max(1));
    if buses <= FEW && cells <= FEW_CELLS {
        assign_in::<FEW, FEW_CELLS>(given, &winners, out)
    } else if cells <= SOME_CELLS {
        assign_in::<MOST, SOME_CELLS>(given, &winners, out)
    } else {
        assign_in::<MOST, ALL_CELLS>(given, &winners, out)
    }
}

fn test_lengths(given: &Given, out_len: usize) -> Answer {
    let buses = given.loads.len() / 8;
    let pass = given.loads.len() % 8 == 0
        && (1..=MOST).contains(&buses)
        && is_meters(&given.imports)
        && is_meters(&given.generation)
        && (0..=AREAS).contains(&given.areas)
        && given.area_parts.len() == 8 * given.areas as usize * buses
        && given.contracts.len() % 24 == 0
        && given.contracts.len() / 24 <= CONTRACTS
        && given.tranches.len() == 8 * PARTICIPANTS
        && out_len == 8 * PARTICIPANTS * buses;
    if pass {
        Ok(())
    } else {
        Err(1)
    }
}

fn is_meters(list: &[u8]) -> bool {
    list.len() % 8 == 0 && list.len() <= 8 * MOST
}

fn test_ranges(given: &Given) -> Answer {
    let tested = beyond(given.metered, 0, 1)
        | any_beyond(numbers(&given.loads), 0, MOST_KW)
        | any_beyond(numbers(&given.imports), -MOST_KW, MOST_KW)
        | any_beyond(numbers(&given.generation), 0, MOST_KW)
        | any_beyond(numbers(&given.area_parts), 0, WHOLE)
        | any_beyond(contracts(given).map(|contract| contract[2]), 0, MOST_KW)
        | any_beyond(numbers(&given.tranches), 0, MOST_TRANCHES);
    if tested < 0 {
        return Err(2);
    }
    Ok(())
}

fn any_beyond(numbers: impl Iterator<Item = i64>, least: i64, most: i64) -> i64 {
    numbers.fold(0, |tested, number| tested | beyond(number, least, most))
}

fn test_identities(given: &Given) -> Answer {
    let last = PARTICIPANTS as i64 - 1;
    let mut tested = beyond(given.distributor, 0, last);
    for [supplier, area, _] in contracts(given) {
        tested |= beyond(supplier, 0, last) | beyond(area, 0, given.areas - 1);
    }
    if tested < 0 {
        return Err(3);
    }
    Ok(())
}

fn test_areas(given: &Given) -> Answer {
    for area in given.area_parts.chunks_exact(given.loads.len()) {
        if numbers(area).sum::<i64>() != WHOLE {
            return Err(5);
        }
    }
    Ok(())
}

/// Supplier, area and kW.
fn contracts(given: &Given) -> impl Iterator<Item = [i64; 3]> + '_ {
    let contracts = given.contracts.chunks_exact(24);
    contracts.map(|three| [0, 8, 16].map(|at| number(&three[at..at + 8])))
}

fn assign_in<const BUSES: usize, const CELLS: usize>(
    given: &Given,
    winners: &Winners,
    out: &mut [u8],
) -> Answer {
    let buses = given.loads.len() / 8;
    let mut room = Room::<BUSES>::new();
    let mut rest = [0; BUSES];
    let rest = &mut rest[..buses];
    bus_loads(given, &mut room, rest)?;
    let mut table = Table::<CELLS>::new(buses);
    for [supplier, area, kw] in contracts(given) {
        let shares = sizes(&given.area_parts[8 * area as usize * buses..][..8 * buses]);
        let parts = room.parts(kw as u64, WHOLE as u64, shares);
        let row = table.row(supplier as usize);
        for ((kw, rest), part) in row.iter_mut().zip(rest.iter_mut()).zip(parts) {
            *kw += part as i64;
            *rest -= part as i64;
        }
    }
    if rest.iter().any(|&rest| rest < 0) {
        return Err(8);
    }
    match winners.count {
        0 => table.add(given.distributor as usize, rest),
        1..=FEW => hand_rests::<FEW, CELLS>(winners, rest, &mut table),
        _ => hand_rests::<MOST, CELLS>(winners, rest, &mut table),
    }
    table.put(out);
    Ok(())
}

/// The load at each bus.
fn bus_loads<const BUSES: usize>(given: &Given, room: &mut Room<BUSES>, to: &mut [i64]) -> Answer {
    if given.metered == 0 {
        for (to, load) in to.iter_mut().zip(numbers(&given.loads)) {
            *to = load;
        }
        return Ok(());
    }
    let metered = numbers(&given.imports).sum::<i64>() + numbers(&given.generation).sum::<i64>();
    if !(0..=MOST_KW).contains(&metered) {
        return Err(6);
    }
    let total: u64 = sizes(&given.loads).sum();
    if total == 0 {
        return if metered == 0 { Ok(()) } else { Err(7) };
    }
    let parts = room.parts(metered as u64, total, sizes(&given.loads));
    for (to, part) in to.iter_mut().zip(parts) {
        *to = part as i64;
    }
    Ok(())
}

/// Splits what is left at each bus over the tranches.
fn hand_rests<const ROOM: usize, const CELLS: usize>(
    winners: &Winners,
    rest: &[i64],
    table: &mut Table<CELLS>,
) {
    let won = &winners.won[..winners.count];
    let total = won.iter().sum();
    let mut starts = [0; ROOM];
    for (start, &winner) in starts.iter_mut().zip(&winners.ids[..winners.count]) {
        *start = table.start(usize::from(winner));
    }
    let mut room = Room::<ROOM>::new();
    for (bus, &rest) in rest.iter().enumerate() {
        let parts = room.parts(rest as u64, total, won.iter().copied());
        for (start, part) in starts.iter().zip(parts) {
            table.cells[start + bus] += part as i64;
        }
    }
}

/// The participants with tranches.
struct Winners {
    won: [u64; PARTICIPANTS],
    ids: [u8; PARTICIPANTS],
    count: usize,
}

impl Winners {
    fn new(tranches: &[u8]) -> Self {
        let mut winners = Winners {
            won: [0; PARTICIPANTS],
            ids: [0; PARTICIPANTS],
            count: 0,
        };
        for (participant, tranches) in sizes(tranches).enumerate() {
            // One without any is written over by the next.
            let at = winners.count % PARTICIPANTS;
            winners.won[at] = tranches;
            winners.ids[at] = participant as u8;
            winners.count += usize::from(tranches > 0);
        }
        winners
    }
}

/// A row of kW by bus for each participant that gets some, as most may get none.
struct Table<const CELLS: usize> {
    cells: [i64; CELLS],
    buses: usize,
    /// The row of each participant, counted from 1; 0 where there is none.
    rows: [u8; PARTICIPANTS],
    /// Whose row each is.
    owners: [u8; PARTICIPANTS],
    count: usize,
}

impl<const CELLS: usize> Table<CELLS> {
    fn new(buses: usize) -> Self {
        Table {
            cells: [0; CELLS],
            buses,
            rows: [0; PARTICIPANTS],
            owners: [0; PARTICIPANTS],
            count: 0,
        }
    }

    /// Where a participant's row begins.
    fn start(&mut self, participant: usize) -> usize {
        let row = &mut self.rows[participant];
        if *row == 0 {
            self.owners[self.count] = participant as u8;
            self.count += 1;
            *row = self.count as u8;
        }
        (usize::from(*row) - 1) * self.buses
    }

    fn row(&mut self, participant: usize) -> &mut [i64] {
        let start = self.start(participant);
        &mut self.cells[start..start + self.buses]
    }

    fn add(&mut self, participant: usize, kw: &[i64]) {
        for (to, kw) in self.row(participant).iter_mut().zip(kw) {
            *to += kw;
        }
    }

    fn put(&self, out: &mut [u8]) {
        out.fill(0);
        let rows = self.cells.chunks_exact(self.buses);
        for (row, &owner) in rows.zip(&self.owners[..self.count]) {
            let start = 8 * self.buses * usize::from(owner);
            let list = &mut out[start..start + 8 * self.buses];
            put_numbers(list, row.iter().copied());
        }
    }
}

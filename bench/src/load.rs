//! wz_assign_load.

use crate::plain;
use crate::timing::{self, Case, INPUTS};
use reference::load::Given;
use reference::random::Random;
use reference::split::parts_of;
use reference::{cases, numbers};

const PARTICIPANTS: usize = 64;

timing::engines!(
    wz_assign_load,
    before_wz_assign_load,
    (
        metered: i64,
        distributor: i64,
        loads: *const u8,
        loads_len: usize,
        imports: *const u8,
        imports_len: usize,
        generation: *const u8,
        generation_len: usize,
        areas: i64,
        area_parts: *const u8,
        area_parts_len: usize,
        contracts: *const u8,
        contracts_len: usize,
        tranches: *const u8,
        tranches_len: usize,
        out: *mut u8,
        out_len: usize,
    )
);

struct Load {
    given: Given,
    out_len: usize,
}

impl Load {
    fn call(&self, call: Call, out: &mut [u8]) -> u32 {
        let given = &self.given;
        // Every list is lent with its own length.
        unsafe {
            call(
                given.metered,
                given.distributor,
                given.loads.as_ptr(),
                given.loads.len(),
                given.imports.as_ptr(),
                given.imports.len(),
                given.generation.as_ptr(),
                given.generation.len(),
                given.areas,
                given.area_parts.as_ptr(),
                given.area_parts.len(),
                given.contracts.as_ptr(),
                given.contracts.len(),
                given.tranches.as_ptr(),
                given.tranches.len(),
                out.as_mut_ptr(),
                out.len(),
            )
        }
    }
}

impl Case for Load {
    fn inputs(&self) -> Vec<&[u8]> {
        let given = &self.given;
        vec![
            &given.loads,
            &given.imports,
            &given.generation,
            &given.area_parts,
            &given.contracts,
            &given.tranches,
        ]
    }

    fn out_len(&self) -> usize {
        self.out_len
    }

    fn engine(&self, out: &mut [u8]) -> u32 {
        self.call(wz_assign_load, out)
    }

    #[cfg(feature = "before")]
    fn before() -> Option<timing::Answer<Load>> {
        Some(|case, out| case.call(before_wz_assign_load, out))
    }

    fn plain(&self, out: &mut [u8]) -> plain::Answer {
        plain::assign(&self.given, out)
    }

    fn reference(&self, out: &mut [u8]) -> u32 {
        reference::load::assign_load(&self.given, out)
    }

    fn draw(turn: usize, random: &mut Random) -> Load {
        let (given, out) = cases::load::draw(turn, random).given();
        let out_len = out.len();
        Load { given, out_len }
    }
}

struct Size {
    buses: usize,
    areas: usize,
    contracts: usize,
    /// Participants with tranches.
    winners: usize,
    /// Imports, and as many generators.
    meters: usize,
}

const FAMILIES: [(&str, Size); 3] = [
    (
        "largest: 64, 16, 256, 64",
        Size {
            buses: 64,
            areas: 16,
            contracts: 256,
            winners: 64,
            meters: 64,
        },
    ),
    (
        "sparse: 64, 2, 8, 4",
        Size {
            buses: 64,
            areas: 2,
            contracts: 8,
            winners: 4,
            meters: 4,
        },
    ),
    (
        "small: 3, 1, 2, 2",
        Size {
            buses: 3,
            areas: 1,
            contracts: 2,
            winners: 2,
            meters: 2,
        },
    ),
];

pub fn compare() {
    timing::try_plain::<Load>();
    println!("load, every second one metered: buses, areas, contracts, participants with tranches");
    for (name, size) in FAMILIES {
        let mut random = Random::new(1);
        let cases: Vec<Load> = (0..INPUTS)
            .map(|turn| load(&size, turn % 2 == 1, &mut random))
            .collect();
        timing::compare(name, &cases);
    }
}

/// A load of which much is left at each bus: 256 contracts of the most kW take less
/// than half of the least that is metered there.
fn load(size: &Size, metered: bool, random: &mut Random) -> Load {
    let loads = draw(size.buses, 100_000, 300_000, random);
    let total: i64 = loads.iter().sum();
    let metered_kw = random.between(total / 2, total);
    let weights = draw(2 * size.meters, 1, 1_000, random);
    let mut imports = parts_of(metered_kw, &weights);
    let generation = imports.split_off(size.meters);
    let area = |random: &mut Random| parts_of(1_000_000, &draw(size.buses, 1, 1_000, random));
    let areas: Vec<i64> = (0..size.areas).flat_map(|_| area(random)).collect();
    let mut contracts = Vec::new();
    for _ in 0..size.contracts {
        let supplier = random.index(PARTICIPANTS) as i64;
        let area = random.index(size.areas) as i64;
        contracts.extend([supplier, area, random.between(1, 2_000)]);
    }
    let given = Given {
        metered: i64::from(metered),
        distributor: random.index(PARTICIPANTS) as i64,
        loads: numbers::bytes(&loads),
        imports: numbers::bytes(&imports),
        generation: numbers::bytes(&generation),
        areas: size.areas as i64,
        area_parts: numbers::bytes(&areas),
        contracts: numbers::bytes(&contracts),
        tranches: numbers::bytes(&tranches(size.winners, random)),
    };
    Load {
        given,
        out_len: 8 * PARTICIPANTS * size.buses,
    }
}

fn draw(count: usize, low: i64, high: i64, random: &mut Random) -> Vec<i64> {
    (0..count).map(|_| random.between(low, high)).collect()
}

/// Tranches of so many participants.
fn tranches(winners: usize, random: &mut Random) -> Vec<i64> {
    let mut list = vec![0; PARTICIPANTS];
    let mut left = winners;
    while left > 0 {
        let at = random.index(PARTICIPANTS);
        if list[at] == 0 {
            list[at] = random.between(1, 10_000);
            left -= 1;
        }
    }
    list
}

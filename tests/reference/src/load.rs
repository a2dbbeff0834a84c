//! Load at the buses: sections 5.1.3(e) and 5.4.3(e) of the tariff, as
//! document 01 tells them.

use crate::split::parts_of;
use crate::{numbers, MOST_KW};

const PARTICIPANTS: usize = 64;

struct Contract {
    supplier: i64,
    area: i64,
    kw: i64,
}

/// What `wz_assign_load` is given, its lists in bytes.
#[derive(Clone)]
pub struct Given {
    pub metered: i64,
    pub distributor: i64,
    pub loads: Vec<u8>,
    pub imports: Vec<u8>,
    pub generation: Vec<u8>,
    pub areas: i64,
    pub area_parts: Vec<u8>,
    pub contracts: Vec<u8>,
    pub tranches: Vec<u8>,
}

/// What `wz_assign_load` does and answers.
pub fn assign_load(given: &Given, out: &mut [u8]) -> u32 {
    match assign(given, out.len()) {
        Ok(kw) => {
            out.copy_from_slice(&numbers::bytes(&kw));
            0
        }
        Err(number) => number,
    }
}

fn assign(given: &Given, out_len: usize) -> Result<Vec<i64>, u32> {
    let Given {
        metered,
        distributor,
        areas,
        ..
    } = *given;

    // 1: counts and lengths.
    let loads = list(&given.loads)?;
    let imports = list(&given.imports)?;
    let generation = list(&given.generation)?;
    let area_parts = list(&given.area_parts)?;
    let contracts = list(&given.contracts)?;
    let tranches = list(&given.tranches)?;
    let buses = loads.len();
    refuse_if(buses == 0 || buses > 64, 1)?;
    refuse_if(imports.len() > 64 || generation.len() > 64, 1)?;
    refuse_if(!(0..=16).contains(&areas), 1)?;
    refuse_if(area_parts.len() != areas as usize * buses, 1)?;
    refuse_if(contracts.len() % 3 != 0 || contracts.len() / 3 > 256, 1)?;
    refuse_if(tranches.len() != PARTICIPANTS, 1)?;
    refuse_if(out_len != 8 * PARTICIPANTS * buses, 1)?;

    let contracts: Vec<Contract> = contracts
        .chunks(3)
        .map(|c| Contract {
            supplier: c[0],
            area: c[1],
            kw: c[2],
        })
        .collect();

    // 2: ranges, the choice first.
    refuse_if(metered != 0 && metered != 1, 2)?;
    let contract_kw: Vec<i64> = contracts.iter().map(|c| c.kw).collect();
    refuse_beyond(&loads, 0, MOST_KW)?;
    refuse_beyond(&imports, -MOST_KW, MOST_KW)?;
    refuse_beyond(&generation, 0, MOST_KW)?;
    refuse_beyond(&area_parts, 0, 1_000_000)?;
    refuse_beyond(&contract_kw, 0, MOST_KW)?;
    refuse_beyond(&tranches, 0, 10_000)?;

    // 3: identities.
    refuse_if(!(0..PARTICIPANTS as i64).contains(&distributor), 3)?;
    for contract in &contracts {
        refuse_if(!(0..PARTICIPANTS as i64).contains(&contract.supplier), 3)?;
        refuse_if(!(0..areas).contains(&contract.area), 3)?;
    }

    // 5: every area, whether a contract names it or not.
    let area_parts: Vec<&[i64]> = area_parts.chunks(buses).collect();
    for parts in &area_parts {
        refuse_if(parts.iter().sum::<i64>() != 1_000_000, 5)?;
    }

    // Step 1. Only a metered distributor can meet 6 and 7.
    let bus_loads = if metered == 1 {
        let total = imports.iter().sum::<i64>() + generation.iter().sum::<i64>();
        refuse_if(!(0..=MOST_KW).contains(&total), 6)?;
        refuse_if(loads.iter().all(|&kw| kw == 0) && total != 0, 7)?;
        parts_of(total, &loads)
    } else {
        loads
    };

    // Step 2. Each contract is split by itself.
    let mut assigned = vec![vec![0i64; buses]; PARTICIPANTS];
    let mut rest = bus_loads;
    for contract in &contracts {
        let kw = parts_of(contract.kw, area_parts[contract.area as usize]);
        for bus in 0..buses {
            assigned[contract.supplier as usize][bus] += kw[bus];
            rest[bus] -= kw[bus];
        }
    }
    refuse_if(rest.iter().any(|&kw| kw < 0), 8)?;

    // Step 3.
    let auction = tranches.iter().any(|&t| t != 0);
    for bus in 0..buses {
        if auction {
            let won = parts_of(rest[bus], &tranches);
            for participant in 0..PARTICIPANTS {
                assigned[participant][bus] += won[participant];
            }
        } else {
            assigned[distributor as usize][bus] += rest[bus];
        }
    }
    Ok(assigned.concat())
}

fn list(bytes: &[u8]) -> Result<Vec<i64>, u32> {
    numbers::read(bytes).ok_or(1)
}

fn refuse_if(condition: bool, number: u32) -> Result<(), u32> {
    if condition {
        Err(number)
    } else {
        Ok(())
    }
}

fn refuse_beyond(list: &[i64], low: i64, high: i64) -> Result<(), u32> {
    refuse_if(list.iter().any(|n| !(low..=high).contains(n)), 2)
}

#[cfg(test)]
mod tests {
    use super::*;
    use crate::numbers::unhex;
    use crate::vectors;

    /// Participants 0 and 1 at three buses, the others having none; `tranches`
    /// are theirs, too. The distributor is participant 2.
    struct Example<'a> {
        metered: i64,
        loads: &'a [i64],
        imports: &'a [i64],
        generation: &'a [i64],
        area_parts: &'a [i64],
        contracts: &'a [i64],
        tranches: &'a [i64],
    }

    fn settle(example: &Example) -> Result<Vec<Vec<i64>>, u32> {
        let buses = example.loads.len();
        let mut tranches = example.tranches.to_vec();
        tranches.resize(64, 0);
        let given = Given {
            metered: example.metered,
            distributor: 2,
            loads: numbers::bytes(example.loads),
            imports: numbers::bytes(example.imports),
            generation: numbers::bytes(example.generation),
            areas: (example.area_parts.len() / buses) as i64,
            area_parts: numbers::bytes(example.area_parts),
            contracts: numbers::bytes(example.contracts),
            tranches: numbers::bytes(&tranches),
        };
        let mut out = vec![0xaa; 8 * 64 * buses];
        let number = assign_load(&given, &mut out);
        if number != 0 {
            assert!(out.iter().all(|&b| b == 0xaa));
            return Err(number);
        }
        let kw = numbers::read(&out).unwrap();
        Ok(kw.chunks(buses).map(|at| at.to_vec()).collect())
    }

    const P11: Example = Example {
        metered: 1,
        loads: &[100, 200, 300],
        imports: &[500, -40],
        generation: &[200],
        area_parts: &[],
        contracts: &[],
        tranches: &[],
    };

    #[test]
    fn p11() {
        let kw = settle(&P11).unwrap();
        assert_eq!(kw[2], [110, 220, 330]);
        assert_eq!(kw.concat().iter().sum::<i64>(), 660);
    }

    #[test]
    fn p12() {
        let kw = settle(&Example {
            imports: &[601],
            generation: &[],
            ..P11
        });
        assert_eq!(kw.unwrap()[2], [100, 200, 301]);
    }

    #[test]
    fn contract_and_tranches() {
        let area_parts = &[500_000, 333_333, 166_667];
        let contracts = &[5, 0, 10];
        let kw = settle(&Example {
            area_parts,
            contracts,
            tranches: &[3, 1],
            ..P11
        });
        let kw = kw.unwrap();
        assert_eq!(kw[5], [5, 3, 2]);
        assert_eq!(kw[0], [79, 163, 246]);
        assert_eq!(kw[1], [26, 54, 82]);
        assert_eq!(kw[2], [0, 0, 0]);
    }

    #[test]
    fn metered_over_no_load() {
        let over_zeros = |imports| Example {
            loads: &[0, 0, 0],
            imports,
            generation: &[],
            ..P11
        };
        assert_eq!(settle(&over_zeros(&[0])).unwrap().concat(), [0; 192]);
        assert_eq!(settle(&over_zeros(&[1])), Err(7));
        assert_eq!(settle(&over_zeros(&[-1])), Err(6));
    }

    #[test]
    fn vectors() {
        for (line, f) in vectors::read("load") {
            let given = Given {
                metered: f[0].parse().unwrap(),
                distributor: f[1].parse().unwrap(),
                loads: unhex(&f[2]),
                imports: unhex(&f[3]),
                generation: unhex(&f[4]),
                areas: f[5].parse().unwrap(),
                area_parts: unhex(&f[6]),
                contracts: unhex(&f[7]),
                tranches: unhex(&f[8]),
            };
            let mut out = unhex(&f[9]);
            let number = assign_load(&given, &mut out);
            assert_eq!(number.to_string(), f[10], "line {line}");
            assert!(out == unhex(&f[11]), "line {line}");
        }
    }
}

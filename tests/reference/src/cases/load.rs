//! Cases of load assignment: sound ones by families, then ones with a fault or
//! two, each fault known by the refusal it calls for.

use super::faults::{beyond, pair};
use crate::load::{assign_load, Given};
use crate::numbers::{self, hex};
use crate::random::Random;
use crate::split::parts_of;
use crate::MOST_KW;

pub const HEADER: &str = "metered\tdistributor\tloads\timports\tgeneration\tareas\tarea parts\tcontracts\ttranches\tout before\tnumber\tout after";

const WHOLE: i64 = 1_000_000;

#[derive(Clone)]
pub struct Case {
    metered: i64,
    distributor: i64,
    loads: Vec<i64>,
    imports: Vec<i64>,
    generation: Vec<i64>,
    areas: i64,
    parts: Vec<i64>,
    contracts: Vec<i64>,
    tranches: Vec<i64>,
    out: Vec<i64>,
    /// Bytes cut from the end of each list, in the order of the fields.
    cut: [usize; 7],
    /// What the contracts leave at each bus.
    rest: Vec<i64>,
}

impl Case {
    /// What the call is given and what its output list holds before.
    pub fn given(&self) -> (Given, Vec<u8>) {
        let mut cuts = self.cut.iter();
        let mut list = |numbers: &[i64]| {
            let mut bytes = numbers::bytes(numbers);
            bytes.truncate(bytes.len().saturating_sub(*cuts.next().unwrap()));
            bytes
        };
        let given = Given {
            metered: self.metered,
            distributor: self.distributor,
            loads: list(&self.loads),
            imports: list(&self.imports),
            generation: list(&self.generation),
            areas: self.areas,
            area_parts: list(&self.parts),
            contracts: list(&self.contracts),
            tranches: list(&self.tranches),
        };
        (given, list(&self.out))
    }
}

/// The case of a turn, as a line.
pub fn line(turn: usize, random: &mut Random) -> String {
    let (given, before) = draw(turn, random).given();
    let mut after = before.clone();
    let number = assign_load(&given, &mut after);
    format!(
        "{}\t{}\t{}\t{}\t{}\t{}\t{}\t{}\t{}\t{}\t{}\t{}",
        given.metered,
        given.distributor,
        hex(&given.loads),
        hex(&given.imports),
        hex(&given.generation),
        given.areas,
        hex(&given.area_parts),
        hex(&given.contracts),
        hex(&given.tranches),
        hex(&before),
        number,
        hex(&after)
    )
}

/// The case of a turn.
pub fn draw(turn: usize, random: &mut Random) -> Case {
    if turn % 200 == 199 {
        return large(random);
    }
    let round = turn / 16;
    match turn % 16 {
        4 if round % 4 == 0 => contract_faults(random),
        5 => used_up(random),
        6 => sound(&Shape::small(random), Tranches::None, random),
        7 => distributor_holds(random),
        8 => equal(random),
        9 => limit(round, random),
        10 => unmetered(random),
        11 => metered_edge(round, random),
        12 | 13 => {
            let fault = 2 * round + turn % 2;
            spoilt(&[&FAULTS[fault % FAULTS.len()]], random)
        }
        14 => {
            let any = random.index(FAULTS.len() * (FAULTS.len() - 1));
            let (first, second) = pair(any, FAULTS.len());
            spoilt(&[&FAULTS[first], &FAULTS[second]], random)
        }
        15 => {
            const NUMBERS: [u32; 7] = [1, 2, 3, 5, 6, 7, 8];
            let (first, second) = pair(round, NUMBERS.len());
            let faults = [first, second].map(|at| {
                let of_number = |fault: &&Fault| fault.0 == NUMBERS[at];
                let faults: Vec<&Fault> = FAULTS.iter().filter(of_number).collect();
                random.pick(&faults)
            });
            spoilt(&faults, random)
        }
        _ => {
            let shape = Shape::small(random);
            let tranches = random.pick(&[Tranches::Few, Tranches::Few, Tranches::All]);
            sound(&shape, tranches, random)
        }
    }
}

struct Shape {
    buses: usize,
    areas: usize,
    contracts: usize,
    imports: usize,
    generation: usize,
}

impl Shape {
    fn small(random: &mut Random) -> Self {
        // Mostly few buses, as the lists of results are long.
        let most = random.pick(&[1, 2, 3, 3, 4, 6, 9]);
        let buses = 1 + random.index(most);
        let areas = random.index(6);
        Shape {
            buses,
            areas,
            contracts: if areas == 0 { 0 } else { random.index(8) },
            imports: random.index(5),
            generation: random.index(5),
        }
    }
}

#[derive(Clone, Copy)]
enum Tranches {
    None,
    Few,
    All,
}

fn sound(shape: &Shape, tranches: Tranches, random: &mut Random) -> Case {
    let loads = loads(shape.buses, random);
    let metered = random.once_in(2);
    let total = if metered {
        metered_total(&loads, shape, random)
    } else {
        random.between(-3 * MOST_KW, 3 * MOST_KW)
    };
    let (imports, generation) = meters(total, shape.imports, shape.generation, random);
    let rest = if metered {
        let total = imports.iter().chain(&generation).sum();
        parts_of(total, &loads)
    } else {
        loads.clone()
    };
    let parts = (0..shape.areas)
        .flat_map(|_| area(shape.buses, random))
        .collect();
    let mut case = Case {
        metered: metered as i64,
        distributor: random.between(0, 63),
        loads,
        imports,
        generation,
        areas: shape.areas as i64,
        parts,
        contracts: Vec::new(),
        tranches: tranche_list(tranches, random),
        out: before(64 * shape.buses, random),
        cut: [0; 7],
        rest,
    };
    // Few suppliers at times, so that some hold two contracts in an area.
    let last = random.pick(&[0, 2, 63, 63]);
    for left in (1..=shape.contracts).rev() {
        let area = random.index(shape.areas);
        let supplier = random.between(0, last);
        add_contract(&mut case, supplier, area, left, random);
    }
    case
}

/// What the output list holds before: mostly one byte, so that a case is short.
fn before(len: usize, random: &mut Random) -> Vec<i64> {
    let byte = random.word() as u8;
    let mut list = vec![i64::from_le_bytes([byte; 8]); len];
    for _ in 0..3 {
        list[random.index(len)] = random.any();
    }
    list
}

fn loads(buses: usize, random: &mut Random) -> Vec<i64> {
    let most = random.pick(&[0, 1, 10, 1_000, 300_000, MOST_KW, MOST_KW]);
    (0..buses)
        .map(|_| match random.index(8) {
            0 => 0,
            1 => most,
            _ => random.between(0, most),
        })
        .collect()
}

/// A total that a metered distributor with these loads and meters may have.
fn metered_total(loads: &[i64], shape: &Shape, random: &mut Random) -> i64 {
    let sum: i64 = loads.iter().sum();
    if sum == 0 || shape.imports + shape.generation == 0 {
        return 0;
    }
    let near = random.between(-9, 9) + sum;
    let most = random.pick(&[3, 1_000, 500_000, MOST_KW]);
    let any = random.between(0, most);
    random
        .pick(&[any, any, near, sum, MOST_KW])
        .clamp(0, MOST_KW)
}

/// Meters that sum to a total as far as their ranges let them.
fn meters(
    total: i64,
    imports: usize,
    generation: usize,
    random: &mut Random,
) -> (Vec<i64>, Vec<i64>) {
    let mut list = vec![0; imports + generation];
    let low = |at: usize| if at < imports { -MOST_KW } else { 0 };
    let mut left = total;
    for (at, meter) in list.iter_mut().enumerate() {
        *meter = left.clamp(low(at), MOST_KW);
        left -= *meter;
    }
    for _ in 0..4 * list.len() {
        let (a, b) = (random.index(list.len()), random.index(list.len()));
        let kw = random.between(0, MOST_KW);
        if a != b && list[a] + kw <= MOST_KW && list[b] - kw >= low(b) {
            list[a] += kw;
            list[b] -= kw;
        }
    }
    let generation = list.split_off(imports);
    (list, generation)
}

/// One area's parts, totalling a million.
fn area(buses: usize, random: &mut Random) -> Vec<i64> {
    let mut weights: Vec<i64> = match random.index(4) {
        0 => vec![0; buses],
        1 => vec![1; buses],
        2 => (0..buses).map(|_| random.between(0, 3)).collect(),
        _ => (0..buses).map(|_| random.between(1, WHOLE)).collect(),
    };
    weights[random.index(buses)] += 1;
    parts_of(WHOLE, &weights)
}

fn tranche_list(tranches: Tranches, random: &mut Random) -> Vec<i64> {
    let mut list = vec![0; 64];
    match tranches {
        Tranches::None => {}
        Tranches::Few => {
            for _ in 0..1 + random.index(5) {
                list[random.index(64)] = random.pick(&[1, 1, 2, 3, 17, 9_999, 10_000]);
            }
        }
        Tranches::All => {
            let most = random.pick(&[1, 7, 10_000]);
            list.fill_with(|| random.between(0, most));
        }
    }
    list
}

/// Adds a contract that what remains at the buses can bear: a part of it, to
/// leave some to `left` contracts, or by chance all that fits.
fn add_contract(case: &mut Case, supplier: i64, area: usize, left: usize, random: &mut Random) {
    let buses = case.rest.len();
    let parts = case.parts[area * buses..][..buses].to_vec();
    let fits = |kw: i64| {
        let split = parts_of(kw, &parts);
        split.iter().zip(&case.rest).all(|(a, b)| a <= b)
    };
    let mut low = 0;
    let mut high = MOST_KW;
    while low < high {
        let middle = (low + high + 1) / 2;
        if fits(middle) {
            low = middle;
        } else {
            high = middle - 1;
        }
    }
    let kw = match random.index(4) {
        0 => low,
        _ => random.between(0, low / left as i64),
    };
    let kw = if fits(kw) { kw } else { 0 };
    push_contract(case, supplier, area, kw);
}

fn push_contract(case: &mut Case, supplier: i64, area: usize, kw: i64) {
    let buses = case.rest.len();
    let split = parts_of(kw, &case.parts[area * buses..][..buses]);
    for (rest, kw) in case.rest.iter_mut().zip(split) {
        *rest -= kw;
    }
    case.contracts.extend([supplier, area as i64, kw]);
}

fn faultless(random: &mut Random) -> Case {
    let shape = Shape {
        buses: 2 + random.index(4),
        areas: 1 + random.index(4),
        contracts: 1 + random.index(4),
        imports: 2 + random.index(3),
        generation: 1 + random.index(3),
    };
    let tranches = random.pick(&[Tranches::None, Tranches::Few, Tranches::All]);
    sound(&shape, tranches, random)
}

/// The largest assignment.
pub fn largest(random: &mut Random) -> Case {
    let shape = Shape {
        buses: 64,
        areas: 16,
        contracts: 256,
        imports: 64,
        generation: 64,
    };
    sound(&shape, Tranches::All, random)
}

fn large(random: &mut Random) -> Case {
    if random.once_in(2) {
        return largest(random);
    }
    let shape = Shape {
        buses: 1 + random.index(64),
        areas: 1 + random.index(16),
        contracts: 1 + random.index(256),
        imports: 1 + random.index(64),
        generation: 1 + random.index(64),
    };
    let tranches = random.pick(&[Tranches::None, Tranches::Few, Tranches::All]);
    sound(&shape, tranches, random)
}

/// Contracts that leave nothing at one bus, or at any, or take one kW more than
/// there is.
fn used_up(random: &mut Random) -> Case {
    let mut shape = Shape::small(random);
    shape.contracts = 0;
    shape.areas = if random.once_in(2) { 1 } else { shape.buses };
    let mut case = sound(&shape, Tranches::Few, random);
    for area in 0..shape.areas {
        // By itself this area is the one bus.
        let bus = area;
        let parts = &mut case.parts[area * shape.buses..][..shape.buses];
        parts.fill(0);
        parts[bus] = WHOLE;
        let some = random.between(0, case.rest[bus]);
        let rest = case.rest[bus] - some;
        let supplier = random.between(0, 63);
        let more = i64::from(random.once_in(6));
        push_contract(&mut case, supplier, area, some);
        push_contract(&mut case, random.between(0, 63), area, rest + more);
    }
    case
}

fn distributor_holds(random: &mut Random) -> Case {
    let mut shape = Shape::small(random);
    shape.areas += 1;
    shape.contracts = 0;
    let mut case = sound(&shape, Tranches::Few, random);
    case.tranches[case.distributor as usize] = random.pick(&[0, 1, 4, 10_000]);
    for left in (1..=1 + random.index(4)).rev() {
        let other = random.between(0, 63);
        let supplier = random.pick(&[case.distributor, case.distributor, other]);
        add_contract(&mut case, supplier, random.index(shape.areas), left, random);
    }
    case
}

/// Equal loads, parts and tranches, so that remainders are equal.
fn equal(random: &mut Random) -> Case {
    let mut shape = Shape::small(random);
    shape.buses = 2 + random.index(8);
    shape.areas = 1;
    shape.contracts = 0;
    shape.imports = 1;
    let mut case = sound(&shape, Tranches::None, random);
    let load = random.between(1, 1_000);
    let sum = load * shape.buses as i64;
    let total = random.between(0, 2 * sum);
    case.metered = 1;
    case.loads.fill(load);
    (case.imports, case.generation) = meters(total, 1, shape.generation, random);
    case.rest = parts_of(total, &case.loads);
    case.parts = parts_of(WHOLE, &vec![1; shape.buses]);
    let tranche = random.pick(&[1, 10_000]);
    for _ in 0..random.pick(&[1, 2, 3, 7, 64, 200]) {
        case.tranches[random.index(64)] = tranche;
    }
    for left in (1..=3).rev() {
        add_contract(&mut case, random.between(0, 63), 0, left, random);
    }
    case
}

/// One count at its limit.
fn limit(round: usize, random: &mut Random) -> Case {
    let mut shape = Shape::small(random);
    shape.buses = 1 + random.index(3);
    shape.areas = shape.areas.max(1);
    match round % 5 {
        0 => shape.imports = 64,
        1 => shape.generation = 64,
        2 => shape.areas = 16,
        3 => shape.contracts = 256,
        _ => shape.buses = 64,
    }
    sound(&shape, Tranches::Few, random)
}

/// Meters that a metered distributor would be refused for, and loads that
/// total more than an amount to be split may be.
fn unmetered(random: &mut Random) -> Case {
    let mut shape = Shape::small(random);
    if random.once_in(10) {
        shape.buses = random.pick(&[51, 64]);
    }
    shape.imports = 2;
    let mut case = sound(&shape, Tranches::Few, random);
    let totals = [-1, -2 * MOST_KW, MOST_KW + 1, 2 * MOST_KW, 1];
    let total = random.pick(&totals);
    case.metered = 0;
    (case.imports, case.generation) = meters(total, 2, 0, random);
    case.loads.fill(random.pick(&[0, MOST_KW, MOST_KW]));
    case.contracts.clear();
    case.rest = case.loads.clone();
    for left in (1..=shape.contracts).rev() {
        let area = random.index(shape.areas);
        add_contract(&mut case, random.between(0, 63), area, left, random);
    }
    case
}

/// A metered total at its limits or one beyond, over some load or none.
fn metered_edge(round: usize, random: &mut Random) -> Case {
    let totals = [0, -1, MOST_KW, MOST_KW + 1, 1, -MOST_KW, 2 * MOST_KW];
    let total = totals[round % totals.len()];
    let mut shape = Shape::small(random);
    shape.imports = if total == 0 { random.index(4) } else { 2 };
    shape.contracts = 0;
    let mut case = sound(&shape, Tranches::Few, random);
    case.metered = 1;
    (case.imports, case.generation) = meters(total, shape.imports, shape.generation, random);
    if round / totals.len() % 3 == 0 {
        case.loads.fill(0);
    }
    case
}

/// A way to be refused: the number it gets when it stands alone, and how a case
/// comes to it. None undoes another: lists are changed and not made anew, and a
/// number that is wrong stays wrong.
type Fault = (u32, fn(&mut Case, &mut Random));

const FAULTS: &[Fault] = &[
    (1, |case, _| case.loads.clear()),
    (1, |case, random| {
        // 65 buses, and all other lists as such a count would have them.
        let buses = case.loads.len().max(1);
        case.loads.resize(65, random.between(0, 99));
        let more = vec![0; 65 - buses];
        let parts = case.parts.chunks(buses);
        case.parts = parts.flat_map(|area| [area, &more].concat()).collect();
        case.out.resize(64 * 65, 5);
    }),
    (1, |case, _| case.imports.resize(65, 0)),
    (1, |case, _| case.generation.resize(65, 0)),
    (1, |case, random| {
        // Some of these wrap around to the true length when multiplied.
        let areas = case.areas;
        case.areas = random.pick(&[
            -1,
            areas - 1,
            areas + 1,
            areas + (1 << 61),
            areas | i64::MIN,
            i64::MAX,
            i64::MIN,
        ]);
    }),
    (1, |case, random| {
        let buses = case.loads.len().clamp(1, 64);
        case.areas = 17;
        while case.parts.len() < 17 * buses {
            case.parts.extend(area(buses, random));
        }
    }),
    (1, |case, random| {
        if random.once_in(2) {
            case.parts.push(0);
        } else {
            case.parts.pop();
        }
    }),
    (1, |case, _| {
        while case.contracts.len() < 3 * 257 {
            case.contracts.extend([0, 0, 0]);
        }
    }),
    (1, |case, random| {
        let more = 1 + random.index(2);
        case.contracts.resize(case.contracts.len() + more, 0);
    }),
    (1, |case, random| {
        case.tranches.resize(random.pick(&[0, 1, 63, 65, 128]), 0)
    }),
    (1, |case, random| {
        if random.once_in(2) {
            case.out.push(7);
        } else {
            case.out.pop();
        }
    }),
    (1, |case, random| {
        let buses = case.loads.len();
        case.out
            .resize(random.pick(&[0, buses, 64 * (buses + 1), 65 * buses]), 7)
    }),
    (1, |case, random| ragged(case, 0, random)),
    (1, |case, random| ragged(case, 1, random)),
    (1, |case, random| ragged(case, 2, random)),
    (1, |case, random| ragged(case, 3, random)),
    (1, |case, random| ragged(case, 4, random)),
    (1, |case, random| ragged(case, 5, random)),
    (1, |case, random| ragged(case, 6, random)),
    (2, |case, random| case.metered = beyond(0, 1, random)),
    (2, |case, random| {
        spoil(&mut case.loads, 0, 1, 0, MOST_KW, random)
    }),
    (2, |case, random| {
        spoil(&mut case.imports, 0, 1, -MOST_KW, MOST_KW, random)
    }),
    (2, |case, random| {
        spoil(&mut case.generation, 0, 1, 0, MOST_KW, random)
    }),
    (2, |case, random| {
        spoil(&mut case.parts, 0, 1, 0, WHOLE, random)
    }),
    (2, |case, random| {
        spoil(&mut case.contracts, 2, 3, 0, MOST_KW, random)
    }),
    (2, |case, random| {
        spoil(&mut case.tranches, 0, 1, 0, 10_000, random)
    }),
    (3, |case, random| case.distributor = beyond(0, 63, random)),
    (3, |case, random| {
        spoil(&mut case.contracts, 0, 3, 0, 63, random)
    }),
    (3, |case, random| {
        let last = case.areas.saturating_sub(1);
        spoil(&mut case.contracts, 1, 3, 0, last, random)
    }),
    (5, |case, random| {
        // One more or one less, at any area, whether a contract names it or not.
        let range = 0..=WHOLE;
        let mut parts: Vec<&mut i64> = case
            .parts
            .iter_mut()
            .filter(|p| range.contains(p))
            .collect();
        let at = random.index(parts.len());
        let less = *parts[at] == WHOLE || *parts[at] > 0 && random.once_in(2);
        *parts[at] += if less { -1 } else { 1 };
    }),
    (5, |case, _| {
        // An area that no contract names, with no parts at all.
        add_area(case);
    }),
    (6, |case, random| {
        meter(case, -1, random);
    }),
    (6, |case, random| {
        let total = random.pick(&[MOST_KW + 1, 2 * MOST_KW]);
        meter(case, total, random);
    }),
    (7, |case, random| {
        let most = random.pick(&[1, 5, MOST_KW]);
        let total = random.between(1, most);
        change(&mut case.loads, 0, &[0; 65]);
        let metered: i128 = case
            .imports
            .iter()
            .chain(&case.generation)
            .map(|&kw| kw as i128)
            .sum();
        // A metered load that is beyond its range stays so.
        if case.metered != 1 || (0..=MOST_KW as i128).contains(&metered) {
            meter(case, total, random);
        }
    }),
    (8, |case, random| {
        // One kW more than what remains at a bus, by an area that is this bus.
        if case.loads.is_empty() {
            return;
        }
        let bus = random.index(case.loads.len());
        let area = case.areas;
        let start = case.parts.len();
        add_area(case);
        case.parts[start + bus] = WHOLE;
        let rest = case.rest.get(bus).copied().unwrap_or(0);
        case.contracts.extend([random.between(0, 63), area, rest]);
        case.contracts.extend([random.between(0, 63), area, 1]);
    }),
    (8, |case, random| {
        // Far more than the buses bear, over an area as it is.
        let area = random.between(0, case.areas.clamp(1, 16) - 1);
        for _ in 0..1 + case.loads.len() {
            let supplier = random.between(0, 63);
            case.contracts.extend([supplier, area, MOST_KW]);
        }
    }),
];

/// A case that came to some faults, one after the other.
fn spoilt(faults: &[&Fault], random: &mut Random) -> Case {
    let mut case = faultless(random);
    for fault in faults {
        fault.1(&mut case, random);
    }
    case
}

/// Two faults in contracts, by chance in the same one.
fn contract_faults(random: &mut Random) -> Case {
    let mut case = faultless(random);
    for _ in 0..2 {
        let (first, high) = random.pick(&[(0, 63), (1, case.areas - 1), (2, MOST_KW)]);
        spoil(&mut case.contracts, first, 3, 0, high, random);
    }
    case
}

/// An area more, of no parts. A contract that named no area still names none.
fn add_area(case: &mut Case) {
    let area = case.areas;
    case.areas = area.saturating_add(1);
    case.parts.resize(case.parts.len() + case.loads.len(), 0);
    for named in case.contracts.iter_mut().skip(1).step_by(3) {
        if *named == area {
            *named = case.areas;
        }
    }
}

/// Meters the distributor, with a total as far as the meters' ranges let it.
fn meter(case: &mut Case, total: i64, random: &mut Random) {
    if case.metered == 0 {
        case.metered = 1;
    }
    let (imports, generation) = meters(total, case.imports.len(), case.generation.len(), random);
    change(&mut case.imports, -MOST_KW, &imports);
    change(&mut case.generation, 0, &generation);
}

/// Changes the kW of a list, but for those that are out of range.
fn change(list: &mut [i64], low: i64, kw: &[i64]) {
    for (old, &new) in list.iter_mut().zip(kw) {
        if (low..=MOST_KW).contains(old) {
            *old = new;
        }
    }
}

/// Takes a list to a length that is no multiple of eight bytes.
fn ragged(case: &mut Case, list: usize, random: &mut Random) {
    let lists = [
        &mut case.loads,
        &mut case.imports,
        &mut case.generation,
        &mut case.parts,
        &mut case.contracts,
        &mut case.tranches,
        &mut case.out,
    ];
    for (at, numbers) in lists.into_iter().enumerate() {
        if at == list && (numbers.is_empty() || random.once_in(2)) {
            numbers.push(0);
        }
    }
    case.cut[list] = 1 + random.index(7);
}

/// Takes one number of a list, of every `step` from `first` on, out of range.
fn spoil(list: &mut [i64], first: usize, step: usize, low: i64, high: i64, random: &mut Random) {
    let places: Vec<usize> = (first..list.len()).step_by(step).collect();
    if !places.is_empty() {
        list[random.pick(&places)] = beyond(low, high, random);
    }
}

#[cfg(test)]
mod tests {
    use super::*;

    fn number(line: &str) -> u32 {
        line.split('\t').nth(10).unwrap().parse().unwrap()
    }

    fn settle(case: &Case) -> u32 {
        let (given, mut out) = case.given();
        assign_load(&given, &mut out)
    }

    #[test]
    fn faults_get_their_numbers() {
        let mut random = Random::new(1);
        for (at, (number, fault)) in FAULTS.iter().enumerate() {
            for _ in 0..20 {
                let mut case = faultless(&mut random);
                assert_eq!(settle(&case), 0);
                fault(&mut case, &mut random);
                assert_eq!(settle(&case), *number, "fault {at}");
            }
        }
    }

    /// Of two faults the first in the order decides, whichever came first.
    #[test]
    fn pairs_get_the_lesser_number() {
        let mut random = Random::new(2);
        for n in 0..10 * FAULTS.len() * (FAULTS.len() - 1) {
            let (first, second) = pair(n, FAULTS.len());
            let case = spoilt(&[&FAULTS[first], &FAULTS[second]], &mut random);
            let least = FAULTS[first].0.min(FAULTS[second].0);
            assert_eq!(settle(&case), least, "faults {first}, {second}");
        }
    }

    /// What the participants get at a bus is the load that was there.
    #[test]
    fn load_is_handed_out_whole() {
        let mut random = Random::new(4);
        for turn in 0..400 {
            let case = draw(turn, &mut random);
            let (given, before) = case.given();
            let mut out = before.clone();
            if assign_load(&given, &mut out) != 0 {
                assert!(out == before);
                continue;
            }
            let buses = case.loads.len();
            let mut handed_out = vec![0; buses];
            for (at, kw) in numbers::read(&out).unwrap().iter().enumerate() {
                handed_out[at % buses] += kw;
            }
            if case.metered == 0 {
                assert_eq!(handed_out, case.loads);
            } else {
                let meters = case.imports.iter().chain(&case.generation);
                assert_eq!(handed_out.iter().sum::<i64>(), meters.sum());
            }
        }
    }

    #[test]
    fn families_reach_every_number() {
        let mut random = Random::new(3);
        let mut seen = [0; 11];
        for turn in 0..800 {
            seen[number(&line(turn, &mut random)) as usize] += 1;
        }
        assert!(seen[0] > 400);
        for number in [1, 2, 3, 5, 6, 7, 8] {
            assert!(seen[number] > 4, "{number}: {}", seen[number]);
        }
    }
}

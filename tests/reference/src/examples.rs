//! The exercise files of `examples/`, by what is in them.

use crate::cases::file::{document_01, prices, File};
use crate::exercise::{
    Edition, DAY_AHEAD, DECREMENT, EXPORT, GENERATION, IMPORT, INCREMENT, INTERVALS, LOAD,
    REAL_TIME,
};
use crate::files::Made;

pub const ALL: [Made; 10] = [
    ("document-01", document_01),
    ("document-002-day-ahead", day_ahead),
    ("document-002-balancing", balancing),
    ("document-002-hour", hour),
    ("document-002-purchase", purchase),
    ("document-002-seller", seller),
    ("never-showed-up", never_showed_up),
    ("sale-cut-short", sale_cut_short),
    ("negative-surplus", negative_surplus),
    ("tie-for-the-last-cent", tie_for_the_last_cent),
];

const MW: i64 = 1_000;

// Document 002 gives MW, and dollars per MWh at the buses A to E.
const A: usize = 0;
const C: usize = 2;
const D: usize = 3;
const E: usize = 4;
/// A location for what 002 leaves out. No price is other than 0 there, unless
/// an example gives it one.
const ELSEWHERE: usize = 5;
const LOCATIONS: usize = 6;

const DAY_AHEAD_CONGESTION: [i64; LOCATIONS] = [4_520, 10_930, 13_240, 19_620, 0, 0];
const DAY_AHEAD_LOSS: [i64; LOCATIONS] = [120, 550, 600, 380, 0, 0];
const REAL_TIME_CONGESTION: [i64; LOCATIONS] = [3_100, 18_290, 18_400, 17_810, 0, 0];
const REAL_TIME_LOSS: [i64; LOCATIONS] = [150, 820, 860, 440, 0, 0];

/// The participant ABC of 002.
const ABC: usize = 0;
/// All others, as one.
const OTHERS: usize = 1;

/// Only day-ahead prices, so that ABC's charges are its day-ahead bills.
fn day_ahead() -> Vec<u8> {
    let mut file = course();
    price_day_ahead(&mut file);
    schedule(&mut file);
    file.bytes()
}

/// Only real-time prices, so that ABC's charges are its balancing bills.
fn balancing() -> Vec<u8> {
    let mut file = course();
    price_real_time(&mut file);
    schedule(&mut file);
    run(&mut file);
    file.bytes()
}

/// The whole hour. Others pay the rest of a surplus of 123.31 dollars, 91.43,
/// for as many MW at a dollar.
fn hour() -> Vec<u8> {
    let mut file = course();
    price_day_ahead(&mut file);
    price_real_time(&mut file);
    schedule(&mut file);
    run(&mut file);
    file.loss[ELSEWHERE] = 1_000;
    file.row(DAY_AHEAD, LOAD, 0, OTHERS, ELSEWHERE, 91_430);
    file.bytes()
}

/// ABC's purchase over its path, in real time as it was scheduled.
fn purchase() -> Vec<u8> {
    let mut file = course();
    price_day_ahead(&mut file);
    price_real_time(&mut file);
    file.transaction(DAY_AHEAD, 0, ABC, E, C, 100 * MW);
    for interval in 0..INTERVALS {
        file.transaction(REAL_TIME, interval, ABC, E, C, 100 * MW);
    }
    file.bytes()
}

/// The whole hour with the purchase as a sale. The seller generates what it
/// sells, and others pay the rest of the same surplus, 31.43.
fn seller() -> Vec<u8> {
    const SELLER: usize = 2;

    let mut file = File::of(Edition::WithSeller, 3, LOCATIONS);
    price_day_ahead(&mut file);
    price_real_time(&mut file);
    file.loss[ELSEWHERE] = 1_000;
    all_along(&mut file, LOAD, OTHERS, ELSEWHERE, 650 * MW);
    file.row(DAY_AHEAD, LOAD, 0, ABC, C, 200 * MW);
    file.row(DAY_AHEAD, DECREMENT, 0, ABC, D, 10 * MW);
    file.row(DAY_AHEAD, GENERATION, 0, ABC, A, 110 * MW);
    file.row(DAY_AHEAD, INCREMENT, 0, ABC, A, 10 * MW);
    file.row(DAY_AHEAD, GENERATION, 0, ABC, C, 0);
    all_along(&mut file, LOAD, ABC, C, 220 * MW);
    all_along(&mut file, GENERATION, ABC, A, 110 * MW);
    all_along(&mut file, GENERATION, ABC, C, 37 * MW);
    file.row(DAY_AHEAD, GENERATION, 0, SELLER, E, 100 * MW);
    all_along(&mut file, GENERATION, SELLER, E, 100 * MW);
    file.row(DAY_AHEAD, LOAD, 0, OTHERS, ELSEWHERE, 31_430);
    file.sale(DAY_AHEAD, 0, ABC, SELLER, E, C, 100 * MW);
    for interval in 0..INTERVALS {
        file.sale(REAL_TIME, interval, ABC, SELLER, E, C, 100 * MW);
    }
    file.bytes()
}

/// A row in each interval.
fn all_along(file: &mut File, kind: usize, participant: usize, location: usize, kw: i64) {
    for interval in 0..INTERVALS {
        file.row(REAL_TIME, kind, interval, participant, location, kw);
    }
}

/// The real-time load of others: with ABC's 220 MW it makes 870 MW. The
/// surplus of an hour without it would find nobody to go to.
fn course() -> File {
    let mut file = File::new(2, LOCATIONS);
    for interval in 0..INTERVALS {
        file.row(REAL_TIME, LOAD, interval, OTHERS, ELSEWHERE, 650 * MW);
    }
    file
}

fn price_day_ahead(file: &mut File) {
    file.congestion[..LOCATIONS].copy_from_slice(&DAY_AHEAD_CONGESTION);
    file.loss[..LOCATIONS].copy_from_slice(&DAY_AHEAD_LOSS);
}

fn price_real_time(file: &mut File) {
    for interval in 0..INTERVALS {
        let stretch = LOCATIONS * (1 + interval)..LOCATIONS * (2 + interval);
        file.congestion[stretch.clone()].copy_from_slice(&REAL_TIME_CONGESTION);
        file.loss[stretch].copy_from_slice(&REAL_TIME_LOSS);
    }
}

/// What ABC has day-ahead. A purchase injects at its sink, as an import.
fn schedule(file: &mut File) {
    file.row(DAY_AHEAD, LOAD, 0, ABC, C, 200 * MW);
    file.row(DAY_AHEAD, DECREMENT, 0, ABC, D, 10 * MW);
    file.row(DAY_AHEAD, IMPORT, 0, ABC, C, 100 * MW);
    file.row(DAY_AHEAD, GENERATION, 0, ABC, A, 110 * MW);
    file.row(DAY_AHEAD, INCREMENT, 0, ABC, A, 10 * MW);
    file.row(DAY_AHEAD, GENERATION, 0, ABC, C, 0);
}

/// What ABC has in real time, the whole hour long.
fn run(file: &mut File) {
    for interval in 0..INTERVALS {
        file.row(REAL_TIME, LOAD, interval, ABC, C, 220 * MW);
        file.row(REAL_TIME, IMPORT, interval, ABC, C, 100 * MW);
        file.row(REAL_TIME, GENERATION, interval, ABC, A, 110 * MW);
        file.row(REAL_TIME, GENERATION, interval, ABC, C, 37 * MW);
    }
}

// The teaching hours. Their pages tell what is in them in words.

const HILL: usize = 0;
const VALLEY: usize = 1;
const TOWN: usize = 0;
const VILLAGE: usize = 1;
const WIND_FARM: usize = 2;
const TRADER: usize = 3;

/// A wind farm and a trader schedule a day ahead and have nothing in real time.
fn never_showed_up() -> Vec<u8> {
    let mut file = hill_and_valley(Edition::PathOnly);
    file.transaction(DAY_AHEAD, 0, TRADER, HILL, VALLEY, 10 * MW);
    file.bytes()
}

/// The trader buys from the wind farm, and in the last intervals nothing is
/// sent.
fn sale_cut_short() -> Vec<u8> {
    let mut file = hill_and_valley(Edition::WithSeller);
    file.sale(DAY_AHEAD, 0, TRADER, WIND_FARM, HILL, VALLEY, 10 * MW);
    for interval in 0..9 {
        file.sale(
            REAL_TIME,
            interval,
            TRADER,
            WIND_FARM,
            HILL,
            VALLEY,
            10 * MW,
        );
    }
    file.bytes()
}

/// The prices and rows of both.
fn hill_and_valley(edition: Edition) -> File {
    let mut file = File::of(edition, 4, 2);
    file.congestion = prices([1_000, 3_000], |interval| match interval {
        0..=8 => [1_200, 2_400],
        _ => [6_000, 9_600],
    });
    file.loss = prices([200, 500], |interval| match interval {
        0..=8 => [240, 600],
        _ => [480, 840],
    });
    file.row(DAY_AHEAD, LOAD, 0, TOWN, VALLEY, 20 * MW);
    file.row(DAY_AHEAD, GENERATION, 0, WIND_FARM, HILL, 6 * MW);
    all_along(&mut file, LOAD, TOWN, VALLEY, 20 * MW);
    all_along(&mut file, LOAD, VILLAGE, VALLEY, 5 * MW);
    file
}

/// Load is paid for being where the loss price is below zero.
fn negative_surplus() -> Vec<u8> {
    const COAST: usize = 0;
    const INLAND: usize = 1;
    const HARBOUR: usize = 0;
    const MILL: usize = 1;
    const EXPORTER: usize = 2;
    const WIND_FARM: usize = 3;

    let mut file = File::new(4, 2);
    file.loss = prices([-500, 200], |interval| match interval {
        4 => [-600, 240],
        _ => [-360, 120],
    });
    file.row(REAL_TIME, LOAD, 4, HARBOUR, COAST, 50 * MW);
    file.row(REAL_TIME, LOAD, 4, MILL, COAST, 30_100);
    file.row(REAL_TIME, EXPORT, 4, EXPORTER, INLAND, 19_900);
    file.row(REAL_TIME, GENERATION, 4, WIND_FARM, COAST, 24 * MW);
    file.bytes()
}

/// Three participants have 30 MW each, and the surplus doesn't divide by three.
fn tie_for_the_last_cent() -> Vec<u8> {
    const PLANT: usize = 0;
    const CITY: usize = 1;
    const GENERATOR: usize = 0;
    const FIRST: usize = 1;
    const SECOND: usize = 2;
    const THIRD: usize = 3;

    let mut file = File::new(4, 2);
    file.loss = prices([500, 2_000], |interval| match interval {
        0..=5 => [630, 2_400],
        _ => [630, 3_000],
    });
    file.row(REAL_TIME, GENERATION, 0, GENERATOR, PLANT, 64_400);
    file.row(REAL_TIME, LOAD, 0, FIRST, CITY, 30 * MW);
    file.row(REAL_TIME, LOAD, 0, SECOND, CITY, 20 * MW);
    file.row(REAL_TIME, EXPORT, 0, SECOND, PLANT, 10 * MW);
    file.row(REAL_TIME, LOAD, 0, THIRD, CITY, 15 * MW);
    file.row(REAL_TIME, LOAD, 6, THIRD, CITY, 15 * MW);
    file.bytes()
}

#[cfg(test)]
mod tests {
    use super::*;
    use crate::exercise::{read_header, read_hour, Hour, Prices, Row, Transaction};
    use crate::files::tests::text;

    /// The page that tells of an example.
    fn page(name: &str) -> &str {
        match name.strip_prefix("document-002-") {
            Some("seller") | None => name,
            Some(_) => "document-002",
        }
    }

    #[test]
    fn pages_show_every_statement() {
        let index = text("examples/README.md");
        for (name, _) in ALL {
            let page = page(name);
            assert!(index.contains(&format!("[{page}.md]({page}.md)")), "{page}");
            assert!(index.contains(&format!("`{name}`")), "{name}");
            let page = text(&format!("examples/{page}.md"));
            let shown = format!("```\n{}```\n", text(&format!("examples/{name}.statement")));
            assert!(page.contains(&shown), "{name}");
        }
    }

    /// The tables of a teaching hour's page have all that is in its file and
    /// nothing else.
    #[test]
    fn pages_show_every_price_and_row() {
        for (name, make) in ALL.iter().filter(|(name, _)| !name.starts_with("document")) {
            let file = make();
            let hour = read_hour(&file, &read_header(&file).unwrap()).unwrap();
            let page = text(&format!("examples/{name}.md"));
            for lines in [prices_of(&hour), rows_of(&hour), transactions_of(&hour)] {
                let table = table(lines);
                let shown = format!("|---|\n{table}\n");
                assert!(table.is_empty() || page.contains(&shown), "{name}\n{table}");
            }
        }
    }

    /// A line of a table: what stands before the interval, the interval, and
    /// what stands after it.
    type Line = (String, Option<usize>, String);

    const MARKETS: [&str; 2] = ["day-ahead", "real time"];
    const KINDS: [&str; 4] = ["load", "generation", "export", "import"];

    fn prices_of(hour: &Hour) -> Vec<Line> {
        let list = |name: &str, prices: &Prices| -> Vec<Line> {
            let line = |market: usize, interval, prices: &Vec<i64>| {
                let dollars: Vec<String> = prices.iter().map(|&mills| decimal(mills, 2)).collect();
                let market = MARKETS[market];
                (format!("{name} | {market}"), interval, dollars.join(" | "))
            };
            let mut lines = vec![line(DAY_AHEAD, None, &prices.day_ahead)];
            for (interval, prices) in prices.real_time.iter().enumerate() {
                lines.push(line(REAL_TIME, Some(interval), prices));
            }
            lines
        };
        [
            list("congestion", &hour.congestion),
            list("loss", &hour.loss),
        ]
        .concat()
    }

    fn rows_of(hour: &Hour) -> Vec<Line> {
        let line = |row: &Row| {
            let before = format!("{} | {}", MARKETS[row.market], KINDS[row.kind]);
            let mw = decimal(row.kw, 0);
            let after = format!("{} | {} | {mw}", row.participant, row.location);
            (before, Some(row.interval), after)
        };
        hour.rows.iter().map(line).collect()
    }

    fn transactions_of(hour: &Hour) -> Vec<Line> {
        let line = |t: &Transaction| {
            let mw = decimal(t.kw, 0);
            let parties = match t.seller {
                None => t.participant.to_string(),
                Some(seller) => format!("{} | {seller}", t.participant),
            };
            let after = format!("{parties} | {} | {} | {mw}", t.source, t.sink);
            (MARKETS[t.market].to_string(), Some(t.interval), after)
        };
        hour.transactions.iter().map(line).collect()
    }

    /// Lines in turn that differ by one interval each stand as one.
    fn table(lines: Vec<Line>) -> String {
        let mut text = String::new();
        let mut at = 0;
        while at < lines.len() {
            let (before, from, after) = &lines[at];
            let mut to = *from;
            at += 1;
            while at < lines.len()
                && lines[at] == (before.clone(), to.map(|k| k + 1), after.clone())
            {
                to = lines[at].1;
                at += 1;
            }
            let interval = match (from, to) {
                (Some(from), Some(to)) if *from < to => format!("{from} to {to}"),
                (Some(from), _) => from.to_string(),
                (None, _) => "-".to_string(),
            };
            text += &format!("| {before} | {interval} | {after} |\n");
        }
        text
    }

    /// Thousandths with at least some places after the point.
    fn decimal(thousandths: i64, places: usize) -> String {
        let sign = if thousandths < 0 { "-" } else { "" };
        let size = thousandths.abs();
        let mut text = format!("{sign}{}.{:03}", size / 1_000, size % 1_000);
        for _ in places..3 {
            if text.ends_with('0') {
                text.pop();
            }
        }
        text.trim_end_matches('.').to_string()
    }
}

//! The exercise file: header, prices, rows and transactions, packed with the
//! most significant bit first, and its two editions (ticket 2 of document 02).

use crate::bits::BitReader;
use crate::MOST_KW;

pub const INTERVALS: usize = 12;
pub const HEADER_BYTES: usize = 5;
pub const PRICE_BYTES: usize = 3;
pub const ROW_BYTES: usize = 6;

pub const MOST_ROWS: usize = 2_048;
pub const MOST_TRANSACTIONS: usize = 256;
pub const MOST_PRICE: i64 = 5_000_000;

pub const DAY_AHEAD: usize = 0;
pub const REAL_TIME: usize = 1;

pub const LOAD: usize = 0;
pub const GENERATION: usize = 1;
pub const EXPORT: usize = 2;
pub const IMPORT: usize = 3;
pub const DECREMENT: usize = 4;
pub const INCREMENT: usize = 5;

/// What a transaction is: a path alone, or also a sale.
#[derive(Clone, Copy, Debug, PartialEq, Eq, PartialOrd, Ord)]
pub enum Edition {
    PathOnly,
    WithSeller,
}

use Edition::{PathOnly, WithSeller};

impl Edition {
    pub const ALL: [Edition; 2] = [PathOnly, WithSeller];

    pub fn of(number: i64) -> Option<Edition> {
        match number {
            0 => Some(PathOnly),
            1 => Some(WithSeller),
            _ => None,
        }
    }

    pub fn number(self) -> i64 {
        match self {
            PathOnly => 0,
            WithSeller => 1,
        }
    }

    pub fn other(self) -> Edition {
        match self {
            PathOnly => WithSeller,
            WithSeller => PathOnly,
        }
    }

    pub fn transaction_bytes(self) -> usize {
        match self {
            PathOnly => 48 / 8,
            WithSeller => 56 / 8,
        }
    }

    /// Numbers of a transaction in a list.
    pub fn transaction_numbers(self) -> usize {
        match self {
            PathOnly => 6,
            WithSeller => 7,
        }
    }
}

#[derive(Clone, Debug, PartialEq)]
pub struct Row {
    pub market: usize,
    pub kind: usize,
    pub interval: usize,
    pub participant: usize,
    pub location: usize,
    pub kw: i64,
}

impl Row {
    /// A row as lists have it.
    pub fn numbers(&self) -> [i64; 6] {
        let [a, b, c, d, e] = [
            self.market,
            self.kind,
            self.interval,
            self.participant,
            self.location,
        ]
        .map(|field| field as i64);
        [a, b, c, d, e, self.kw]
    }
}

#[derive(Clone, Debug, PartialEq)]
pub struct Transaction {
    pub market: usize,
    pub interval: usize,
    /// The buyer, where there is a seller.
    pub participant: usize,
    /// None in a file of paths alone.
    pub seller: Option<usize>,
    pub source: usize,
    pub sink: usize,
    pub kw: i64,
}

impl Transaction {
    /// A transaction as lists have it.
    pub fn numbers(&self) -> Vec<i64> {
        let mut fields = vec![self.market, self.interval, self.participant];
        fields.extend(self.seller);
        fields.extend([self.source, self.sink]);
        let fields = fields.into_iter().map(|field| field as i64);
        fields.chain([self.kw]).collect()
    }
}

/// Prices in mills per MWh by location, in real time by interval and location.
#[derive(Clone, Debug, PartialEq)]
pub struct Prices {
    pub day_ahead: Vec<i64>,
    pub real_time: Vec<Vec<i64>>,
}

#[derive(Clone, Debug, PartialEq)]
pub struct Header {
    pub participants: usize,
    pub locations: usize,
    pub rows: usize,
    pub transactions: usize,
    pub edition: Edition,
}

impl Header {
    pub fn rows_start(&self) -> usize {
        HEADER_BYTES + 2 * (1 + INTERVALS) * self.locations * PRICE_BYTES
    }

    pub fn transactions_start(&self) -> usize {
        self.rows_start() + self.rows * ROW_BYTES
    }

    pub fn file_length(&self) -> usize {
        self.transactions_start() + self.transactions * self.edition.transaction_bytes()
    }
}

#[derive(Clone, Debug, PartialEq)]
pub struct Hour {
    pub participants: usize,
    pub locations: usize,
    pub congestion: Prices,
    pub loss: Prices,
    pub rows: Vec<Row>,
    pub transactions: Vec<Transaction>,
}

/// Decodes one row by itself, given the counts of participants and locations.
pub fn decode_row(participants: i64, locations: i64, bytes: &[u8]) -> Result<Row, u32> {
    check_counts(participants, locations)?;
    if bytes.len() != ROW_BYTES {
        return Err(9);
    }
    let mut bits = BitReader::new(bytes);
    let row = Row {
        market: bits.take(1),
        kind: bits.take(3),
        interval: bits.take(4),
        participant: bits.take(6),
        location: bits.take(6),
        kw: bits.take(25) as i64,
    };
    let spare = bits.take(3);

    let virtual_bid = row.kind == DECREMENT || row.kind == INCREMENT;
    if row.kind > INCREMENT || (virtual_bid && row.market == REAL_TIME) {
        return Err(4);
    }
    check_interval(row.market, row.interval)?;
    if row.participant >= participants as usize || row.location >= locations as usize {
        return Err(3);
    }
    if row.kw > MOST_KW {
        return Err(2);
    }
    if spare != 0 {
        return Err(9);
    }
    Ok(row)
}

/// Decodes one transaction, with the same order of refusals.
fn decode_transaction(header: &Header, bytes: &[u8]) -> Result<Transaction, u32> {
    let mut bits = BitReader::new(bytes);
    let has_seller = header.edition == WithSeller;
    let transaction = Transaction {
        market: bits.take(1),
        interval: bits.take(4),
        participant: bits.take(6),
        seller: has_seller.then(|| bits.take(6)),
        source: bits.take(6),
        sink: bits.take(6),
        kw: bits.take(25) as i64,
    };
    let spare = if has_seller { bits.take(2) } else { 0 };

    check_interval(transaction.market, transaction.interval)?;
    if transaction.participant >= header.participants
        || matches!(transaction.seller, Some(seller) if seller >= header.participants)
        || transaction.source >= header.locations
        || transaction.sink >= header.locations
    {
        return Err(3);
    }
    if transaction.kw > MOST_KW {
        return Err(2);
    }
    if spare != 0 {
        return Err(9);
    }
    Ok(transaction)
}

fn check_counts(participants: i64, locations: i64) -> Result<(), u32> {
    if (1..=64).contains(&participants) && (1..=64).contains(&locations) {
        Ok(())
    } else {
        Err(1)
    }
}

/// Intervals are 0 to 11 in real time and 0 only in the day-ahead market.
fn check_interval(market: usize, interval: usize) -> Result<(), u32> {
    if interval >= INTERVALS || (market == DAY_AHEAD && interval != 0) {
        Err(4)
    } else {
        Ok(())
    }
}

/// The header, once the file has the length that it tells.
pub fn read_header(file: &[u8]) -> Result<Header, u32> {
    if file.len() < HEADER_BYTES {
        return Err(9);
    }
    let mut bits = BitReader::new(file);
    let header = Header {
        participants: bits.take(6) + 1,
        locations: bits.take(6) + 1,
        rows: bits.take(12),
        transactions: bits.take(10),
        edition: Edition::of(bits.take(6) as i64).ok_or(9_u32)?,
    };

    if header.rows > MOST_ROWS || header.transactions > MOST_TRANSACTIONS {
        return Err(1);
    }
    if file.len() != header.file_length() {
        return Err(9);
    }
    Ok(header)
}

/// What follows the header that `read_header` gave for this file.
pub fn read_hour(file: &[u8], header: &Header) -> Result<Hour, u32> {
    let participants = header.participants as i64;
    let locations = header.locations as i64;

    let mut prices = BitReader::new(&file[HEADER_BYTES..header.rows_start()]);
    let congestion = read_prices(&mut prices, header.locations)?;
    let loss = read_prices(&mut prices, header.locations)?;

    let mut rows = Vec::new();
    for bytes in file[header.rows_start()..header.transactions_start()].chunks(ROW_BYTES) {
        rows.push(decode_row(participants, locations, bytes)?);
    }
    let mut transactions = Vec::new();
    let each = header.edition.transaction_bytes();
    for bytes in file[header.transactions_start()..].chunks(each) {
        transactions.push(decode_transaction(header, bytes)?);
    }
    Ok(Hour {
        participants: header.participants,
        locations: header.locations,
        congestion,
        loss,
        rows,
        transactions,
    })
}

fn read_prices(bits: &mut BitReader, locations: usize) -> Result<Prices, u32> {
    let mut stretches = Vec::new();
    for _ in 0..1 + INTERVALS {
        let mut stretch = Vec::new();
        for _ in 0..locations {
            let price = bits.take_signed(8 * PRICE_BYTES);
            if !(-MOST_PRICE..=MOST_PRICE).contains(&price) {
                return Err(2);
            }
            stretch.push(price);
        }
        stretches.push(stretch);
    }
    let day_ahead = stretches.remove(0);
    Ok(Prices {
        day_ahead,
        real_time: stretches,
    })
}

/// 0 for a file that passes the order to its last transaction, or its refusal.
pub fn check(file: &[u8]) -> u32 {
    let hour = read_header(file).and_then(|header| read_hour(file, &header));
    match hour {
        Ok(_) => 0,
        Err(number) => number,
    }
}

/// Where the rows stand in the file and how many bytes they take. A stretch
/// without rows, as that of every refused file, stands at 0.
pub fn rows_stretch(file: &[u8]) -> (usize, usize) {
    match read_header(file) {
        Ok(header) if header.rows > 0 && check(file) == 0 => {
            (header.rows_start(), header.rows * ROW_BYTES)
        }
        _ => (0, 0),
    }
}

#[cfg(test)]
mod tests {
    use super::*;
    use crate::numbers::unhex;

    #[test]
    fn longest_file() {
        let length = |edition| {
            let header = Header {
                participants: 64,
                locations: 64,
                rows: MOST_ROWS,
                transactions: MOST_TRANSACTIONS,
                edition,
            };
            header.file_length()
        };
        assert_eq!(length(PathOnly), 18_821);
        assert_eq!(length(WithSeller), 19_077);
    }

    #[test]
    fn editions() {
        for number in -1..=64 {
            let edition = Edition::of(number);
            assert_eq!(edition.is_some(), [0, 1].contains(&number));
            assert!(edition.map_or(true, |edition| edition.number() == number));
        }
        let mut file = unhex("0000000000");
        file.resize(5 + 78, 0);
        for number in 0..64 {
            file[4] = number;
            assert_eq!(check(&file), if number < 2 { 0 } else { 9 });
        }
    }

    /// Each field of a transaction with a seller by itself, and its spare bits.
    #[test]
    fn transaction_with_seller() {
        let mut start = unhex("fff0000041");
        start.resize(5 + 78 * 64, 0);
        for (hex, numbers) in [
            ("80000000000000", Ok([1, 0, 0, 0, 0, 0, 0])),
            ("d8000000000000", Ok([1, 11, 0, 0, 0, 0, 0])),
            ("07e00000000000", Ok([0, 0, 63, 0, 0, 0, 0])),
            ("001f8000000000", Ok([0, 0, 0, 63, 0, 0, 0])),
            ("00007e00000000", Ok([0, 0, 0, 0, 63, 0, 0])),
            ("000001f8000000", Ok([0, 0, 0, 0, 0, 63, 0])),
            ("00000004c4b400", Ok([0, 0, 0, 0, 0, 0, 20_000_000])),
            ("00000004c4b404", Err(2)),
            ("00000000000001", Err(9)),
            ("00000000000002", Err(9)),
            ("0000000000000003", Err(9)),
        ] {
            let file = [start.clone(), unhex(hex)].concat();
            let hour = read_header(&file).and_then(|header| read_hour(&file, &header));
            let read = hour.map(|hour| hour.transactions[0].numbers());
            assert_eq!(read, numbers.map(|seven| seven.to_vec()), "{hex}");
        }
    }

    #[test]
    fn example() {
        let file = include_bytes!("../../../examples/document-01.exercise");
        assert_eq!(check(file), 0);
        assert_eq!(rows_stretch(file), (161, 18));
        assert_eq!(file[161..], unhex("800010186a009004000d6d80a004100c3500"));
    }

    #[test]
    fn stretch() {
        let mut file = unhex("0000010000");
        file.resize(5 + 78, 0);
        file.extend(unhex("800000000008"));
        assert_eq!(check(&file), 0);
        assert_eq!(rows_stretch(&file), (83, 6));
        // A transaction's fault empties the stretch, too.
        file[3] = 0x00;
        file[4] = 0x40;
        file.extend(unhex("080000000000"));
        assert_eq!(check(&file), 4);
        assert_eq!(rows_stretch(&file), (0, 0));
        assert_eq!(check(&[]), 9);
        assert_eq!(rows_stretch(&[]), (0, 0));
    }
}

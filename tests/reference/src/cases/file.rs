//! Builds exercise files, sound or damaged.

use crate::bits::BitWriter;
use crate::exercise::{Edition, Header, Row, Transaction, INTERVALS};
use crate::numbers::unhex;

#[derive(Clone)]
pub struct File {
    pub participants: usize,
    pub locations: usize,
    /// What transactions are: all have a seller, or none has.
    pub edition: Edition,
    /// The counts and the edition that the header tells, where these aren't the
    /// true ones.
    pub told_rows: Option<i64>,
    pub told_transactions: Option<i64>,
    pub told_edition: Option<i64>,
    /// Prices as they stand in the file: stretch 0 day-ahead, 1 + k interval k.
    pub congestion: Vec<i64>,
    pub loss: Vec<i64>,
    pub rows: Vec<Row>,
    /// Spare bits of some rows, by the row's place.
    pub row_spares: Vec<(usize, i64)>,
    pub transactions: Vec<Transaction>,
    /// Spare bits of some transactions, as of rows; without a seller there are
    /// none.
    pub transaction_spares: Vec<(usize, i64)>,
}

impl File {
    /// An hour with all prices 0, no rows and no transactions, for paths alone.
    pub fn new(participants: usize, locations: usize) -> Self {
        File::of(Edition::PathOnly, participants, locations)
    }

    /// The same of either edition.
    pub fn of(edition: Edition, participants: usize, locations: usize) -> Self {
        File {
            participants,
            locations,
            edition,
            told_rows: None,
            told_transactions: None,
            told_edition: None,
            congestion: vec![0; (1 + INTERVALS) * locations],
            loss: vec![0; (1 + INTERVALS) * locations],
            rows: Vec::new(),
            row_spares: Vec::new(),
            transactions: Vec::new(),
            transaction_spares: Vec::new(),
        }
    }

    pub fn row(
        &mut self,
        market: usize,
        kind: usize,
        interval: usize,
        participant: usize,
        location: usize,
        kw: i64,
    ) {
        self.rows.push(Row {
            market,
            kind,
            interval,
            participant,
            location,
            kw,
        });
    }

    /// Adds a transaction that is a path alone.
    pub fn transaction(
        &mut self,
        market: usize,
        interval: usize,
        participant: usize,
        source: usize,
        sink: usize,
        kw: i64,
    ) {
        self.transactions.push(Transaction {
            market,
            interval,
            participant,
            seller: None,
            source,
            sink,
            kw,
        });
    }

    /// Adds a transaction of a buyer and a seller.
    #[allow(clippy::too_many_arguments)]
    pub fn sale(
        &mut self,
        market: usize,
        interval: usize,
        buyer: usize,
        seller: usize,
        source: usize,
        sink: usize,
        kw: i64,
    ) {
        self.transaction(market, interval, buyer, source, sink, kw);
        self.transactions.last_mut().unwrap().seller = Some(seller);
    }

    /// Gives transactions sellers, where they have none.
    pub fn with_sellers(&mut self, mut seller: impl FnMut() -> usize) {
        self.edition = Edition::WithSeller;
        for transaction in &mut self.transactions {
            transaction.seller.get_or_insert_with(&mut seller);
        }
    }

    /// What the header has to tell.
    pub fn header(&self) -> Header {
        Header {
            participants: self.participants,
            locations: self.locations,
            rows: self.rows.len(),
            transactions: self.transactions.len(),
            edition: self.edition,
        }
    }

    pub fn bytes(&self) -> Vec<u8> {
        let mut writer = BitWriter::new();
        let rows = self.told_rows.unwrap_or(self.rows.len() as i64);
        let transactions = self
            .told_transactions
            .unwrap_or(self.transactions.len() as i64);
        writer.put(6, self.participants as i64 - 1);
        writer.put(6, self.locations as i64 - 1);
        writer.put(12, rows);
        writer.put(10, transactions);
        writer.put(6, self.told_edition.unwrap_or(self.edition.number()));
        for &price in self.congestion.iter().chain(&self.loss) {
            writer.put(24, price);
        }
        for (at, row) in self.rows.iter().enumerate() {
            put_row(&mut writer, row, spare_of(&self.row_spares, at));
        }
        for (at, transaction) in self.transactions.iter().enumerate() {
            assert_eq!(
                transaction.seller.is_some(),
                self.edition == Edition::WithSeller
            );
            let spare = spare_of(&self.transaction_spares, at);
            put_transaction(&mut writer, transaction, spare);
        }
        writer.bytes
    }
}

fn spare_of(spares: &[(usize, i64)], at: usize) -> i64 {
    spares.iter().find(|s| s.0 == at).map_or(0, |s| s.1)
}

/// A list of prices: day-ahead for each location, then interval by interval.
pub fn prices<const LOCATIONS: usize>(
    day_ahead: [i64; LOCATIONS],
    real_time: impl Fn(usize) -> [i64; LOCATIONS],
) -> Vec<i64> {
    let intervals = (0..INTERVALS).flat_map(real_time);
    day_ahead.into_iter().chain(intervals).collect()
}

/// The exercise of document 01: two participants, two locations, three rows.
pub fn document_01() -> Vec<u8> {
    let mut file = unhex("0410030000");
    file.extend([0; 78]);
    file.extend(unhex("000078000258").repeat(13));
    file.extend(unhex("800010186a009004000d6d80a004100c3500"));
    file
}

pub fn put_row(writer: &mut BitWriter, row: &Row, spare: i64) {
    writer.put(1, row.market as i64);
    writer.put(3, row.kind as i64);
    writer.put(4, row.interval as i64);
    writer.put(6, row.participant as i64);
    writer.put(6, row.location as i64);
    writer.put(25, row.kw);
    writer.put(3, spare);
}

fn put_transaction(writer: &mut BitWriter, transaction: &Transaction, spare: i64) {
    writer.put(1, transaction.market as i64);
    writer.put(4, transaction.interval as i64);
    writer.put(6, transaction.participant as i64);
    if let Some(seller) = transaction.seller {
        writer.put(6, seller as i64);
    }
    writer.put(6, transaction.source as i64);
    writer.put(6, transaction.sink as i64);
    writer.put(25, transaction.kw);
    if transaction.seller.is_some() {
        writer.put(2, spare);
    }
}

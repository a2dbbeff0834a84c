//! What the documents ask of each call, behind the engine's own C interface:
//! `judge_X` takes what `wz_X` takes, and answers and writes what it must.

use reference::hour::settle_hour;
use reference::load::{self, assign_load};
use reference::read::read_file;
use reference::split::split;
use reference::write::{self, write_file};
use std::slice;

/// # Safety
/// Each pointer is to as many bytes as its length says; the lists don't overlap.
#[no_mangle]
pub unsafe extern "C" fn judge_split(
    amount: i64,
    shares: *const u8,
    shares_len: usize,
    parts: *mut u8,
    parts_len: usize,
) -> u32 {
    let shares = slice::from_raw_parts(shares, shares_len);
    let parts = slice::from_raw_parts_mut(parts, parts_len);
    split(amount, shares, parts)
}

/// # Safety
/// As for `judge_split`.
#[no_mangle]
pub unsafe extern "C" fn judge_assign_load(
    metered: i64,
    distributor: i64,
    loads: *const u8,
    loads_len: usize,
    imports: *const u8,
    imports_len: usize,
    generation: *const u8,
    generation_len: usize,
    areas: i64,
    area_parts: *const u8,
    area_parts_len: usize,
    contracts: *const u8,
    contracts_len: usize,
    tranches: *const u8,
    tranches_len: usize,
    out: *mut u8,
    out_len: usize,
) -> u32 {
    let list = |bytes, len| slice::from_raw_parts(bytes, len).to_vec();
    let given = load::Given {
        metered,
        distributor,
        loads: list(loads, loads_len),
        imports: list(imports, imports_len),
        generation: list(generation, generation_len),
        areas,
        area_parts: list(area_parts, area_parts_len),
        contracts: list(contracts, contracts_len),
        tranches: list(tranches, tranches_len),
    };
    assign_load(&given, slice::from_raw_parts_mut(out, out_len))
}

/// # Safety
/// As for `judge_split`.
#[no_mangle]
pub unsafe extern "C" fn judge_settle_hour(
    file: *const u8,
    file_len: usize,
    congestion: *mut u8,
    congestion_len: usize,
    loss: *mut u8,
    loss_len: usize,
    credit: *mut u8,
    credit_len: usize,
    net: *mut u8,
    net_len: usize,
) -> u32 {
    let file = slice::from_raw_parts(file, file_len);
    let lists = [
        slice::from_raw_parts_mut(congestion, congestion_len),
        slice::from_raw_parts_mut(loss, loss_len),
        slice::from_raw_parts_mut(credit, credit_len),
        slice::from_raw_parts_mut(net, net_len),
    ];
    let mut after = [0, 1, 2, 3].map(|list: usize| lists[list].to_vec());
    let number = settle_hour(file, &mut after);
    for (list, after) in lists.into_iter().zip(after) {
        list.copy_from_slice(&after);
    }
    number
}

/// # Safety
/// As for `judge_split`.
#[no_mangle]
pub unsafe extern "C" fn judge_write_file(
    participants: i64,
    locations: i64,
    rows: i64,
    transactions: i64,
    edition: i64,
    prices: *const u8,
    prices_len: usize,
    row_list: *const u8,
    row_list_len: usize,
    transaction_list: *const u8,
    transaction_list_len: usize,
    file: *mut u8,
    file_len: usize,
) -> u32 {
    let list = |bytes, len| slice::from_raw_parts(bytes, len).to_vec();
    let given = write::Given {
        participants,
        locations,
        rows,
        transactions,
        edition,
        prices: list(prices, prices_len),
        row_list: list(row_list, row_list_len),
        transaction_list: list(transaction_list, transaction_list_len),
    };
    write_file(&given, slice::from_raw_parts_mut(file, file_len))
}

/// # Safety
/// As for `judge_split`.
#[no_mangle]
pub unsafe extern "C" fn judge_read_file(
    file: *const u8,
    file_len: usize,
    prices: *mut u8,
    prices_len: usize,
    row_list: *mut u8,
    row_list_len: usize,
    transaction_list: *mut u8,
    transaction_list_len: usize,
) -> u32 {
    let file = slice::from_raw_parts(file, file_len);
    let lists = [
        slice::from_raw_parts_mut(prices, prices_len),
        slice::from_raw_parts_mut(row_list, row_list_len),
        slice::from_raw_parts_mut(transaction_list, transaction_list_len),
    ];
    let mut after = [0, 1, 2].map(|list: usize| lists[list].to_vec());
    let number = read_file(file, &mut after);
    for (list, after) in lists.into_iter().zip(after) {
        list.copy_from_slice(&after);
    }
    number
}

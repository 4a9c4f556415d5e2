//! The stored vectors: their files, the form of a sheet vector, of a group, of
//! charges and of a call on a fund, and the line for a list.

use crate::charge_calls::ChargeCall;
use crate::fund_calls::FundCall;
use crate::groups::Group;
use crate::refusal::Refusal;
use std::path::PathBuf;

/// Writes the files `stdin` and `stdout` into the folder that the program's
/// first argument names.
pub fn write_files(stdin: &[u8], stdout: &str) {
    let folder = std::env::args()
        .nth(1)
        .expect("the first argument names a folder");
    let folder = PathBuf::from(folder);
    std::fs::create_dir_all(&folder).expect("the folder can be made");
    std::fs::write(folder.join("stdin"), stdin).expect("stdin can be written");
    std::fs::write(folder.join("stdout"), stdout).expect("stdout can be written");
}

/// The sheets one after the other, each behind its length in 16 bits.
pub fn pack(sheets: &[Vec<u8>]) -> Vec<u8> {
    let mut bytes = Vec::new();
    for sheet in sheets {
        let length = u16::try_from(sheet.len()).expect("a sheet is below 65,536 bytes");
        bytes.extend(length.to_le_bytes());
        bytes.extend(sheet);
    }
    bytes
}

/// A list as one number.
pub fn digest(numbers: impl Iterator<Item = u64>) -> u64 {
    const PRIME: u64 = 1_000_000_007;
    numbers.fold(0, |sum, number| (31 * sum + number % PRIME) % PRIME)
}

/// The numbers of an accepted call's list are printed up to this many.
const PRINTED: usize = 64;

/// The line of a call whose list held 1, 2, 3 and so on: number and place, then
/// the list afterwards.
pub fn list_line(answer: Result<Vec<u32>, Refusal>, list_len: usize) -> String {
    match answer {
        Ok(numbers) if numbers.len() <= PRINTED => {
            let words: String = numbers.iter().map(|number| format!(" {number}")).collect();
            format!("0 0{words}\n")
        }
        Ok(numbers) => format!("0 0 {}\n", digest(numbers.into_iter().map(u64::from))),
        Err(Refusal { number, place }) => {
            format!("{number} {place} {}\n", digest(1..=list_len as u64))
        }
    }
}

/// A group call: count of buildings (8 bits), their offsets and lengths and the
/// shared reading (64 bits each), count of statement numbers (16 bits), buffer.
pub fn group_bytes(group: &Group) -> Vec<u8> {
    let mut bytes = vec![group.buildings.len() as u8];
    for building in &group.buildings {
        bytes.extend(building.offset.to_le_bytes());
        bytes.extend(building.length.to_le_bytes());
    }
    bytes.extend(group.shared_wh.to_le_bytes());
    bytes.extend((group.list_len as u16).to_le_bytes());
    bytes.extend(&group.buffer);
    bytes
}

/// A call of charges: model and amounts (32 bits each), count of the list's
/// numbers (16 bits), sheet.
pub fn charge_bytes(call: &ChargeCall) -> Vec<u8> {
    let mut bytes = call.model.to_le_bytes().to_vec();
    bytes.extend(call.amounts.iter().flat_map(|amount| amount.to_le_bytes()));
    bytes.extend((call.list_len as u16).to_le_bytes());
    bytes.extend(&call.sheet);
    bytes
}

/// A call on a fund: its kind (8 bits) and the balance (64 bits); 0, to collect:
/// rate (32 bits), the sheet's length (16 bits) and the sheet; 1, to pay out: the
/// amount (64 bits).
pub fn fund_bytes(call: &FundCall) -> Vec<u8> {
    match call {
        FundCall::Collect(call) => {
            let mut bytes = vec![0];
            bytes.extend(call.balance.to_le_bytes());
            bytes.extend(call.rate.to_le_bytes());
            bytes.extend(pack(std::slice::from_ref(&call.sheet)));
            bytes
        }
        FundCall::Pay(call) => {
            let numbers = [call.balance, call.amount].map(u64::to_le_bytes);
            [&[1], numbers.as_flattened()].concat()
        }
    }
}

//! Request (l): a dock with four bays, whose rewrites are counted.

use super::card::{restore_of, MARKS, RECORD};

/// The bays.
pub const BAYS: usize = 4;

/// The rewrites of a new charge: those of each bay, then the common ones.
pub const CHARGE: [u16; BAYS + 1] = [100, 100, 100, 100, 600];

/// The counts after a new charge, for lent counts of this number.
pub fn charge(length: usize) -> Result<Vec<u16>, u8> {
    if length == CHARGE.len() {
        Ok(CHARGE.to_vec())
    } else {
        Err(2)
    }
}

/// The number of changed places, the counts and the record after a bay's call, or the refusal number.
pub fn restore(bay: u8, left: &[u16], record: &[u8], reach: Option<u8>) -> Result<(u8, Vec<u16>, Vec<u8>), u8> {
    if bay as usize >= BAYS {
        return Err(18);
    }
    if left.len() != CHARGE.len() || record.len() != RECORD {
        return Err(2);
    }
    let (changed, restored) = restore_of(MARKS, record, reach)?;
    let mut left = left.to_vec();
    if restored != record {
        let payer = [bay as usize, BAYS].into_iter().find(|&count| left[count] > 0).ok_or(19)?;
        left[payer] -= 1;
    }
    Ok((changed, left, restored))
}

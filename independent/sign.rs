// Signing and converting, from the words of their request: what a block is afterwards, or the code and the record of the first fault.

use crate::block::{check_of, signature, stored};

// Record k signed: its two bytes say its verdict, and nothing else changes.
pub fn sign(b: &[u8], k: u32) -> Result<Vec<u8>, (u8, usize)> {
    let count = check_of(&[2], b)?;
    let k = k as usize;
    if k >= count {
        return Err((12, 0));
    }
    let bytes = signature(&stored(b, k).verdict()).ok_or((24, k))?;
    let (mut after, at) = (b.to_vec(), 9 + 80 * k + 6);
    after[at..at + 2].copy_from_slice(&bytes);
    Ok(after)
}

// The block in that version, 1 or 2, from the other one. Only in version 2 is anything signed.
pub fn convert(b: &[u8], version: u16) -> Result<Vec<u8>, (u8, usize)> {
    let count = check_of(&[3 - version], b)?;
    if let Some(k) = (0..count).find(|&k| stored(b, k).is_signed()) {
        return Err((18, k));
    }
    let mut after = b.to_vec();
    after[3..5].copy_from_slice(&version.to_le_bytes());
    Ok(after)
}

//! Borrow words. 01, Step rules: "Borrow words are 64 bits, the top bit
//! unique. Shared: +1. Unique: only from 0. Release: -1. Unique release:
//! clears the top bit only."

use crate::rules::refuse_if;
use crate::Answer;

const TOP: u64 = 1 << 63;

/// Is the top bit set?
pub fn unique_held(word: u64) -> bool {
    word & TOP != 0
}

/// Are the low 63 bits all ones?
pub fn shared_full(word: u64) -> bool {
    word & (TOP - 1) == TOP - 1
}

/// The new word after a shared borrow.
pub fn shared(word: u64) -> Answer<u64> {
    refuse_if(shared_full(word), 9)?; // 01 table, 9; 01 Order: 9 before 7
    refuse_if(unique_held(word), 7)?; // 01 table, 7
    Ok(word + 1)
}

/// The new word after a unique borrow.
pub fn unique(word: u64) -> Answer<u64> {
    refuse_if(word != 0, 8)?; // 01 table, 8
    Ok(TOP)
}

/// The new word after a shared release.
pub fn release(word: u64) -> Answer<u64> {
    refuse_if(word == 0, 10)?; // 01 table, 10
    refuse_if(unique_held(word), 11)?; // 01 table, 11
    Ok(word - 1)
}

/// The new word after a unique release: what the low bits count is kept (K13).
pub fn unique_release(word: u64) -> Answer<u64> {
    refuse_if(!unique_held(word), 11)?; // 01 table, 11
    Ok(word & !TOP)
}

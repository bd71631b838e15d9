//! The proved library as firmware links it: the five calls of
//! `include/tyurkanim.h` with slices in place of pointers and lengths.
//!
//! The archive is for x86-64. There it is linked; on another machine it is made
//! part of a small program that runs under an emulator, and the calls go there.

#[cfg(linked)]
mod linked;
#[cfg(linked)]
use linked as reached;

#[cfg(not(linked))]
mod bridged;
#[cfg(not(linked))]
use bridged as reached;

/// What a result that a call writes through a pointer holds before the call, so
/// that one that was not written can be told.
const UNTOUCHED: u8 = 0xA5;

/// What the kind and the bits of a number read hold before it.
pub const BEFORE: (u8, u64) = (UNTOUCHED, u64::from_le_bytes([UNTOUCHED; 8]));

/// Answers one frame: the outcome, and how many bytes of the reply space are
/// to be sent.
pub fn request(
    frame: &[u8],
    store: &mut [u8],
    clock: &mut [u8; 7],
    unit: u8,
    group: u8,
    level: u8,
    reply: &mut [u8],
) -> (u8, u16) {
    let mut length = u16::from_le_bytes([UNTOUCHED; 2]);
    let numbers = [unit, group, level];
    let outcome = reached::request(frame, store, clock, numbers, reply, &mut length);
    (outcome, length)
}

/// Stores one value, read-only or not, whatever the level.
pub fn system_write(
    store: &mut [u8],
    point_type: u8,
    logical: u8,
    parameter: u8,
    value: &[u8],
) -> u8 {
    reached::system_write(store, [point_type, logical, parameter], value)
}

/// Fills the store with the defaults.
pub fn fill(store: &mut [u8]) -> u8 {
    reached::fill(store)
}

/// Moves the clock on by one second.
pub fn tick(clock: &mut [u8; 7]) -> u8 {
    reached::tick(clock)
}

/// A number read that was refused.
#[derive(Clone, Copy, Debug, PartialEq, Eq)]
pub struct Refusal {
    /// Why.
    pub outcome: u8,
    /// Kind and bits afterwards; [`BEFORE`], if they were left as they were.
    pub left: (u8, u64),
}

/// Reads one parameter as a number: its kind and its bits.
pub fn number_read(
    store: &[u8],
    point_type: u8,
    logical: u8,
    parameter: u8,
) -> Result<(u8, u64), Refusal> {
    let (mut kind, mut bits) = BEFORE;
    let tlp = [point_type, logical, parameter];
    let outcome = reached::number_read(store, tlp, &mut kind, &mut bits);
    if outcome == 0 {
        Ok((kind, bits))
    } else {
        Err(Refusal {
            outcome,
            left: (kind, bits),
        })
    }
}

//! Numbers in words.

/// An outcome of the rules that an error frame can carry.
#[must_use]
pub const fn outcome(number: u8) -> &'static str {
    match number {
        20 => "opcode not served",
        21 => "data too short, or spare bytes at the end",
        22 => "no such point type",
        23 => "no such logical",
        24 => "no such parameter",
        25 => "level too low",
        26 => "parameter is read-only",
        27 => "value outside its range",
        28 => "reply would hold over 255 data bytes",
        29 => "table, or location outside the table",
        30 => "count is zero",
        31 => "clock setting not a valid date",
        _ => "a number that this host does not know",
    }
}

/// A weekday, 1 = Sunday.
#[must_use]
pub const fn weekday(number: u8) -> &'static str {
    match number {
        1 => "Sunday",
        2 => "Monday",
        3 => "Tuesday",
        4 => "Wednesday",
        5 => "Thursday",
        6 => "Friday",
        7 => "Saturday",
        _ => "no weekday",
    }
}

//! Point type 124, history segment configuration (manual 3.4.35).

use super::row::{laid_out, Access, DefaultValue, Range, Row};
use super::{Logical, Parameter};

pub(super) const ROWS: [Row; 14] = laid_out([
    Row {
        default: DefaultValue::Segment,
        ..Row::text("Segment Description", 10, "")
    },
    Row {
        access: Access::ReadOnlyOnLogical0,
        range: Range::SegmentSize,
        default: DefaultValue::SegmentSize,
        ..Row::unsigned("Segment Size", 2, (0, 240), 0)
    },
    Row::unsigned("Maximum Segment Size", 2, (240, 240), 240).read_only(),
    Row::unsigned("Periodic Entries", 2, (0, 65_535), 840),
    Row::unsigned("Daily Entries", 2, (0, 65_535), 35),
    Row::unsigned("Periodic Index", 2, (0, 65_535), 0).read_only(),
    Row::unsigned("Daily Index", 2, (0, 65_535), 0).read_only(),
    Row {
        range: Range::OneOf(&[1, 2, 3, 4, 5, 6, 10, 12, 15, 20, 30, 60]),
        ..Row::unsigned("Periodic Sample Rate", 1, (1, 60), 60)
    },
    Row::unsigned("Contract Hour", 1, (0, 23), 0),
    Row::unsigned("ON/OFF Switch", 1, (0, 1), 1),
    Row::unsigned("Free Space", 4, (0, 224_400), 224_400).read_only(),
    Row::unsigned("Force End of Day", 1, (0, 1), 0),
    Row::unsigned("Number of Configured Points", 2, (0, 240), 0).read_only(),
    Row::tlp("User Weighting TLP", Range::NumberTlp),
]);

const SIZE: u8 = 1;
const PERIODIC_ENTRIES: u8 = 3;
const DAILY_ENTRIES: u8 = 4;
const PERIODIC_INDEX: u8 = 5;
const DAILY_INDEX: u8 = 6;
const CONFIGURED: u8 = 12;

/// Whether the pair a parameter belongs to, if any, agrees in the bytes of one
/// logical. The rules check a pair whichever of the two is written.
pub(crate) fn pair_agrees(segment: &[u8], logical: Logical, parameter: Parameter) -> bool {
    let number = |parameter: u8| {
        let at = usize::from(ROWS[usize::from(parameter)].offset);
        u16::from_le_bytes([segment[at], segment[at + 1]])
    };
    match parameter.0 {
        PERIODIC_ENTRIES | PERIODIC_INDEX => {
            index_fits(number(PERIODIC_INDEX), number(PERIODIC_ENTRIES))
        }
        DAILY_ENTRIES | DAILY_INDEX => index_fits(number(DAILY_INDEX), number(DAILY_ENTRIES)),
        SIZE | CONFIGURED if logical != Logical(0) => number(SIZE) >= number(CONFIGURED),
        _ => true,
    }
}

/// "Below", or zero where the count of entries is zero.
fn index_fits(index: u16, entries: u16) -> bool {
    index < entries || (index == 0 && entries == 0)
}

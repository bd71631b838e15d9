//! Point type 122, DS800 configuration (manual 3.4.33).

use super::row::{laid_out, Row};

pub(super) const ROWS: [Row; 24] = laid_out([
    switch("Power Switch", 1),
    switch("RSI Enable", 1),
    switch("ETCP Enable", 1),
    switch("IXD Enable", 1),
    switch("RSI Running", 1).read_only(),
    switch("ETCP Running", 1).read_only(),
    switch("IXD Running", 1).read_only(),
    switch("Clean Stored Resources", 0),
    name("Resource 1 Name"),
    status("Resource 1 Status"),
    cycle_time("Resource 1 Programmed Cycle Time"),
    cycle_time("Resource 1 Current Cycle Time"),
    name("Resource 2 Name"),
    status("Resource 2 Status"),
    cycle_time("Resource 2 Programmed Cycle Time"),
    cycle_time("Resource 2 Current Cycle Time"),
    name("Resource 3 Name"),
    status("Resource 3 Status"),
    cycle_time("Resource 3 Programmed Cycle Time"),
    cycle_time("Resource 3 Current Cycle Time"),
    name("Resource 4 Name"),
    status("Resource 4 Status"),
    cycle_time("Resource 4 Programmed Cycle Time"),
    cycle_time("Resource 4 Current Cycle Time"),
]);

const fn switch(name: &'static str, default: u32) -> Row {
    Row::unsigned(name, 1, (0, 1), default)
}

const fn name(name: &'static str) -> Row {
    Row::text(name, 20, "").read_only()
}

/// The range column says 1 to 120, the description -1 to 5; the rules take
/// the description.
const fn status(name: &'static str) -> Row {
    Row::signed(name, -1, 5).read_only()
}

const fn cycle_time(name: &'static str) -> Row {
    Row::unsigned(name, 4, (0, 4_294_967_295), 0).read_only()
}

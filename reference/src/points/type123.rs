//! Point type 123, security group configuration (manual 3.4.34).

use super::row::{laid_out, Row};

pub(super) const ROWS: [Row; 20] = laid_out([
    Row::text("Group #1", 20, ""),
    Row::text("Group #2", 20, ""),
    Row::text("Group #3", 20, ""),
    Row::text("Group #4", 20, ""),
    Row::text("Group #5", 20, ""),
    Row::text("Group #6", 20, ""),
    Row::text("Group #7", 20, ""),
    Row::text("Group #8", 20, ""),
    Row::text("Group #9", 20, ""),
    Row::text("Group #10", 20, ""),
    Row::text("Group #11", 20, ""),
    Row::text("Group #12", 20, ""),
    Row::text("Group #13", 20, ""),
    Row::text("Group #14", 20, ""),
    Row::text("Group #15", 20, ""),
    Row::text("Group #16", 20, ""),
    Row::text("Group #17", 20, ""),
    Row::text("Group #18", 20, ""),
    Row::text("Group #19", 20, ""),
    Row::text("Group #20", 20, ""),
]);

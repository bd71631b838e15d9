//! Point type 97, FST register tags (manual 3.4.8).

use super::row::{laid_out, Row};

pub(super) const ROWS: [Row; 10] = laid_out([
    Row::text("Register Tag 1", 10, "Register1"),
    Row::text("Register Tag 2", 10, "Register2"),
    Row::text("Register Tag 3", 10, "Register3"),
    Row::text("Register Tag 4", 10, "Register4"),
    Row::text("Register Tag 5", 10, "Register5"),
    Row::text("Register Tag 6", 10, "Register6"),
    Row::text("Register Tag 7", 10, "Register7"),
    Row::text("Register Tag 8", 10, "Register8"),
    Row::text("Register Tag 9", 10, "Register9"),
    Row::text("Register Tag 10", 10, "Register10"),
]);

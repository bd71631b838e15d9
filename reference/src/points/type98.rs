//! Point type 98, soft point parameters (manual 3.4.9).

use super::row::{laid_out, DefaultValue, Row};

pub(super) const ROWS: [Row; 62] = laid_out([
    Row {
        default: DefaultValue::SoftPoint,
        ..Row::text("ASCII Text 1", 40, "")
    },
    Row::single("Float 1"),
    Row::single("Float 2"),
    Row::single("Float 3"),
    Row::single("Float 4"),
    Row::single("Float 5"),
    Row::single("Float 6"),
    Row::single("Float 7"),
    Row::single("Float 8"),
    Row::single("Float 9"),
    Row::single("Float 10"),
    Row::single("Float 11"),
    Row::single("Float 12"),
    Row::single("Float 13"),
    Row::single("Float 14"),
    Row::single("Float 15"),
    Row::single("Float 16"),
    Row::single("Float 17"),
    Row::single("Float 18"),
    Row::single("Float 19"),
    Row::single("Float 20"),
    long("Long 1"),
    long("Long 2"),
    short("Short 1"),
    short("Short 2"),
    short("Short 3"),
    short("Short 4"),
    short("Short 5"),
    short("Short 6"),
    short("Short 7"),
    short("Short 8"),
    short("Short 9"),
    short("Short 10"),
    byte("Byte 1"),
    byte("Byte 2"),
    byte("Byte 3"),
    byte("Byte 4"),
    byte("Byte 5"),
    byte("Byte 6"),
    byte("Byte 7"),
    byte("Byte 8"),
    byte("Byte 9"),
    byte("Byte 10"),
    Row::double("Double 1"),
    Row::double("Double 2"),
    Row::double("Double 3"),
    Row::double("Double 4"),
    Row::double("Double 5"),
    Row::double("Double 6"),
    Row::double("Double 7"),
    Row::double("Double 8"),
    Row::double("Double 9"),
    Row::double("Double 10"),
    long("Long 3"),
    long("Long 4"),
    long("Long 5"),
    long("Long 6"),
    long("Long 7"),
    long("Long 8"),
    long("Long 9"),
    long("Long 10"),
    Row::unsigned("Logging Enable", 1, (0, 1), 1),
]);

const fn long(name: &'static str) -> Row {
    Row::unsigned(name, 4, (0, 4_294_967_295), 0)
}

const fn short(name: &'static str) -> Row {
    Row::unsigned(name, 2, (0, 65_535), 0)
}

const fn byte(name: &'static str) -> Row {
    Row::unsigned(name, 1, (0, 255), 0)
}

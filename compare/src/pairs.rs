//! Which call can come to which outcome, from the rules.

/// Every outcome of the rules.
pub const OUTCOMES: [u8; 21] = [
    0, 1, 2, 3, 4, 5, 6, 7, 8, 20, 21, 22, 23, 24, 25, 26, 27, 28, 29, 30, 31,
];

/// A kind of call with the outcomes it can come to.
#[derive(Clone, Copy, Debug)]
pub struct Kind {
    /// An opcode, or a call's name.
    pub name: &'static str,
    /// The outcomes that can occur.
    pub can: &'static [u8],
    /// All others, with the reason.
    pub cannot: &'static [(&'static [u8], &'static str)],
}

type Reason = (&'static [u8], &'static str);

const SERVED: Reason = (&[20], "the opcode is served");
const NO_VALUE: Reason = (&[26, 27], "it stores nothing");
const ACKNOWLEDGED: Reason = (&[28], "an acknowledgment holds no data");
const NO_TABLE: Reason = (&[29], "it names no table");
const NO_CLOCK: Reason = (&[31], "it sets no clock");

/// The outcomes of 167 and 180.
const READ: &[u8] = &[0, 1, 2, 3, 4, 5, 6, 7, 8, 21, 22, 23, 24, 25, 28, 30];
const NOT_READ: &[Reason] = &[SERVED, NO_VALUE, NO_TABLE, NO_CLOCK];
/// The outcomes of 166 and 181.
const WRITTEN: &[u8] = &[0, 1, 2, 3, 4, 5, 6, 7, 8, 21, 22, 23, 24, 25, 26, 27, 30];
const NOT_WRITTEN: &[Reason] = &[SERVED, ACKNOWLEDGED, NO_TABLE, NO_CLOCK];

/// The served opcodes, then the other requests, then the other calls.
pub const KINDS: [Kind; 14] = [
    Kind {
        name: "7",
        can: &[0, 1, 2, 3, 4, 5, 6, 7, 8, 21],
        cannot: &[
            SERVED,
            (&[25], "it needs no level"),
            (&[22, 23, 24, 30], "it takes no data, so 21 comes first"),
            (&[28], "its reply holds 8 data bytes"),
            NO_VALUE,
            NO_TABLE,
            NO_CLOCK,
        ],
    },
    Kind {
        name: "8",
        can: &[0, 1, 2, 3, 4, 5, 6, 7, 8, 21, 25, 31],
        cannot: &[
            SERVED,
            (&[22, 23, 24, 26, 27, 30], "it names no parameter, no count"),
            ACKNOWLEDGED,
            NO_TABLE,
        ],
    },
    Kind {
        name: "10",
        can: &[0, 1, 2, 3, 4, 5, 6, 7, 8, 21, 22, 23, 24, 25, 28, 29, 30],
        cannot: &[SERVED, NO_VALUE, NO_CLOCK],
    },
    Kind {
        name: "11",
        can: &[
            0, 1, 2, 3, 4, 5, 6, 7, 8, 21, 22, 23, 24, 25, 26, 27, 29, 30,
        ],
        cannot: &[SERVED, ACKNOWLEDGED, NO_CLOCK],
    },
    Kind {
        name: "166",
        can: WRITTEN,
        cannot: NOT_WRITTEN,
    },
    Kind {
        name: "167",
        can: READ,
        cannot: NOT_READ,
    },
    Kind {
        name: "180",
        can: READ,
        cannot: NOT_READ,
    },
    Kind {
        name: "181",
        can: WRITTEN,
        cannot: NOT_WRITTEN,
    },
    Kind {
        name: "other",
        can: &[1, 2, 3, 4, 5, 6, 7, 8, 20],
        cannot: &[(
            &[0, 21, 22, 23, 24, 25, 26, 27, 28, 29, 30, 31],
            "20 comes first",
        )],
    },
    Kind {
        name: "none",
        can: &[1, 2, 3, 4],
        cannot: &[(
            &[
                0, 5, 6, 7, 8, 20, 21, 22, 23, 24, 25, 26, 27, 28, 29, 30, 31,
            ],
            "a frame without an opcode is under 8 bytes, so 4 comes first",
        )],
    },
    Kind {
        name: "system",
        can: &[0, 2, 21, 22, 23, 24, 27],
        cannot: &[(
            &[1, 3, 4, 5, 6, 7, 8, 20, 25, 26, 28, 29, 30, 31],
            "not among a system write's outcomes",
        )],
    },
    Kind {
        name: "number",
        can: &[0, 2, 22, 23, 24, 27],
        cannot: &[(
            &[1, 3, 4, 5, 6, 7, 8, 20, 21, 25, 26, 28, 29, 30, 31],
            "not among a number read's outcomes",
        )],
    },
    Kind {
        name: "fill",
        can: &[0, 2],
        cannot: &[(
            &[
                1, 3, 4, 5, 6, 7, 8, 20, 21, 22, 23, 24, 25, 26, 27, 28, 29, 30, 31,
            ],
            "not among a fill's outcomes",
        )],
    },
    Kind {
        name: "tick",
        can: &[0, 3],
        cannot: &[(
            &[
                1, 2, 4, 5, 6, 7, 8, 20, 21, 22, 23, 24, 25, 26, 27, 28, 29, 30, 31,
            ],
            "not among a tick's outcomes",
        )],
    },
];

impl Kind {
    /// Why an outcome cannot occur, unless it can.
    #[must_use]
    pub fn why_not(&self, outcome: u8) -> Option<&'static str> {
        let found = self.cannot.iter().find(|(list, _)| list.contains(&outcome));
        found.map(|(_, reason)| *reason)
    }
}

#[cfg(test)]
mod tests {
    use super::*;

    #[test]
    fn every_outcome_is_said_once_of_every_kind() {
        for kind in KINDS {
            let mut said = kind.can.to_vec();
            kind.cannot.iter().for_each(|(list, _)| said.extend(*list));
            said.sort_unstable();
            assert_eq!(said, OUTCOMES, "{}", kind.name);
        }
    }
}

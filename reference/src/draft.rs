//! Judging values one after the other, the pairs of type 124 against the store
//! as the earlier ones would leave it. As the rows stand one of each pair is
//! read-only to frames, so no frame can tell; the rule is kept all the same.

use crate::outcome::Outcome;
use crate::points::{type124, Found, SEGMENTS, SEGMENTS_LENGTH};
use crate::store::Store;
use crate::value::in_range;

/// Type 124's bytes as the values judged so far would leave them; none before
/// the first value of that type.
pub(crate) struct Draft {
    segments: Option<[u8; SEGMENTS_LENGTH]>,
}

impl Draft {
    pub const fn new() -> Self {
        Self { segments: None }
    }

    /// Judges a value of the row's length, outcome 27 if it is refused. After
    /// a refusal the draft is of no more use.
    pub fn judge(&mut self, store: &Store, found: Found, value: &[u8]) -> Result<(), Outcome> {
        if !in_range(found.row, found.logical, value) || !self.pair_agrees(store, found, value) {
            return Err(Outcome::Range);
        }
        Ok(())
    }

    fn pair_agrees(&mut self, store: &Store, found: Found, value: &[u8]) -> bool {
        if found.point.point_type != SEGMENTS.point_type {
            return true;
        }
        let segments = self.segments.get_or_insert_with(|| {
            let mut copy = [0; SEGMENTS_LENGTH];
            copy.copy_from_slice(&store[SEGMENTS.start..]);
            copy
        });
        let at = usize::from(found.logical.0) * SEGMENTS.bytes;
        let segment = &mut segments[at..][..SEGMENTS.bytes];
        segment[usize::from(found.row.offset)..][..value.len()].copy_from_slice(value);
        type124::pair_agrees(segment, found.logical, found.parameter)
    }
}

#[cfg(test)]
mod tests {
    use super::*;
    use crate::points::Tlp;
    use crate::store::STORE_LENGTH;

    fn judge(draft: &mut Draft, store: &Store, tlp: [u8; 3], number: u16) -> bool {
        let found = Found::of(Tlp::from_bytes(tlp)).unwrap();
        draft.judge(store, found, &number.to_le_bytes()).is_ok()
    }

    #[test]
    fn pairs_see_the_earlier_values() {
        let mut store = [0; STORE_LENGTH];
        assert_eq!(crate::fill(&mut store), 0);
        let filled = store;
        let mut draft = Draft::new();
        assert!(judge(&mut draft, &store, [124, 1, 3], 1000));
        assert!(judge(&mut draft, &store, [124, 1, 5], 999));
        assert!(judge(&mut draft, &store, [124, 1, 1], 5));
        assert!(judge(&mut draft, &store, [124, 1, 12], 5));
        assert!(judge(&mut draft, &store, [124, 2, 1], 4));
        assert!(!judge(&mut draft, &store, [124, 1, 1], 4));
        assert!(!judge(&mut Draft::new(), &store, [124, 1, 5], 999));
        assert!(store == filled);
    }
}

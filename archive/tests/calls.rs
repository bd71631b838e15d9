//! Each call of the archive once: that it is the function its declaration says,
//! with its arguments in their order.

use archive::{fill, number_read, request, system_write, tick, Refusal, BEFORE};

const STORE_LENGTH: usize = 12_427;

fn fresh() -> Vec<u8> {
    let mut store = vec![0xFF; STORE_LENGTH];
    assert_eq!(fill(&mut store), 0);
    store
}

#[test]
fn a_store_of_another_length() {
    assert_eq!(fill(&mut []), 2);
    assert_eq!(system_write(&mut [], 98, 0, 33, &[5]), 2);
    let refusal = Refusal {
        outcome: 2,
        left: BEFORE,
    };
    assert_eq!(number_read(&[], 98, 0, 33), Err(refusal));
}

#[test]
fn a_value_written_is_read() {
    let mut store = fresh();
    assert_eq!(system_write(&mut store, 98, 31, 23, &[1, 2]), 0);
    assert_eq!(number_read(&store, 98, 31, 23), Ok((0, 0x0201)));
    assert_eq!(number_read(&store, 98, 30, 23), Ok((0, 0)));
}

#[test]
fn a_second_passes() {
    let mut clock = [59, 59, 23, 28, 2, 0xE7, 7];
    assert_eq!(tick(&mut clock), 0);
    assert_eq!(clock, [0, 0, 0, 1, 3, 0xE7, 7]);
    clock[0] = 60;
    assert_eq!(tick(&mut clock), 3);
}

/// The clock read from 3,4 by 1,2 on 2000-01-01, a Saturday.
#[test]
fn a_request_is_answered() {
    let frame = [1, 2, 3, 4, 7, 0, 0x3B, 0xA4];
    let mut clock = [0, 0, 0, 1, 1, 0xD0, 7];
    let mut reply = [0; 263];
    let answer = request(&frame, &mut fresh(), &mut clock, 1, 2, 0, &mut reply);
    assert_eq!(answer, (0, 16));
    let sent = [3, 4, 1, 2, 7, 8, 0, 0, 0, 1, 1, 0xD0, 7, 7];
    assert_eq!(reply[..14], sent);
}

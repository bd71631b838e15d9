//! The archive linked into this program.
//!
//! The header's rules for all calls are that a pointer is not null, a buffer has
//! the length that is passed with it, and the buffers of one call do not
//! overlap. Slices keep all three, which is why each call below is safe.

extern "C" {
    fn tyurkanim_request(
        frame: *const u8,
        frame_len: usize,
        store: *mut u8,
        store_len: usize,
        clock: *mut u8,
        unit: u8,
        group: u8,
        level: u8,
        reply: *mut u8,
        reply_len: usize,
        length: *mut u16,
    ) -> u8;

    fn tyurkanim_system_write(
        store: *mut u8,
        store_len: usize,
        point_type: u8,
        logical: u8,
        parameter: u8,
        value: *const u8,
        value_len: usize,
    ) -> u8;

    fn tyurkanim_fill(store: *mut u8, store_len: usize) -> u8;

    fn tyurkanim_tick(clock: *mut u8) -> u8;

    fn tyurkanim_number_read(
        store: *const u8,
        store_len: usize,
        point_type: u8,
        logical: u8,
        parameter: u8,
        kind: *mut u8,
        bits: *mut u64,
    ) -> u8;
}

pub fn request(
    frame: &[u8],
    store: &mut [u8],
    clock: &mut [u8; 7],
    [unit, group, level]: [u8; 3],
    reply: &mut [u8],
    length: &mut u16,
) -> u8 {
    // SAFETY: slices keep the header's rules, see above.
    unsafe {
        tyurkanim_request(
            frame.as_ptr(),
            frame.len(),
            store.as_mut_ptr(),
            store.len(),
            clock.as_mut_ptr(),
            unit,
            group,
            level,
            reply.as_mut_ptr(),
            reply.len(),
            length,
        )
    }
}

pub fn system_write(store: &mut [u8], [t, l, p]: [u8; 3], value: &[u8]) -> u8 {
    let (at, length) = (store.as_mut_ptr(), store.len());
    // SAFETY: slices keep the header's rules, see above.
    unsafe { tyurkanim_system_write(at, length, t, l, p, value.as_ptr(), value.len()) }
}

pub fn fill(store: &mut [u8]) -> u8 {
    // SAFETY: slices keep the header's rules, see above.
    unsafe { tyurkanim_fill(store.as_mut_ptr(), store.len()) }
}

pub fn tick(clock: &mut [u8; 7]) -> u8 {
    // SAFETY: slices keep the header's rules, see above.
    unsafe { tyurkanim_tick(clock.as_mut_ptr()) }
}

pub fn number_read(store: &[u8], [t, l, p]: [u8; 3], kind: &mut u8, bits: &mut u64) -> u8 {
    let (at, length) = (store.as_ptr(), store.len());
    // SAFETY: slices keep the header's rules, see above.
    unsafe { tyurkanim_number_read(at, length, t, l, p, kind, bits) }
}

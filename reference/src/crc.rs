//! CRC-16 of manual chapter 4: x^16 + x^15 + x^2 + 1, low bit first, start 0.

/// What four shifted-out bits add: entry i is i worked through four steps of
/// the polynomial, whose bits in low-bit-first order are 0xA001.
const TABLE: [u16; 16] = [
    0x0000, 0xCC01, 0xD801, 0x1400, 0xF001, 0x3C00, 0x2800, 0xE401, 0xA001, 0x6C00, 0x7800, 0xB401,
    0x5000, 0x9C01, 0x8801, 0x4400,
];

/// The CRC of some bytes, worked four bits at a time.
#[must_use]
pub fn crc16(bytes: &[u8]) -> u16 {
    bytes.iter().fold(0, |crc, &byte| {
        let crc = four_bits(crc ^ u16::from(byte));
        four_bits(crc)
    })
}

/// One step: the low four bits leave, their table entry comes in.
const fn four_bits(crc: u16) -> u16 {
    (crc >> 4) ^ TABLE[(crc & 0xF) as usize]
}

#[cfg(test)]
mod tests {
    use super::*;

    /// The same CRC one bit at a time, straight from the polynomial.
    fn bit_by_bit(bytes: &[u8]) -> u16 {
        let mut crc = 0;
        for &byte in bytes {
            crc ^= u16::from(byte);
            for _ in 0..8 {
                let out = crc & 1;
                crc >>= 1;
                if out == 1 {
                    crc ^= 0xA001;
                }
            }
        }
        crc
    }

    #[test]
    fn manual_chapter_4_example() {
        let frame = [1, 2, 1, 0, 17, 3, b'M', b'O', b'C'];
        assert_eq!(crc16(&frame).to_le_bytes(), [133, 24]);
    }

    #[test]
    fn four_bits_at_a_time_is_bit_by_bit() {
        assert_eq!(crc16(&[]), 0);
        for high in 0..=255 {
            for low in 0..=255 {
                let bytes = [low, high, 0x5A];
                assert_eq!(crc16(&bytes), bit_by_bit(&bytes));
            }
        }
        let long: Vec<u8> = (0..261u32).map(|i| (i * 151 % 256) as u8).collect();
        assert_eq!(crc16(&long), bit_by_bit(&long));
    }

    #[test]
    fn a_frame_with_its_crc_leaves_nothing() {
        let mut frame = vec![1, 2, 1, 0, 17, 3, b'M', b'O', b'C'];
        frame.extend(crc16(&frame).to_le_bytes());
        assert_eq!(crc16(&frame), 0);
    }
}

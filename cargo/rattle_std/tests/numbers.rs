//! Numbers as decimal and big-endian text, and bytes in hexadecimal.

use rattle_std::alloc::Global;
use rattle_std::byteorder::{BigEndian, ByteOrder};
use rattle_std::hex;
use rattle_std::itoa::Buffer;

// Each power of two and of ten, its neighbours, and their negatives.
fn numbers() -> impl Iterator<Item = u64> {
    let powers = (0..64).map(|power| 1 << power).chain((0..20).map(|power| 10_u64.pow(power)));
    powers
        .flat_map(|power: u64| {
            [power.wrapping_sub(1), power, power + 1, power.wrapping_neg(), 3 * (power / 2)]
        })
        .chain([u64::MAX])
}

#[test]
fn decimal_is_that_of_rust() {
    let mut buffer = Buffer::new();
    for number in numbers() {
        assert_eq!(buffer.format(number), number.to_string());
        assert_eq!(buffer.format(number as i64), (number as i64).to_string());
        assert_eq!(buffer.format(number as usize), number.to_string());
    }
    assert_eq!(buffer.format(i64::MIN), "-9223372036854775808");
    assert_eq!(buffer.format(u64::MAX), "18446744073709551615");
}

#[test]
fn big_endian_there_and_back() {
    let mut bytes = [0xee; 9];
    for number in numbers() {
        BigEndian::write_i64(&mut bytes, number as i64);
        assert_eq!(
            (BigEndian::read_i64(&bytes), &bytes[..8], bytes[8]),
            (number as i64, &number.to_be_bytes()[..], 0xee)
        );
        let before = bytes;
        BigEndian::write_u32(&mut bytes, number as u32);
        assert_eq!(
            (BigEndian::read_u32(&bytes), &bytes[..4], &bytes[4..]),
            (number as u32, &(number as u32).to_be_bytes()[..], &before[4..])
        );
        BigEndian::write_u16(&mut bytes, number as u16);
        assert_eq!(
            (BigEndian::read_u16(&bytes), &bytes[..2]),
            (number as u16, &(number as u16).to_be_bytes()[..])
        );
    }
}

#[test]
fn hexadecimal_of_each_byte() {
    let bytes: Vec<u8> = (0..=255).collect();
    let expected: String = bytes.iter().map(|byte| format!("{byte:02x}")).collect();
    assert_eq!(hex::encode(Global, &bytes).unwrap().as_str(), expected);
    assert_eq!(hex::encode(Global, "").unwrap().as_str(), "");
    assert_eq!(hex::encode(Global, "az").unwrap().as_str(), "617a");
}

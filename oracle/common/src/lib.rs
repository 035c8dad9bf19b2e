//! The vint writer, by document 01's paragraph. It stands in for the published crate `common`.

/// Seven bits a byte, low group first, the top bit on the last byte only: the fewest bytes, 1 to 5.
pub fn serialize_vint_u32(val: u32, buf: &mut [u8; 8]) -> &[u8] {
    let mut left = val;
    let mut count = 0;
    while left >= 128 {
        buf[count] = (left % 128) as u8;
        left /= 128;
        count += 1;
    }
    buf[count] = left as u8 + 128;
    &buf[..=count]
}

//! Numbers written in groups of seven bits, lowest group first.

/// A number in its shortest form.
pub fn shortest(value: u64) -> Vec<u8> {
    let mut groups = 1;
    while value >> (7 * groups) != 0 {
        groups += 1;
    }
    in_groups(value, groups)
}

/// A number in exactly so many groups.
pub fn in_groups(value: u64, groups: u32) -> Vec<u8> {
    let byte = |group: u32| {
        let bits = (value >> (7 * group)) as u8 & 0x7F;
        if group + 1 < groups {
            bits | 0x80
        } else {
            bits
        }
    };
    (0..groups).map(byte).collect()
}

pub fn sheet_of(fields: &[u64]) -> Vec<u8> {
    fields.iter().flat_map(|field| shortest(*field)).collect()
}

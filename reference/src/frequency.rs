//! The step frequencies of codes 21 and 22, in Hz.

/// 01: "the table is every whole part of 96,000 / d, d from 20 to 96,000, rising, 599 numbers from
/// 1 to 4800"
pub static TABLE: [u16; 599] = table();

const fn table() -> [u16; 599] {
    let mut table = [0; 599];
    let mut size = 0;
    let mut d: u32 = 96_000;
    while d >= 20 {
        let frequency = (96_000 / d) as u16;
        if size == 0 || table[size - 1] < frequency {
            table[size] = frequency;
            size += 1;
        }
        d -= 1;
    }
    table
}

/// 01: "the greatest table value not above it"; "7, value 0 or above 4800"
pub fn round_frequency(value: u32) -> Result<u16, u8> {
    if value == 0 || value > 4800 {
        return Err(7);
    }
    let not_above = TABLE.partition_point(|&frequency| u32::from(frequency) <= value);
    Ok(TABLE[not_above - 1])
}

pub fn in_table(frequency: u16) -> bool {
    TABLE.binary_search(&frequency).is_ok()
}

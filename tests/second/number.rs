//! Numbers in groups of seven bits, lowest group first.

use super::slip::Slip;
use std::ops::Range;

/// A refusal's number in the table "Numbers handed back".
pub type Refusal = u32;

/// The bytes end inside a number or before the last field.
pub const ENDS_EARLY: Refusal = 10;
/// A number has over 6 groups.
const TOO_LONG: Refusal = 11;
/// The edition is not known, or a number is outside its limits.
pub const OUTSIDE_LIMITS: Refusal = 12;
/// A number is not in its shortest form.
const NOT_SHORTEST: Refusal = 18;

/// Each number is below this, and each run ends at or below this page.
pub const NUMBER_LIMIT: u64 = 1 << 36;

/// Set in a byte if another group follows.
const TOP_BIT: u8 = 0x80;

/// Why a sheet or map is refused.
#[derive(Clone, Copy, PartialEq, Debug)]
pub struct Fault {
    pub refusal: Refusal,
    /// For 11 and 18 the place of the number's first byte, from the start of the sheet or map; else 0.
    pub position: u64,
}

impl Fault {
    pub fn number(&self) -> u64 {
        u64::from(self.refusal)
    }
}

impl From<Refusal> for Fault {
    fn from(refusal: Refusal) -> Self {
        Fault {
            refusal,
            position: 0,
        }
    }
}

/// The numbers of a sheet or map, read from left to right.
pub struct Numbers<'a> {
    bytes: &'a [u8],
    /// Where the next number begins.
    at: usize,
    slip: Slip,
}

impl<'a> Numbers<'a> {
    pub fn new(bytes: &'a [u8], slip: Slip) -> Self {
        Numbers { bytes, at: 0, slip }
    }

    /// The next number, or 10, 11, 12 or 18.
    pub fn read(&mut self) -> Result<u64, Fault> {
        let start = self.at;
        let value = self.read_unlimited()?;
        judge_limit(value, self.slip)
            .map_err(|refusal| fault(refusal, start..self.at, self.slip))?;
        Ok(value)
    }

    /// For slips: the next number with a fault of its own.
    pub fn read_with(&mut self, slip: Slip) -> Result<u64, Fault> {
        let usual = std::mem::replace(&mut self.slip, slip);
        let value = self.read();
        self.slip = usual;
        value
    }

    /// The next number whatever its size, or 10, 11 or 18.
    pub fn read_unlimited(&mut self) -> Result<u64, Fault> {
        let start = self.at;
        let rest = &self.bytes[start..];
        let count = group_count(rest, self.slip).map_err(|refusal| {
            let seen = rest.len().min(most_groups(self.slip));
            fault(refusal, start..start + seen, self.slip)
        })?;
        let groups = &rest[..count];
        let value = value_of(groups, self.slip);
        if !is_shortest(groups, value, self.slip) {
            return Err(fault(NOT_SHORTEST, start..start + count, self.slip));
        }
        self.at += count;
        Ok(value)
    }

    /// The place of the next number's first byte.
    pub fn position(&self) -> u64 {
        self.at as u64
    }

    /// Whether all bytes have been read.
    pub fn at_end(&self) -> bool {
        self.at == self.bytes.len()
    }
}

/// The fault in a number of which these bytes were seen.
fn fault(refusal: Refusal, seen: Range<usize>, slip: Slip) -> Fault {
    let told = match slip {
        Slip::PositionDropped => false,
        Slip::PositionFor10 if refusal == ENDS_EARLY => true,
        Slip::PositionFor12 if refusal == OUTSIDE_LIMITS => true,
        _ => refusal == TOO_LONG || refusal == NOT_SHORTEST,
    };
    let place = match slip {
        Slip::PositionOfLastGroup => seen.end.saturating_sub(1),
        Slip::PositionBehindNumber => seen.end,
        _ => seen.start,
    };
    Fault {
        refusal: match (refusal, slip) {
            (NOT_SHORTEST, Slip::NotShortestIs11 | Slip::BadFormsSwapped) => TOO_LONG,
            (TOO_LONG, Slip::TooLongIs18 | Slip::BadFormsSwapped) => NOT_SHORTEST,
            _ => refusal,
        },
        position: match told {
            true => place as u64,
            false => 0,
        },
    }
}

/// 12 for a number of 2^36 or more.
pub fn judge_limit(value: u64, slip: Slip) -> Result<(), Refusal> {
    let limit = match slip {
        Slip::LimitOneTooHigh => NUMBER_LIMIT + 1,
        Slip::LimitOneTooLow => NUMBER_LIMIT - 1,
        Slip::LimitDropped => u64::MAX,
        _ => NUMBER_LIMIT,
    };
    if value >= limit {
        return Err(OUTSIDE_LIMITS);
    }
    Ok(())
}

/// Appends a number in its shortest form.
pub fn append(value: u64, bytes: &mut Vec<u8>) {
    let mut rest = value;
    while rest > u64::from(!TOP_BIT) {
        bytes.push(rest as u8 | TOP_BIT);
        rest >>= 7;
    }
    bytes.push(rest as u8);
}

/// How many groups the number at the front has; 11 if over 6, 10 if the bytes end inside it.
fn group_count(bytes: &[u8], slip: Slip) -> Result<usize, Refusal> {
    let most = most_groups(slip);
    if let Some(last) = bytes.iter().take(most).position(|byte| byte & TOP_BIT == 0) {
        return Ok(last + 1);
    }
    let seen_enough = match slip {
        Slip::SixthGroupTopBitAtEndIs10 => bytes.len() > most,
        Slip::FiveGroupsAtEndIs11 => bytes.len() >= most - 1,
        _ => bytes.len() >= most,
    };
    Err(if seen_enough { TOO_LONG } else { ENDS_EARLY })
}

fn most_groups(slip: Slip) -> usize {
    match slip {
        Slip::SixthGroupRefused => 5,
        Slip::SeventhGroupTaken => 7,
        _ => 6,
    }
}

/// A last group of 0 could be left out, unless it is the only one.
fn is_shortest(groups: &[u8], value: u64, slip: Slip) -> bool {
    let shortest = groups.len() == 1 || groups.last() != Some(&0);
    match slip {
        Slip::LastGroupZeroTaken => true,
        Slip::SixthGroupZeroTaken => shortest || groups.len() == 6,
        Slip::OnlyZeroMustBeShortest => shortest || value != 0,
        _ => shortest,
    }
}

fn value_of(groups: &[u8], slip: Slip) -> u64 {
    let add_group = |higher: u64, byte: &u8| higher << 7 | u64::from(byte & !TOP_BIT);
    match slip {
        Slip::HighestGroupFirst => groups.iter().fold(0, add_group),
        _ => groups.iter().rev().fold(0, add_group),
    }
}

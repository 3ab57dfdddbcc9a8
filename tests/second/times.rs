//! The time at an address: a FILETIME's ticks as whole seconds and the ticks left over.

use super::bytes;
use super::codes::ZEROS;
use super::number::Refusal;
use super::slip::Slip;
use super::walk::{Files, PAGE_BYTES};

/// The time is zero.
pub const TIME_ZERO: Refusal = 60;
/// The time has 2^63 ticks or more.
pub const TIME_TOO_LARGE: Refusal = 61;

pub const FIELD_BYTES: u64 = 8;
pub const TICKS_A_SECOND: u64 = 10_000_000;
/// Every time has fewer ticks.
pub const TICKS_LIMIT: u64 = 1 << 63;
/// The ticks from 1601 to 1970, for a slip.
pub const TICKS_TO_1970: u64 = 116_444_736_000_000_000;

/// A double's sign; alone it is -0.0.
const SIGN: u64 = 1 << 63;

/// What the time call says, each of its two doubles by its bits.
#[derive(Clone, Copy, PartialEq)]
pub struct Time {
    pub number: u64,
    pub seconds: u64,
    pub ticks: u64,
}

/// The time in the 8 bytes from an address on.
pub fn read_time(files: Files, address: u64, slip: Slip) -> Time {
    let ticks = match field(files, address, slip) {
        Ok(ticks) => ticks,
        Err(number) => return refused(number, slip),
    };
    match (judge(ticks, slip), slip) {
        (None, _) => converted(ticks, slip),
        (Some(number), Slip::NumbersOnRefusal) => Time {
            number,
            ..converted(ticks, slip)
        },
        (Some(number), _) => refused(number, slip),
    }
}

/// The field's ticks, or the number with which its bytes are refused.
fn field(files: Files, address: u64, slip: Slip) -> Result<u64, u64> {
    let address = match slip {
        Slip::FieldAddressRoundedDown => address - address % FIELD_BYTES,
        _ => address,
    };
    let n = match slip {
        Slip::FieldOf4Bytes => 4,
        Slip::FieldOf7Bytes => 7,
        Slip::NinthByteJudged => 9,
        Slip::FieldCutAtPageEnd => FIELD_BYTES.min(PAGE_BYTES - address % PAGE_BYTES),
        _ => FIELD_BYTES,
    };
    let mut read = [0; 2 * FIELD_BYTES as usize];
    let said = bytes::read(files, address, n, &mut read, slip_in_read(slip));
    let refused = match slip {
        Slip::RefusedFieldTakenForZeros => false,
        _ => said.number != 0,
    };
    if refused {
        return Err(said.number);
    }
    if slip == Slip::ZerosAnywhereAre60 && said.zeros == 1 {
        return Ok(0);
    }
    if slip == Slip::FieldOfZerosIs3 && said.zeros == 1 && read == [0; 16] {
        return Err(ZEROS);
    }
    Ok(ticks_of(&read, slip))
}

/// The fault that the reading of the field has, if it is one of reading.
fn slip_in_read(slip: Slip) -> Slip {
    match slip {
        Slip::TimeOfBadSheetTaken => Slip::ReadOfBadSheetTaken,
        Slip::FieldWrapsTop => Slip::ReadWrapsTop,
        Slip::FieldStopsAtTop => Slip::ReadStopsAtTop,
        Slip::FieldCrossesCanonicalEdge => Slip::ReadCrossesCanonicalEdge,
        Slip::FieldRunsOnInFile => Slip::ReadRunsOnInFile,
        Slip::FieldLastRefusalWins => Slip::ReadLastRefusalWins,
        other => other,
    }
}

/// The first 8 of the bytes read, lowest first.
fn ticks_of(read: &[u8], slip: Slip) -> u64 {
    let lowest_first = |ticks: u64, byte: &u8| ticks << 8 | u64::from(*byte);
    let ticks = read[..8].iter().rev().fold(0, lowest_first);
    match slip {
        Slip::FieldHighestByteFirst => ticks.swap_bytes(),
        Slip::FieldHighHalfFirst => ticks.rotate_left(32),
        Slip::FieldHighHalfDropped => u64::from(ticks as u32),
        _ => ticks,
    }
}

/// 60, then 61.
fn judge(ticks: u64, slip: Slip) -> Option<u64> {
    let zero = match slip {
        Slip::TimeZeroTaken => false,
        Slip::TimeOfOneTakenForZero => ticks <= 1,
        Slip::LowHalfZeroIs60 => ticks as u32 == 0,
        Slip::HighHalfZeroIs60 => ticks >> 32 == 0,
        Slip::NoSecondsIs60 => ticks < TICKS_A_SECOND,
        _ => ticks == 0,
    };
    let too_large = match slip {
        Slip::TicksUnlimited => false,
        Slip::TicksOf2To63Taken => ticks > TICKS_LIMIT,
        Slip::LargestTimeRefused => ticks >= TICKS_LIMIT - 1,
        Slip::AllBitsSetAloneIs61 => ticks == u64::MAX,
        _ => ticks >= TICKS_LIMIT,
    };
    let (of_zero, of_too_large) = match slip {
        Slip::TimeZeroIs3 => (ZEROS, u64::from(TIME_TOO_LARGE)),
        Slip::TimeZeroIs61 => (u64::from(TIME_TOO_LARGE), u64::from(TIME_TOO_LARGE)),
        Slip::TimeTooLargeIs60 => (u64::from(TIME_ZERO), u64::from(TIME_ZERO)),
        _ => (u64::from(TIME_ZERO), u64::from(TIME_TOO_LARGE)),
    };
    match (zero, too_large) {
        (true, _) => Some(of_zero),
        (false, true) => Some(of_too_large),
        (false, false) => None,
    }
}

/// A time that is given.
fn converted(ticks: u64, slip: Slip) -> Time {
    let ticks = match slip {
        Slip::TimeFrom1970 => ticks.wrapping_sub(TICKS_TO_1970),
        _ => ticks,
    };
    let seconds = seconds_of(ticks, slip);
    let rest = rest_of(ticks, slip);
    let (seconds, ticks) = match slip {
        Slip::SecondsAndRestSwapped => (rest, seconds),
        _ => (seconds, rest),
    };
    Time {
        number: 0,
        seconds,
        ticks,
    }
}

fn seconds_of(ticks: u64, slip: Slip) -> u64 {
    let whole = ticks / TICKS_A_SECOND;
    let in_doubles = ticks as f64 / TICKS_A_SECOND as f64;
    match slip {
        Slip::SecondsOf1000000Ticks => double_bits(ticks / 1_000_000),
        Slip::SecondsRoundedUp => double_bits(ticks.div_ceil(TICKS_A_SECOND)),
        Slip::SecondsRoundedToNearest => double_bits((ticks + TICKS_A_SECOND / 2) / TICKS_A_SECOND),
        Slip::SecondsIn32Bits => double_bits(u64::from(whole as u32)),
        Slip::SecondsInSinglePrecision => f64::from(whole as f32).to_bits(),
        Slip::SecondsWithFraction => in_doubles.to_bits(),
        Slip::SecondsDividedInDoubles => in_doubles.floor().to_bits(),
        Slip::NoSecondsAreMinusZero if whole == 0 => SIGN,
        _ => double_bits(whole),
    }
}

fn rest_of(ticks: u64, slip: Slip) -> u64 {
    let rest = ticks % TICKS_A_SECOND;
    match slip {
        Slip::RestOf1000000Ticks => double_bits(ticks % 1_000_000),
        Slip::RestInMicroseconds => double_bits(rest / 10),
        Slip::RestInNanoseconds => double_bits(rest * 100),
        Slip::RestInSeconds => (rest as f64 / TICKS_A_SECOND as f64).to_bits(),
        Slip::RestDropped => double_bits(0),
        Slip::AllTicksForRest => (ticks as f64).to_bits(),
        Slip::RestOfTicksInDoubles => (ticks as f64 % TICKS_A_SECOND as f64).to_bits(),
        Slip::NoRestIsMinusZero if rest == 0 => SIGN,
        _ => double_bits(rest),
    }
}

/// Both numbers are +0.0 beside a refusal.
fn refused(number: u64, slip: Slip) -> Time {
    let zero = match slip {
        Slip::MinusZeroOnRefusal => SIGN,
        Slip::NotANumberOnRefusal => f64::NAN.to_bits(),
        _ => double_bits(0),
    };
    Time {
        number,
        seconds: zero,
        ticks: zero,
    }
}

/// The bits of the double that is exactly this number, which has at most 53 bits.
fn double_bits(whole: u64) -> u64 {
    match whole.checked_ilog2() {
        None => 0,
        Some(top) => {
            let fraction = (whole ^ 1 << top) << (52 - top);
            u64::from(1023 + top) << 52 | fraction
        }
    }
}

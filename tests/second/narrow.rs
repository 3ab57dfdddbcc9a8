//! The walks of the 32-bit profiles: plain, of two levels with entries of 4 bytes, and PAE, of three with entries of 8.

use super::super::codes::{
    FRAME_IN_NO_RUN, FRAME_TOO_WIDE, NOT_CANONICAL, REGION_NEEDED, RESERVED_BIT_SET,
    STATE_NOT_FOLLOWED, TABLE_NOT_VALID,
};
use super::super::number::Refusal;
use super::super::slip::Slip;
use super::{
    bits, is_canonical, is_set, word_at, Place, Upper, Walk, LARGE, NARROW_LIMIT, PAGE_BYTES,
    PROTOTYPE, TRANSITION, VALID,
};

const PLAIN_ENTRY_BYTES: u64 = 4;
const PAE_ENTRY_BYTES: u64 = 8;
/// What the place of a PAE directory in its page counts.
const PLACE_UNIT: u64 = 32;

/// One entry of a table: the table's frame and place in it, the bytes of an entry, and which entry.
struct Wanted {
    table: u64,
    from: u64,
    bytes: u64,
    index: u64,
}

impl Walk<'_> {
    /// Two levels of 1,024 entries, by address bits 22-31 and 12-21.
    pub(super) fn resolve_plain(&mut self, address: u64) -> Result<Place, Refusal> {
        self.judge_narrow_address(address)?;
        let [top_bits, last_bits] = match self.slip {
            Slip::NarrowIndexOfOtherLevel => [(12, 21), (22, 31)],
            _ => [(22, 31), (12, 21)],
        };
        let slip = self.slip;
        let entry_of = |table, (low, high)| Wanted {
            table,
            from: 0,
            bytes: PLAIN_ENTRY_BYTES,
            index: index(address, low, high, slip),
        };
        let upper = self.narrow_entry(entry_of(self.directory_page, top_bits))?;
        self.skip_top_in_count();
        self.judge_narrow_upper(upper, false)?;
        if is_set(upper, LARGE) && slip != Slip::FourMegabyteBitIgnored {
            return self.four_megabyte_page(upper, address);
        }
        let entry = self.narrow_entry(entry_of(plain_frame(upper, slip), last_bits))?;
        if slip == Slip::NarrowLargeAtLastLevel && is_set(entry, VALID) && is_set(entry, LARGE) {
            return self.four_megabyte_page(entry, address);
        }
        self.narrow_page(entry, plain_frame(entry, slip), address)
    }

    /// Four top entries by address bits 30-31, then two levels of 512 entries by bits 21-29 and 12-20.
    pub(super) fn resolve_pae(&mut self, address: u64) -> Result<Place, Refusal> {
        self.judge_narrow_address(address)?;
        let start = self.top_place();
        let start_below = match self.slip {
            Slip::TopPlaceBelowTop => start,
            _ => 0,
        };
        let [middle_bits, last_bits] = match self.slip {
            Slip::NarrowIndexOfOtherLevel => [(12, 20), (21, 29)],
            _ => [(21, 29), (12, 20)],
        };
        let slip = self.slip;
        let entry_of = |table, from, (low, high)| Wanted {
            table,
            from,
            bytes: PAE_ENTRY_BYTES,
            index: index(address, low, high, slip),
        };
        let top = self.narrow_entry(entry_of(self.directory_page, start, (30, 31)))?;
        self.judge_pae_top(top)?;
        if slip == Slip::TopEntryLarge && is_set(top, LARGE) {
            return self.byte_in_frame(bits(top, 30, 47) << 18 | bits(address, 12, 29), address);
        }
        let middle = entry_of(pae_frame(top, slip), start_below, middle_bits);
        let middle = self.narrow_entry(middle)?;
        self.judge_reserved_early(middle, Upper::TwoMegabyte)?;
        self.judge_narrow_upper(middle, true)?;
        if is_set(middle, LARGE) && slip != Slip::TwoMegabyteBitIgnored {
            return self.two_megabyte_page(middle, address);
        }
        let table = pae_frame(middle, slip);
        self.judge_narrow_wide(middle, table, Slip::MiddleEntryWideTaken)?;
        self.judge_reserved(middle, Upper::TwoMegabyte, table)?;
        let entry = self.narrow_entry(entry_of(table, start_below, last_bits))?;
        if slip == Slip::NarrowLargeAtLastLevel && is_set(entry, VALID) && is_set(entry, LARGE) {
            return self.two_megabyte_page(entry, address);
        }
        self.narrow_page(entry, pae_frame(entry, slip), address)
    }

    /// Where the four top entries begin in the directory page.
    fn top_place(&self) -> u64 {
        let place = self.case.place;
        match self.slip {
            Slip::TopPlaceForgotten => 0,
            Slip::TopPlaceTimes16 => 16 * place,
            Slip::TopPlaceTimes64 => 64 * place,
            Slip::TopPlaceInEntries => PAE_ENTRY_BYTES * place,
            _ => PLACE_UNIT * place,
        }
    }

    /// 21, then 24, then 33, for one of the four top entries.
    fn judge_pae_top(&mut self, entry: u64) -> Result<(), Refusal> {
        self.skip_top_in_count();
        self.judge_reserved_early(entry, Upper::Top)?;
        self.judge_narrow_upper(entry, false)?;
        let frame = pae_frame(entry, self.slip);
        self.judge_narrow_wide(entry, frame, Slip::TopEntryWideTaken)?;
        // Intel reserves these bits too, and they say nothing here.
        let others = bits(entry, 1, 2) | bits(entry, 5, 6) | bits(entry, 8, 8);
        if self.slip == Slip::TopEntryOtherBitsReserved && others != 0 {
            return Err(RESERVED_BIT_SET);
        }
        self.judge_reserved(entry, Upper::Top, frame)
    }

    /// 20 for an address of 2^32 or more.
    fn judge_narrow_address(&self, address: u64) -> Result<(), Refusal> {
        let limit = match self.slip {
            Slip::AddressOf2To32Taken => NARROW_LIMIT + 1,
            Slip::AddressOf2To31Refused => NARROW_LIMIT / 2,
            Slip::LastAddressRefused => NARROW_LIMIT - 1,
            _ => NARROW_LIMIT,
        };
        let folded = match self.slip {
            Slip::AddressFoldedAt2To32 => true,
            Slip::HighAddressFolded => bits(address, 32, 63) == NARROW_LIMIT - 1,
            _ => false,
        };
        if address < limit || folded {
            return Ok(());
        }
        Err(match self.slip {
            Slip::NarrowCanonicalIs21 if is_canonical(address, self.slip) => TABLE_NOT_VALID,
            _ => NOT_CANONICAL,
        })
    }

    /// The entry, or 23 before it is read.
    fn narrow_entry(&mut self, wanted: Wanted) -> Result<u64, Refusal> {
        let Wanted {
            table,
            from,
            bytes,
            index,
        } = wanted;
        let page = match self.image_page(table) {
            Ok(page) => page,
            Err(_) if self.slip == Slip::NarrowMissingTableIs21 => return Err(TABLE_NOT_VALID),
            Err(refusal) => {
                if self.slip == Slip::NarrowCountTakesMissingTable {
                    self.consulted.push(Place::Zeros);
                }
                return Err(refusal);
            }
        };
        let is_plain = bytes == PLAIN_ENTRY_BYTES;
        let apart = match self.slip {
            Slip::PlainEntriesApartBy8 => PAE_ENTRY_BYTES,
            _ => bytes,
        };
        let offset = PAGE_BYTES * page + from + apart * index;
        let offset = match self.slip {
            Slip::PlainEntryOfHighHalf if is_plain => offset ^ PLAIN_ENTRY_BYTES,
            _ => offset,
        };
        self.consulted.push(Place::Image(offset));
        Ok(
            match is_plain && self.slip != Slip::PlainEntryReadAs8Bytes {
                true => four_bytes_at(self.image, offset),
                false => word_at(self.image, offset),
            },
        )
    }

    /// For a slip: the top entry goes uncounted.
    fn skip_top_in_count(&mut self) {
        if self.slip == Slip::NarrowCountSkipsTop {
            self.consulted.pop();
        }
    }

    /// 21 for an entry above the last level that is not valid, whatever its other bits say.
    fn judge_narrow_upper(&self, entry: u64, is_middle: bool) -> Result<(), Refusal> {
        let followed = match self.slip {
            Slip::NarrowUpperTransitionFollowed => is_narrow_transition(entry, self.slip),
            _ => false,
        };
        if is_set(entry, VALID) || followed {
            return Ok(());
        }
        Err(match self.slip {
            Slip::NarrowWideBeforeValid if bits(entry, 48, 51) != 0 => FRAME_TOO_WIDE,
            Slip::NarrowUpperInvalidIs22 => REGION_NEEDED,
            Slip::NarrowUpperInvalidIs34 => STATE_NOT_FOLLOWED,
            Slip::MiddleInvalidIs22 if is_middle => REGION_NEEDED,
            _ => TABLE_NOT_VALID,
        })
    }

    /// 24 for a valid entry with any of bits 48-51 set, whether or not its frame is in a run.
    fn judge_narrow_wide(&self, entry: u64, frame: u64, taken: Slip) -> Result<(), Refusal> {
        if bits(entry, 48, 51) == 0 || self.slip == taken {
            return Ok(());
        }
        if self.slip == Slip::NarrowWideAfterRun {
            self.image_page(frame)?;
        }
        Err(FRAME_TOO_WIDE)
    }

    /// Base from entry bits 22-31, the frame within the page from address bits 12-21; entry bits 13-21 must be 0.
    fn four_megabyte_page(&self, entry: u64, address: u64) -> Result<Place, Refusal> {
        let base = bits(entry, 22, 31) << 10;
        let frame = match self.slip {
            Slip::FourMegabyteLosesAddressBits => base,
            Slip::FourMegabyteTakenAs2MiB => bits(entry, 21, 31) << 9 | bits(address, 12, 20),
            Slip::FourMegabyteHighBaseBits => {
                bits(entry, 13, 20) << 20 | base | bits(address, 12, 21)
            }
            _ => base | bits(address, 12, 21),
        };
        let reserved = match self.slip {
            Slip::FourMegabyteReservedTaken | Slip::FourMegabyteHighBaseBits => 0,
            Slip::FourMegabyteReservedFromBit12 => bits(entry, 12, 21),
            Slip::FourMegabyteReservedFromBit14 => bits(entry, 14, 21),
            Slip::FourMegabyteReservedToBit20 => bits(entry, 13, 20),
            _ => bits(entry, 13, 21),
        };
        if reserved != 0 && self.slip == Slip::FourMegabyteReservedAfterRun {
            self.image_page(frame)?;
        }
        if reserved != 0 {
            return Err(match self.slip {
                Slip::FourMegabyteReservedIs23 => FRAME_IN_NO_RUN,
                Slip::FourMegabyteReservedIs33 => RESERVED_BIT_SET,
                _ => FRAME_TOO_WIDE,
            });
        }
        if self.slip == Slip::NarrowLargeRunAtBase {
            let page = self.image_page(base)?;
            return Ok(Place::Image(PAGE_BYTES * page + bits(address, 0, 21)));
        }
        self.byte_in_frame(frame, address)
    }

    /// Base from entry bits 21-47, the frame within the page from address bits 12-20.
    fn two_megabyte_page(&mut self, entry: u64, address: u64) -> Result<Place, Refusal> {
        let base = bits(entry, 21, 47) << 9;
        let frame = match self.slip {
            Slip::TwoMegabyteLosesAddressBits => base,
            Slip::TwoMegabyteTakenAs4MiB => bits(entry, 22, 47) << 10 | bits(address, 12, 21),
            Slip::TwoMegabyteTakesLowBaseBits => bits(entry, 12, 47) | bits(address, 12, 20),
            _ => base | bits(address, 12, 20),
        };
        self.judge_narrow_wide(entry, frame, Slip::MiddleEntryWideTaken)?;
        self.judge_reserved(entry, Upper::TwoMegabyte, frame)?;
        if self.slip == Slip::NarrowLargeRunAtBase {
            let page = self.image_page(base)?;
            return Ok(Place::Image(PAGE_BYTES * page + bits(address, 0, 20)));
        }
        self.byte_in_frame(frame, address)
    }

    /// A last-level entry: valid, in transition, or 34.
    fn narrow_page(&mut self, entry: u64, frame: u64, address: u64) -> Result<Place, Refusal> {
        if is_set(entry, VALID) {
            if is_set(entry, LARGE) && self.slip == Slip::ReservedAtLastLevel {
                return Err(RESERVED_BIT_SET);
            }
            self.judge_narrow_wide(entry, frame, Slip::LastEntryWideTaken)?;
            return self.byte_in_frame(frame, address);
        }
        let followed = self.slip != Slip::NarrowTransitionNotFollowed;
        if is_narrow_transition(entry, self.slip) && followed {
            return self.narrow_transition_page(entry, frame, address);
        }
        match self.slip {
            Slip::NarrowStatesOfModeZero => self.judge_last_level(entry, address, self.prototypes),
            Slip::ZeroEntryIs3 if entry == 0 => Ok(Place::Zeros),
            Slip::ZeroEntryIs22 if entry == 0 => Err(REGION_NEEDED),
            Slip::StateNotFollowedIs22 => Err(REGION_NEEDED),
            Slip::StateNotFollowedIs21 => Err(TABLE_NOT_VALID),
            _ => Err(STATE_NOT_FOLLOWED),
        }
    }

    /// Bits 48-63 of the entry say nothing.
    fn narrow_transition_page(
        &self,
        entry: u64,
        frame: u64,
        address: u64,
    ) -> Result<Place, Refusal> {
        match self.slip {
            Slip::NarrowTransitionWideRefused if bits(entry, 48, 51) != 0 => Err(FRAME_TOO_WIDE),
            Slip::NarrowTransitionTakesHighBits => self.byte_in_frame(bits(entry, 12, 51), address),
            _ => self.byte_in_frame(frame, address),
        }
    }
}

/// Address bits `low` to `high`, both included.
fn index(address: u64, low: u32, high: u32, slip: Slip) -> u64 {
    match slip {
        Slip::NarrowIndexLosesTopBit => bits(address, low, high - 1),
        Slip::NarrowIndexLosesLowBit => bits(address, low, high) & !1,
        _ => bits(address, low, high),
    }
}

fn plain_frame(entry: u64, slip: Slip) -> u64 {
    match slip {
        Slip::PlainEntryReadAs8Bytes => bits(entry, 12, 47),
        _ => bits(entry, 12, 31),
    }
}

fn pae_frame(entry: u64, slip: Slip) -> u64 {
    match slip {
        Slip::NarrowFrameIn20Bits => bits(entry, 12, 31),
        _ => bits(entry, 12, 47),
    }
}

/// Transition set and Prototype clear.
fn is_narrow_transition(entry: u64, slip: Slip) -> bool {
    let prototype = is_set(entry, PROTOTYPE) && slip != Slip::NarrowTransitionBeforePrototype;
    is_set(entry, TRANSITION) && !prototype
}

/// Bytes past the end, which only a slip asks for, read as 0.
fn four_bytes_at(bytes: &[u8], offset: u64) -> u64 {
    let offset = offset as usize;
    match bytes.get(offset..offset + PLAIN_ENTRY_BYTES as usize) {
        Some(entry) => u64::from(u32::from_le_bytes(entry.try_into().expect("4 bytes"))),
        None => 0,
    }
}

//! One address: the walk through four levels of tables, and the states of an entry.

#[path = "narrow.rs"]
mod narrow;

use super::codes::{
    BACKED_BY_FILE, FOURTH_PROTOTYPE, FRAME_IN_NO_RUN, FRAME_TOO_WIDE, IMAGE, NOT_CANONICAL,
    OTHER_PAGEFILE, PAGEFILE, PAGE_IN_STORE, PAST_PAGEFILE, REGION_NEEDED, RESERVED_BIT_SET,
    TABLE_NOT_VALID, UNALIGNED_PROTOTYPE, ZEROS,
};
use super::number::{Fault, Refusal};
use super::sheet::{check_sheet, Case, FOUR_LEVEL, PLAIN};
use super::slip::Slip;

pub const PAGE_BYTES: u64 = 4096;
const ENTRY_BYTES: u64 = 8;
const LAST_LEVEL: u32 = 4;
/// Every address of modes 1 and 2 is below.
pub const NARROW_LIMIT: u64 = 1 << 32;

const VALID: u32 = 0;
const LARGE: u32 = 7;
const PROTOTYPE: u32 = 10;
const TRANSITION: u32 = 11;
/// Of a software entry.
const IN_STORE: u32 = 22;

/// Bits 16-63 of a prototype entry that leaves its page to the region record.
const VAD_PROTOTYPE: u64 = 0xFFFF_FFFF_0000;

/// The three lent files.
#[derive(Clone, Copy)]
pub struct Files<'a> {
    pub sheet: &'a [u8],
    pub image: &'a [u8],
    pub pagefile: &'a [u8],
}

impl Files<'_> {
    /// For slips: what stands behind the pagefile's last whole page goes unjudged.
    pub fn without_rest(self) -> Self {
        let rest = self.pagefile.len() % PAGE_BYTES as usize;
        Files {
            pagefile: &self.pagefile[..self.pagefile.len() - rest],
            ..self
        }
    }
}

/// The entries above the last level in modes 0 and 2, by what bit 7 makes of them.
#[derive(Clone, Copy, PartialEq)]
enum Upper {
    /// The directory's entries in mode 0.
    First,
    /// The four top entries in mode 2.
    Top,
    Gigabyte,
    TwoMegabyte,
}

impl Upper {
    /// At a level of mode 0.
    fn at(level: u32) -> Self {
        match level {
            1 => Upper::First,
            2 => Upper::Gigabyte,
            _ => Upper::TwoMegabyte,
        }
    }
}

/// Where a byte lies; the number is its file offset.
#[derive(Clone, Copy, PartialEq)]
pub enum Place {
    Image(u64),
    Pagefile(u64),
    Zeros,
}

/// The answer for one address.
pub struct Answer {
    pub number: u64,
    pub offset: u64,
    pub entries: u64,
    /// How many prototype addresses were resolved on the way; no part of the answer.
    pub prototypes: u32,
    /// The place of each entry read; no part of the answer.
    pub consulted: Vec<Place>,
}

/// A walk over an accepted case.
pub struct Walk<'a> {
    case: Case,
    /// The frame of the top table.
    directory_page: u64,
    image: &'a [u8],
    pagefile: &'a [u8],
    slip: Slip,
    /// The place of each entry that was read.
    consulted: Vec<Place>,
    prototypes: u32,
}

/// Number, offset and entries read for an address.
pub fn resolve(files: Files, address: u64, slip: Slip) -> Answer {
    if slip == Slip::CanonicalBeforeSheet && !is_canonical(address, slip) {
        return refused(NOT_CANONICAL.into(), slip);
    }
    match Walk::start(files, slip) {
        Err(fault) => refused(fault, slip),
        Ok(mut walk) => {
            let place = walk.resolve(address);
            walk.answer(place, address)
        }
    }
}

/// A call refused before an entry is read.
fn refused(fault: Fault, slip: Slip) -> Answer {
    Answer {
        number: fault.number(),
        offset: match slip {
            Slip::AddressPositionDropped => 0,
            _ => fault.position,
        },
        entries: 0,
        prototypes: 0,
        consulted: Vec::new(),
    }
}

impl<'a> Walk<'a> {
    /// The walk, or the sheet's first fault.
    pub fn start(files: Files<'a>, slip: Slip) -> Result<Self, Fault> {
        let image_length = files.image.len() as u64;
        let pagefile_length = files.pagefile.len() as u64;
        let case = check_sheet(files.sheet, image_length, pagefile_length, slip)?;
        Ok(Walk {
            directory_page: case.directory_page,
            case,
            image: files.image,
            pagefile: files.pagefile,
            slip,
            consulted: Vec::new(),
            prototypes: 0,
        })
    }

    /// Puts another frame in the place of the sheet's directory page.
    pub fn set_directory_page(&mut self, frame: u64) {
        self.directory_page = frame;
    }

    pub fn mode(&self) -> u64 {
        self.case.mode
    }

    /// The place of the addressed byte.
    pub fn resolve(&mut self, address: u64) -> Result<Place, Refusal> {
        self.consulted.clear();
        self.resolve_deeper(address, 0)
    }

    /// How many entries were read for the last address.
    pub fn entries_read(&self) -> u64 {
        self.consulted.len() as u64
    }

    fn answer(self, place: Result<Place, Refusal>, address: u64) -> Answer {
        let entries = match (place, self.slip) {
            (Err(_), Slip::CountSkipsRefused) => 0,
            _ => self.consulted.len() as u64,
        };
        let (number, offset) = match (place, self.slip) {
            (Ok(Place::Image(offset)), _) => (IMAGE, offset),
            (Ok(Place::Pagefile(offset)), _) => (PAGEFILE, offset),
            (Ok(Place::Zeros), Slip::ZerosKeepPlace) => (ZEROS, bits(address, 0, 11)),
            (Ok(Place::Zeros), _) => (ZEROS, 0),
            (Err(refusal), Slip::RefusalKeepsPlace) => (u64::from(refusal), bits(address, 0, 11)),
            (Err(refusal), _) => (u64::from(refusal), 0),
        };
        Answer {
            number,
            offset,
            entries,
            prototypes: self.prototypes,
            consulted: self.consulted,
        }
    }

    /// The place of a byte whose address was met so many prototype entries deep.
    fn resolve_deeper(&mut self, address: u64, prototypes: u32) -> Result<Place, Refusal> {
        self.prototypes = prototypes;
        match self.case.mode {
            FOUR_LEVEL => {}
            PLAIN => return self.resolve_plain(address),
            _ => return self.resolve_pae(address),
        }
        if !is_canonical(address, self.slip) {
            return Err(NOT_CANONICAL);
        }
        let mut table = match self.slip {
            Slip::PrototypeBySheetDirectory if prototypes > 0 => self.case.directory_page,
            _ => self.directory_page,
        };
        for level in 1..LAST_LEVEL {
            let entry = self.table_entry(table, level, address)?;
            let upper = Upper::at(level);
            self.judge_reserved_early(entry, upper)?;
            self.judge_upper_valid(entry, level)?;
            let large = is_large(entry, level, self.slip);
            let frame = if large {
                large_frame(entry, level, address, self.slip)
            } else {
                frame_of(entry, self.slip)
            };
            self.judge_wide(entry, frame, large)?;
            self.judge_reserved(entry, upper, frame)?;
            if large && self.slip == Slip::LargePageRunAtBase {
                return self.byte_from_base(entry, level, address);
            }
            if large {
                return self.byte_in_frame(frame, address);
            }
            table = frame;
        }
        let entry = self.table_entry(table, LAST_LEVEL, address)?;
        self.judge_last_level(entry, address, prototypes)
    }

    /// A table's entry for an address, or 23 before it is read.
    fn table_entry(&mut self, table: u64, level: u32, address: u64) -> Result<u64, Refusal> {
        let page = match self.image_page(table) {
            Ok(page) => page,
            Err(_) if self.slip == Slip::MissingTableIs21 => return Err(TABLE_NOT_VALID),
            Err(refusal) => {
                if self.slip == Slip::CountTakesMissingTable {
                    self.consulted.push(Place::Zeros);
                }
                return Err(refusal);
            }
        };
        let index = table_index(level, address, self.slip);
        Ok(self.consult(Place::Image(PAGE_BYTES * page + ENTRY_BYTES * index)))
    }

    /// The entry at a place, counted each time.
    fn consult(&mut self, place: Place) -> u64 {
        let again = self.consulted.contains(&place);
        if !(again && self.slip == Slip::CountSkipsRepeated) {
            self.consulted.push(place);
        }
        match place {
            Place::Image(offset) => word_at(self.image, offset),
            Place::Pagefile(_) if self.slip == Slip::PrototypeEntryInPagefileUnread => 0,
            Place::Pagefile(offset) => word_at(self.pagefile, offset),
            Place::Zeros => 0,
        }
    }

    /// The image page of a frame, or 23.
    fn image_page(&self, frame: u64) -> Result<u64, Refusal> {
        let runs = &self.case.runs[..];
        let runs = match self.slip {
            Slip::LastRunUnseen => &runs[..runs.len() - 1],
            Slip::RunsPast32Unseen => &runs[..runs.len().min(32)],
            _ => runs,
        };
        let mut pages_before = 0;
        for run in runs {
            let end = run.first_frame + run.pages;
            let inside = match self.slip {
                Slip::RunStartExclusive => run.first_frame < frame && frame < end,
                Slip::RunEndInclusive => run.first_frame <= frame && frame <= end,
                _ => run.first_frame <= frame && frame < end,
            };
            if inside {
                return Ok(match self.slip {
                    Slip::GapsNotSkipped => frame,
                    Slip::RunBaseNotSummed => frame - run.first_frame,
                    _ => pages_before + (frame - run.first_frame),
                });
            }
            pages_before += run.pages;
        }
        Err(FRAME_IN_NO_RUN)
    }

    /// The addressed byte in its own frame, or 23.
    fn byte_in_frame(&self, frame: u64, address: u64) -> Result<Place, Refusal> {
        let page = self.image_page(frame)?;
        Ok(Place::Image(
            PAGE_BYTES * page + place_in_page(address, self.slip),
        ))
    }

    /// A slip: the run of the large page's base stands for the byte's own.
    fn byte_from_base(&self, entry: u64, level: u32, address: u64) -> Result<Place, Refusal> {
        let low = lowest_base_bit(level);
        let page = self.image_page(bits(entry, low, 47) << (low - 12))?;
        Ok(Place::Image(PAGE_BYTES * page + bits(address, 0, low - 1)))
    }

    /// 21 or 22 for an entry above the last level that is not valid.
    fn judge_upper_valid(&self, entry: u64, level: u32) -> Result<(), Refusal> {
        let last_upper = level == LAST_LEVEL - 1;
        let followed = self.slip == Slip::LevelThreeTransitionFollowed
            && last_upper
            && is_transition(entry, self.slip);
        if is_set(entry, VALID) || followed {
            return Ok(());
        }
        if self.slip == Slip::WideBeforeValid && bits(entry, 48, 51) != 0 {
            return Err(FRAME_TOO_WIDE);
        }
        let region_needed = match self.slip {
            Slip::LevelTwoIs22 => level >= 2,
            Slip::LevelThreeIs21 => false,
            Slip::LevelThreeOnlyZeroIs22 => last_upper && entry == 0,
            _ => last_upper,
        };
        Err(if region_needed {
            REGION_NEEDED
        } else {
            TABLE_NOT_VALID
        })
    }

    /// 24 for a valid entry with any of bits 48-51 set, whether or not its frame is in a run.
    fn judge_wide(&self, entry: u64, frame: u64, large: bool) -> Result<(), Refusal> {
        let wide = match self.slip {
            Slip::WideEntryNotRefused => false,
            Slip::WideLargeNotRefused if large => false,
            Slip::WideBit51NotRefused => bits(entry, 48, 50) != 0,
            Slip::WideFromBit47 => bits(entry, 47, 51) != 0,
            Slip::WideToBit52 => bits(entry, 48, 52) != 0,
            _ => bits(entry, 48, 51) != 0,
        };
        if wide && self.slip == Slip::WideAfterRun {
            self.image_page(frame)?;
        }
        if wide {
            return Err(FRAME_TOO_WIDE);
        }
        Ok(())
    }

    /// 33 for a valid entry above the last level with a reserved bit set, whether or not its frame is in a run.
    fn judge_reserved(&mut self, entry: u64, upper: Upper, frame: u64) -> Result<(), Refusal> {
        if !has_reserved(entry, upper, self.slip) {
            return Ok(());
        }
        match self.slip {
            Slip::ReservedAfterRun => drop(self.image_page(frame)?),
            Slip::ReservedEntryUncounted => drop(self.consulted.pop()),
            Slip::ReservedIs24 => return Err(FRAME_TOO_WIDE),
            _ => {}
        }
        Err(RESERVED_BIT_SET)
    }

    /// For slips: the same before the entry is judged otherwise.
    fn judge_reserved_early(&mut self, entry: u64, upper: Upper) -> Result<(), Refusal> {
        let early = match self.slip {
            Slip::ReservedBeforeWide => is_set(entry, VALID),
            Slip::ReservedBeforeValid => true,
            _ => false,
        };
        match early {
            true => self.judge_reserved(entry, upper, 0),
            false => Ok(()),
        }
    }

    /// Steps 1 to 6 for a last-level entry.
    fn judge_last_level(
        &mut self,
        entry: u64,
        address: u64,
        prototypes: u32,
    ) -> Result<Place, Refusal> {
        if is_set(entry, VALID) && is_set(entry, LARGE) && self.slip == Slip::ReservedAtLastLevel {
            return Err(RESERVED_BIT_SET);
        }
        if is_set(entry, VALID) {
            return self.valid_page(entry, address);
        }
        if is_transition(entry, self.slip) {
            return self.transition_page(entry, address);
        }
        if is_set(entry, PROTOTYPE) && is_vad_prototype(entry, self.slip) {
            return Err(REGION_NEEDED);
        }
        if is_set(entry, PROTOTYPE) {
            return self.prototype_page(entry, address, prototypes);
        }
        let region_needed = match self.slip {
            Slip::MissingPageShownAsZeros => false,
            Slip::SoftwareZeroNeedsRegion => bits(entry, 32, 63) == 0,
            _ => entry == 0,
        };
        if region_needed {
            return Err(REGION_NEEDED);
        }
        let judged = match self.slip {
            Slip::StoreInPrototypeEntriesOnly => without_store(entry),
            _ => entry,
        };
        self.software_page(judged, address)
    }

    /// The rule for the entry that a prototype address led to.
    fn judge_prototype_entry(&self, entry: u64, address: u64) -> Result<Place, Refusal> {
        let reserved = is_set(entry, LARGE) && self.slip == Slip::ReservedInPrototypeEntry;
        if is_set(entry, VALID) && reserved {
            return Err(RESERVED_BIT_SET);
        }
        if is_set(entry, VALID) {
            return self.valid_page(entry, address);
        }
        if self.slip == Slip::PrototypeEntryAsLastLevel && is_vad_prototype(entry, self.slip) {
            return Err(REGION_NEEDED);
        }
        if self.slip == Slip::PrototypeEntryTransitionFirst && is_set(entry, TRANSITION) {
            return self.transition_page(entry, address);
        }
        if is_set(entry, PROTOTYPE) && self.slip != Slip::PrototypeEntryUnjudged {
            return Err(BACKED_BY_FILE);
        }
        if is_set(entry, TRANSITION) {
            return self.transition_page(entry, address);
        }
        if self.slip == Slip::ZeroPrototypeEntryNeedsRegion && entry == 0 {
            return Err(REGION_NEEDED);
        }
        let judged = match self.slip {
            Slip::StoreAtLastLevelOnly => without_store(entry),
            _ => entry,
        };
        self.software_page(judged, address)
    }

    fn valid_page(&self, entry: u64, address: u64) -> Result<Place, Refusal> {
        if self.slip == Slip::ValidTakenAsStored && is_set(entry, IN_STORE) {
            return Err(PAGE_IN_STORE);
        }
        let large = self.slip == Slip::LargeAtLastLevel && is_set(entry, LARGE);
        let frame = if large {
            large_frame(entry, LAST_LEVEL - 1, address, self.slip)
        } else {
            frame_of(entry, self.slip)
        };
        self.judge_wide(entry, frame, large)?;
        self.byte_in_frame(frame, address)
    }

    /// The page is still in its frame; bits 48-63 say nothing.
    fn transition_page(&self, entry: u64, address: u64) -> Result<Place, Refusal> {
        let frame = match self.slip {
            Slip::TransitionCalledMissing => return Err(REGION_NEEDED),
            Slip::TransitionTakenAsStored if is_set(entry, IN_STORE) => return Err(PAGE_IN_STORE),
            Slip::TransitionFrameTakesHighBits => bits(entry, 12, 51),
            _ => frame_of(entry, self.slip),
        };
        if self.slip == Slip::TransitionWideRefused {
            self.judge_wide(entry, frame, false)?;
        }
        self.byte_in_frame(frame, address)
    }

    /// A page of zeros, 31, 26, 27 or a byte of the pagefile.
    fn software_page(&self, entry: u64, address: u64) -> Result<Place, Refusal> {
        let pagefile_page = match self.slip {
            Slip::PagefileOffsetFromFrameBits => bits(entry, 12, 47),
            Slip::PagefilePageIn20Bits => bits(entry, 32, 51),
            _ => bits(entry, 32, 63),
        };
        let other = is_other_pagefile(entry, self.slip);
        let stored = is_stored(entry, self.slip);
        if other && self.slip == Slip::OtherPagefileBeforeZero {
            return Err(OTHER_PAGEFILE);
        }
        if stored && self.slip == Slip::StoreBeforeZero {
            return Err(PAGE_IN_STORE);
        }
        if bits(entry, 32, 63) == 0 {
            return Ok(Place::Zeros);
        }
        let start = PAGE_BYTES * pagefile_page;
        let past = match self.slip {
            Slip::PastPagefileByOnePage => start > self.pagefile.len() as u64,
            Slip::LastPagefilePageRefused => start + PAGE_BYTES >= self.pagefile.len() as u64,
            _ => start + PAGE_BYTES > self.pagefile.len() as u64,
        };
        let judged_before = match self.slip {
            Slip::StoreAfterOtherPagefile => other,
            Slip::StoreAfterEnd => other || past,
            _ => false,
        };
        if stored && !judged_before {
            return Err(PAGE_IN_STORE);
        }
        match (other, past) {
            (true, true) if self.slip == Slip::OtherPagefileAfterEnd => Err(PAST_PAGEFILE),
            (true, _) => Err(OTHER_PAGEFILE),
            (false, true) => Err(PAST_PAGEFILE),
            (false, false) => Ok(Place::Pagefile(start + place_in_page(address, self.slip))),
        }
    }

    /// Step 4: the entry at the prototype address says where the page is.
    fn prototype_page(
        &mut self,
        entry: u64,
        address: u64,
        prototypes: u32,
    ) -> Result<Place, Refusal> {
        if self.slip == Slip::PrototypeTakenAsStored && is_set(entry, IN_STORE) {
            return Err(PAGE_IN_STORE);
        }
        let target = prototype_address(entry, self.slip);
        if let Err(refusal) = judge_prototype_address(target, prototypes, self.slip) {
            if self.slip == Slip::CountTakesRefusedChain {
                self.consulted.push(Place::Zeros);
            }
            return Err(refusal);
        }
        let read_before = self.consulted.len();
        let place = match self.resolve_deeper(target, prototypes + 1) {
            Ok(place) => place,
            Err(_) if self.slip == Slip::PrototypeRefusalNeedsRegion => return Err(REGION_NEEDED),
            Err(refusal) => {
                if self.slip == Slip::CountSkipsRefusedPrototype {
                    self.consulted.truncate(read_before);
                }
                return Err(refusal);
            }
        };
        let entry = self.prototype_entry(place)?;
        match self.slip {
            Slip::PrototypeEntryPlaceOfItsAddress => self.judge_prototype_entry(entry, target),
            _ => self.judge_prototype_entry(entry, address),
        }
    }

    /// The 8 bytes found at a prototype address; in a page of zeros they read as 0.
    fn prototype_entry(&mut self, place: Place) -> Result<u64, Refusal> {
        if place == Place::Zeros && self.slip == Slip::PrototypeEntryInZerosRefused {
            return Err(REGION_NEEDED);
        }
        let entry = self.consult(place);
        let skipped = match self.slip {
            Slip::CountSkipsPrototypeEntry => true,
            Slip::CountSkipsEntryInZeros => place == Place::Zeros,
            _ => false,
        };
        if skipped {
            self.consulted.pop();
        }
        Ok(entry)
    }
}

/// Bits `low` to `high` of a word, both included, as a number.
pub fn bits(word: u64, low: u32, high: u32) -> u64 {
    word << (63 - high) >> (63 - high + low)
}

fn is_set(word: u64, bit: u32) -> bool {
    bits(word, bit, bit) != 0
}

/// Bytes past the end, which only a slip asks for, read as 0.
pub fn word_at(bytes: &[u8], offset: u64) -> u64 {
    let offset = offset as usize;
    match bytes.get(offset..offset + ENTRY_BYTES as usize) {
        Some(word) => u64::from_le_bytes(word.try_into().expect("a word has 8 bytes")),
        None => 0,
    }
}

pub fn is_canonical(address: u64, slip: Slip) -> bool {
    match slip {
        Slip::CanonicalUnjudged => true,
        Slip::CanonicalBit47Free => matches!(bits(address, 48, 63), 0 | 0xFFFF),
        Slip::HighHalfRefused => bits(address, 47, 63) == 0,
        _ => matches!(bits(address, 47, 63), 0 | 0x1FFFF),
    }
}

/// Nine address bits for each level, from 39-47 down to 12-20.
fn table_index(level: u32, address: u64, slip: Slip) -> u64 {
    let low = 12 + 9 * (LAST_LEVEL - level);
    match slip {
        Slip::IndexLosesTopBit => bits(address, low, low + 7),
        Slip::IndexOfLevelBelow if level < LAST_LEVEL => bits(address, low - 9, low - 1),
        _ => bits(address, low, low + 8),
    }
}

fn frame_of(entry: u64, slip: Slip) -> u64 {
    match slip {
        Slip::FrameLosesBit47 => bits(entry, 12, 46),
        Slip::FrameTakesHighBits => bits(entry, 12, 63),
        _ => bits(entry, 12, 47),
    }
}

/// Bit 7 makes a large page at levels two and three only.
fn is_large(entry: u64, level: u32, slip: Slip) -> bool {
    let at_level = match slip {
        Slip::LargeAtLevelOne => true,
        Slip::GigabyteBitIgnored => level == 3,
        Slip::LargeBitIgnored => level == 2,
        _ => level == 2 || level == 3,
    };
    at_level && is_set(entry, LARGE)
}

/// Bit 7 itself where it makes no large page; where it does, any of the bits from 13 up to the page's base.
fn has_reserved(entry: u64, upper: Upper, slip: Slip) -> bool {
    let asked = is_set(entry, LARGE) || slip == Slip::ReservedOnTableEntry;
    let ignored = match slip {
        Slip::ReservedNotKnown => true,
        Slip::FirstLevelBit7Ignored | Slip::LargeAtLevelOne => upper == Upper::First,
        Slip::TopEntryBit7Ignored | Slip::TopEntryLarge => upper == Upper::Top,
        Slip::GigabyteReservedTaken => upper == Upper::Gigabyte,
        Slip::TwoMegabyteReservedTaken => upper == Upper::TwoMegabyte,
        _ => false,
    };
    let reserved = match upper {
        Upper::First | Upper::Top => bits(entry, LARGE, LARGE),
        Upper::Gigabyte => gigabyte_reserved(entry, slip),
        Upper::TwoMegabyte => two_megabyte_reserved(entry, slip),
    };
    asked && !ignored && reserved != 0
}

fn gigabyte_reserved(entry: u64, slip: Slip) -> u64 {
    match slip {
        Slip::GigabyteReservedFromBit12 => bits(entry, 12, 29),
        Slip::GigabyteReservedFromBit14 => bits(entry, 14, 29),
        Slip::GigabyteReservedToBit20 => bits(entry, 13, 20),
        Slip::GigabyteReservedToBit28 => bits(entry, 13, 28),
        Slip::GigabyteReservedToBit30 => bits(entry, 13, 30),
        _ => bits(entry, 13, 29),
    }
}

fn two_megabyte_reserved(entry: u64, slip: Slip) -> u64 {
    match slip {
        Slip::TwoMegabyteReservedFromBit12 => bits(entry, 12, 20),
        Slip::TwoMegabyteReservedFromBit14 => bits(entry, 14, 20),
        Slip::TwoMegabyteReservedToBit19 => bits(entry, 13, 19),
        Slip::TwoMegabyteReservedToBit21 => bits(entry, 13, 21),
        _ => bits(entry, 13, 20),
    }
}

/// 30 at level two, 21 at level three.
fn lowest_base_bit(level: u32) -> u32 {
    12 + 9 * (LAST_LEVEL - level)
}

/// The base from the entry, the frame within the large page from the address.
fn large_frame(entry: u64, level: u32, address: u64, slip: Slip) -> u64 {
    let low = match slip {
        Slip::GigabyteTakenAs2MiB => lowest_base_bit(3),
        _ => lowest_base_bit(level),
    };
    let base = match slip {
        Slip::LargePageTakesLowBaseBits => bits(entry, 12, 47),
        _ => bits(entry, low, 47) << (low - 12),
    };
    match slip {
        Slip::LargePageLosesAddressBits if level == 3 => base,
        Slip::GigabytePageLosesAddressBits if level == 2 => base,
        _ => base | bits(address, 12, low - 1),
    }
}

fn place_in_page(address: u64, slip: Slip) -> u64 {
    match slip {
        Slip::PlaceInPageDropped => 0,
        _ => bits(address, 0, 11),
    }
}

fn is_transition(entry: u64, slip: Slip) -> bool {
    let transition = is_set(entry, TRANSITION);
    match slip {
        Slip::TransitionBeforePrototype => transition,
        _ => transition && !is_set(entry, PROTOTYPE),
    }
}

/// Bits 1-4 of a software entry are its pagefile's number.
fn is_other_pagefile(entry: u64, slip: Slip) -> bool {
    match slip {
        Slip::OtherPagefileTaken => false,
        Slip::OtherPagefileBy3Bits => bits(entry, 1, 3) != 0,
        Slip::OtherPagefileBy5Bits => bits(entry, 1, 5) != 0,
        _ => bits(entry, 1, 4) != 0,
    }
}

fn is_stored(entry: u64, slip: Slip) -> bool {
    match slip {
        Slip::StoreNotKnown => false,
        Slip::StoreByBit21 => is_set(entry, IN_STORE - 1),
        Slip::StoreByBit23 => is_set(entry, IN_STORE + 1),
        _ => is_set(entry, IN_STORE),
    }
}

/// For slips: the entry as if its page were not in the store.
fn without_store(entry: u64) -> u64 {
    entry & !(1 << IN_STORE)
}

fn is_vad_prototype(entry: u64, slip: Slip) -> bool {
    match slip {
        Slip::VadPrototypeFollowed => false,
        Slip::VadByHighBits => bits(entry, 32, 63) == bits(VAD_PROTOTYPE, 16, 47),
        Slip::VadByLowBits => bits(entry, 16, 47) == bits(VAD_PROTOTYPE, 0, 31),
        Slip::VadWithOtherBitsFollowed => entry == VAD_PROTOTYPE << 16 | 1 << PROTOTYPE,
        _ => bits(entry, 16, 63) == VAD_PROTOTYPE,
    }
}

/// Bits 16-63, extended from their top bit to 64 bits.
fn prototype_address(entry: u64, slip: Slip) -> u64 {
    let address = match slip {
        Slip::PrototypeAddressFromFrameBits => bits(entry, 12, 47),
        _ => bits(entry, 16, 63),
    };
    let extended = match slip {
        Slip::PrototypeNotExtended => false,
        Slip::PrototypeAlwaysExtended => true,
        _ => is_set(address, 47),
    };
    if extended {
        address | 0xFFFF << 48
    } else {
        address
    }
}

/// 29, then 28 if three prototype entries are on the chain already.
fn judge_prototype_address(target: u64, prototypes: u32, slip: Slip) -> Result<(), Refusal> {
    let unaligned = match slip {
        Slip::PrototypeUnalignedTaken => false,
        Slip::PrototypeUnalignedBy4Taken => target % 4 != 0,
        _ => target % ENTRY_BYTES != 0,
    };
    let most = match slip {
        Slip::ThirdPrototypeRefused => 2,
        Slip::FourthPrototypeTaken => 4,
        _ => 3,
    };
    let chain_full = prototypes >= most;
    if chain_full && slip == Slip::PrototypeUnalignedAfterChain {
        return Err(FOURTH_PROTOTYPE);
    }
    if unaligned {
        return Err(UNALIGNED_PROTOTYPE);
    }
    if chain_full {
        return Err(FOURTH_PROTOTYPE);
    }
    Ok(())
}

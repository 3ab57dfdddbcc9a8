//! Maps: the pages of a range written as extents, and an address looked up in them.

use super::codes::{
    has_page, is_code, refuses, IMAGE, NOT_CANONICAL, PAGEFILE, PAGE_IN_STORE, RESERVED_BIT_SET,
    STATE_NOT_FOLLOWED, UNALIGNED_PROTOTYPE, ZEROS,
};
use super::number::{append, Fault, Numbers, Refusal, NUMBER_LIMIT, OUTSIDE_LIMITS};
use super::sheet::{BYTES_AFTER_LAST_FIELD, FOUR_LEVEL};
use super::slip::Slip;
use super::walk::{is_canonical, Files, Place, Walk, NARROW_LIMIT, PAGE_BYTES};

/// The map range is wrong.
const RANGE_WRONG: Refusal = 40;
/// The address is outside the map.
const OUTSIDE_MAP: Refusal = 41;
/// An extent is wrong.
const EXTENT_WRONG: Refusal = 43;
/// The map buffer is too short.
const BUFFER_TOO_SHORT: Refusal = 44;

const EDITION: u64 = 1;

/// The most pages that a range has.
pub const MOST_PAGES: u64 = 1 << 20;
/// The pages of one half of the address space.
pub const HALF_PAGES: u64 = 1 << 35;

/// What a map call says; the map itself is in the lent buffer.
pub struct Written {
    pub number: u64,
    pub length: u64,
}

/// What a lookup says.
pub struct Found {
    pub number: u64,
    pub offset: u64,
}

/// Neighbour pages with the same code, and for 1 and 2 with file pages in order.
#[derive(Clone, Copy)]
pub struct Extent {
    pub code: u64,
    pub length: u64,
    /// The first page in the file, 0 for codes without one.
    pub first_page: u64,
}

/// What an accepted map says.
#[derive(Default)]
pub struct Map {
    pub start_page: u64,
    pub pages: u64,
    pub extents: Vec<Extent>,
}

impl Map {
    /// The addresses of the first and the last page of each extent with a code.
    pub fn ends_with(&self, code: u64) -> Vec<u64> {
        let mut ends = Vec::new();
        let mut page = self.start_page;
        for extent in &self.extents {
            if extent.code == code {
                ends.extend([page, page + extent.length - 1].map(page_address));
            }
            page += extent.length;
        }
        ends
    }
}

/// The fault in judging where a range ends, if any.
#[derive(Clone, Copy, PartialEq)]
enum EndFault {
    None,
    HalfCrossed,
    TopCrossed,
    HalfEndRefused,
    TopEndRefused,
}

/// Writes the map of a range into the front of the buffer, or nothing at all.
pub fn map(files: Files, start: u64, pages: u64, buffer: &mut [u8], slip: Slip) -> Written {
    let fault = match map_bytes(files, start, pages, slip) {
        Ok(bytes) => return hand_over(&bytes, buffer, slip),
        Err(fault) => fault,
    };
    let refusal = match slip {
        Slip::RoomBeforeRange if fault.refusal == RANGE_WRONG && buffer.is_empty() => {
            BUFFER_TOO_SHORT
        }
        _ => fault.refusal,
    };
    Written {
        number: u64::from(refusal),
        length: match slip {
            Slip::MapCallPositionDropped => 0,
            _ => fault.position,
        },
    }
}

/// The bytes of the map, whether they fit or not; else the sheet's fault or 40.
pub fn map_bytes(files: Files, start: u64, pages: u64, slip: Slip) -> Result<Vec<u8>, Fault> {
    if slip == Slip::RangeBeforeSheet {
        judge_range(start, pages, slip)?;
    }
    let judged = match slip {
        Slip::MapOfBadSheetTaken => files.without_rest(),
        _ => files,
    };
    let mut walk = Walk::start(judged, slip)?;
    let pages = match (walk.mode(), slip) {
        (FOUR_LEVEL, _) | (_, Slip::RangePast2To32Taken) => judge_range(start, pages, slip)?,
        _ => judge_narrow_range(start, pages, slip)?,
    };
    Ok(layout(&mut walk, start, pages, slip))
}

/// The same in modes 1 and 2, where a range ends at or below 2^32.
fn judge_narrow_range(start: u64, pages: u64, slip: Slip) -> Result<u64, Refusal> {
    let end = match slip {
        Slip::RangeEndIn64Bits => u128::from(start.wrapping_add(pages.wrapping_mul(PAGE_BYTES))),
        _ => u128::from(start) + u128::from(pages) * u128::from(PAGE_BYTES),
    };
    let highest_end = u128::from(match slip {
        Slip::RangeEndAt2To32Refused => NARROW_LIMIT - 1,
        Slip::RangeLastPageRefused => NARROW_LIMIT - PAGE_BYTES,
        _ => NARROW_LIMIT,
    });
    if slip == Slip::NarrowRangeOf2To32Is20 && start >= NARROW_LIMIT {
        return Err(NOT_CANONICAL);
    }
    let backwards = end < u128::from(start);
    if start % PAGE_BYTES != 0 || pages == 0 || end > highest_end || backwards {
        return Err(RANGE_WRONG);
    }
    Ok((end as u64 - start) / PAGE_BYTES)
}

/// The page count of an allowed range, or 40.
fn judge_range(start: u64, pages: u64, slip: Slip) -> Result<u64, Refusal> {
    if !is_canonical(start, slip) {
        return Err(match slip {
            Slip::NotCanonicalStartIs20 => NOT_CANONICAL,
            _ => RANGE_WRONG,
        });
    }
    let unit = match slip {
        Slip::UnalignedStartTaken => 1,
        Slip::UnalignedStartBy2048Taken => 2048,
        _ => PAGE_BYTES,
    };
    let pages = match slip {
        Slip::CountIn32Bits => u64::from(pages as u32),
        _ => pages,
    };
    let allowed = match slip {
        Slip::NoPagesTaken => 0..=MOST_PAGES,
        Slip::CountLimitOneHigher => 1..=MOST_PAGES + 1,
        Slip::CountLimitOneLower => 1..=MOST_PAGES - 1,
        _ => 1..=MOST_PAGES,
    };
    let fault = match slip {
        Slip::HalfCrossed => EndFault::HalfCrossed,
        Slip::TopCrossed => EndFault::TopCrossed,
        Slip::LastPageOfHalfRefused => EndFault::HalfEndRefused,
        Slip::LastPageOfTopRefused => EndFault::TopEndRefused,
        _ => EndFault::None,
    };
    let wrong = start % unit != 0
        || !allowed.contains(&pages)
        || leaves_half(page_number(start), pages, fault);
    if wrong {
        return Err(RANGE_WRONG);
    }
    Ok(pages)
}

/// Whether so many pages from the first one end past its half.
fn leaves_half(first: u64, pages: u64, fault: EndFault) -> bool {
    let end = first + pages;
    let low = first < HALF_PAGES;
    match fault {
        EndFault::HalfCrossed if low => false,
        EndFault::TopCrossed if !low => false,
        EndFault::HalfEndRefused if low => end >= HALF_PAGES,
        EndFault::TopEndRefused if !low => end >= 2 * HALF_PAGES,
        _ if low => end > HALF_PAGES,
        _ => end > 2 * HALF_PAGES,
    }
}

/// Address bits 12-47.
fn page_number(address: u64) -> u64 {
    address << 16 >> 28
}

/// The first byte's address, bits 48-63 as bit 47.
fn page_address(page: u64) -> u64 {
    ((page << 28) as i64 >> 16) as u64
}

/// Edition, start page, page count and the extents.
fn layout(walk: &mut Walk, start: u64, pages: u64, slip: Slip) -> Vec<u8> {
    let first = page_number(start);
    let written_start = match slip {
        Slip::StartPageOfWholeAddress => start / PAGE_BYTES,
        _ => first,
    };
    let mut bytes = Vec::new();
    for field in [EDITION, written_start, pages] {
        append(field, &mut bytes);
    }
    for extent in extents(walk, first, pages, slip) {
        append(extent.code, &mut bytes);
        append(extent.length, &mut bytes);
        if has_page(extent.code) || slip == Slip::FirstPageForZeros && extent.code == ZEROS {
            append(extent.first_page, &mut bytes);
        }
    }
    bytes
}

/// The answers for all pages in order, neighbours joined.
fn extents(walk: &mut Walk, first: u64, pages: u64, slip: Slip) -> Vec<Extent> {
    let mut extents: Vec<Extent> = Vec::new();
    for page in first..first + pages {
        let address = match slip {
            Slip::PagesOneByteApart => page_address(first) + (page - first),
            _ => page_address(page),
        };
        let next = extent_of_page(walk.resolve(address), slip);
        let at_table = page % 512 == 0 && slip == Slip::JoinStopsAtTable;
        match extents.last_mut() {
            Some(open) if belongs(open, &next, slip) && !at_table => open.length += 1,
            _ => extents.push(next),
        }
    }
    spoil(&mut extents, pages, slip);
    extents
}

/// The number as code, and the file page of the offset.
fn extent_of_page(place: Result<Place, Refusal>, slip: Slip) -> Extent {
    let (code, offset) = match place {
        Ok(Place::Image(offset)) => (IMAGE, offset),
        Ok(Place::Pagefile(offset)) => (PAGEFILE, offset),
        Ok(Place::Zeros) => (ZEROS, 0),
        Err(refusal) => (u64::from(refusal), 0),
    };
    let first_page = match slip {
        Slip::FilePageAsOffset => offset,
        _ => offset / PAGE_BYTES,
    };
    Extent {
        code,
        length: 1,
        first_page,
    }
}

/// Whether the next page belongs to the open extent.
fn belongs(open: &Extent, next: &Extent, slip: Slip) -> bool {
    let both_files = has_page(open.code) && has_page(next.code);
    let both_refused = refuses(open.code) && refuses(next.code);
    let next_page = open.first_page + open.length == next.first_page;
    let same_code = open.code == next.code;
    match slip {
        Slip::NeverJoined => false,
        Slip::ImageNeverJoined if open.code == IMAGE => false,
        Slip::PagefileNeverJoined if open.code == PAGEFILE => false,
        Slip::ZerosNeverJoined if open.code == ZEROS => false,
        Slip::RefusalsNeverJoined if both_refused => false,
        Slip::JoinedByCodeAlone => same_code,
        Slip::JoinedByPageAlone if both_files => next_page,
        Slip::JoinedToSamePage if both_files && open.first_page == next.first_page => same_code,
        Slip::JoinedDownwards if both_files && open.first_page == next.first_page + 1 => same_code,
        Slip::RefusalsJoinedAlike if both_refused => true,
        _ => same_code && (next_page || !has_page(open.code)),
    }
}

/// The faults that change finished extents.
fn spoil(extents: &mut Vec<Extent>, pages: u64, slip: Slip) {
    match slip {
        Slip::FirstExtentOnly if extents.len() > 1 => {
            extents.truncate(1);
            extents.push(Extent {
                code: u64::from(UNALIGNED_PROTOTYPE),
                length: pages - extents[0].length,
                first_page: 0,
            });
        }
        Slip::ExtentOnePageTooLong => extents.iter_mut().for_each(|extent| extent.length += 1),
        Slip::LastExtentDropped => drop(extents.pop()),
        Slip::FirstPageOfLast => extents
            .iter_mut()
            .for_each(|extent| extent.first_page += extent.length - 1),
        _ => {}
    }
}

/// Writes the map and its length, or only says 44.
fn hand_over(bytes: &[u8], buffer: &mut [u8], slip: Slip) -> Written {
    let fits = match slip {
        Slip::FortyFourAtExactLength => bytes.len() < buffer.len(),
        Slip::ShortBufferTaken => true,
        _ => bytes.len() <= buffer.len(),
    };
    let held = bytes.len().min(buffer.len());
    if fits || slip == Slip::WritesBeforeFit {
        buffer[..held].copy_from_slice(&bytes[..held]);
    }
    if fits && slip == Slip::MapClearsRest {
        buffer[held..].fill(0);
    }
    let number = match fits {
        true => 0,
        false => u64::from(BUFFER_TOO_SHORT),
    };
    let length = match slip {
        Slip::LengthOnFortyFour => bytes.len(),
        _ if !fits => 0,
        Slip::LengthOfMapBuffer => buffer.len(),
        _ => bytes.len(),
    };
    Written {
        number,
        length: length as u64,
    }
}

/// Number and offset for an address in a map.
pub fn lookup(bytes: &[u8], address: u64, slip: Slip) -> Found {
    find(bytes, address, slip).unwrap_or_else(|fault| Found {
        number: fault.number(),
        offset: match slip {
            Slip::LookupPositionDropped => 0,
            _ => fault.position,
        },
    })
}

/// The map's own faults, then 20, then 41, then what the extent says.
fn find(bytes: &[u8], address: u64, slip: Slip) -> Result<Found, Fault> {
    if slip == Slip::CanonicalBeforeFaults {
        judge_canonical(address, slip)?;
    }
    let mut map = Map::default();
    let mut numbers = Numbers::new(bytes, number_slip(slip));
    let verdict = read_fields(&mut numbers, &mut map, slip);
    let place = judge_inside(&map, address, slip);
    if slip == Slip::OutsideBeforeFaults && map.pages > 0 {
        place?;
    }
    if slip == Slip::LookupAnswersBeforeLastByte && is_canonical(address, slip) {
        let found = place.and_then(|place| answer(&map, place, address, slip));
        if let Ok(found) = found {
            return Ok(found);
        }
    }
    verdict?;
    if slip == Slip::OutsideBeforeCanonical {
        place?;
    }
    judge_canonical(address, slip)?;
    Ok(answer(&map, place?, address, slip)?)
}

fn judge_canonical(address: u64, slip: Slip) -> Result<(), Refusal> {
    if slip == Slip::LookupOf2To32Is20 && address >= NARROW_LIMIT {
        return Err(NOT_CANONICAL);
    }
    if !is_canonical(address, slip) && slip != Slip::NotCanonicalTaken {
        return Err(NOT_CANONICAL);
    }
    Ok(())
}

/// Which page of the map the address is in, counted from 0, or 41.
fn judge_inside(map: &Map, address: u64, slip: Slip) -> Result<u64, Refusal> {
    let page = match slip {
        Slip::LookupPageIn35Bits => page_number(address) % HALF_PAGES,
        _ => page_number(address),
    };
    let end = map.start_page + map.pages;
    match slip {
        Slip::PageBeforeTaken if page + 1 == map.start_page => Ok(0),
        Slip::PageBehindTaken if page == end && map.pages > 0 => Ok(map.pages - 1),
        Slip::FirstPageOutside if page == map.start_page => Err(OUTSIDE_MAP),
        Slip::LastPageOutside if page + 1 == end => Err(OUTSIDE_MAP),
        _ if (map.start_page..end).contains(&page) => Ok(page - map.start_page),
        _ => Err(OUTSIDE_MAP),
    }
}

/// What the extent of a page says; only slips leave a page without one.
fn answer(map: &Map, place: u64, address: u64, slip: Slip) -> Result<Found, Refusal> {
    let mut pages_before = 0;
    for extent in &map.extents {
        let place = place - pages_before;
        let inside = match slip {
            Slip::LookupTakesExtentBefore => place <= extent.length,
            _ => place < extent.length,
        };
        if inside {
            return Ok(found_in(extent, place, address, slip));
        }
        pages_before += extent.length;
    }
    Err(OUTSIDE_MAP)
}

/// Code and offset for a byte in an extent's page of this number, counted from 0.
fn found_in(extent: &Extent, page: u64, address: u64, slip: Slip) -> Found {
    let place = address % PAGE_BYTES;
    let page = match slip {
        Slip::LookupForgetsPageInExtent => 0,
        Slip::LookupCountsPagesFromOne => page + 1,
        _ => page,
    };
    let page_start = PAGE_BYTES * (extent.first_page + page);
    let offset = match slip {
        Slip::LookupForgetsPlaceInPage if has_page(extent.code) => page_start,
        _ if has_page(extent.code) => page_start + place,
        Slip::LookupKeepsPlaceInZeros if extent.code == ZEROS => place,
        Slip::LookupKeepsPlaceInRefusal if extent.code != ZEROS => place,
        _ => 0,
    };
    Found {
        number: extent.code,
        offset,
    }
}

/// What an accepted map says, or its first fault.
pub fn read_map(bytes: &[u8]) -> Result<Map, Fault> {
    let mut map = Map::default();
    read_fields(&mut Numbers::new(bytes, Slip::None), &mut map, Slip::None)?;
    Ok(map)
}

/// The fault in reading numbers that a fault in reading maps stands for.
fn number_slip(slip: Slip) -> Slip {
    match slip {
        Slip::MapLastGroupZeroTaken => Slip::LastGroupZeroTaken,
        Slip::MapSixthGroupZeroTaken => Slip::SixthGroupZeroTaken,
        Slip::MapOnlyZeroMustBeShortest => Slip::OnlyZeroMustBeShortest,
        Slip::MapSixthGroupRefused => Slip::SixthGroupRefused,
        Slip::MapSeventhGroupTaken => Slip::SeventhGroupTaken,
        Slip::MapSixthGroupTopBitAtEndIs10 => Slip::SixthGroupTopBitAtEndIs10,
        Slip::MapFiveGroupsAtEndIs11 => Slip::FiveGroupsAtEndIs11,
        Slip::MapHighestGroupFirst => Slip::HighestGroupFirst,
        Slip::MapLimitOneTooHigh => Slip::LimitOneTooHigh,
        Slip::MapLimitOneTooLow => Slip::LimitOneTooLow,
        Slip::MapLimitDropped => Slip::LimitDropped,
        Slip::MapNotShortestIs11 => Slip::NotShortestIs11,
        Slip::MapTooLongIs18 => Slip::TooLongIs18,
        Slip::MapBadFormsSwapped => Slip::BadFormsSwapped,
        Slip::MapPositionOfLastGroup => Slip::PositionOfLastGroup,
        Slip::MapPositionBehindNumber => Slip::PositionBehindNumber,
        Slip::MapPositionFor10 => Slip::PositionFor10,
        Slip::MapPositionFor12 => Slip::PositionFor12,
        _ => Slip::None,
    }
}

/// Fills the map from left to right, up to its first fault.
fn read_fields(numbers: &mut Numbers, map: &mut Map, slip: Slip) -> Result<(), Fault> {
    let edition = numbers.read()?;
    if slip != Slip::MapEditionJudgedAfterStart {
        judge_edition(edition, slip)?;
    }
    let start_page = numbers.read()?;
    if slip == Slip::MapEditionJudgedAfterStart {
        judge_edition(edition, slip)?;
    }
    let pages = numbers.read()?;
    let range = judge_map_range(start_page, pages, slip);
    if slip != Slip::MapRangeJudgedAfterExtents {
        range?;
    }
    map.start_page = start_page;
    map.pages = pages;
    read_extents(numbers, map, slip)?;
    range?;
    if !numbers.at_end() && slip != Slip::MapTrailingTaken {
        return Err(BYTES_AFTER_LAST_FIELD.into());
    }
    Ok(())
}

fn judge_edition(edition: u64, slip: Slip) -> Result<(), Refusal> {
    let known = match slip {
        Slip::MapEditionZeroTaken => edition <= EDITION,
        Slip::MapEditionTwoTaken => edition == EDITION || edition == 2,
        _ => edition == EDITION,
    };
    if !known {
        return Err(OUTSIDE_LIMITS);
    }
    Ok(())
}

/// 12 for a page count or a range out of its limits.
fn judge_map_range(start_page: u64, pages: u64, slip: Slip) -> Result<(), Refusal> {
    let allowed = match slip {
        Slip::MapNoPagesTaken => 0..=MOST_PAGES,
        Slip::MapCountLimitOneHigher => 1..=MOST_PAGES + 1,
        Slip::MapCountLimitOneLower => 1..=MOST_PAGES - 1,
        _ => 1..=MOST_PAGES,
    };
    let fault = match slip {
        Slip::MapHalfCrossed => EndFault::HalfCrossed,
        Slip::MapTopCrossed => EndFault::TopCrossed,
        Slip::MapLastPageOfHalfRefused => EndFault::HalfEndRefused,
        Slip::MapLastPageOfTopRefused => EndFault::TopEndRefused,
        _ => EndFault::None,
    };
    if !allowed.contains(&pages) || leaves_half(start_page, pages, fault) {
        return Err(OUTSIDE_LIMITS);
    }
    Ok(())
}

/// Reads extents until their lengths sum to the page count.
fn read_extents(numbers: &mut Numbers, map: &mut Map, slip: Slip) -> Result<(), Fault> {
    let mut verdicts = Ok(());
    let mut sum = 0;
    while sum < map.pages {
        if slip == Slip::MissingExtentsTaken && numbers.at_end() && sum > 0 {
            break;
        }
        let room = map.pages - sum;
        let extent = read_extent(numbers, room, slip)?;
        let verdict = judge_extent(&extent, map.extents.last(), room, slip);
        if slip == Slip::ExtentsJudgedAfterLast {
            verdicts = verdicts.and(verdict);
        } else {
            verdict?;
        }
        map.extents.push(extent);
        sum += extent.length;
    }
    Ok(verdicts?)
}

/// The fields of one extent; 43 here only for a code that is not listed.
fn read_extent(numbers: &mut Numbers, room: u64, slip: Slip) -> Result<Extent, Fault> {
    let code = numbers.read()?;
    let listed = is_listed(code, slip);
    if !listed && slip != Slip::CodeJudgedWithExtent {
        return Err(EXTENT_WRONG.into());
    }
    let length = numbers.read()?;
    let early = match slip {
        Slip::LengthZeroJudgedBeforePage => length == 0,
        Slip::SumJudgedBeforePage => length > room,
        _ => !listed,
    };
    if early {
        return Err(EXTENT_WRONG.into());
    }
    let first_page = match has_page(code) {
        true => numbers.read()?,
        false => 0,
    };
    Ok(Extent {
        code,
        length,
        first_page,
    })
}

fn is_listed(code: u64, slip: Slip) -> bool {
    match slip {
        Slip::CodeZeroTaken if code == 0 => true,
        Slip::CodeFourTaken if code == ZEROS + 1 => true,
        Slip::CodeTwentyTaken if code == u64::from(NOT_CANONICAL) => true,
        Slip::CodeThirtyTaken if code == u64::from(UNALIGNED_PROTOTYPE) + 1 => true,
        Slip::CodeThirtyOneUnlisted if code == u64::from(PAGE_IN_STORE) => false,
        Slip::CodeThirtyTwoTaken if code == u64::from(PAGE_IN_STORE) + 1 => true,
        Slip::CodeThirtyThreeUnlisted if code == u64::from(RESERVED_BIT_SET) => false,
        Slip::CodeThirtyFourUnlisted if code == u64::from(STATE_NOT_FOLLOWED) => false,
        Slip::CodeThirtyFiveTaken if code == u64::from(STATE_NOT_FOLLOWED) + 1 => true,
        Slip::CodeThirtySevenTaken if code == u64::from(STATE_NOT_FOLLOWED) + 3 => true,
        _ => is_code(code),
    }
}

/// 43 for an extent with all its fields read but a rule broken.
fn judge_extent(
    extent: &Extent,
    before: Option<&Extent>,
    room: u64,
    slip: Slip,
) -> Result<(), Refusal> {
    let empty = extent.length == 0 && slip != Slip::ExtentLengthZeroTaken;
    let highest_end = match slip {
        Slip::TopPageTaken => NUMBER_LIMIT + 1,
        Slip::TopPageRefused => NUMBER_LIMIT - 1,
        _ => NUMBER_LIMIT,
    };
    let past_top = has_page(extent.code) && extent.first_page + extent.length > highest_end;
    let past_count = extent.length > room && slip != Slip::SumPastTaken;
    let unjoined = before.map_or(false, |before| continues(before, extent, slip));
    if empty || past_top || past_count || unjoined {
        return Err(EXTENT_WRONG);
    }
    Ok(())
}

/// Whether an extent goes on where the one before it ended, so that both must be one.
fn continues(before: &Extent, extent: &Extent, slip: Slip) -> bool {
    let same_code = before.code == extent.code;
    let both_files = has_page(before.code) && has_page(extent.code);
    let next_page = before.first_page + before.length == extent.first_page;
    match slip {
        Slip::UnjoinedTaken => false,
        Slip::UnjoinedFileTaken if both_files => false,
        Slip::UnjoinedZerosTaken if before.code == ZEROS => false,
        Slip::UnjoinedRefusalTaken if refuses(before.code) => false,
        Slip::SameCodeRefused => same_code,
        Slip::NextPageOfOtherFileRefused if both_files => next_page,
        _ => same_code && (next_page || !both_files),
    }
}

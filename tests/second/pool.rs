//! The pool headers of an image, in the layout of Windows XP and later on 32-bit machines.

use super::lists::Written;
use super::number::Refusal;
use super::slip::Slip;
use super::walk::PAGE_BYTES;
use std::ops::Range;

/// The image is not whole pages.
const NOT_WHOLE_PAGES: Refusal = 70;
/// There are more headers than places in the list buffer.
const TOO_MANY_HEADERS: Refusal = 71;

/// Sizes count these, and a header has as many.
pub const UNIT_BYTES: u64 = 8;
/// The top bits of the tag's three lower bytes.
pub const TAG_BITS: u32 = 0x0080_8080;

/// Makes the enum of all conditions, and the list of them.
macro_rules! conditions {
    ($($(#[$about:meta])* $name:ident)*) => {
        /// What a header must meet to count, in the paper's order.
        #[derive(Clone, Copy, PartialEq, Eq, Debug)]
        pub enum Condition {
            $($(#[$about])* $name,)*
        }
        const CONDITIONS: &[Condition] = &[$(Condition::$name),*];
    };
}

conditions! {
    /// The offset is a multiple of 8.
    OffsetAligned
    /// BlockSize is at least 1.
    BlockSizeNotZero
    /// The block ends inside the page, at the latest at its end.
    EndsInPage
    /// PreviousSize is 0 exactly at the page's start.
    ZeroExactlyAtStart
    /// PreviousSize does not reach before the page's start.
    ReachesNotBefore
    /// Elsewhere than at the start, the block that it points back to has that BlockSize.
    BlockBeforeAgrees
    /// A block that follows in the page has our BlockSize as its PreviousSize.
    BlockBehindAgrees
    /// The tag has none of its three bits.
    TagBitsClear
}

/// What stands at an offset of an image, read as a header: two 16-bit words and a tag, each with its lowest byte first.
pub struct Header<'a> {
    image: &'a [u8],
    pub offset: u64,
    bytes: [u8; UNIT_BYTES as usize],
    slip: Slip,
}

/// The fields; sizes count units.
impl<'a> Header<'a> {
    /// None if it would not lie in the image.
    pub fn at(image: &'a [u8], offset: u64, slip: Slip) -> Option<Self> {
        let bytes = *image.get(offset as usize..)?.first_chunk()?;
        Some(Header {
            image,
            offset,
            bytes,
            slip,
        })
    }

    fn first_word(&self) -> u64 {
        u64::from(u16::from_le_bytes([self.bytes[0], self.bytes[1]]))
    }

    fn second_word(&self) -> u64 {
        u64::from(u16::from_le_bytes([self.bytes[2], self.bytes[3]]))
    }

    pub fn previous_size(&self) -> u64 {
        match self.slip {
            Slip::PreviousSizeIn8Bits => self.first_word() & 0xFF,
            Slip::PreviousSizeIn10Bits => self.first_word() & 0x3FF,
            Slip::SizesInEachOthersPlace => self.second_word() & 0x1FF,
            Slip::ByteWideLayout => u64::from(self.bytes[0]),
            _ => self.first_word() & 0x1FF,
        }
    }

    pub fn pool_index(&self) -> u64 {
        self.first_word() >> 9
    }

    pub fn block_size(&self) -> u64 {
        match self.slip {
            Slip::BlockSizeIn8Bits => self.second_word() & 0xFF,
            Slip::BlockSizeIn10Bits => self.second_word() & 0x3FF,
            Slip::SizesInEachOthersPlace => self.first_word() & 0x1FF,
            Slip::ByteWideLayout => u64::from(self.bytes[3]),
            _ => self.second_word() & 0x1FF,
        }
    }

    pub fn pool_type(&self) -> u64 {
        self.second_word() >> 9
    }

    pub fn tag(&self) -> u32 {
        let [.., first, second, third, fourth] = self.bytes;
        match self.slip {
            Slip::TagHighestByteFirst => u32::from_be_bytes([first, second, third, fourth]),
            _ => u32::from_le_bytes([first, second, third, fourth]),
        }
    }
}

/// The conditions.
impl Header<'_> {
    pub fn counts(&self) -> bool {
        self.missed().next().is_none() && self.other_fields_fit()
    }

    /// The first two conditions that do not hold.
    pub fn first_missed(&self) -> [Option<Condition>; 2] {
        let mut missed = self.missed();
        [missed.next(), missed.next()]
    }

    fn missed(&self) -> impl Iterator<Item = Condition> + '_ {
        let all = CONDITIONS.iter().copied();
        all.filter(|condition| !self.meets(*condition))
    }

    fn meets(&self, condition: Condition) -> bool {
        match condition {
            Condition::OffsetAligned => is_aligned(self.offset, self.slip),
            Condition::BlockSizeNotZero => self.is_size_not_zero(),
            Condition::EndsInPage => self.ends_in_page(),
            Condition::ZeroExactlyAtStart => self.is_zero_exactly_at_start(),
            Condition::ReachesNotBefore => self.reaches_not_before(),
            Condition::BlockBeforeAgrees => self.agrees_with_block_before(),
            Condition::BlockBehindAgrees => self.agrees_with_block_behind(),
            Condition::TagBitsClear => self.are_tag_bits_clear(),
        }
    }

    fn place(&self) -> u64 {
        self.offset % PAGE_BYTES
    }

    fn bytes_of(&self, size: u64) -> u64 {
        match self.slip {
            Slip::SizesCount4Bytes => size * 4,
            Slip::SizesCount32Bytes => size * 32,
            _ => size * UNIT_BYTES,
        }
    }

    /// How many bytes back the block before begins.
    fn reach(&self) -> u64 {
        self.bytes_of(self.previous_size())
    }

    /// How many bytes on the block ends.
    fn length(&self) -> u64 {
        self.bytes_of(self.block_size())
    }

    fn is_size_not_zero(&self) -> bool {
        match self.slip {
            Slip::BlockSizeZeroTaken => true,
            Slip::BlockSizeOneRefused => self.block_size() >= 2,
            _ => self.block_size() >= 1,
        }
    }

    fn ends_in_page(&self) -> bool {
        let end = self.place() + self.length();
        match self.slip {
            Slip::EndOneWordPastPageTaken => end <= PAGE_BYTES + UNIT_BYTES,
            Slip::EndPastPageTaken => true,
            Slip::EndAtPageEndRefused => end < PAGE_BYTES,
            _ => end <= PAGE_BYTES,
        }
    }

    /// Other conditions imply this one, so the two slips here drop of them what does.
    fn is_zero_exactly_at_start(&self) -> bool {
        match self.slip {
            Slip::PreviousSizeAtStartTaken if self.place() == 0 => true,
            Slip::PreviousSizeZeroTaken if self.previous_size() == 0 => true,
            _ => (self.previous_size() == 0) == (self.place() == 0),
        }
    }

    fn reaches_not_before(&self) -> bool {
        match self.slip {
            Slip::PreviousSizeAtStartTaken if self.place() == 0 => true,
            Slip::ReachBeforePageTaken => true,
            Slip::ReachOneWordBeforePageTaken => self.reach() <= self.place() + UNIT_BYTES,
            Slip::ReachToStartRefused => self.place() == 0 || self.reach() < self.place(),
            _ => self.reach() <= self.place(),
        }
    }

    /// A block in the page before is asked as well: that it is there is another condition's fault.
    fn agrees_with_block_before(&self) -> bool {
        let is_asked = match self.slip {
            Slip::BlockBeforeNotAsked => false,
            Slip::BlockAtStartNotAsked => self.reach() != self.place(),
            Slip::PreviousSizeZeroTaken => self.reach() > 0 && self.place() > 0,
            _ => self.place() > 0,
        };
        if !is_asked {
            return true;
        }
        let at = self.offset.checked_sub(self.reach());
        let before = at.and_then(|at| Header::at(self.image, at, self.slip));
        before.is_some_and(|before| self.agrees_with_before(&before))
    }

    fn agrees_with_before(&self, before: &Header) -> bool {
        let agrees = before.block_size() == self.previous_size();
        match self.slip {
            Slip::BeforeComparedWithOwnSize => before.block_size() == self.block_size(),
            Slip::BeforeComparedByItsPreviousSize => before.previous_size() == self.previous_size(),
            Slip::FreedBlockBeforeExempted if before.pool_type() == 0 => {
                before.block_size() >= self.previous_size()
            }
            Slip::BlockBeforeMustCount => agrees && before.counts_without_slip(),
            Slip::TagOfBlockBeforeTested => agrees && before.are_tag_bits_clear(),
            Slip::PoolTypesMustBeAlike => agrees && before.is_of_pool_of(self),
            _ => agrees,
        }
    }

    fn agrees_with_block_behind(&self) -> bool {
        let end = self.place() + self.length();
        let is_asked = match self.slip {
            Slip::BlockBehindNotAsked => false,
            Slip::LastWordOfPageNotAsked => end < PAGE_BYTES - UNIT_BYTES,
            Slip::BlockInNextPageAsked => end <= PAGE_BYTES,
            _ => end < PAGE_BYTES,
        };
        let behind = Header::at(self.image, self.offset + self.length(), self.slip);
        behind.map_or(true, |behind| !is_asked || self.agrees_with_behind(&behind))
    }

    fn agrees_with_behind(&self, behind: &Header) -> bool {
        let agrees = behind.previous_size() == self.block_size();
        match self.slip {
            Slip::BehindComparedByItsBlockSize => behind.block_size() == self.block_size(),
            Slip::FreedBlockExempted if self.pool_type() == 0 => {
                behind.previous_size() <= self.block_size()
            }
            Slip::BlockBehindMustCount => agrees && behind.counts_without_slip(),
            Slip::TagOfBlockBehindTested => agrees && behind.are_tag_bits_clear(),
            Slip::PoolTypesMustBeAlike => agrees && behind.is_of_pool_of(self),
            _ => agrees,
        }
    }

    fn are_tag_bits_clear(&self) -> bool {
        let tag = self.tag();
        match self.slip {
            Slip::TagBit7NotTested => tag & 0x0080_8000 == 0,
            Slip::TagBit15NotTested => tag & 0x0080_0080 == 0,
            Slip::TagBit23NotTested => tag & 0x0000_8080 == 0,
            Slip::TagBit31Tested => tag & 0x8080_8080 == 0,
            Slip::TagMayHaveOneBit => (tag & TAG_BITS).count_ones() <= 1,
            Slip::TagZeroRefused => tag != 0 && tag & TAG_BITS == 0,
            _ => tag & TAG_BITS == 0,
        }
    }
}

/// For slips: what no condition asks for.
impl Header<'_> {
    fn other_fields_fit(&self) -> bool {
        match self.slip {
            Slip::PoolTypeTested => matches!(self.pool_type(), 0..=8 | 33..=39),
            Slip::FreedBlockRefused => self.pool_type() != 0,
            Slip::PoolIndexTested => self.pool_index() == 0,
            _ => true,
        }
    }

    fn counts_without_slip(&self) -> bool {
        let header = Header::at(self.image, self.offset, Slip::None);
        header.is_some_and(|header| header.counts())
    }

    /// One of two neighbours is free, or both are paged, or neither is.
    fn is_of_pool_of(&self, other: &Header) -> bool {
        let is_one_free = self.pool_type() == 0 || other.pool_type() == 0;
        is_one_free || self.pool_type() % 2 == other.pool_type() % 2
    }
}

fn is_aligned(offset: u64, slip: Slip) -> bool {
    match slip {
        Slip::UnalignedHeaderTaken => true,
        Slip::HeaderAlignedBy4Taken => offset % 4 == 0,
        Slip::EverySecondWordPassedOver => offset % (2 * UNIT_BYTES) == 0,
        _ => offset % UNIT_BYTES == 0,
    }
}

/// Every offset in the whole pages of an image whose header counts, ascending.
pub fn header_offsets(image: &[u8], slip: Slip) -> Vec<u64> {
    let length = image.len() as u64 / PAGE_BYTES * PAGE_BYTES;
    let end = match slip {
        Slip::HeadersOfLastPageUnsearched => length.saturating_sub(PAGE_BYTES),
        Slip::HeadersOfFirstPageOnly => length.min(PAGE_BYTES),
        _ => length,
    };
    let mut offsets = Vec::new();
    let mut block = 0..0;
    for offset in (0..end).filter(|offset| is_aligned(*offset, slip)) {
        let Some(header) = Header::at(image, offset, slip) else {
            continue;
        };
        if header.counts() && !is_passed_over(offset, &block, slip) {
            offsets.push(offset);
            block = offset..offset + header.length();
        }
    }
    offsets
}

/// Whether a slip does not look at an offset, behind the block of the last header found.
fn is_passed_over(offset: u64, block: &Range<u64>, slip: Slip) -> bool {
    let place = offset % PAGE_BYTES;
    match slip {
        Slip::FirstWordOfPagePassedOver => place == 0,
        Slip::SecondWordOfPagePassedOver => place == UNIT_BYTES,
        Slip::LastWordOfPagePassedOver => place == PAGE_BYTES - UNIT_BYTES,
        Slip::WordBehindHeaderPassedOver => !block.is_empty() && block.start + UNIT_BYTES == offset,
        Slip::HeadersInsideBlocksPassedOver => block.contains(&offset),
        _ => false,
    }
}

/// Writes the offset of each header into the front of the buffer, or none of them.
pub fn pool_headers(image: &[u8], buffer: &mut [u64], slip: Slip) -> Written {
    let offsets = header_offsets(image, slip);
    let verdict = judge(image, &offsets, buffer.len(), slip);
    hand_over(&listed(offsets, slip), verdict, buffer, slip)
}

/// 70 for an image that is not whole pages, then 71 for more headers than places.
fn judge(image: &[u8], offsets: &[u64], room: usize, slip: Slip) -> Result<(), Refusal> {
    let length = image.len() as u64;
    let not_whole = match slip {
        Slip::NotWholePagesTaken => false,
        Slip::WholeWordsTaken => length % UNIT_BYTES != 0,
        Slip::HalfPageTaken => length % (PAGE_BYTES / 2) != 0,
        Slip::EmptyImageRefused => length == 0 || length % PAGE_BYTES != 0,
        _ => length % PAGE_BYTES != 0,
    };
    let in_first_page = offsets.iter().filter(|offset| **offset < PAGE_BYTES);
    let too_many = match slip {
        Slip::RoomUnjudged => false,
        Slip::ExactRoomRefused => offsets.len() >= room,
        Slip::RoomShortByOneTaken => offsets.len() > room + 1,
        Slip::RoomCountedInBytes => UNIT_BYTES as usize * offsets.len() > room,
        Slip::RoomJudgedByFirstPage => in_first_page.count() > room,
        _ => offsets.len() > room,
    };
    match slip {
        Slip::SeventyOneBeforeSeventy if too_many => Err(TOO_MANY_HEADERS),
        Slip::NotWholePagesIs71 if not_whole => Err(TOO_MANY_HEADERS),
        _ if not_whole => Err(NOT_WHOLE_PAGES),
        Slip::TooManyHeadersIs70 if too_many => Err(NOT_WHOLE_PAGES),
        _ if too_many => Err(TOO_MANY_HEADERS),
        _ => Ok(()),
    }
}

/// The list as it is handed back, which only slips change.
fn listed(mut offsets: Vec<u64>, slip: Slip) -> Vec<u64> {
    match slip {
        Slip::HeadersDescend => offsets.reverse(),
        Slip::FirstHeaderDropped if !offsets.is_empty() => drop(offsets.remove(0)),
        Slip::LastHeaderDropped => drop(offsets.pop()),
        Slip::OffsetsInUnits => offsets.iter_mut().for_each(|offset| *offset /= UNIT_BYTES),
        Slip::OffsetsInPage => offsets.iter_mut().for_each(|offset| *offset %= PAGE_BYTES),
        Slip::OffsetsBehindHeader => offsets.iter_mut().for_each(|offset| *offset += UNIT_BYTES),
        _ => {}
    }
    offsets
}

/// Writes the offsets and their number, or only names the refusal.
fn hand_over(
    offsets: &[u64],
    verdict: Result<(), Refusal>,
    buffer: &mut [u64],
    slip: Slip,
) -> Written {
    // Only a slip hands over more headers than there are places.
    let held = offsets.len().min(buffer.len());
    if verdict.is_ok() || slip == Slip::CountingPassWrites {
        buffer[..held].copy_from_slice(&offsets[..held]);
    }
    if verdict.is_ok() && slip == Slip::HeadersClearRest {
        buffer[held..].fill(0);
    }
    let length = match slip {
        Slip::HeaderCountOnRefusal => offsets.len(),
        _ if verdict.is_err() => 0,
        Slip::HeaderCountOfBuffer => buffer.len(),
        Slip::HeaderCountInBytes => offsets.len() * UNIT_BYTES as usize,
        _ => offsets.len(),
    };
    Written {
        number: verdict.err().map_or(0, u64::from),
        length: length as u64,
    }
}

//! What the images of the pool test have in them, each thing to be met often enough.

use crate::common::print::with_commas;
use crate::common::tally::LEAST_TIMES;
use crate::pool_cases::{Case, LARGEST_SIZE};
use crate::second::pool::{header_offsets, Condition, Header, TAG_BITS, UNIT_BYTES};
use crate::second::slip::Slip;
use crate::second::walk::PAGE_BYTES;

/// Makes the enum of all things, and the list of them.
macro_rules! things {
    ($($name:ident)*) => {
        #[derive(Clone, Copy, Debug)]
        enum Thing {
            $($name,)*
        }
        const THINGS: &[Thing] = &[$(Thing::$name),*];
    };
}

things! {
    // What alone keeps a header from counting.
    UnalignedAlone
    SizeZeroAlone
    EndOneWordPastPageAlone
    EndFurtherPastPageAlone
    ReachBeforePageAlone
    BlockBeforeAlone
    BlockBehindAlone
    TagBit7Alone
    TagBit15Alone
    TagBit23Alone
    // Headers that count.
    AtPageStart
    AtLastWordOfPage
    SizeOne
    SizeLargest
    PreviousSizeLargest
    EndAtPageEnd
    EndOneWordBeforePageEnd
    Freed
    PoolIndexNotZero
    TagBit31
    BlockBeforeDoesNotCount
    BlockBehindDoesNotCount
    // Images and the room for their headers.
    NoPage
    NoHeader
    HeadersInEachOfFourPages
    RoomShortByOne
    RoomExact
    RoomLonger
    NotWholePagesAndRoomShort
}

/// How often each thing was met.
pub struct Met {
    times: [u64; THINGS.len()],
    /// How often a condition was missed alone that the others imply.
    impossible: u64,
}

impl Met {
    pub fn new() -> Self {
        Met {
            times: [0; THINGS.len()],
            impossible: 0,
        }
    }

    fn note(&mut self, thing: Thing, is_met: bool) {
        self.times[thing as usize] += u64::from(is_met);
    }

    /// Looks at a case, and hands back how many headers count and how many places there are for them.
    pub fn look(&mut self, case: &Case) -> (usize, usize) {
        let are_whole = case.image.len() as u64 % PAGE_BYTES == 0;
        let headers = match are_whole {
            true => self.look_at_pages(case),
            false => header_offsets(&case.image, Slip::None).len(),
        };
        let room = case.room.places(headers);
        self.note(Thing::RoomShortByOne, are_whole && headers == room + 1);
        self.note(Thing::RoomExact, are_whole && headers == room && room > 0);
        self.note(Thing::RoomLonger, are_whole && headers < room);
        self.note(
            Thing::NotWholePagesAndRoomShort,
            !are_whole && headers > room,
        );
        (headers, room)
    }

    /// Looks at each word, and at each header that was laid elsewhere; how many headers count.
    fn look_at_pages(&mut self, case: &Case) -> usize {
        let image = &case.image[..];
        let words = (0..image.len() as u64).step_by(UNIT_BYTES as usize);
        let laid = case.laid.iter().map(|offset| *offset as u64);
        let offsets = words.chain(laid.filter(|offset| offset % UNIT_BYTES != 0));
        let mut headers = Vec::new();
        for header in offsets.filter_map(|offset| Header::at(image, offset, Slip::None)) {
            match header.first_missed() {
                [None, _] => headers.push(header),
                [Some(condition), None] => self.look_at_miss(&header, condition),
                _ => {}
            }
        }
        for header in &headers {
            self.look_at_header(header, &headers);
        }
        let in_page = |page: u64| {
            let mut pages = headers.iter().map(|header| header.offset / PAGE_BYTES);
            pages.any(|other| other == page)
        };
        self.note(Thing::NoPage, image.is_empty());
        self.note(Thing::NoHeader, !image.is_empty() && headers.is_empty());
        self.note(Thing::HeadersInEachOfFourPages, (0..4).all(in_page));
        headers.len()
    }

    /// A header that misses this condition alone.
    fn look_at_miss(&mut self, header: &Header, condition: Condition) {
        let end = header.offset % PAGE_BYTES + UNIT_BYTES * header.block_size();
        let thing = match condition {
            Condition::OffsetAligned => Thing::UnalignedAlone,
            Condition::BlockSizeNotZero => Thing::SizeZeroAlone,
            Condition::EndsInPage if end == PAGE_BYTES + UNIT_BYTES => {
                Thing::EndOneWordPastPageAlone
            }
            Condition::EndsInPage => Thing::EndFurtherPastPageAlone,
            Condition::ZeroExactlyAtStart => {
                self.impossible += 1;
                return;
            }
            Condition::ReachesNotBefore => Thing::ReachBeforePageAlone,
            Condition::BlockBeforeAgrees => Thing::BlockBeforeAlone,
            Condition::BlockBehindAgrees => Thing::BlockBehindAlone,
            Condition::TagBitsClear => match header.tag() & TAG_BITS {
                0x0000_0080 => Thing::TagBit7Alone,
                0x0000_8000 => Thing::TagBit15Alone,
                0x0080_0000 => Thing::TagBit23Alone,
                _ => return,
            },
        };
        self.note(thing, true);
    }

    /// A header that counts, among all that do.
    fn look_at_header(&mut self, header: &Header, headers: &[Header]) {
        let (offset, place) = (header.offset, header.offset % PAGE_BYTES);
        let (previous_size, block_size) = (header.previous_size(), header.block_size());
        let end = place + UNIT_BYTES * block_size;
        self.note(Thing::AtPageStart, place == 0);
        self.note(Thing::AtLastWordOfPage, place == PAGE_BYTES - UNIT_BYTES);
        self.note(Thing::SizeOne, block_size == 1);
        self.note(Thing::SizeLargest, block_size == LARGEST_SIZE);
        self.note(Thing::PreviousSizeLargest, previous_size == LARGEST_SIZE);
        self.note(Thing::EndAtPageEnd, end == PAGE_BYTES);
        self.note(
            Thing::EndOneWordBeforePageEnd,
            end == PAGE_BYTES - UNIT_BYTES,
        );
        self.note(Thing::Freed, header.pool_type() == 0);
        self.note(Thing::PoolIndexNotZero, header.pool_index() != 0);
        self.note(Thing::TagBit31, header.tag() >> 31 == 1);
        let counts = |other: u64| {
            let place = headers.binary_search_by_key(&other, |header| header.offset);
            place.is_ok()
        };
        let is_before_none = place > 0 && !counts(offset - UNIT_BYTES * previous_size);
        self.note(Thing::BlockBeforeDoesNotCount, is_before_none);
        let is_behind_none = end < PAGE_BYTES && !counts(offset + UNIT_BYTES * block_size);
        self.note(Thing::BlockBehindDoesNotCount, is_behind_none);
    }

    pub fn print(&self) {
        for thing in THINGS {
            let times = with_commas(self.times[*thing as usize]);
            println!("{:>26}{:>14}", format!("{:?}", thing), times);
        }
    }

    /// A reason to fail for each thing that was met too rarely, and for what cannot be.
    pub fn reasons(&self) -> Vec<String> {
        let is_rare = |thing: &&Thing| self.times[**thing as usize] < LEAST_TIMES;
        let rare = THINGS.iter().filter(is_rare).map(|thing| {
            let times = self.times[*thing as usize];
            format!("{:?}: met {} times, wanted {}", thing, times, LEAST_TIMES)
        });
        let impossible = (self.impossible > 0).then(|| {
            format!(
                "a condition that others imply is missed alone: {}",
                self.impossible
            )
        });
        rare.chain(impossible).collect()
    }
}

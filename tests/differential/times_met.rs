//! Where the fields of the times test lie and what they hold, each thing to be met often enough.

use crate::common::codes::{NOT_CANONICAL, PAGE_REFUSALS, PLACES};
use crate::common::print::with_commas;
use crate::common::tally::{print_table, Tally, LEAST_TIMES};
use crate::second::bytes;
use crate::second::codes::{IMAGE, PAGEFILE, ZEROS};
use crate::second::slip::Slip;
use crate::second::times::{FIELD_BYTES, TICKS_A_SECOND, TICKS_LIMIT};
use crate::second::walk::{self, Answer, Files, PAGE_BYTES};
use crate::times_cases::EDGE_TICKS;

/// Makes the enum of all things, and the list of them.
macro_rules! things {
    ($($name:ident)*) => {
        #[derive(Clone, Copy, Debug)]
        enum Thing {
            $($name,)*
        }
        const THINGS: &[Thing] = &[$(Thing::$name),*];
    };
}

things! {
    // Fields that can be read.
    InGigabytePage
    In2MiBPage
    AcrossInLargePages
    BehindThreePrototypes
    BeforeRefusedPage
    UpToTheTop
    UpToTheLowerHalfsEnd
    FromTheUpperHalfsStart
    // Fields that cannot.
    PastTheTop
    PastTheTopWithPageAt0
    PastTheLowerHalf
    PastTheLowerHalfWithUpperPage
    IntoTheUpperHalf
    RefusedInBothPages
    // Eight zeros, and times that are not zero.
    EightZerosInImage
    EightZerosInPagefile
    EightZerosInZeros
    EightZerosPartlyInZeros
    TimePartlyInZeros
    NoSeconds
    NoRest
    LargestRest
    LargestRestPast2To53
    LowHalfZero
    HighHalfZero
}

/// Where the canonical addresses of the lower half end, and where those of the upper half start.
const LOWER_HALF_END: u64 = 1 << 47;
const UPPER_HALF: u64 = 0xFFFF_8000_0000_0000;

/// The kinds of pages that are found.
const KINDS: [&str; 6] = [
    "image",
    "pagefile",
    "zeros",
    "image by prototype",
    "pagefile by prototype",
    "zeros by prototype",
];

/// The kind of an answer, none for a refusal.
fn kind_of(answer: &Answer) -> Option<usize> {
    let place = PLACES.iter().position(|place| *place == answer.number)?;
    match answer.prototypes {
        0 => Some(place),
        _ => Some(PLACES.len() + place),
    }
}

/// Whether a page that is found is a large one, whose entry is above the last level.
fn is_large(answer: &Answer) -> bool {
    answer.prototypes == 0 && answer.entries < 4
}

/// The pages and the content of one field.
struct Field {
    address: u64,
    first: Answer,
    /// The answer for the first byte of the next page, if the field goes into it.
    second: Option<Answer>,
    /// What it holds, if it can be read.
    ticks: Option<u64>,
}

impl Field {
    fn at(files: Files, address: u64) -> Self {
        let resolve = |address| walk::resolve(files, address, Slip::None);
        let mut read = [0; FIELD_BYTES as usize];
        let said = bytes::read(files, address, FIELD_BYTES, &mut read, Slip::None);
        let crosses = address % PAGE_BYTES > PAGE_BYTES - FIELD_BYTES;
        Field {
            address,
            first: resolve(address),
            second: crosses.then(|| resolve(next_page(address))),
            ticks: (said.number == 0).then(|| u64::from_le_bytes(read)),
        }
    }

    fn is_past_top(&self) -> bool {
        self.address.checked_add(FIELD_BYTES - 1).is_none()
    }
}

/// The page behind an address's own; behind the top page the one at 0.
fn next_page(address: u64) -> u64 {
    (address | (PAGE_BYTES - 1)).wrapping_add(1)
}

/// How often each thing was met.
pub struct Met {
    times: [u64; THINGS.len()],
    edges: [u64; EDGE_TICKS.len()],
    /// Fields read: by the page's kind if it is one page, then by the kinds of two.
    in_one: [u64; KINDS.len()],
    in_two: [[u64; KINDS.len()]; KINDS.len()],
    refused_first: Tally,
    refused_second: Tally,
    /// Fields read, by the address's rest of 8, and by how many bytes are in the first of two pages.
    alignments: Tally,
    bytes_in_first: Tally,
}

fn page_refusals() -> Vec<u64> {
    [&[NOT_CANONICAL], PAGE_REFUSALS].concat()
}

impl Met {
    pub fn new() -> Self {
        Met {
            times: [0; THINGS.len()],
            edges: [0; EDGE_TICKS.len()],
            in_one: [0; KINDS.len()],
            in_two: [[0; KINDS.len()]; KINDS.len()],
            refused_first: Tally::new("in first page", page_refusals()),
            refused_second: Tally::new("in second page", page_refusals()),
            alignments: Tally::new("address mod 8", (0..8).collect()),
            bytes_in_first: Tally::new("bytes in first", (1..8).collect()),
        }
    }

    fn note(&mut self, thing: Thing, is_met: bool) {
        self.times[thing as usize] += u64::from(is_met);
    }

    /// Looks at the field at an address of an accepted case.
    pub fn look(&mut self, files: Files, address: u64) {
        let field = Field::at(files, address);
        match field.ticks {
            Some(ticks) => {
                self.look_at_place(files, &field);
                self.look_at_ticks(&field, ticks);
            }
            None => self.look_at_refusal(files, &field),
        }
    }

    /// A field that can be read.
    fn look_at_place(&mut self, files: Files, field: &Field) {
        let Field { address, first, .. } = field;
        let kind = kind_of(first).expect("the field can be read");
        let in_first = PAGE_BYTES - address % PAGE_BYTES;
        self.alignments.count(address % FIELD_BYTES);
        match &field.second {
            None => {
                self.in_one[kind] += 1;
                self.note(Thing::InGigabytePage, is_large(first) && first.entries == 2);
                self.note(Thing::In2MiBPage, is_large(first) && first.entries == 3);
                self.note(Thing::BehindThreePrototypes, first.prototypes == 3);
            }
            Some(second) => {
                let kind_behind = kind_of(second).expect("the field can be read");
                self.in_two[kind][kind_behind] += 1;
                self.bytes_in_first.count(in_first);
                let are_large = is_large(first) && is_large(second);
                self.note(Thing::AcrossInLargePages, are_large);
            }
        }
        if in_first == FIELD_BYTES {
            let behind = walk::resolve(files, next_page(*address), Slip::None);
            self.note(Thing::BeforeRefusedPage, kind_of(&behind).is_none());
        }
        let last = address + (FIELD_BYTES - 1);
        self.note(Thing::UpToTheTop, last == u64::MAX);
        self.note(Thing::UpToTheLowerHalfsEnd, last == LOWER_HALF_END - 1);
        self.note(Thing::FromTheUpperHalfsStart, *address == UPPER_HALF);
    }

    fn look_at_ticks(&mut self, field: &Field, ticks: u64) {
        let place = EDGE_TICKS.iter().position(|(_, edge)| *edge == ticks);
        if let Some(place) = place {
            self.edges[place] += 1;
        }
        let numbers = [Some(&field.first), field.second.as_ref()].map(|page| Some(page?.number));
        let wholly_in = |number| numbers == [Some(number), None];
        let partly_in_zeros =
            numbers[1].is_some() && (numbers[0] == Some(ZEROS)) != (numbers[1] == Some(ZEROS));
        let is_zero = ticks == 0;
        self.note(Thing::EightZerosInImage, is_zero && wholly_in(IMAGE));
        self.note(Thing::EightZerosInPagefile, is_zero && wholly_in(PAGEFILE));
        self.note(Thing::EightZerosInZeros, is_zero && wholly_in(ZEROS));
        self.note(Thing::EightZerosPartlyInZeros, is_zero && partly_in_zeros);
        if is_zero || ticks >= TICKS_LIMIT {
            return;
        }
        let rest = ticks % TICKS_A_SECOND;
        let is_largest = rest == TICKS_A_SECOND - 1;
        self.note(Thing::TimePartlyInZeros, partly_in_zeros);
        self.note(Thing::NoSeconds, ticks < TICKS_A_SECOND);
        self.note(Thing::NoRest, rest == 0);
        self.note(Thing::LargestRest, is_largest);
        self.note(Thing::LargestRestPast2To53, is_largest && ticks >> 53 != 0);
        self.note(Thing::LowHalfZero, ticks as u32 == 0);
        self.note(Thing::HighHalfZero, ticks >> 32 == 0);
    }

    /// A field that is refused, in its first page or else in its second.
    fn look_at_refusal(&mut self, files: Files, field: &Field) {
        let is_found = |page: &Answer| kind_of(page).is_some();
        if kind_of(&field.first).is_none() {
            let number = field.first.number;
            self.refused_first.count(number);
            let second = field.second.as_ref().filter(|_| !field.is_past_top());
            let is_other = |second: &Answer| !is_found(second) && second.number != number;
            self.note(Thing::RefusedInBothPages, second.is_some_and(is_other));
            let into_upper = number == NOT_CANONICAL && next_page(field.address) == UPPER_HALF;
            self.note(
                Thing::IntoTheUpperHalf,
                into_upper && second.is_some_and(is_found),
            );
            return;
        }
        let second = field.second.as_ref().expect("the first page is found");
        if field.is_past_top() {
            self.refused_second.count(NOT_CANONICAL);
            self.note(Thing::PastTheTop, true);
            self.note(Thing::PastTheTopWithPageAt0, is_found(second));
            return;
        }
        self.refused_second.count(second.number);
        if next_page(field.address) == LOWER_HALF_END {
            let upper = walk::resolve(files, UPPER_HALF, Slip::None);
            self.note(Thing::PastTheLowerHalf, true);
            self.note(Thing::PastTheLowerHalfWithUpperPage, is_found(&upper));
        }
    }

    pub fn print(&self) {
        print_table(&[&self.refused_first, &self.refused_second]);
        print_table(&[&self.alignments, &self.bytes_in_first]);
        self.named_times().iter().for_each(|(name, times)| {
            println!("{:>44}{:>12}", name, with_commas(*times));
        });
    }

    /// A reason to fail for each thing that was met too rarely.
    pub fn reasons(&self) -> Vec<String> {
        let mut reasons = self.refused_first.reasons(&page_refusals());
        reasons.extend(self.refused_second.reasons(&page_refusals()));
        reasons.extend(self.alignments.reasons(&(0..8).collect::<Vec<_>>()));
        reasons.extend(self.bytes_in_first.reasons(&(1..8).collect::<Vec<_>>()));
        let named = self.named_times().into_iter();
        let rare = named.filter(|(_, times)| *times < LEAST_TIMES);
        reasons.extend(
            rare.map(|(name, times)| {
                format!("{}: met {} times, wanted {}", name, times, LEAST_TIMES)
            }),
        );
        reasons
    }

    /// All that has a name, with its times.
    fn named_times(&self) -> Vec<(String, u64)> {
        let mut named: Vec<(String, u64)> = Vec::new();
        for (kind, times) in KINDS.iter().zip(&self.in_one) {
            named.push((format!("in one page: {}", kind), *times));
        }
        for (first, row) in KINDS.iter().zip(&self.in_two) {
            for (second, times) in KINDS.iter().zip(row) {
                named.push((format!("{}, {}", first, second), *times));
            }
        }
        for ((ticks, _), times) in EDGE_TICKS.iter().zip(&self.edges) {
            named.push((format!("ticks {}", ticks), *times));
        }
        for thing in THINGS {
            named.push((format!("{:?}", thing), self.times[*thing as usize]));
        }
        named
    }
}

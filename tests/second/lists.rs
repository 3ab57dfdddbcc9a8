//! The processor-block search in the image, and the process list.

use super::codes::{IMAGE, NOT_CANONICAL, REGION_NEEDED};
use super::number::{Fault, Refusal, OUTSIDE_LIMITS};
use super::sheet::{FOUR_LEVEL, PAE, PAGEFILE_LENGTH_WRONG, PLAIN};
use super::slip::Slip;
use super::walk::{bits, is_canonical, word_at, Files, Place, Walk, PAGE_BYTES};

/// Blocks and lists are not served in this mode.
pub const MODE_NOT_SERVED: Refusal = 37;
/// A list address is not a multiple of 8.
const UNALIGNED_LINK: Refusal = 50;
/// A back link differs.
const BACK_LINK_DIFFERS: Refusal = 51;
/// Over 4,096 processes.
const TOO_MANY_PROCESSES: Refusal = 52;
/// The list buffer is too short.
const BUFFER_TOO_SHORT: Refusal = 53;
/// No processor block at or after the offset.
const NO_BLOCK: Refusal = 55;

const WORD_BYTES: u64 = 8;
/// Where a block has its own address.
const SELF: u64 = 0x18;
/// Where a block has an address 0x180 past its own.
const SECOND: u64 = 0x20;
const SECOND_PAST_SELF: u64 = 0x180;
/// Where a block has its directory word, the last one looked at.
const DIRECTORY: u64 = 0x1D0;
/// The last place of a block in its page.
const LAST_PLACE: u64 = 0xE28;
/// Both addresses exceed this.
const ADDRESS_FLOOR: u64 = 0xFFFF_0000_0000_0000;

/// The most nodes that a list has.
pub const MOST_NODES: usize = 4096;

/// What a search says.
pub struct Block {
    pub number: u64,
    pub offset: u64,
    pub entries: u64,
}

/// What a list call says; the nodes are in the lent buffer.
pub struct Written {
    pub number: u64,
    pub length: u64,
}

/// The first processor block not below an offset.
pub fn processor_block(files: Files, from: u64, slip: Slip) -> Block {
    if slip == Slip::PastImageBeforeSheet && from >= files.image.len() as u64 {
        return no_block(NO_BLOCK.into(), 0, slip);
    }
    let judged = match slip {
        Slip::BlockOfBadSheetTaken => files.without_rest(),
        _ => files,
    };
    let early = slip == Slip::BlockModeBeforePagefileLength;
    match start(judged, early, slip) {
        Err(fault) => no_block(fault, 0, slip),
        Ok(walk) => {
            let past_image = from >= files.image.len() as u64;
            let served = match slip {
                Slip::BlockServedInOtherModes => true,
                Slip::BlockServedInPlain => walk.mode() != PAE,
                Slip::BlockServedInPae => walk.mode() != PLAIN,
                Slip::BlockModeAfterPastImage if past_image => true,
                _ => walk.mode() == FOUR_LEVEL,
            };
            if !served {
                return no_block(mode_refusal(slip).into(), 0, slip);
            }
            Search {
                walk,
                image: files.image,
                slip,
                entries: 0,
                found: None,
            }
            .run(from)
        }
    }
}

/// The walk over an accepted case; a slip judges the mode before the pagefile's length.
fn start(files: Files, early: bool, slip: Slip) -> Result<Walk, Fault> {
    let walk = Walk::start(files, slip);
    let is_16 = matches!(&walk, Err(fault) if fault.refusal == PAGEFILE_LENGTH_WRONG);
    if early && is_16 {
        let mode = Walk::start(files.without_rest(), slip)?.mode();
        return match mode {
            FOUR_LEVEL => walk,
            _ => Err(MODE_NOT_SERVED.into()),
        };
    }
    walk
}

fn mode_refusal(slip: Slip) -> Refusal {
    match slip {
        Slip::OtherModeIs55 => NO_BLOCK,
        Slip::OtherModeIs12 => OUTSIDE_LIMITS,
        _ => MODE_NOT_SERVED,
    }
}

fn no_block(fault: Fault, entries: u64, slip: Slip) -> Block {
    Block {
        number: fault.number(),
        offset: match slip {
            Slip::BlockPositionDropped => 0,
            _ => fault.position,
        },
        entries,
    }
}

/// A search over an accepted case.
struct Search<'a> {
    walk: Walk<'a>,
    image: &'a [u8],
    slip: Slip,
    /// The entries read for all candidates so far.
    entries: u64,
    found: Option<Block>,
}

impl Search<'_> {
    fn run(mut self, from: u64) -> Block {
        let length = self.image.len() as u64;
        let end = match self.slip {
            Slip::LastPageUnsearched => length - PAGE_BYTES,
            _ => length,
        };
        let step = match self.slip {
            Slip::SearchBy16 => 16,
            Slip::SearchBy4 => 4,
            _ => WORD_BYTES,
        };
        let first = match self.slip {
            Slip::SearchIgnoresOffset => Some(0),
            Slip::SearchSkipsOffset => (from / step + 1).checked_mul(step),
            Slip::SearchRoundsDown => Some(from / step * step),
            _ => from.checked_next_multiple_of(step),
        };
        let mut offset = first.unwrap_or(end);
        while offset < end {
            if self.is_last(offset) {
                break;
            }
            offset += step;
        }
        let kept = match self.slip {
            Slip::CountKeptFor55 => self.entries,
            _ => 0,
        };
        self.found
            .unwrap_or(no_block(NO_BLOCK.into(), kept, self.slip))
    }

    /// Looks at an offset; true if the search is over.
    fn is_last(&mut self, offset: u64) -> bool {
        let Some((own, directory)) = candidate(self.image, offset, self.slip) else {
            return false;
        };
        if self.slip != Slip::DirectoryOfSheet {
            self.walk.set_directory_page(directory);
        }
        let place = self.walk.resolve(own);
        self.entries += self.walk.entries_read();
        if leads_back(place, offset, self.slip) {
            self.found = Some(Block {
                number: IMAGE,
                offset,
                entries: match self.slip {
                    Slip::CountOfAllCandidates => self.entries,
                    Slip::CountOfBlockDropped => 0,
                    _ => self.walk.entries_read(),
                },
            });
            return self.slip != Slip::LastBlockFound;
        }
        self.slip == Slip::FirstCandidateOnly
    }
}

/// Its own address and its directory page, if the words at an offset are those of a block.
fn candidate(image: &[u8], offset: u64, slip: Slip) -> Option<(u64, u64)> {
    let last_place = match slip {
        Slip::InPageLimitOneHigher => LAST_PLACE + WORD_BYTES,
        Slip::InPageLimitOneLower => LAST_PLACE - WORD_BYTES,
        Slip::InPageLimitDropped => PAGE_BYTES,
        _ => LAST_PLACE,
    };
    if offset % PAGE_BYTES > last_place {
        return None;
    }
    let own = word_at(image, offset + SELF);
    let second = word_at(image, offset + SECOND);
    let directory = word_at(image, offset + DIRECTORY);
    if !are_addresses(own, second, slip) || is_wide(directory, slip) {
        return None;
    }
    let directory_page = match slip {
        Slip::DirectoryLosesBit47 => bits(directory, 12, 46),
        Slip::DirectoryTakesHighBits => bits(directory, 12, 63),
        _ => bits(directory, 12, 47),
    };
    Some((own, directory_page))
}

/// Whether both exceed the floor and the second is 0x180 past the first.
fn are_addresses(own: u64, second: u64, slip: Slip) -> bool {
    let floor = match slip {
        Slip::LowHalfSelf => 0,
        Slip::HighHalfStartRefused => 0xFFFF_8000_0000_0000,
        _ => ADDRESS_FLOOR,
    };
    let past = match slip {
        Slip::WrongDelta => SECOND_PAST_SELF + WORD_BYTES,
        _ => SECOND_PAST_SELF,
    };
    let second_fits = own.checked_add(past) == Some(second) && second > floor;
    own > floor && (second_fits || slip == Slip::SecondUnjudged)
}

/// Whether bits 48-51 of the directory word are not all 0.
fn is_wide(directory: u64, slip: Slip) -> bool {
    match slip {
        Slip::WideDirectoryTaken => false,
        Slip::WideDirectoryBit51Taken => bits(directory, 48, 50) != 0,
        Slip::WideDirectoryFromBit47 => bits(directory, 47, 51) != 0,
        Slip::WideDirectoryToBit52 => bits(directory, 48, 52) != 0,
        _ => bits(directory, 48, 51) != 0,
    }
}

/// Whether a block's own address leads to the image offset where the block is.
fn leads_back(place: Result<Place, Refusal>, offset: u64, slip: Slip) -> bool {
    match place {
        Ok(Place::Image(own)) => match slip {
            Slip::AnyOffsetTaken => true,
            Slip::SamePlaceTaken => own % PAGE_BYTES == offset % PAGE_BYTES,
            _ => own == offset,
        },
        Ok(Place::Pagefile(own)) => slip == Slip::PagefileOffsetTaken && own == offset,
        Ok(Place::Zeros) | Err(_) => false,
    }
}

/// Writes the nodes of the list at a head into the front of the buffer, or none of them.
pub fn process_list(files: Files, head: u64, buffer: &mut [u64], slip: Slip) -> Written {
    if slip == Slip::HeadBeforeSheet && head % WORD_BYTES != 0 {
        return hand_over(&[], Err(UNALIGNED_LINK.into()), buffer, slip);
    }
    let judged = match slip {
        Slip::ListOfBadSheetTaken => files.without_rest(),
        _ => files,
    };
    let walk = match start(judged, slip == Slip::ListModeBeforePagefileLength, slip) {
        Ok(walk) => walk,
        Err(fault) => return hand_over(&[], Err(fault), buffer, slip),
    };
    let served = match slip {
        Slip::ListServedInOtherModes | Slip::ListModeAfterFirstWord => true,
        Slip::ListServedInPlain => walk.mode() != PAE,
        Slip::ListServedInPae => walk.mode() != PLAIN,
        Slip::ListModeAfterHead if head % WORD_BYTES != 0 => true,
        _ => walk.mode() == FOUR_LEVEL,
    };
    if !served {
        return hand_over(&[], Err(mode_refusal(slip).into()), buffer, slip);
    }
    let mut list = List {
        walk,
        files,
        head,
        room: buffer.len(),
        slip,
        nodes: Vec::new(),
    };
    let verdict = list.follow().map_err(Fault::from);
    hand_over(&list.nodes, verdict, buffer, slip)
}

/// Writes the nodes and their number, or only names the refusal.
fn hand_over(nodes: &[u64], verdict: Result<(), Fault>, buffer: &mut [u64], slip: Slip) -> Written {
    // Only a slip lists more nodes than there is room for.
    let held = nodes.len().min(buffer.len());
    if verdict.is_ok() || slip == Slip::WritesBeforeRefusal {
        buffer[..held].copy_from_slice(&nodes[..held]);
    }
    if verdict.is_ok() && slip == Slip::ListClearsRest {
        buffer[held..].fill(0);
    }
    let count = nodes.len() as u64;
    let length = match (verdict, slip) {
        (_, Slip::ListLengthOnRefusal) => count,
        (Err(_), Slip::ListPositionDropped) => 0,
        (Err(fault), _) => fault.position,
        (Ok(()), Slip::ListLengthOfBuffer) => buffer.len() as u64,
        (Ok(()), Slip::ListLengthInBytes) => count * WORD_BYTES,
        (Ok(()), _) => count,
    };
    Written {
        number: verdict.err().map_or(0, |fault| fault.number()),
        length,
    }
}

/// A list in the making, over an accepted case.
struct List<'a> {
    walk: Walk<'a>,
    files: Files<'a>,
    head: u64,
    room: usize,
    slip: Slip,
    nodes: Vec<u64>,
}

impl List<'_> {
    /// From the head on, each node's forward word, then the next one's back word.
    fn follow(&mut self) -> Result<(), Refusal> {
        if self.slip == Slip::HeadJudgedAfterRead {
            self.word(self.head)?;
        }
        if self.slip != Slip::HeadUnalignedTaken {
            self.judge_aligned(self.head)?;
        }
        let mut node = self.head;
        let mut forward = self.word(node)?;
        if self.slip == Slip::ListModeAfterFirstWord && self.walk.mode() != FOUR_LEVEL {
            return Err(MODE_NOT_SERVED);
        }
        loop {
            if self.slip == Slip::RoomBeforeBack && forward != self.head {
                self.judge_room()?;
            }
            self.judge_link(node, forward)?;
            let ends = self.slip == Slip::ForwardZeroEnds && forward == 0;
            if forward == self.head || ends {
                break;
            }
            node = forward;
            forward = self.take_node(node)?;
        }
        match self.slip {
            Slip::HeadListed => self.nodes.insert(0, self.head),
            Slip::FirstNodeDropped if !self.nodes.is_empty() => drop(self.nodes.remove(0)),
            Slip::LastNodeDropped => drop(self.nodes.pop()),
            _ => {}
        }
        Ok(())
    }

    /// Judges a node that is not the head, then reads its forward word.
    fn take_node(&mut self, node: u64) -> Result<u64, Refusal> {
        match self.slip {
            Slip::FiftyThreeBeforeFiftyTwo => {
                self.judge_room()?;
                self.judge_number()?;
            }
            Slip::RoomAfterForward => {
                self.judge_number()?;
                self.word(node)?;
                self.judge_room()?;
            }
            Slip::LimitAfterForward => {
                self.word(node)?;
                self.judge_number()?;
                self.judge_room()?;
            }
            _ => {
                self.judge_number()?;
                self.judge_room()?;
            }
        }
        self.nodes.push(match self.slip {
            Slip::FollowsOneLink => self.nodes.first().copied().unwrap_or(node),
            _ => node,
        });
        self.word(node)
    }

    /// 52 for one node more than a list has.
    fn judge_number(&self) -> Result<(), Refusal> {
        let most = match self.slip {
            Slip::LimitOneMore => MOST_NODES + 1,
            Slip::LimitOneLess => MOST_NODES - 1,
            _ => MOST_NODES,
        };
        if self.nodes.len() >= most {
            return Err(TOO_MANY_PROCESSES);
        }
        Ok(())
    }

    /// 53 if the buffer holds no further node.
    fn judge_room(&self) -> Result<(), Refusal> {
        let room = match self.slip {
            Slip::FullListBufferRefused => self.room.saturating_sub(1),
            _ => self.room,
        };
        if self.nodes.len() >= room {
            return Err(BUFFER_TOO_SHORT);
        }
        Ok(())
    }

    fn judge_aligned(&self, address: u64) -> Result<(), Refusal> {
        if address % WORD_BYTES != 0 {
            return Err(UNALIGNED_LINK);
        }
        Ok(())
    }

    /// 50 for a forward word that is no multiple of 8, then 51 if the way back differs.
    fn judge_link(&mut self, node: u64, forward: u64) -> Result<(), Refusal> {
        let early = match self.slip {
            Slip::ForwardUnalignedTaken | Slip::ForwardJudgedAfterBack => false,
            Slip::ForwardUnalignedBy4Taken => forward % 4 != 0,
            _ => true,
        };
        if early {
            self.judge_aligned(forward)?;
        }
        if self.slip == Slip::ForwardJudgedCanonical && !is_canonical(forward, self.slip) {
            return Err(NOT_CANONICAL);
        }
        self.judge_back(node, forward)?;
        if self.slip == Slip::ForwardJudgedAfterBack {
            self.judge_aligned(forward)?;
        }
        Ok(())
    }

    fn judge_back(&mut self, node: u64, forward: u64) -> Result<(), Refusal> {
        let at_head = forward == self.head;
        match self.slip {
            Slip::BackUnread => return Ok(()),
            Slip::HeadBackSkipped if at_head => return Ok(()),
            _ => {}
        }
        let back = match self.back_word(forward) {
            Err(_) if self.slip == Slip::BackUnreadableIs51 => return Err(BACK_LINK_DIFFERS),
            back => back?,
        };
        let same = match self.slip {
            Slip::BackNotCompared => true,
            Slip::HeadBackNotCompared if at_head => true,
            Slip::BackComparedWithHead => back == self.head,
            _ => back == node,
        };
        if !same {
            return Err(BACK_LINK_DIFFERS);
        }
        Ok(())
    }

    /// The word 8 bytes on from a node, which may be in the next page.
    fn back_word(&mut self, node: u64) -> Result<u64, Refusal> {
        let address = match self.slip {
            Slip::BackRunsOnInFile => return self.word_past(node, WORD_BYTES),
            Slip::BackWrapsTop => Some(node.wrapping_add(WORD_BYTES)),
            Slip::BackCrossesCanonicalEdge => node
                .checked_add(WORD_BYTES)
                .map(|address| ((address << 16) as i64 >> 16) as u64),
            _ => node.checked_add(WORD_BYTES),
        };
        self.word(address.ok_or(NOT_CANONICAL)?)
    }

    /// The word at an address.
    fn word(&mut self, address: u64) -> Result<u64, Refusal> {
        self.word_past(address, 0)
    }

    /// The word so many bytes on in the file from where an address leads.
    fn word_past(&mut self, address: u64, past: u64) -> Result<u64, Refusal> {
        match self.walk.resolve(address)? {
            Place::Image(offset) => Ok(word_at(self.files.image, offset + past)),
            Place::Pagefile(_) if self.slip == Slip::LinkInPagefileUnread => Ok(0),
            Place::Pagefile(offset) => Ok(word_at(self.files.pagefile, offset + past)),
            Place::Zeros if self.slip == Slip::LinkInZerosRefused => Err(REGION_NEEDED),
            Place::Zeros => Ok(0),
        }
    }
}

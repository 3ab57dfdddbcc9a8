//! The bytes behind addresses: reading a run of them, and an address's whole page.

use super::codes::{IMAGE, NOT_CANONICAL, PAGEFILE};
use super::number::{Fault, Refusal};
use super::sheet::FOUR_LEVEL;
use super::slip::Slip;
use super::walk::{Files, Place, Walk, NARROW_LIMIT, PAGE_BYTES};

/// The read buffer is too short.
const BUFFER_TOO_SHORT: Refusal = 45;

/// What a read says; the bytes themselves are in the lent buffer.
pub struct Bytes {
    pub number: u64,
    pub length: u64,
    /// 1 if a byte came from a page of zeros.
    pub zeros: u64,
}

/// A part of the image (file 1) or of the pagefile (file 2), or the empty part.
#[derive(Default)]
pub struct Part {
    pub file: u64,
    pub offset: u64,
    pub length: u64,
}

/// The bytes of a read that lie in one page.
struct Piece {
    place: Place,
    length: u64,
}

/// The pages of a read in order, up to the first refusal.
struct Gathered {
    pieces: Vec<Piece>,
    refusal: Option<Refusal>,
}

/// The 4,096 bytes of an address's page.
pub fn page(files: Files, address: u64, slip: Slip) -> Part {
    let files = match slip {
        Slip::PageOfBadSheetHandedOut => files.without_rest(),
        _ => files,
    };
    match Walk::start(files, slip).and_then(|mut walk| Ok(walk.resolve(address)?)) {
        Ok(Place::Image(offset)) => whole_page(IMAGE, offset, slip),
        Ok(Place::Pagefile(offset)) if slip == Slip::PageOfPagefileAsImage => {
            whole_page(IMAGE, offset, slip)
        }
        Ok(Place::Pagefile(offset)) => whole_page(PAGEFILE, offset, slip),
        Ok(Place::Zeros) if slip == Slip::PageOfZerosHandedOut => whole_page(IMAGE, 0, slip),
        Err(fault) if slip == Slip::PagePositionHandedOut => Part {
            offset: fault.position,
            ..Part::default()
        },
        Ok(Place::Zeros) | Err(_) => Part::default(),
    }
}

/// The bytes of a part, if its file has them.
pub fn part_bytes<'a>(files: Files<'a>, part: &Part, slip: Slip) -> Option<&'a [u8]> {
    let file: &[u8] = match part.file {
        IMAGE => files.image,
        PAGEFILE => files.pagefile,
        _ => &[],
    };
    let bytes = file
        .get(part.offset as usize..)?
        .get(..part.length as usize)?;
    match slip {
        Slip::PageBytesLackTheLast => bytes.get(..bytes.len().saturating_sub(1)),
        _ => Some(bytes),
    }
}

fn whole_page(file: u64, offset: u64, slip: Slip) -> Part {
    let place = offset % PAGE_BYTES;
    let (offset, length) = match slip {
        Slip::PageFromAddressedByte => (offset, PAGE_BYTES),
        Slip::PageToItsEnd => (offset, PAGE_BYTES - place),
        _ => (offset - place, PAGE_BYTES),
    };
    Part {
        file,
        offset,
        length,
    }
}

/// Reads `n` bytes into the front of the buffer, or none at all.
pub fn read(files: Files, address: u64, n: u64, buffer: &mut [u8], slip: Slip) -> Bytes {
    let room = buffer.len() as u64;
    if slip == Slip::BufferBeforeSheet && n > room {
        return refused(BUFFER_TOO_SHORT.into(), slip);
    }
    let judged = match slip {
        Slip::ReadOfBadSheetTaken => files.without_rest(),
        _ => files,
    };
    let mut walk = match Walk::start(judged, slip) {
        Ok(walk) => walk,
        Err(fault) => return refused(fault, slip),
    };
    let too_short = match slip {
        Slip::BufferUnjudged => false,
        Slip::FullBufferRefused => n >= room,
        _ => n > room,
    };
    if too_short && slip != Slip::BufferAfterAddress {
        return refused(BUFFER_TOO_SHORT.into(), slip);
    }
    let gathered = gather(&mut walk, address, n, slip);
    if too_short && gathered.refusal.is_none() {
        return refused(BUFFER_TOO_SHORT.into(), slip);
    }
    hand_over(files, &gathered, buffer, slip)
}

fn refused(fault: Fault, slip: Slip) -> Bytes {
    Bytes {
        number: fault.number(),
        length: match slip {
            Slip::ReadPositionDropped => 0,
            _ => fault.position,
        },
        zeros: 0,
    }
}

/// All bytes of a page share its refusal, so each page is asked for once.
fn gather(walk: &mut Walk, address: u64, n: u64, slip: Slip) -> Gathered {
    let mut gathered = Gathered {
        pieces: Vec::new(),
        refusal: None,
    };
    if n == 0 && slip == Slip::ReadOfNothingJudged {
        gathered.refusal = walk.resolve(address).err();
    }
    let mut done = 0;
    while done < n {
        let ran_on = done > 0 && walk.mode() != FOUR_LEVEL;
        let place = match byte_address(address, done, slip) {
            Some(NARROW_LIMIT..) if ran_on && slip == Slip::ReadStopsAt2To32 => break,
            Some(byte @ NARROW_LIMIT..) if ran_on && slip == Slip::ReadWrapsAt2To32 => {
                walk.resolve(byte % NARROW_LIMIT)
            }
            Some(byte) => walk.resolve(byte),
            None if slip == Slip::ReadStopsAtTop => break,
            None => Err(NOT_CANONICAL),
        };
        let in_page = PAGE_BYTES - address.wrapping_add(done) % PAGE_BYTES;
        let length = match slip {
            Slip::ReadRunsOnInFile => n,
            _ => in_page.min(n - done),
        };
        match place {
            Ok(place) => gathered.pieces.push(Piece { place, length }),
            Err(refusal) => gathered.refusal = Some(refusal),
        }
        if gathered.refusal.is_some() && slip != Slip::ReadLastRefusalWins {
            break;
        }
        done += length;
    }
    gathered
}

/// The address so many bytes on, or none past the top.
fn byte_address(address: u64, done: u64, slip: Slip) -> Option<u64> {
    match slip {
        Slip::ReadWrapsTop => Some(address.wrapping_add(done)),
        Slip::ReadCrossesCanonicalEdge if done > 0 => {
            let byte = address.checked_add(done)?;
            Some(((byte << 16) as i64 >> 16) as u64)
        }
        _ => address.checked_add(done),
    }
}

/// Writes the pieces and says so, or only names the refusal.
fn hand_over(files: Files, gathered: &Gathered, buffer: &mut [u8], slip: Slip) -> Bytes {
    let length = gathered.pieces.iter().map(|piece| piece.length).sum();
    if let Some(refusal) = gathered.refusal {
        if slip == Slip::ReadWritesBeforeRefusal {
            write_pieces(files, gathered, buffer, slip);
        }
        return Bytes {
            length: match slip {
                Slip::ReadLengthOnRefusal => length,
                _ => 0,
            },
            zeros: match slip {
                Slip::ZerosFlagOnRefusal => zeros_flag(gathered, &[], slip),
                _ => 0,
            },
            ..refused(refusal.into(), slip)
        };
    }
    let written = write_pieces(files, gathered, buffer, slip);
    Bytes {
        number: 0,
        length: match slip {
            Slip::ReadLengthOfBuffer => buffer.len() as u64,
            _ => length,
        },
        zeros: zeros_flag(gathered, &buffer[..written], slip),
    }
}

/// How many bytes of the buffer were filled.
fn write_pieces(files: Files, gathered: &Gathered, buffer: &mut [u8], slip: Slip) -> usize {
    let mut done = 0;
    for piece in &gathered.pieces {
        // Only a slip gathers more than the buffer or the file holds.
        let end = (done + piece.length as usize).min(buffer.len());
        let target = &mut buffer[done..end];
        let (bytes, offset) = match piece.place {
            Place::Image(offset) => (files.image, offset as usize),
            Place::Pagefile(offset) => (files.pagefile, offset as usize),
            Place::Zeros if slip == Slip::ReadLeavesZeros => (&[][..], 0),
            Place::Zeros => {
                target.fill(0);
                (&[][..], 0)
            }
        };
        let source = bytes.get(offset..).unwrap_or(&[]);
        let held = target.len().min(source.len());
        target[..held].copy_from_slice(&source[..held]);
        done = end;
    }
    if slip == Slip::ReadClearsRest {
        buffer[done..].fill(0);
    }
    done
}

fn zeros_flag(gathered: &Gathered, written: &[u8], slip: Slip) -> u64 {
    let is_zeros = |piece: &Piece| piece.place == Place::Zeros;
    let pieces = &gathered.pieces;
    u64::from(match slip {
        Slip::ZerosFlagAlwaysSet => true,
        Slip::ZerosFlagNeverSet => false,
        Slip::ZerosFlagOfFirstByte => pieces.first().map_or(false, is_zeros),
        Slip::ZerosFlagOfLastByte => pieces.last().map_or(false, is_zeros),
        Slip::ZerosFlagByValue => written.contains(&0),
        _ => pieces.iter().any(is_zeros),
    })
}

//! The calls of heronditch.h, and a safe way to those that find places. `raw` has every call as the header declares it.

#[rustfmt::skip]
pub mod raw;

use raw::*;
use std::ffi::CStr;

/// A circuit file: its bytes, and which edition they are.
#[derive(Clone, Copy)]
pub struct File<'a> {
    pub bytes: &'a [u8],
    pub edition: u32,
}

impl<'a> File<'a> {
    /// A file of the first or second edition, whichever its length is of.
    pub fn new(bytes: &'a [u8]) -> Self {
        let field = |at: usize| {
            bytes
                .get(at..at + 2)
                .map_or(0, |b| usize::from(u16::from_le_bytes([b[0], b[1]])))
        };
        let is_second = bytes.len() == 4 + 4 * field(0) + 4 * field(2);
        File {
            bytes,
            edition: if is_second {
                HERONDITCH_SECOND
            } else {
                HERONDITCH_FIRST
            },
        }
    }
}

/// What a call is refused by: the number, and the file that it means.
#[derive(Clone, Copy, Debug, PartialEq, Eq)]
pub struct Refusal {
    pub number: u32,
    pub file: u32,
}

impl Refusal {
    /// The library's sentence for the number.
    pub fn message(&self) -> &'static str {
        // SAFETY: the call gives a string that is never freed, for every number.
        unsafe { CStr::from_ptr(heronditch_message(self.number)) }
            .to_str()
            .unwrap_or_default()
    }
}

fn accepted(number: u32, file: u32) -> Result<(), Refusal> {
    if number == HERONDITCH_ACCEPTED {
        Ok(())
    } else {
        Err(Refusal { number, file })
    }
}

/// A board as it is read: how many nodes it has, and its links by start and end.
pub struct Board {
    pub nodes: usize,
    pub links: Vec<(u16, u16)>,
}

/// Reads a board.
pub fn read_board(file: File) -> Result<Board, Refusal> {
    let (mut kinds, mut packages) = ([0; HERONDITCH_NODES], [0; HERONDITCH_NODES]);
    let (mut starts, mut ends) = ([0; HERONDITCH_BOARD_LINKS], [0; HERONDITCH_BOARD_LINKS]);
    // SAFETY: each array is told with its own length, and none overlaps another.
    let reply = unsafe {
        heronditch_read(
            HERONDITCH_BOARD,
            file.bytes.as_ptr(),
            file.bytes.len(),
            file.edition,
            kinds.as_mut_ptr(),
            kinds.len(),
            packages.as_mut_ptr(),
            packages.len(),
            starts.as_mut_ptr(),
            starts.len(),
            ends.as_mut_ptr(),
            ends.len(),
        )
    };
    accepted(reply.number, reply.file)?;
    let links = starts.into_iter().zip(ends).take(reply.second).collect();
    Ok(Board {
        nodes: reply.first,
        links,
    })
}

/// The largest distance between two parts of a pattern. It is refused where the pattern is.
pub fn radius(pattern: File) -> Result<usize, Refusal> {
    // SAFETY: the file is told with its own length.
    let reply =
        unsafe { heronditch_radius(pattern.bytes.as_ptr(), pattern.bytes.len(), pattern.edition) };
    accepted(reply.number, reply.file).map(|()| reply.first)
}

/// A place: a byte for each node and each link that there may be, 1 in the place; which parts each node has, and how far it is from the centre.
pub struct Place {
    pub nodes: [u8; HERONDITCH_NODES],
    pub links: [u8; HERONDITCH_BOARD_LINKS],
    pub table: [u32; HERONDITCH_NODES],
    pub distances: [u16; HERONDITCH_NODES],
}

/// Finds the pattern around a node of the board, at the pattern's radius; `None` where there is no place.
pub fn place(pattern: File, board: File, centre: usize) -> Result<Option<Place>, Refusal> {
    let mut place = Place {
        nodes: [0; HERONDITCH_NODES],
        links: [0; HERONDITCH_BOARD_LINKS],
        table: [0; HERONDITCH_NODES],
        distances: [HERONDITCH_OUTSIDE; HERONDITCH_NODES],
    };
    // SAFETY: each array is told with its own length, and none overlaps another.
    let reply = unsafe {
        heronditch_place_editions(
            pattern.bytes.as_ptr(),
            pattern.bytes.len(),
            pattern.edition,
            board.bytes.as_ptr(),
            board.bytes.len(),
            board.edition,
            centre,
            place.nodes.as_mut_ptr(),
            place.nodes.len(),
            place.links.as_mut_ptr(),
            place.links.len(),
            place.table.as_mut_ptr(),
            place.table.len(),
            place.distances.as_mut_ptr(),
            place.distances.len(),
        )
    };
    if reply.number == HERONDITCH_NO_PLACE {
        return Ok(None);
    }
    accepted(reply.number, reply.file).map(|()| Some(place))
}

#[cfg(test)]
mod tests {
    use super::*;

    #[test]
    fn the_library_has_the_version_of_the_declarations() {
        assert_eq!(unsafe { heronditch_version() }, HERONDITCH_VERSION);
        assert_eq!(
            std::mem::size_of::<heronditch_session>(),
            HERONDITCH_SESSION_BYTES
        );
    }

    #[test]
    fn an_empty_file_is_refused_with_a_sentence() {
        let refusal = radius(File::new(&[])).unwrap_err();
        assert_eq!(
            refusal,
            Refusal {
                number: HERONDITCH_SHORT_FILE,
                file: HERONDITCH_PATTERN
            }
        );
        assert!(!refusal.message().is_empty());
    }
}

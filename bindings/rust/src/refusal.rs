//! Refusals.

use std::{error, fmt};

/// Why a call was refused: a number of the library's table and a place. A refused call changes
/// nothing.
///
/// | Number | Given exactly when | Place |
/// |---|---|---|
/// | 1 | size off its limits (1 to 1,024), length not width x height, or a byte above 1 | 0 |
/// | 2 | lanes not 8 or 16 | 0 |
/// | 3 | resource numbers not in fours or more resources than lanes; for access lists and fields, more than 512 | 0 |
/// | 4 | not 0 <= left < right <= 8 x width, or the same vertically | the first such resource, from 0 |
/// | 5 | blocker numbers not in fours, or over 4,096 | 0 |
/// | 6 | target box empty or not in the map | 0 |
/// | 7 | a lent buffer is shorter than needed | 0 |
/// | 8 | ends fall, the last end is not the list's length, or an index is not that of a cell | 0 |
///
/// The first that holds decides: from 1 to 7 for a field, 1, 4, 7 for access cells, 1, 3, 4, 7 for
/// access lists, and 1, 3, 8, 7 for fields. This crate lends buffers that are long enough, and its
/// rectangles and lanes have types, so 2 and 7, and numbers not in fours, come from
/// [`exports`](crate::exports) alone.
#[derive(Debug, Copy, Clone, Eq, PartialEq)]
pub struct Refusal {
    pub number: u32,
    pub place: u32,
}

impl Refusal {
    /// What an answer's number and place say.
    pub(crate) fn judge(number: u32, place: u32) -> Result<(), Self> {
        match number {
            0 => Ok(()),
            _ => Err(Self { number, place }),
        }
    }
}

impl fmt::Display for Refusal {
    fn fmt(&self, formatter: &mut fmt::Formatter<'_>) -> fmt::Result {
        let Self { number, place } = self;
        let words = match number {
            1 => "bad grid: size off its limits, length not width x height, or a byte above 1",
            2 => "lanes: not 8 or 16",
            3 => "count: resource numbers not in fours, or too many resources",
            4 => {
                return write!(
                    formatter,
                    "refused 4, bad resource: of resource {place}, counted from 0, \
                     not 0 <= left < right <= 8 x width, or the same vertically"
                );
            }
            5 => "blockers: numbers not in fours, or over 4,096",
            6 => "targets: box empty or not in the map",
            7 => "scratch: a lent buffer is shorter than needed",
            8 => {
                "access: ends fall, the last end is not the list's length, \
                 or an index is not that of a cell"
            }
            _ => return write!(formatter, "refused {number} {place}"),
        };
        write!(formatter, "refused {number}, {words}")
    }
}

impl error::Error for Refusal {}

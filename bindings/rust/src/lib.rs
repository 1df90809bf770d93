//! The proved core of a plate solver: from star lists to quads, keys, matches, pairs, and the
//! affine, CD and SIP fits of the plate.
//!
//! Every call returns, on every input. What is outside its domain is refused: the [`Refusal`] says
//! why. No caller has to check first. Lists of stars and rows have at most 100 members, positions a
//! magnitude of at most 1,048,576; the limits are those of `docs/ARCHITECTURE.md`.
//!
//! The modules follow the way of a frame: [`quad`], [`matching`], [`affine`], [`plate`], [`sip`],
//! [`record`]; [`floats`] has the arithmetic that all of them stand on.
//!
//! Every count is a `usize`, but for the votes, whose lists are lent as they are. One that is given and
//! above what the C face has room for, 32 bits, is above every limit too: it is refused with
//! [`Refusal::Count`] like any other that is too great.
//!
//! ```
//! use moorspindle::{Refusal, quad};
//!
//! let square = quad::neighbor_quads(&[0.0, 1.0, 0.0, 1.0], &[0.0, 0.0, 1.0, 1.0], 3, 0.0)?;
//! for quad in &square {
//!     assert_eq!(quad.places, [0, 3, 1, 2]);
//! }
//! assert_eq!(quad::neighbor_quads(&[0.0], &[], 3, 0.0), Err(Refusal::Lengths));
//! # Ok::<(), Refusal>(())
//! ```

pub mod affine;
mod call;
mod ffi;
pub mod floats;
pub mod matching;
pub mod plate;
pub mod quad;
pub mod record;
pub mod sip;

use std::error::Error;
use std::fmt::{self, Display};

/// Why a call has no answer. More may come: a `match` on it has an arm for the others.
///
/// ```
/// use moorspindle::{Refusal, quad};
///
/// let words = match quad::combinations_4(101).unwrap_err() {
///     Refusal::Count => "at most 100 stars".to_string(),
///     other => other.to_string(),
/// };
/// assert_eq!(words, "at most 100 stars");
/// ```
#[derive(Clone, Copy, Debug, PartialEq, Eq, Hash)]
#[non_exhaustive]
#[repr(u32)]
pub enum Refusal {
    /// A count is outside its limit.
    Count = 1,
    /// Lengths that belong together differ.
    Lengths = 2,
    /// A value is outside the domain, NaN and infinity too.
    Value = 3,
    /// A place is outside the list.
    Place = 4,
    /// The SIP order is outside 2..5.
    Order = 5,
    /// There are fewer rows than a SIP fit needs.
    Rows = 6,
    /// The result needs more places than there are.
    Room = 7,
    /// A spine, a determinant or a pivot is too small.
    Degenerate = 8,
    /// The CD run ended with fewer than three rows on.
    Few = 9,
    /// The index does not belong to this list.
    Index = 11,
}

impl Refusal {
    /// The number of the scope's table.
    ///
    /// ```
    /// assert_eq!(moorspindle::Refusal::Index.number(), 11);
    /// ```
    pub fn number(self) -> u32 {
        self as u32
    }

    fn of(number: u32) -> Refusal {
        match number {
            1 => Refusal::Count,
            2 => Refusal::Lengths,
            3 => Refusal::Value,
            4 => Refusal::Place,
            5 => Refusal::Order,
            6 => Refusal::Rows,
            7 => Refusal::Room,
            8 => Refusal::Degenerate,
            9 => Refusal::Few,
            11 => Refusal::Index,
            other => unreachable!("no call answers {other}"),
        }
    }
}

impl Display for Refusal {
    fn fmt(&self, f: &mut fmt::Formatter) -> fmt::Result {
        f.write_str(match self {
            Refusal::Count => "a count is outside its limit",
            Refusal::Lengths => "lengths that belong together differ",
            Refusal::Value => "a value is outside the domain",
            Refusal::Place => "a place is outside the list",
            Refusal::Order => "the SIP order is outside 2..5",
            Refusal::Rows => "fewer rows than the SIP fit needs",
            Refusal::Room => "the result needs more places than there are",
            Refusal::Degenerate => "a spine, a determinant or a pivot is too small",
            Refusal::Few => "the draw ended with fewer than three rows on",
            Refusal::Index => "the index does not belong to this list",
        })
    }
}

impl Error for Refusal {}

/// An answer, or why there is none.
pub type Result<T> = std::result::Result<T, Refusal>;

/// A number of the C face: 0 is done.
fn done(number: u32) -> Result<()> {
    if number == 0 { Ok(()) } else { Err(Refusal::of(number)) }
}

/// A count as the C face takes it. One above 32 bits becomes the greatest of them: no call takes as
/// many as that either, and each refuses it with [`Refusal::Count`].
fn count(n: usize) -> u32 {
    u32::try_from(n).unwrap_or(u32::MAX)
}

/// A count that the C face answers. It is of what lies in lent memory, or of at most 100 rows: it fits.
fn size(n: u64) -> usize {
    n as usize
}

/// Rows: pixels, and the points of the tangent plane that belong to them. The four lists are of one
/// length, or a call refuses them with [`Refusal::Lengths`].
///
/// ```
/// use moorspindle::{Refusal, Rows, affine};
///
/// let rows = Rows { px: &[1.0, 2.0], py: &[3.0, 4.0], xi: &[0.5, 0.5], eta: &[] };
/// assert_eq!(rows.len(), 2);
/// assert_eq!(affine::verify_pairs(rows), Err(Refusal::Lengths));
/// ```
#[derive(Clone, Copy, Debug, PartialEq)]
pub struct Rows<'a> {
    pub px: &'a [f64],
    pub py: &'a [f64],
    pub xi: &'a [f64],
    pub eta: &'a [f64],
}

impl Rows<'_> {
    /// How many there are, by the first list.
    pub fn len(&self) -> usize {
        self.px.len()
    }

    pub fn is_empty(&self) -> bool {
        self.px.is_empty()
    }
}

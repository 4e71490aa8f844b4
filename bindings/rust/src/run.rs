//! Runs of bytes with one owner, and the rights on them.

use crate::ffi;
use crate::unit::Unit;
use core::fmt;

/// The rights of every access inside a range.
#[derive(Clone, Copy, Debug, PartialEq, Eq, Hash)]
pub struct Rights {
    /// Load.
    pub read: bool,
    /// Store.
    pub write: bool,
    /// Fetch.
    pub execute: bool,
}

impl Rights {
    /// The rights in the lowest bits of a number.
    pub(crate) const fn in_number(number: u32) -> Rights {
        Rights {
            read: number & ffi::READ != 0,
            write: number & ffi::WRITE != 0,
            execute: number & ffi::EXECUTE != 0,
        }
    }

    /// `None` if the bytes don't all have the same entry.
    pub(crate) const fn of_number(number: u32) -> Result<Option<Rights>, NoRange> {
        match number {
            ffi::NO_RANGE => Err(NoRange),
            ffi::MIXED => Ok(None),
            _ => Ok(Some(Rights::in_number(number))),
        }
    }
}

/// The letters `rwx`, or `-` for each.
impl fmt::Display for Rights {
    fn fmt(&self, to: &mut fmt::Formatter) -> fmt::Result {
        let letter = |has, letter| if has { letter } else { '-' };
        write!(
            to,
            "{}{}{}",
            letter(self.read, 'r'),
            letter(self.write, 'w'),
            letter(self.execute, 'x')
        )
    }
}

/// The numbers describe no bytes below 2^56: an empty range, or one with bytes above.
#[derive(Clone, Copy, Debug, PartialEq, Eq, Hash)]
pub struct NoRange;

impl fmt::Display for NoRange {
    fn fmt(&self, to: &mut fmt::Formatter) -> fmt::Result {
        to.write_str("a range has 1 byte or more, below 2^56")
    }
}

/// Consecutive bytes that one entry owns, and the rights on them.
#[derive(Clone, Copy, Debug, PartialEq, Eq, Hash)]
pub struct Run {
    /// The address of the first byte.
    pub first: u64,
    /// The address of the last byte.
    pub last: u64,
    /// The lowest-numbered entry that matches them.
    pub owner: Option<u8>,
    /// The rights of M-mode there.
    pub machine: Rights,
    /// The rights of S-mode and U-mode there.
    pub others: Rights,
}

/// A line of `pmp map`.
///
/// ```
/// # use tilvenka_pmp::Unit;
/// let runs = Unit::default().runs().map(|it| it.to_string()).collect::<Vec<_>>();
/// assert_eq!(runs, ["00000000000000,ffffffffffffff,-,rwx,---"]);
/// ```
impl fmt::Display for Run {
    fn fmt(&self, to: &mut fmt::Formatter) -> fmt::Result {
        write!(to, "{:014x},{:014x},", self.first, self.last)?;
        match self.owner {
            Some(entry) => write!(to, "{entry}")?,
            None => to.write_str("-")?,
        }
        write!(to, ",{},{}", self.machine, self.others)
    }
}

/// The runs of a unit, from byte 0 to byte 2^56 - 1, as returned by [`Unit::runs`].
#[derive(Clone, Debug)]
pub struct Runs {
    unit: Unit,
    /// The first byte of the next run.
    next: u64,
    left: usize,
}

impl Runs {
    /// The runs of a unit whose map is built and has this many.
    pub(crate) fn of(unit: Unit, left: usize) -> Runs {
        Runs {
            unit,
            next: 0,
            left,
        }
    }
}

impl Iterator for Runs {
    type Item = Run;

    fn next(&mut self) -> Option<Run> {
        let run = self.unit.run(self.next).ok()?;
        self.next = run.last + 1;
        self.left -= 1;
        Some(run)
    }

    fn size_hint(&self) -> (usize, Option<usize>) {
        (self.left, Some(self.left))
    }
}

impl ExactSizeIterator for Runs {}

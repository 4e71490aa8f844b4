//! The accesses that a unit decides, and its answers. Their words are those of the command `pmp`.

use crate::ffi;
use crate::word::NoWord;
use core::fmt;
use core::str::FromStr;

/// The effective mode of an access: that of MPP for loads and stores under MPRV, and S-mode for page table walks. Its
/// words are `U`, `S` and `M`.
#[derive(Clone, Copy, Debug, PartialEq, Eq, Hash)]
pub enum Mode {
    /// U-mode.
    User = ffi::USER as isize,
    /// S-mode.
    Supervisor = ffi::SUPERVISOR as isize,
    /// M-mode.
    Machine = ffi::MACHINE as isize,
}

impl fmt::Display for Mode {
    fn fmt(&self, to: &mut fmt::Formatter) -> fmt::Result {
        to.pad(match self {
            Mode::User => "U",
            Mode::Supervisor => "S",
            Mode::Machine => "M",
        })
    }
}

impl FromStr for Mode {
    type Err = NoWord;

    fn from_str(word: &str) -> Result<Mode, NoWord> {
        match word {
            "U" => Ok(Mode::User),
            "S" => Ok(Mode::Supervisor),
            "M" => Ok(Mode::Machine),
            _ => Err(NoWord::wanted("a mode is M, S or U")),
        }
    }
}

/// The kind of an access. An AMO or a store-conditional is a store. Its words are `fetch`, `load` and `store`.
#[derive(Clone, Copy, Debug, PartialEq, Eq, Hash)]
pub enum Kind {
    /// Executes the bytes: right X.
    Fetch = ffi::FETCH as isize,
    /// Reads the bytes: right R.
    Load = ffi::LOAD as isize,
    /// Writes the bytes: right W.
    Store = ffi::STORE as isize,
}

impl fmt::Display for Kind {
    fn fmt(&self, to: &mut fmt::Formatter) -> fmt::Result {
        to.pad(match self {
            Kind::Fetch => "fetch",
            Kind::Load => "load",
            Kind::Store => "store",
        })
    }
}

impl FromStr for Kind {
    type Err = NoWord;

    fn from_str(word: &str) -> Result<Kind, NoWord> {
        match word {
            "fetch" => Ok(Kind::Fetch),
            "load" => Ok(Kind::Load),
            "store" => Ok(Kind::Store),
            _ => Err(NoWord::wanted("a kind is fetch, load or store")),
        }
    }
}

/// An access of some bytes of physical memory.
#[derive(Clone, Copy, Debug, PartialEq, Eq, Hash)]
pub struct Access {
    /// The effective mode.
    pub mode: Mode,
    /// The kind of access.
    pub kind: Kind,
    /// The address of its first byte.
    pub start: u64,
    /// Its length in bytes, 1 to 4096.
    pub length: u64,
}

impl Access {
    /// The access of `length` bytes starting at `start`. Invalid numbers are refused when it is decided.
    #[must_use]
    pub const fn new(mode: Mode, kind: Kind, start: u64, length: u64) -> Access {
        Access {
            mode,
            kind,
            start,
            length,
        }
    }
}

/// The words of `pmp check`.
///
/// ```
/// # use tilvenka_pmp::{Access, Kind, Mode};
/// let access = Access::new(Mode::Supervisor, Kind::Store, 0x80000000, 8);
/// assert_eq!(access.to_string(), "S store 0x80000000 8");
/// ```
impl fmt::Display for Access {
    fn fmt(&self, to: &mut fmt::Formatter) -> fmt::Result {
        let (mode, kind) = (self.mode, self.kind);
        write!(to, "{mode} {kind} {:#x} {}", self.start, self.length)
    }
}

/// The exception of an access that fails, with its code.
#[derive(Clone, Copy, Debug, PartialEq, Eq, Hash)]
pub enum Fault {
    /// A fetch failed.
    Instruction = 1,
    /// A load failed.
    Load = 5,
    /// A store failed.
    Store = 7,
}

impl Fault {
    /// The code that `mcause` gets.
    #[must_use]
    pub const fn code(self) -> u64 {
        self as u64
    }
}

/// The manual's words.
impl fmt::Display for Fault {
    fn fmt(&self, to: &mut fmt::Formatter) -> fmt::Result {
        to.pad(match self {
            Fault::Instruction => "instruction access fault",
            Fault::Load => "load access fault",
            Fault::Store => "store/AMO access fault",
        })
    }
}

/// What decided an access.
#[derive(Clone, Copy, Debug, PartialEq, Eq, Hash)]
pub enum Cause {
    /// The rule of this entry, which matches all of the bytes.
    Rule(u8),
    /// This entry matches some of the bytes, but not all.
    Split(u8),
    /// No entry matches any of the bytes.
    NoMatch,
}

/// The last two fields of a row of `pmp check`.
impl fmt::Display for Cause {
    fn fmt(&self, to: &mut fmt::Formatter) -> fmt::Result {
        match self {
            Cause::Rule(entry) => write!(to, "rule,{entry}"),
            Cause::Split(entry) => write!(to, "split,{entry}"),
            Cause::NoMatch => to.write_str("none,"),
        }
    }
}

/// Whether an access is allowed, and what decided that.
#[derive(Clone, Copy, Debug, PartialEq, Eq, Hash)]
pub struct Answer {
    /// `None` if the access is allowed.
    pub fault: Option<Fault>,
    /// What decided.
    pub cause: Cause,
}

impl Answer {
    /// Whether the access is allowed.
    #[must_use]
    pub const fn is_allowed(&self) -> bool {
        self.fault.is_none()
    }

    pub(crate) fn of_number(number: u32) -> Result<Answer, NoAccess> {
        let fault = match number / ffi::FAULT {
            0 => None,
            1 => Some(Fault::Instruction),
            5 => Some(Fault::Load),
            _ => Some(Fault::Store),
        };
        let cause = match number % ffi::FAULT {
            ffi::NO_ACCESS => return Err(NoAccess),
            ffi::NO_MATCH => Cause::NoMatch,
            split if split >= ffi::SPLIT => Cause::Split((split - ffi::SPLIT) as u8),
            entry => Cause::Rule(entry as u8),
        };
        Ok(Answer { fault, cause })
    }
}

/// A row of `pmp check` without its number.
///
/// ```
/// # use tilvenka_pmp::{Access, Kind, Mode, Unit};
/// let answer = Unit::default().decide(&Access::new(Mode::User, Kind::Load, 0, 8))?;
/// assert_eq!(answer.to_string(), "fault,5,none,");
/// # Ok::<(), tilvenka_pmp::NoAccess>(())
/// ```
impl fmt::Display for Answer {
    fn fmt(&self, to: &mut fmt::Formatter) -> fmt::Result {
        match self.fault {
            None => write!(to, "allow,,{}", self.cause),
            Some(fault) => write!(to, "fault,{},{}", fault.code(), self.cause),
        }
    }
}

/// The numbers describe no access: it has no bytes or more than 4096, or ends above 2^56.
#[derive(Clone, Copy, Debug, PartialEq, Eq, Hash)]
pub struct NoAccess;

impl fmt::Display for NoAccess {
    fn fmt(&self, to: &mut fmt::Formatter) -> fmt::Result {
        to.write_str("an access has 1 to 4096 bytes below 2^56")
    }
}

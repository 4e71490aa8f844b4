//! The effects of a write.

use crate::csr::NoRegister;
use crate::ffi;
use core::fmt;
use core::ops::RangeInclusive;

/// Why a register doesn't read what was written to it.
///
/// ```
/// # use tilvenka_pmp::Reason;
/// assert_eq!(Reason::LowEnd.to_string(), "tor"); // the words are those of `pmp writes`
/// ```
#[derive(Clone, Copy, Debug, PartialEq, Eq, Hash)]
pub enum Reason {
    /// The value isn't zero for an entry that the hart lacks.
    Absent = ffi::ABSENT as isize,
    /// It has bits that the register lacks.
    Bits = ffi::BITS as isize,
    /// It would change the byte or address of a frozen entry: locked, with RLB 0.
    Frozen = ffi::FROZEN as isize,
    /// It would change the address of an unfrozen entry, but the next one is frozen and TOR.
    LowEnd = ffi::LOW_END as isize,
    /// It has W without R for an unfrozen entry, and MML is 0.
    Reserved = ffi::RESERVED as isize,
    /// It would add a locked executable rule, MML is 1 and RLB is 0.
    Lockdown = ffi::LOCKDOWN as isize,
    /// It would clear MML or MMWP.
    Sticky = ffi::STICKY as isize,
    /// It would set RLB while an entry is locked.
    Bypass = ffi::BYPASS as isize,
    /// The grain is above 4 bytes, and it has NA4, or address bits that read differently.
    Grain = ffi::GRAIN as isize,
}

impl Reason {
    /// All reasons, in the order in which a set yields them.
    pub const ALL: [Reason; 9] = [
        Reason::Absent,
        Reason::Bits,
        Reason::Frozen,
        Reason::LowEnd,
        Reason::Reserved,
        Reason::Lockdown,
        Reason::Sticky,
        Reason::Bypass,
        Reason::Grain,
    ];
}

/// Its word in `pmp writes`.
impl fmt::Display for Reason {
    fn fmt(&self, to: &mut fmt::Formatter) -> fmt::Result {
        to.write_str(match self {
            Reason::Absent => "absent",
            Reason::Bits => "bits",
            Reason::Frozen => "frozen",
            Reason::LowEnd => "tor",
            Reason::Reserved => "reserved",
            Reason::Lockdown => "lockdown",
            Reason::Sticky => "sticky",
            Reason::Bypass => "bypass",
            Reason::Grain => "grain",
        })
    }
}

/// A set of reasons.
///
/// ```
/// # use tilvenka_pmp::{Csr, Reason, Size, Unit};
/// let mut unit = Unit::new(Size::Sixteen);
/// let reasons = unit.write(Csr::address(0), u64::MAX)?.reasons; // pmpaddr0 has no bits 63 to 54
/// assert!(reasons.contains(Reason::Bits) && reasons.iter().count() == 1);
/// # Ok::<(), tilvenka_pmp::NoRegister>(())
/// ```
#[derive(Clone, Copy, Default, PartialEq, Eq, Hash)]
pub struct Reasons(u32);

impl Reasons {
    /// Whether the set is empty.
    #[must_use]
    pub const fn is_empty(self) -> bool {
        self.0 == 0
    }

    /// Whether the set contains this reason.
    #[must_use]
    pub const fn contains(self, reason: Reason) -> bool {
        self.0 & reason as u32 != 0
    }

    /// The reasons in the set, in the order of [`Reason::ALL`].
    pub fn iter(self) -> impl Iterator<Item = Reason> {
        Reason::ALL.into_iter().filter(move |it| self.contains(*it))
    }
}

impl fmt::Debug for Reasons {
    fn fmt(&self, to: &mut fmt::Formatter) -> fmt::Result {
        to.debug_set().entries(self.iter()).finish()
    }
}

/// The words of `pmp writes`, separated by one space.
impl fmt::Display for Reasons {
    fn fmt(&self, to: &mut fmt::Formatter) -> fmt::Result {
        for (place, reason) in self.iter().enumerate() {
            write!(to, "{}{reason}", if place == 0 { "" } else { " " })?;
        }
        Ok(())
    }
}

/// The effects of a write.
///
/// ```
/// # use tilvenka_pmp::{Csr, Size, Unit};
/// let mut unit = Unit::new(Size::Sixteen);
/// assert_eq!(unit.write(Csr::address(0), 0x200001ff)?.moved, None); // entry 0 is off
/// let written = unit.write(Csr::configuration(0), 0x19)?;
/// assert_eq!(written.moved, Some(0x80000000..=0x80000fff)); // what a TLB has to forget
/// assert!(written.is_changed && written.is_stored());
/// # Ok::<(), tilvenka_pmp::NoRegister>(())
/// ```
#[derive(Clone, Debug, PartialEq, Eq, Hash)]
pub struct Written {
    /// Whether what the unit stores changed, even where the grain hides it. Then the map isn't built.
    pub is_changed: bool,
    /// The addresses of the first and the last byte whose decisions may have changed: in every mode and kind an access
    /// with no byte between them, inclusive, is decided as before. `None` if every access is.
    pub moved: Option<RangeInclusive<u64>>,
    /// Why the register doesn't read the value: empty exactly when it does.
    pub reasons: Reasons,
}

impl Written {
    /// Whether the register reads the value.
    #[must_use]
    pub const fn is_stored(&self) -> bool {
        self.reasons.is_empty()
    }

    /// Reads the status of a write, which reports whether these bytes moved.
    pub(crate) fn of_status(status: u32, first: u64, last: u64) -> Result<Written, NoRegister> {
        NoRegister::of_status(status)?;
        Ok(Written {
            is_changed: status & ffi::CHANGED != 0,
            moved: (status & ffi::MOVED != 0).then_some(first..=last),
            reasons: Reasons(status & Reason::ALL.iter().fold(0, |all, it| all | *it as u32)),
        })
    }
}

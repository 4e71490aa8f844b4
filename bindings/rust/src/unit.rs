//! The unit. Each call of the C library is made in one place, here.

use crate::answer::{Access, Answer, Mode, NoAccess};
use crate::csr::{Csr, NoRegister};
use crate::ffi;
use crate::hart::{Hart, NoHart};
use crate::registers::Registers;
use crate::run::{NoRange, Rights, Run, Runs};
use crate::version::{is_compatible, version};
use crate::written::Written;
use core::fmt;
use core::hash::{Hash, Hasher};

/// The PMP unit of one hart.
///
/// Decisions and rights use a map if [`Unit::build`] or [`Unit::settle`] built it after the last change, which is
/// faster. They are the same without it.
#[derive(Clone)]
pub struct Unit {
    unit: ffi::Unit,
}

impl Unit {
    /// The unit of a [`Hart`] or of a [`Size`](crate::Size) after reset, without a built map.
    ///
    /// # Panics
    ///
    /// Panics if the loaded library doesn't fit this crate, as [`is_compatible`] says.
    pub fn new(hart: impl Into<Hart>) -> Unit {
        assert!(
            is_compatible(),
            "libtilvenka_pmp is of version {:?}, and not one for {}",
            version(),
            env!("CARGO_PKG_VERSION")
        );
        let map = ffi::Map {
            starts: [0; ffi::PLACES],
            runs: 0,
            rows: [[0; 16]; ffi::PLACES],
        };
        let registers = Registers::of(hart.into());
        Unit {
            unit: ffi::Unit { registers, map },
        }
    }

    /// Returns its hart.
    ///
    /// ```
    /// # use tilvenka_pmp::{Hart, Unit};
    /// assert_eq!(Unit::default().hart(), Hart::default());
    /// ```
    #[must_use]
    pub fn hart(&self) -> Hart {
        Hart::try_from(self.unit.registers.entries).unwrap_or_default()
    }

    /// Resets the unit to a hart: a [`Hart`], a [`Size`](crate::Size), or one named by its number. If that names no
    /// hart, the unit is unchanged.
    ///
    /// # Errors
    ///
    /// `NoHart` if the number names none.
    ///
    /// ```
    /// # use tilvenka_pmp::{NoHart, Size, Unit};
    /// let mut unit = Unit::new(Size::Sixteen);
    /// assert_eq!(unit.reset(Size::SixtyFour), Ok(()));
    /// assert_eq!(unit.reset(32u64), Err(NoHart)); // `Hart::new(32, 4, 56, true)` is that hart
    /// ```
    pub fn reset<H: TryInto<Hart>>(&mut self, hart: H) -> Result<(), NoHart>
    where
        NoHart: From<H::Error>,
    {
        let hart: Hart = hart.try_into()?;
        NoHart::of_status(unsafe { ffi::tilvenka_pmp_reset(&mut self.unit, hart.number()) })
    }

    /// Writes a register, as firmware does in M-mode. Ignores what the unit doesn't store, as the manual says.
    ///
    /// # Errors
    ///
    /// `NoRegister` if the hart has no such register. Then nothing changes.
    ///
    /// ```
    /// # use tilvenka_pmp::{Csr, Size, Unit};
    /// let mut unit = Unit::new(Size::Sixteen);
    /// let written = unit.write(Csr::configuration(0), 0x1a)?; // W without R
    /// assert_eq!(written.reasons.to_string(), "reserved");
    /// assert_eq!(unit.read(Csr::configuration(0)), Ok(0x18));
    /// # Ok::<(), tilvenka_pmp::NoRegister>(())
    /// ```
    pub fn write(&mut self, csr: Csr, value: u64) -> Result<Written, NoRegister> {
        let (mut first, mut last) = (0, 0);
        let status = unsafe {
            ffi::tilvenka_pmp_write_moved(
                &mut self.unit,
                csr.number(),
                value,
                &mut first,
                &mut last,
            )
        };
        Written::of_status(status, first, last)
    }

    /// Reads a register.
    ///
    /// # Errors
    ///
    /// `NoRegister` if the hart has no such register.
    ///
    /// ```
    /// # use tilvenka_pmp::{Csr, Hart, NoRegister, Unit};
    /// let unit = Unit::new(Hart::new(8, 4, 56, false).expect("a hart"));
    /// assert_eq!(unit.read(Csr::address(63)), Ok(0)); // of an entry that the hart lacks
    /// assert_eq!(unit.read(Csr::MSECCFG), Err(NoRegister::Unknown)); // it has no Smepmp
    /// assert_eq!(unit.read(Csr::configuration(1)), Err(NoRegister::OddConfiguration));
    /// ```
    pub fn read(&self, csr: Csr) -> Result<u64, NoRegister> {
        let mut value = 0;
        NoRegister::of_status(unsafe {
            ffi::tilvenka_pmp_read(&self.unit, csr.number(), &mut value)
        })?;
        Ok(value)
    }

    /// Builds the map, for many questions after the last of several writes. [`Unit::settle`] is for any number of
    /// questions.
    pub fn build(&mut self) {
        unsafe { ffi::tilvenka_pmp_build(&mut self.unit) }
    }

    /// Builds the map if it isn't built and the given number of questions (decisions, rights, runs) since the last
    /// change pays for it. Returns whether it is then built. Count from 0 after a reset, a restore and each write that
    /// [changed](Written::is_changed) something, add one for each question, and call this before it.
    ///
    /// ```
    /// # use tilvenka_pmp::{Csr, Size, Unit};
    /// let mut unit = Unit::new(Size::Sixteen);
    /// unit.write(Csr::address(0), 0x200001ff)?;
    /// unit.write(Csr::configuration(0), 0x19)?;
    /// assert!(!unit.settle(1)); // one question costs less than a map
    /// assert!(unit.settle(1_000_000) && unit.is_built());
    /// # Ok::<(), tilvenka_pmp::NoRegister>(())
    /// ```
    pub fn settle(&mut self, questions: u64) -> bool {
        unsafe { ffi::tilvenka_pmp_settle(&mut self.unit, questions) }
    }

    /// Whether the map is built. After a write that changes something it isn't.
    #[must_use]
    pub fn is_built(&self) -> bool {
        unsafe { ffi::tilvenka_pmp_is_built(&self.unit) }
    }

    /// Decides an access by the map if it is built, otherwise by the registers.
    ///
    /// # Errors
    ///
    /// `NoAccess` if the numbers describe none.
    ///
    /// ```
    /// # use tilvenka_pmp::{Access, Cause, Fault, Kind, Mode, Size, Unit};
    /// let unit = Unit::new(Size::Sixteen);
    /// let answer = unit.decide(&Access::new(Mode::User, Kind::Load, 0x80000000, 8))?;
    /// assert_eq!((answer.fault, answer.cause), (Some(Fault::Load), Cause::NoMatch));
    /// # Ok::<(), tilvenka_pmp::NoAccess>(())
    /// ```
    pub fn decide(&self, access: &Access) -> Result<Answer, NoAccess> {
        let Access {
            mode,
            kind,
            start,
            length,
        } = *access;
        Answer::of_number(unsafe {
            ffi::tilvenka_pmp_decide(&self.unit, mode as u32, kind as u32, start, length)
        })
    }

    /// Decides by the registers alone: slower, and independent of the map.
    ///
    /// # Errors
    ///
    /// `NoAccess` if the numbers describe none.
    pub fn decide_by_registers(&self, access: &Access) -> Result<Answer, NoAccess> {
        let Access {
            mode,
            kind,
            start,
            length,
        } = *access;
        Answer::of_number(unsafe {
            ffi::tilvenka_pmp_decide_by_registers(
                &self.unit,
                mode as u32,
                kind as u32,
                start,
                length,
            )
        })
    }

    /// Returns the rights of every access of the mode inside the range of `length` bytes, as for a page in a TLB.
    /// `None` if not all bytes have the same entry, so each access has to be decided.
    ///
    /// # Errors
    ///
    /// `NoRange` if the range has no bytes or ends above 2^56.
    ///
    /// ```
    /// # use tilvenka_pmp::{Mode, Size, Unit};
    /// let rights = Unit::new(Size::Sixteen).rights(Mode::Machine, 0x80000000, 4096)?;
    /// assert_eq!(rights.expect("one owner").to_string(), "rwx");
    /// # Ok::<(), tilvenka_pmp::NoRange>(())
    /// ```
    pub fn rights(&self, mode: Mode, start: u64, length: u64) -> Result<Option<Rights>, NoRange> {
        Rights::of_number(unsafe {
            ffi::tilvenka_pmp_rights(&self.unit, mode as u32, start, length)
        })
    }

    /// Returns all registers, with zeros for those of entries that the hart lacks.
    #[must_use]
    pub fn save(&self) -> Registers {
        let mut registers = self.unit.registers;
        unsafe { ffi::tilvenka_pmp_save_to(&self.unit, &mut registers) }
        registers
    }

    /// Restores registers, whatever they hold and whatever is locked. If their number names no hart, the unit is
    /// unchanged.
    ///
    /// # Errors
    ///
    /// `NoHart` in that case.
    ///
    /// ```
    /// # use tilvenka_pmp::{Size, Unit};
    /// let mut unit = Unit::new(Size::Sixteen);
    /// assert_eq!(unit.restore(&Unit::new(Size::SixtyFour).save()), Ok(()));
    /// assert_eq!(unit, Unit::new(Size::SixtyFour));
    /// ```
    pub fn restore(&mut self, registers: &Registers) -> Result<(), NoHart> {
        NoHart::of_status(unsafe { ffi::tilvenka_pmp_restore_from(&mut self.unit, registers) })
    }

    /// Returns all bytes around this one that have the same entry, or none, as for a TLB with entries of any size.
    ///
    /// # Errors
    ///
    /// `NoRange` if the address isn't below 2^56.
    ///
    /// ```
    /// # use tilvenka_pmp::{Csr, Size, Unit};
    /// let mut unit = Unit::new(Size::Sixteen);
    /// unit.write(Csr::address(0), 0x200001ff)?;
    /// unit.write(Csr::configuration(0), 0x19)?;
    /// let run = unit.run(0x80000800).expect("an address below 2^56");
    /// assert_eq!((run.first, run.last, run.owner), (0x80000000, 0x80000fff, Some(0)));
    /// # Ok::<(), tilvenka_pmp::NoRegister>(())
    /// ```
    pub fn run(&self, address: u64) -> Result<Run, NoRange> {
        let (mut first, mut last) = (0, 0);
        let mut ask = |mode| unsafe {
            ffi::tilvenka_pmp_run(&self.unit, mode, address, &mut first, &mut last)
        };
        let (machine, others) = (ask(ffi::MACHINE), ask(ffi::USER));
        let owner = match machine % ffi::FAULT {
            ffi::NO_ACCESS => return Err(NoRange),
            ffi::NO_MATCH => None,
            entry => Some(entry as u8),
        };
        Ok(Run {
            first,
            last,
            owner,
            machine: Rights::in_number(machine / ffi::FAULT),
            others: Rights::in_number(others / ffi::FAULT),
        })
    }

    /// Returns the runs of all bytes, in order, as `pmp map` writes them.
    ///
    /// ```
    /// # use tilvenka_pmp::{Size, Unit};
    /// let mut runs = Unit::new(Size::Sixteen).runs();
    /// assert_eq!((runs.len(), runs.next().map(|it| it.last)), (1, Some((1 << 56) - 1)));
    /// ```
    #[must_use]
    pub fn runs(&self) -> Runs {
        let mut built = self.clone();
        built.build();
        let count = built.unit.map.runs as usize;
        Runs::of(built, count)
    }
}

/// Sixteen entries after reset.
impl Default for Unit {
    fn default() -> Unit {
        Unit::new(Hart::default())
    }
}

/// Units are equal if their registers are.
impl PartialEq for Unit {
    fn eq(&self, other: &Unit) -> bool {
        self.save() == other.save()
    }
}

impl Eq for Unit {}

impl Hash for Unit {
    fn hash<H: Hasher>(&self, to: &mut H) {
        self.save().hash(to);
    }
}

impl fmt::Debug for Unit {
    fn fmt(&self, to: &mut fmt::Formatter) -> fmt::Result {
        to.debug_struct("Unit")
            .field("registers", &self.save())
            .field("is_built", &self.is_built())
            .finish()
    }
}

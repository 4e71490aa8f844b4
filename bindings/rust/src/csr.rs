//! The unit's control and status registers.

use crate::ffi;
use crate::word::NoWord;
use core::fmt;
use core::str::FromStr;

const CONFIGURATION: u32 = 0x3a0;
const ADDRESS: u32 = 0x3b0;

/// A PMP register, `mseccfg` or `mseccfgh`, which a hart may lack.
///
/// ```
/// # use tilvenka_pmp::{Csr, NoRegister};
/// assert_eq!(Csr::try_from(0x3b1), Ok(Csr::address(1))); // by its CSR number
/// assert_eq!(Csr::try_from(0x300), Err(NoRegister::Unknown));
/// assert_eq!("pmpcfg2".parse(), Ok(Csr::configuration(2))); // by its name
/// assert_eq!(Csr::MSECCFG.to_string(), "mseccfg");
/// ```
#[derive(Clone, Copy, Debug, PartialEq, Eq, Hash, PartialOrd, Ord)]
pub struct Csr(u32);

impl Csr {
    /// `mseccfg`, which a hart with Smepmp has.
    pub const MSECCFG: Csr = Csr(0x747);

    /// `mseccfgh`, which such a hart has on RV32. It reads as zero.
    pub const MSECCFGH: Csr = Csr(0x757);

    /// The `pmpaddr` register of an entry.
    ///
    /// # Panics
    ///
    /// Panics if the entry is above 63.
    #[must_use]
    pub const fn address(entry: u8) -> Csr {
        assert!(entry < 64, "there are pmpaddr0 to pmpaddr63");
        Csr(ADDRESS + entry as u32)
    }

    /// The `pmpcfg` register with this number. On RV64 it is even and configures eight entries, on RV32 it configures
    /// four.
    ///
    /// # Panics
    ///
    /// Panics if the number is above 15.
    #[must_use]
    pub const fn configuration(number: u8) -> Csr {
        assert!(number < 16, "there are pmpcfg0 to pmpcfg15");
        Csr(CONFIGURATION + number as u32)
    }

    /// The CSR number.
    #[must_use]
    pub const fn number(self) -> u32 {
        self.0
    }
}

/// The register with this CSR number: 0x3a0 to 0x3ef, 0x747 or 0x757.
impl TryFrom<u32> for Csr {
    type Error = NoRegister;

    fn try_from(number: u32) -> Result<Csr, NoRegister> {
        match number {
            0x3a0..=0x3ef | 0x747 | 0x757 => Ok(Csr(number)),
            _ => Err(NoRegister::Unknown),
        }
    }
}

/// The name, such as `pmpaddr0`.
impl fmt::Display for Csr {
    fn fmt(&self, to: &mut fmt::Formatter) -> fmt::Result {
        match *self {
            Csr::MSECCFG => to.write_str("mseccfg"),
            Csr::MSECCFGH => to.write_str("mseccfgh"),
            Csr(number) if number < ADDRESS => write!(to, "pmpcfg{}", number - CONFIGURATION),
            Csr(number) => write!(to, "pmpaddr{}", number - ADDRESS),
        }
    }
}

/// Parses its name, such as `pmpaddr0`.
impl FromStr for Csr {
    type Err = NoWord;

    fn from_str(name: &str) -> Result<Csr, NoWord> {
        let numbered = |digits: &str, count: u8| {
            let number = digits.parse().ok().filter(|it| *it < count)?;
            let is_plain = digits == "0" || digits.starts_with(|it| matches!(it, '1'..='9'));
            is_plain.then_some(number)
        };
        let named = || match name {
            "mseccfg" => Some(Csr::MSECCFG),
            "mseccfgh" => Some(Csr::MSECCFGH),
            _ => match name.strip_prefix("pmpaddr") {
                Some(entry) => numbered(entry, 64).map(Csr::address),
                None => numbered(name.strip_prefix("pmpcfg")?, 16).map(Csr::configuration),
            },
        };
        named().ok_or(NoWord::wanted(
            "a register is pmpcfg0 to pmpcfg15, pmpaddr0 to pmpaddr63, mseccfg or mseccfgh",
        ))
    }
}

/// The hart has no such register.
#[derive(Clone, Copy, Debug, PartialEq, Eq, Hash)]
pub enum NoRegister {
    /// The register is an odd `pmpcfg`, of which RV64 has none.
    OddConfiguration,
    /// It isn't a PMP register, or is `mseccfg` or `mseccfgh` on a hart that lacks it.
    Unknown,
}

impl NoRegister {
    /// Reads the status of a write or a read. Other bits report what a write did.
    pub(crate) fn of_status(number: u32) -> Result<(), NoRegister> {
        match number {
            ffi::ODD_CONFIGURATION => Err(NoRegister::OddConfiguration),
            ffi::NO_REGISTER => Err(NoRegister::Unknown),
            _ => Ok(()),
        }
    }
}

impl fmt::Display for NoRegister {
    fn fmt(&self, to: &mut fmt::Formatter) -> fmt::Result {
        to.write_str(match self {
            NoRegister::OddConfiguration => "RV64 has no odd pmpcfg register",
            NoRegister::Unknown => "the hart has no PMP register of this number",
        })
    }
}

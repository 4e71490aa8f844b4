//! The registers of a unit.

use crate::ffi::MAX_ENTRIES;
use crate::hart::Hart;
use core::fmt;

/// All registers of a unit, as in a snapshot.
///
/// ```
/// # use tilvenka_pmp::{Csr, Size, Unit};
/// let mut unit = Unit::new(Size::Sixteen);
/// unit.write(Csr::address(0), 0x200001ff)?;
/// assert_eq!(unit.save().addresses[0], 0x200001ff);
/// # Ok::<(), tilvenka_pmp::NoRegister>(())
/// ```
#[repr(C)]
#[derive(Clone, Copy, PartialEq, Eq, Hash)]
pub struct Registers {
    /// `pmpaddr0` and so on: bits 55 to 2 of a byte address, or 33 to 2 on RV32, including those below the grain.
    pub addresses: [u64; MAX_ENTRIES],
    /// Each entry's byte in its `pmpcfg` register.
    pub configurations: [u8; MAX_ENTRIES],
    /// MML in bit 0, MMWP in bit 1, RLB in bit 2.
    pub mseccfg: u64,
    /// The hart's number, which [`Hart::try_from`] reads.
    pub entries: u64,
}

impl Registers {
    /// The registers of this hart after reset.
    #[must_use]
    pub const fn of(hart: Hart) -> Registers {
        Registers {
            addresses: [0; MAX_ENTRIES],
            configurations: [0; MAX_ENTRIES],
            mseccfg: 0,
            entries: hart.number(),
        }
    }
}

/// The registers of a hart with sixteen entries after reset.
impl Default for Registers {
    fn default() -> Registers {
        Registers::of(Hart::default())
    }
}

/// The hart, and the registers of its entries in hexadecimal.
///
/// ```
/// # use tilvenka_pmp::{Hart, Unit};
/// let unit = Unit::new(Hart::new(2, 4, 56, true).expect("a hart"));
/// let text = format!("{:?}", unit.save());
/// assert!(text.ends_with("mseccfg: 0, configurations: [0, 0], addresses: [0, 0] }"));
/// ```
impl fmt::Debug for Registers {
    fn fmt(&self, to: &mut fmt::Formatter) -> fmt::Result {
        let mut shown = to.debug_struct("Registers");
        let count = match Hart::try_from(self.entries) {
            Ok(hart) => {
                shown.field("hart", &hart);
                usize::from(hart.entries())
            }
            Err(_) => {
                shown.field("entries", &self.entries);
                MAX_ENTRIES
            }
        };
        let (configurations, addresses) = (&self.configurations[..count], &self.addresses[..count]);
        shown
            .field("mseccfg", &format_args!("{:x}", self.mseccfg))
            .field("configurations", &format_args!("{configurations:x?}"))
            .field("addresses", &format_args!("{addresses:x?}"))
            .finish()
    }
}

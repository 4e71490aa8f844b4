//! The hart of a unit.

use crate::ffi;
use core::convert::Infallible;
use core::fmt;

/// The number of entries of an RV64 hart with a grain of 4 bytes, 56-bit addresses, and Smepmp.
#[derive(Clone, Copy, Debug, PartialEq, Eq, Hash)]
pub enum Size {
    /// 16 entries.
    Sixteen = 16,
    /// 64 entries.
    SixtyFour = 64,
}

/// The hart's number of entries, its grain, its physical address width, whether it has Smepmp, and its XLEN.
///
/// ```
/// # use tilvenka_pmp::{Hart, Unit};
/// let hart = Hart::new(8, 4096, 38, false).expect("a hart");
/// assert_eq!(Hart::try_from(Unit::new(hart).save().entries), Ok(hart)); // the hart of saved registers
/// assert_eq!((hart.entries(), hart.grain(), hart.address_bits()), (8, 4096, 38));
/// assert_eq!(hart.to_string(), "RV64 with 8 entries, grain 4096, 38 address bits and no Smepmp");
/// ```
#[derive(Clone, Copy, PartialEq, Eq, Hash)]
pub struct Hart(u64);

impl Hart {
    /// The RV64 hart with this number of entries, 0 to 64, a grain in bytes, 4, 8, 16 and so on to 4096, and this
    /// number of address bits, 34 to 56. `None` if there is no such hart.
    #[must_use]
    pub fn new(entries: u8, grain: u16, address_bits: u8, has_smepmp: bool) -> Option<Hart> {
        Hart::of(false, entries, grain, address_bits, has_smepmp)
    }

    /// The RV32 hart, whose addresses have 32 to 34 bits.
    ///
    /// ```
    /// # use tilvenka_pmp::{Csr, Hart, Unit};
    /// let mut unit = Unit::new(Hart::rv32(16, 4, 34, true).expect("a hart"));
    /// unit.write(Csr::configuration(1), 0x19)?; // of entry 4
    /// assert_eq!(unit.save().configurations[4], 0x19);
    /// # Ok::<(), tilvenka_pmp::NoRegister>(())
    /// ```
    #[must_use]
    pub fn rv32(entries: u8, grain: u16, address_bits: u8, has_smepmp: bool) -> Option<Hart> {
        Hart::of(true, entries, grain, address_bits, has_smepmp)
    }

    fn of(rv32: bool, entries: u8, grain: u16, address_bits: u8, has_smepmp: bool) -> Option<Hart> {
        let is_one = entries <= 64
            && grain.is_power_of_two()
            && (4..=4096).contains(&grain)
            && (if rv32 { 32..=34 } else { 34..=56 }).contains(&address_bits);
        let is_usual = grain == 4 && address_bits == 56 && has_smepmp;
        is_one.then(|| match entries {
            16 | 64 if is_usual => Hart(u64::from(entries)),
            _ => Hart(ffi::hart(rv32, entries, grain, address_bits, has_smepmp)),
        })
    }

    /// The number that saved registers use for it.
    #[must_use]
    pub const fn number(self) -> u64 {
        self.0
    }

    /// Its number, or for 16 and 64 the full encoding.
    const fn whole(self) -> u64 {
        match self.0 {
            16 | 64 => USUAL | self.0,
            number => number,
        }
    }

    /// The number of entries.
    #[must_use]
    pub const fn entries(self) -> u8 {
        self.whole() as u8
    }

    /// The grain in bytes.
    #[must_use]
    pub const fn grain(self) -> u16 {
        4 << (self.whole() >> 24 & 0xff)
    }

    /// The number of physical address bits.
    #[must_use]
    pub const fn address_bits(self) -> u8 {
        (self.whole() >> 8) as u8
    }

    /// Whether it has Smepmp.
    #[must_use]
    pub const fn has_smepmp(self) -> bool {
        self.whole() >> 16 & 1 != 0
    }

    /// XLEN, 32 or 64.
    #[must_use]
    pub const fn xlen(self) -> u8 {
        if self.whole() >> 17 & 1 != 0 {
            32
        } else {
            64
        }
    }
}

impl fmt::Debug for Hart {
    fn fmt(&self, to: &mut fmt::Formatter) -> fmt::Result {
        to.debug_struct("Hart")
            .field("xlen", &self.xlen())
            .field("entries", &self.entries())
            .field("grain", &self.grain())
            .field("address_bits", &self.address_bits())
            .field("has_smepmp", &self.has_smepmp())
            .finish()
    }
}

impl fmt::Display for Hart {
    fn fmt(&self, to: &mut fmt::Formatter) -> fmt::Result {
        write!(
            to,
            "RV{} with {} entries, grain {}, {} address bits and {}Smepmp",
            self.xlen(),
            self.entries(),
            self.grain(),
            self.address_bits(),
            if self.has_smepmp() { "" } else { "no " }
        )
    }
}

/// The RV64 hart with sixteen entries, a grain of 4 bytes, 56-bit addresses, and Smepmp.
impl Default for Hart {
    fn default() -> Hart {
        Size::Sixteen.into()
    }
}

/// The bits beside the entries in the number of an RV64 hart with a grain of 4 bytes, 56-bit addresses, and Smepmp.
const USUAL: u64 = 1 << 32 | 1 << 16 | 56 << 8;

impl From<Size> for Hart {
    fn from(size: Size) -> Hart {
        Hart(size as u64)
    }
}

/// The hart of saved registers, from their number.
impl TryFrom<u64> for Hart {
    type Error = NoHart;

    fn try_from(number: u64) -> Result<Hart, NoHart> {
        let [entries, bits, flags, shift, ..] = number.to_le_bytes();
        let grain = 4u16.checked_shl(u32::from(shift)).unwrap_or(0);
        let (has_smepmp, rv32) = (flags & 1 != 0, flags & 2 != 0);
        match number {
            16 | 64 => Some(Hart(number)),
            _ => Hart::of(rv32, entries, grain, bits, has_smepmp)
                .filter(|_| ffi::hart(rv32, entries, grain, bits, has_smepmp) == number),
        }
        .ok_or(NoHart)
    }
}

/// The number names no hart.
///
/// ```
/// # use tilvenka_pmp::{NoHart, Size, Unit};
/// let mut unit = Unit::new(Size::Sixteen);
/// let mut saved = unit.save();
/// saved.entries = 8; // `Hart::new(8, 4, 56, true)` has another number
/// assert_eq!(unit.restore(&saved), Err(NoHart));
/// ```
#[derive(Clone, Copy, Debug, PartialEq, Eq, Hash)]
pub struct NoHart;

impl NoHart {
    /// Reads the status of a reset or a restore.
    pub(crate) fn of_status(number: u32) -> Result<(), NoHart> {
        match number {
            ffi::NO_HART => Err(NoHart),
            _ => Ok(()),
        }
    }
}

impl fmt::Display for NoHart {
    fn fmt(&self, to: &mut fmt::Formatter) -> fmt::Result {
        to.write_str("the number is that of no hart")
    }
}

/// A type that always names a hart can't fail.
impl From<Infallible> for NoHart {
    fn from(none: Infallible) -> NoHart {
        match none {}
    }
}

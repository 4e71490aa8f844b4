//! The PMP unit of an RV64 or RV32 hart with Smepmp 1.0, from the proved C library `tilvenka_pmp`.
//!
//! ```
//! use tilvenka_pmp::{Access, Csr, Kind, Mode, Size, Unit};
//!
//! let mut unit = Unit::new(Size::Sixteen);
//! unit.write(Csr::address(0), 0x200001ff)?;
//! unit.write(Csr::configuration(0), 0x19)?;
//! let load = Access::new(Mode::User, Kind::Load, 0x80000ff8, 8);
//! assert!(unit.decide(&load)?.is_allowed());
//! # Ok::<(), Box<dyn std::error::Error>>(())
//! ```
//!
//! A [`Unit`] takes the CSR writes that firmware makes, and decides an [`Access`] as the RISC-V Privileged
//! Architecture, Volume II, says. It is plain numbers: it needs no allocation, and may be cloned and sent to other
//! threads. Calls of a unit accept any numbers. Addresses are byte addresses of physical memory.
//!
//! # Features
//!
//! - `std`, on by default: errors implement [`std::error::Error`]. Without it the crate is `no_std`.
//! - `shared`: links the shared library, which must be found at run time, instead of the archive.
//! - `static`: changes nothing. The archive is linked without it too.
#![cfg_attr(not(any(test, feature = "std")), no_std)]
#![warn(missing_docs)]

mod answer;
mod csr;
mod ffi;
mod hart;
mod registers;
mod run;
mod unit;
mod version;
mod word;
mod written;

pub use answer::{Access, Answer, Cause, Fault, Kind, Mode, NoAccess};
pub use csr::{Csr, NoRegister};
pub use hart::{Hart, NoHart, Size};
pub use registers::Registers;
pub use run::{NoRange, Rights, Run, Runs};
pub use unit::Unit;
pub use version::{is_compatible, version};
pub use word::NoWord;
pub use written::{Reason, Reasons, Written};

#[cfg(feature = "std")]
mod errors {
    use std::error::Error;

    impl Error for crate::NoAccess {}
    impl Error for crate::NoHart {}
    impl Error for crate::NoRange {}
    impl Error for crate::NoRegister {}
    impl Error for crate::NoWord {}
}

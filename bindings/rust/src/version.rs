//! The version of the library.

use crate::ffi;
use core::mem::size_of;

/// Returns the version of the linked or loaded library: its major, minor and patch number.
///
/// ```
/// assert_eq!(tilvenka_pmp::version().0, 0);
/// ```
#[must_use]
pub fn version() -> (u32, u32, u32) {
    let number = unsafe { ffi::tilvenka_pmp_version() };
    (number / 10000, number / 100 % 100, number % 100)
}

/// Whether that library fits this crate: it has the crate's major and minor numbers, and the same size of units.
///
/// ```
/// assert!(tilvenka_pmp::is_compatible());
/// ```
#[must_use]
pub fn is_compatible() -> bool {
    let (number, size) = unsafe { (ffi::tilvenka_pmp_version(), ffi::tilvenka_pmp_unit_size()) };
    is_for_this(number, size)
}

fn is_for_this(version: u32, unit_size: u64) -> bool {
    version / 100 == ffi::VERSION / 100 && unit_size == size_of::<ffi::Unit>() as u64
}

#[test]
fn another_library_is_noticed() {
    let size = size_of::<ffi::Unit>() as u64;
    assert!(is_for_this(ffi::VERSION, size) && is_for_this(ffi::VERSION + 1, size));
    assert!(!is_for_this(ffi::VERSION - 100, size) && !is_for_this(ffi::VERSION + 100, size));
    assert!(!is_for_this(ffi::VERSION + 10000, size));
    assert!(!is_for_this(ffi::VERSION, size - 8) && !is_for_this(ffi::VERSION, size + 8));
}

#[test]
fn the_number_is_that_of_the_crate() {
    let numbers = [0, 1, 2].map(|it| env!("CARGO_PKG_VERSION").split('.').nth(it).unwrap());
    let [major, minor, patch] = numbers.map(|it| it.parse::<u32>().unwrap());
    assert_eq!(ffi::VERSION, 10000 * major + 100 * minor + patch);
}

//! A word that isn't valid.

use core::fmt;

/// The word isn't a valid name of its kind.
///
/// ```
/// let fault = "X".parse::<tilvenka_pmp::Mode>().unwrap_err();
/// assert_eq!(fault.to_string(), "a mode is M, S or U");
/// ```
#[derive(Clone, Copy, Debug, PartialEq, Eq, Hash)]
pub struct NoWord {
    wanted: &'static str,
}

impl NoWord {
    pub(crate) const fn wanted(wanted: &'static str) -> NoWord {
        NoWord { wanted }
    }
}

impl fmt::Display for NoWord {
    fn fmt(&self, to: &mut fmt::Formatter) -> fmt::Result {
        to.write_str(self.wanted)
    }
}

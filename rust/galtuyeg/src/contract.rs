//! What is left to say where the library answers outside its contract. It is proved not to, so this is
//! about a wrapper linked with a library of another version.

use crate::raw;

/// Ends the program: an answer nobody can name must not be taken for another.
pub(crate) fn broken(what: &str, value: u64) -> ! {
    panic!(
        "the linked library, version {}, answered {what} {value}, unknown to this wrapper, version {}",
        raw::version(),
        raw::VERSION
    )
}

/// A value that the contract says fits a byte.
pub(crate) fn byte(what: &str, value: u64) -> u8 {
    u8::try_from(value).unwrap_or_else(|_| broken(what, value))
}

/// A value that the contract says fits two bytes.
pub(crate) fn word(what: &str, value: u64) -> u16 {
    u16::try_from(value).unwrap_or_else(|_| broken(what, value))
}

//! The errors and refusals of calls.
use crate::sys;
use core::{fmt, slice, str};

/// A refusal of a request, by its name in traces. Except for `PoolEmpty`, a refusal depends only on what the tenant itself did,
/// on its grants, take-backs and resets, and on the machine's order and number of tenants.
#[derive(Clone, Copy, Debug, PartialEq, Eq, Hash)]
#[rustfmt::skip]
pub enum Refusal {
    NoFrames = 1, BadOrder, NotABlock, OutOfReach, BadLength, BadSize, BadAlign, NoCacheSlot, NoCache, CacheInUse, NotAnObject,
    NoTenant, PoolEmpty, NoSlot, SlotBusy,
}
use Refusal::*;

/// The refusals in the order of their numbers, from 1.
#[rustfmt::skip]
const REFUSALS: [Refusal; 15] = [
    NoFrames, BadOrder, NotABlock, OutOfReach, BadLength, BadSize, BadAlign, NoCacheSlot, NoCache, CacheInUse, NotAnObject,
    NoTenant, PoolEmpty, NoSlot, SlotBusy,
];

/// Why a call failed: a refusal, a mistake of the caller, or `NoMemory`. A call that fails leaves the machine as it was, except
/// that a heap may have made a cache, and a heap with runs may have freed the tenant's empty slabs.
#[derive(Clone, Copy, Debug, PartialEq, Eq, Hash)]
#[non_exhaustive]
pub enum Error {
    Refused(Refusal),
    /// A number of the [`Config`](crate::Config) is out of range, or the sizes of a heap's classes are not allowed.
    BadConfig,
    /// The [`Memory`](crate::Memory) of a machine is too small or not aligned. Or a tenant cannot have a heap with runs: it has
    /// no slot, or its slots do not lie in a row, or it has such a heap already.
    BadMemory,
    /// An allocation failed. A heap returns this error if no free block of its tenant is large enough, or if the alignment of the
    /// value is above 4096.
    NoMemory,
    /// The pattern of a cache does not have 1 to 16 bytes.
    BadPattern,
    /// A handle or a [`Cache`](crate::Cache) belongs to another machine or tenant, or is from before a reset of its tenant. Or
    /// the `Cache` was destroyed, or a [`Client`](crate::Client) belongs to another machine.
    Stale,
    /// A status that this crate does not expect.
    Other(u32),
}

/// Returns `Ok` for the status 0, or else the error that the status stands for.
pub(crate) fn done(status: u32) -> Result<(), Error> {
    Err(match status {
        0 => return Ok(()),
        1..=15 => REFUSALS[status as usize - 1].into(),
        34 => Error::BadConfig,
        35 => Error::BadMemory,
        36 => Error::NoMemory,
        other => Error::Other(other),
    })
}

/// Returns the library's text of a status.
fn text_of(status: u32) -> &'static str {
    // SAFETY: any number is allowed. The text ends in a zero and is never freed or changed.
    let bytes = unsafe {
        let text = sys::partmem_strerror(status);
        let length = (0..).take_while(|&at| *text.add(at) != 0).count();
        slice::from_raw_parts(text, length)
    };
    str::from_utf8(bytes).unwrap_or("a status without a text")
}

impl From<Refusal> for Error {
    fn from(refusal: Refusal) -> Error {
        Error::Refused(refusal)
    }
}

impl fmt::Display for Error {
    fn fmt(&self, to: &mut fmt::Formatter<'_>) -> fmt::Result {
        to.write_str(match self {
            Error::Refused(refusal) => text_of(*refusal as u32),
            Error::BadConfig => text_of(34),
            Error::BadMemory => text_of(35),
            Error::NoMemory => text_of(36),
            Error::BadPattern => "BadPattern: the pattern does not have 1 to 16 bytes",
            Error::Stale => "Stale: a handle of another machine or tenant, from before a reset, or of a destroyed cache",
            Error::Other(status) => text_of(*status),
        })
    }
}

#[cfg(feature = "std")]
impl std::error::Error for Error {}

#[cfg(test)]
mod tests {
    use super::*;
    use std::{format, string::ToString};

    #[test]
    fn each_status_has_the_name_that_the_library_gives_to_it() {
        for (name, status) in REFUSALS.iter().map(|it| format!("{it:?}: ")).zip(1..) {
            assert!(done(status).unwrap_err().to_string().starts_with(&name), "{name}");
        }
        for (error, status) in [(Error::BadConfig, 34), (Error::BadMemory, 35), (Error::NoMemory, 36)] {
            assert_eq!(done(status), Err(error));
            assert!(error.to_string().starts_with(&format!("{error:?}: ")), "{error}");
        }
    }
}

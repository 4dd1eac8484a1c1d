//! Checks untrusted pickles before anything loads them, by a proved checker: whatever its objects
//! do when it is loaded, an accepted pickle imports only listed names and leaves exactly one
//! object. The check executes no part of it.
//!
//! ```
//! use storklocker::List;
//!
//! let list = List::of(&[("collections", "OrderedDict")]);
//! let pickle = b"cos\nsystem\n(Vtouch /tmp/mark\ntR.";
//! match list.check(pickle) {
//!     Ok(accepted) => println!("load the first {} bytes", accepted.taken),
//!     Err(refusal) => assert_eq!(refusal.to_string(), r#"no at 0: ImportOffList("os","system")"#),
//! }
//! assert!(list.check(b"ccollections\nOrderedDict\n)R.").is_ok());
//! ```
//!
//! Load the very bytes that you checked: a file can change. No call keeps state, and threads may
//! share lists. The library is linked in; it needs the C library's `malloc` and nothing else. It
//! has no listing of instructions and no JSON: those are the program's, `storklocker dis` and
//! `storklocker json`.

#![deny(missing_docs)]

mod limits;
mod list;
mod raw;
mod records;
mod verdict;

pub use limits::{Limits, OldStrings};
pub use list::{List, ListFault};
pub use verdict::{Accepted, Bill, Pair, Reason, Refusal, Verdict};

use std::ffi::CStr;
use std::fmt::{self, Display, Formatter};

/// What the imports of a pickle may need, in bytes; each also needs 16.
pub const MOST: usize = 1 << 26;

/// The imports of a pickle.
#[derive(Clone, Debug, PartialEq, Eq)]
pub struct Imports {
    /// In order, each as often as it occurs; `None` for one that the pickle doesn't reveal. Those
    /// of a refused pickle are before the place of the refusal.
    pub found: Vec<Option<Pair>>,
    /// The verdict with every import permitted.
    pub verdict: Verdict,
}

/// The imports of a pickle need more bytes than they may: a text that a pickle names a thousand
/// times is written a thousand times.
#[derive(Clone, Copy, Debug, PartialEq, Eq)]
pub struct TooLong {
    /// The bytes that they need.
    pub wanted: u64,
}

impl Display for TooLong {
    fn fmt(&self, f: &mut Formatter<'_>) -> fmt::Result {
        write!(f, "the imports need {} bytes", self.wanted)
    }
}

impl std::error::Error for TooLong {}

/// The imports of the pickle at the front of the bytes, which need at most `most` bytes.
///
/// ```
/// use storklocker::{imports, Limits, MOST};
///
/// let said = imports(b"cos\nsystem\n.", &Limits::default(), MOST)?;
/// assert_eq!(said.found[0].as_ref().unwrap().to_string(), r#""os" "system""#);
/// assert!(said.verdict.is_ok());
/// # Ok::<(), storklocker::TooLong>(())
/// ```
pub fn imports(pickle: &[u8], limits: &Limits, most: usize) -> Result<Imports, TooLong> {
    let settings = limits.raw();
    let (texts, told) = records::within(most, |room, length, wanted, told| {
        // SAFETY: each pointer is valid for its length, and nothing else uses what is written.
        unsafe {
            raw::storklocker_imports_loading(
                &settings,
                pickle.as_ptr(),
                pickle.len(),
                room,
                length,
                wanted,
                told,
            )
        }
    });
    assert!(told.status <= raw::NO, "the library doesn't know these settings: it is older");
    let texts = texts.map_err(|wanted| TooLong { wanted })?;
    Ok(Imports {
        found: records::parted(&texts).map(|it| it.map(Pair::of)).collect(),
        verdict: verdict::verdict(&told, limits.limit_costs(), None),
    })
}

/// The version of the library.
pub fn version() -> &'static str {
    // SAFETY: the text is static, and ends with a NUL.
    let text = unsafe { CStr::from_ptr(raw::storklocker_version()) };
    text.to_str().unwrap_or_default()
}

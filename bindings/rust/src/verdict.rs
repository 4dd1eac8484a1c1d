use crate::raw;
use crate::records::text_of;
use std::ffi::CStr;
use std::fmt::{self, Display, Formatter};

/// A module and a name. It is printed as the program prints it, between quotes and in printable
/// ASCII, because those of a pickle are untrusted.
#[derive(Clone, Debug, PartialEq, Eq, PartialOrd, Ord, Hash)]
pub struct Pair {
    /// The module, such as `os`.
    pub module: String,
    /// The name in it, dots included.
    pub name: String,
}

fn quoted(text: &str, f: &mut Formatter<'_>) -> fmt::Result {
    f.write_str("\"")?;
    for &byte in text.as_bytes() {
        match byte {
            b'"' | b'\\' => write!(f, "\\x{:02x}", byte)?,
            b' '..=b'~' => write!(f, "{}", byte as char)?,
            _ => write!(f, "\\x{:02x}", byte)?,
        }
    }
    f.write_str("\"")
}

impl Pair {
    pub(crate) fn of((module, name): (&[u8], &[u8])) -> Pair {
        Pair { module: text_of(module), name: text_of(name) }
    }

    fn written(&self, between: &str, f: &mut Formatter<'_>) -> fmt::Result {
        quoted(&self.module, f)?;
        f.write_str(between)?;
        quoted(&self.name, f)
    }
}

impl Display for Pair {
    fn fmt(&self, f: &mut Formatter<'_>) -> fmt::Result {
        self.written(" ", f)
    }
}

/// A pickle, or all pickles of a stream, that may be loaded.
#[derive(Clone, Copy, Debug, PartialEq, Eq)]
pub struct Accepted {
    /// The accepted bytes, STOP included.
    pub taken: u64,
    /// The imports in them.
    pub imports: u64,
    /// The pickles; 1, unless a stream was checked.
    pub pickles: u64,
    /// What loading the last pickle costs, if a limit on costs is set.
    pub bill: Option<Bill>,
}

/// What loading a pickle costs.
#[derive(Clone, Copy, Debug, PartialEq, Eq)]
pub struct Bill {
    /// The levels of tuples in the deepest key.
    pub levels: u32,
    /// The weight of the heaviest key.
    pub weight: u32,
    /// The weight of all keys together.
    pub work: u64,
    /// The weight of all keys that can be made to collide.
    pub clash: u64,
    /// The bytes that loading takes, by estimate.
    pub memory: u64,
}

/// Why a pickle is refused. It is printed by its name, such as `ImportOffList`.
#[derive(Clone, Copy, Debug, PartialEq, Eq, Hash)]
pub struct Reason(pub(crate) u32);

impl Reason {
    /// The number, which never changes.
    pub fn number(self) -> u32 {
        self.0
    }

    /// The name, such as `ImportOffList`.
    pub fn name(self) -> &'static str {
        // SAFETY: the text is static, and ends with a NUL.
        let text = unsafe { CStr::from_ptr(raw::storklocker_reason_text(self.0)) };
        text.to_str().unwrap_or_default()
    }
}

impl Display for Reason {
    fn fmt(&self, f: &mut Formatter<'_>) -> fmt::Result {
        f.write_str(self.name())
    }
}

/// A refusal. It is printed as the program prints it.
#[derive(Clone, Debug, PartialEq, Eq)]
pub struct Refusal {
    /// The offset of the refused instruction, from the first byte of all pickles.
    pub at: u64,
    /// Why it is refused.
    pub reason: Reason,
    /// The code byte, protocol or memo number of `UnknownOpcode`, `UnsupportedProtocol` and
    /// `MissingMemo`.
    pub number: Option<u32>,
    /// The pair of `ImportOffList`.
    pub pair: Option<Pair>,
    /// In a stream of pickles, how many were accepted before.
    pub pickles: Option<u64>,
}

impl Display for Refusal {
    fn fmt(&self, f: &mut Formatter<'_>) -> fmt::Result {
        f.write_str("no ")?;
        if let Some(pickles) = self.pickles {
            write!(f, "in pickle {} ", pickles)?;
        }
        write!(f, "at {}: {}", self.at, self.reason)?;
        match (&self.pair, self.number) {
            (Some(pair), _) => {
                f.write_str("(")?;
                pair.written(",", f)?;
                f.write_str(")")
            }
            (None, Some(number)) => write!(f, "({})", number),
            (None, None) => Ok(()),
        }
    }
}

impl std::error::Error for Refusal {}

/// What a check says: a refusal is an error, so that `?` loads nothing that is refused.
pub type Verdict = Result<Accepted, Refusal>;

/// The reasons with a number.
const NUMBERED: [&str; 3] = ["UnknownOpcode", "UnsupportedProtocol", "MissingMemo"];

/// The library's verdict.
pub(crate) fn verdict(raw: &raw::Verdict, has_bill: bool, pair: Option<Pair>) -> Verdict {
    if raw.status == raw::YES {
        let bill = Bill {
            levels: raw.levels,
            weight: raw.weight,
            work: raw.work,
            clash: raw.clash,
            memory: raw.memory,
        };
        return Ok(Accepted {
            taken: raw.taken,
            imports: raw.imports,
            pickles: raw.pickles,
            bill: if has_bill { Some(bill) } else { None },
        });
    }
    let reason = Reason(raw.reason);
    let is_numbered = NUMBERED.contains(&reason.name());
    Err(Refusal {
        at: raw.at,
        reason,
        number: if is_numbered { Some(raw.number) } else { None },
        pair,
        pickles: None,
    })
}

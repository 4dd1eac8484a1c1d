use crate::raw;
use std::mem::size_of;

/// What an unpickler makes of a string of Python 2.
#[derive(Clone, Copy, Debug, PartialEq, Eq)]
pub enum OldStrings {
    /// Anything: the answer holds for every unpickler.
    Unknown = 0,
    /// A text; a byte above 7f is refused.
    Ascii = 1,
    /// Bytes.
    Bytes = 2,
}

/// The settings of a check. A limit above its greatest value means that value, and `None` is no
/// limit; [`Limits::default`] has the library's standard values.
///
/// ```
/// let limits = storklocker::Limits { levels: Some(20), ..Default::default() };
/// assert_eq!(limits.counted, 16_777_216);
/// ```
#[derive(Clone, Copy, Debug, PartialEq, Eq)]
pub struct Limits {
    /// Bytes in the payload of a counted argument.
    pub counted: u64,
    /// Entries of the stack, marks included.
    pub stack: u64,
    /// Entries of the memo.
    pub memo: u64,
    /// Bytes in a payload that is skipped.
    pub passed: u64,
    /// The greatest memo number; CPython allocates 16 bytes for each number up to it.
    pub numbers: u64,
    /// What strings of Python 2 become.
    pub old_strings: OldStrings,
    /// Whether one `Unpickler`, which keeps its memo, loads all pickles of a stream.
    pub one_unpickler: bool,
    /// Whether limits may be those for large data.
    pub large: bool,
    /// Levels of tuples in a key; from 1,023 on no limit.
    pub levels: Option<u32>,
    /// The weight of a key; from 1,048,575 on no limit.
    pub weight: Option<u32>,
    /// The weight of all keys together.
    pub work: Option<u64>,
    /// The weight of all keys that can be made to collide.
    pub clash: Option<u64>,
    /// Bytes that loading takes, by estimate.
    pub memory: Option<u64>,
    /// Whether BUILD may take an object that an import gave.
    pub builds: bool,
}

impl Default for Limits {
    fn default() -> Limits {
        Limits {
            counted: 16_777_216,
            stack: 1_000_000,
            memo: 1_000_000,
            passed: 16_777_216,
            numbers: 1_000_000,
            old_strings: OldStrings::Unknown,
            one_unpickler: false,
            large: false,
            levels: None,
            weight: None,
            work: None,
            clash: None,
            memory: None,
            builds: true,
        }
    }
}

/// A limit that no key exceeds is none: the library wants it said so.
fn below(limit: Option<u32>, end: u32) -> u32 {
    limit.filter(|&it| it < end).unwrap_or(std::u32::MAX)
}

impl Limits {
    /// As the library takes them, with pairs in order.
    pub(crate) fn raw(&self) -> raw::Settings {
        raw::Settings {
            size: size_of::<raw::Settings>() as u64,
            counted: self.counted,
            stack: self.stack,
            memo: self.memo,
            passed: self.passed,
            numbers: self.numbers,
            old_strings: self.old_strings as u32,
            row_memo: self.one_unpickler as u32,
            large: self.large as u32,
            sorted: 1,
            levels: below(self.levels, 1_023),
            weight: below(self.weight, 1_048_575),
            work: self.work.unwrap_or(std::u64::MAX),
            clash: self.clash.unwrap_or(std::u64::MAX),
            memory: self.memory.unwrap_or(std::u64::MAX),
            builds: self.builds as u32,
            unused: 0,
        }
    }

    /// Those that the library read from a list file.
    pub(crate) fn of(raw: &raw::Settings) -> Limits {
        let short = |limit| if limit == std::u32::MAX { None } else { Some(limit) };
        let long = |limit| if limit == std::u64::MAX { None } else { Some(limit) };
        Limits {
            counted: raw.counted,
            stack: raw.stack,
            memo: raw.memo,
            passed: raw.passed,
            numbers: raw.numbers,
            large: raw.large == 1,
            levels: short(raw.levels),
            weight: short(raw.weight),
            work: long(raw.work),
            clash: long(raw.clash),
            memory: long(raw.memory),
            builds: raw.builds == 1,
            ..Limits::default()
        }
    }

    /// Whether a limit on what loading costs is set, so that an acceptance has a bill.
    pub(crate) fn limit_costs(&self) -> bool {
        let raw = self.raw();
        let keys = (raw.levels, raw.weight, raw.builds) != (std::u32::MAX, std::u32::MAX, 1);
        keys || [raw.work, raw.clash, raw.memory] != [std::u64::MAX; 3]
    }
}

use crate::raw;
use crate::records::{self, text_of};
use crate::verdict::verdict;
use crate::{Accepted, Limits, Pair, Refusal, Verdict};
use std::ffi::CStr;
use std::fmt::{self, Display, Formatter};

/// Names of a refused import are at first given so much room.
const ROOM: usize = 256;

/// The imports that a pickle may make, and the limits of a check. Threads may share it.
///
/// ```
/// use storklocker::List;
///
/// let list = List::parse("version = 1\n[imports]\ncollections = [\"OrderedDict\"]\n")?;
/// let pickle = b"ccollections\nOrderedDict\n)R.";
/// assert_eq!(list.check(pickle)?.imports, 1);
///
/// let refusal = list.check(b"cos\nsystem\n.").unwrap_err();
/// assert_eq!(refusal.to_string(), r#"no at 0: ImportOffList("os","system")"#);
/// assert_eq!(refusal.pair.unwrap().module, "os");
/// # Ok::<(), Box<dyn std::error::Error>>(())
/// ```
#[derive(Debug)]
pub struct List {
    /// The limits, first those of the list file.
    pub limits: Limits,
    texts: Box<[u8]>,
    raw: Vec<raw::Pair>,
    substitutes: Vec<(String, String)>,
}

// SAFETY: `raw` points into `texts`, which is never changed or moved.
unsafe impl Send for List {}
// SAFETY: as above, and no call changes anything.
unsafe impl Sync for List {}

impl List {
    /// Reads the text of a list file.
    pub fn parse(text: &str) -> Result<List, ListFault> {
        let (at, size) = (text.as_ptr(), text.len());
        let mut limits = Limits::default().raw();
        let texts = read(|room, length, wanted, told| {
            // SAFETY: each pointer is valid for its length, and nothing else uses what is written.
            unsafe { raw::storklocker_read_list(at, size, room, length, &mut limits, wanted, told) }
        })?;
        let mut said = [0; 8];
        let substitutes = read(|room, length, wanted, told| {
            // SAFETY: as above.
            unsafe { raw::storklocker_list_told(at, size, room, length, &mut said, wanted, told) }
        })?;
        let mut list = List::of_texts(texts, Limits::of(&limits));
        let told = records::parted(&substitutes).flatten();
        list.substitutes = told.map(|(name, other)| (text_of(name), text_of(other))).collect();
        Ok(list)
    }

    /// The list of these modules and names, in any order, with the standard limits.
    ///
    /// ```
    /// let list = storklocker::List::of(&[("collections", "OrderedDict"), ("datetime", "date")]);
    /// assert!(list.check(b"cdatetime\ndate\n.").is_ok());
    /// ```
    pub fn of(pairs: &[(&str, &str)]) -> List {
        let mut texts = Vec::new();
        for text in pairs.iter().flat_map(|pair| vec![pair.0, pair.1]) {
            texts.extend_from_slice(&(text.len() as u64).to_le_bytes());
            texts.extend_from_slice(text.as_bytes());
        }
        List::of_texts(texts, Limits::default())
    }

    fn of_texts(texts: Vec<u8>, limits: Limits) -> List {
        let texts = texts.into_boxed_slice();
        let mut pairs: Vec<(&[u8], &[u8])> = records::parted(&texts).flatten().collect();
        pairs.sort_unstable();
        let raw = pairs.into_iter().map(raw::Pair::of).collect();
        List { limits, texts, raw, substitutes: Vec::new() }
    }

    /// The pairs.
    pub fn pairs(&self) -> impl Iterator<Item = Pair> + '_ {
        records::parted(&self.texts).flatten().map(Pair::of)
    }

    /// Names of the list file, each with what stands for it when a pickle is loaded, as the file
    /// spells them. No check depends on them; whoever doesn't know them must not load under the
    /// list.
    pub fn substitutes(&self) -> &[(String, String)] {
        &self.substitutes
    }

    /// Checks the pickle at the front of the bytes. Bytes after its STOP are ignored.
    pub fn check(&self, pickle: &[u8]) -> Verdict {
        self.checked(raw::storklocker_check_pairs, pickle).map_err(|it| it.0)
    }

    /// Checks one or more pickles that follow one another up to the end of the bytes.
    ///
    /// ```
    /// let list = storklocker::List::of(&[]);
    /// assert_eq!(list.check_stream(b"N.N.").unwrap().pickles, 2);
    /// let refusal = list.check_stream(b"N.(.").unwrap_err();
    /// assert_eq!(refusal.to_string(), "no in pickle 1 at 3: MissingItem");
    /// ```
    pub fn check_stream(&self, pickles: &[u8]) -> Verdict {
        self.checked(raw::storklocker_check_row, pickles).map_err(|(mut refusal, pickles)| {
            refusal.pickles = Some(pickles);
            refusal
        })
    }

    /// The verdict, with the pickles that were accepted before a refusal.
    fn checked(&self, call: raw::Check, pickle: &[u8]) -> Result<Accepted, (Refusal, u64)> {
        let mut room = vec![0; ROOM];
        let mut raw = self.called(call, pickle, &mut room);
        let wanted = (raw.module_length + raw.name_length) as usize;
        if wanted > room.len() {
            room = vec![0; wanted];
            raw = self.called(call, pickle, &mut room);
        }
        let pair = if raw.has_pair == 1 {
            let (module, rest) = room.split_at(raw.module_length as usize);
            Some(Pair::of((module, &rest[..raw.name_length as usize])))
        } else {
            None
        };
        verdict(&raw, self.limits.limit_costs(), pair).map_err(|it| (it, raw.pickles))
    }

    fn called(&self, call: raw::Check, pickle: &[u8], room: &mut [u8]) -> raw::Verdict {
        let settings = self.limits.raw();
        let mut told = raw::Verdict::default();
        let (pairs, count, size) = (self.raw.as_ptr(), self.raw.len(), room.len());
        let (at, length, names) = (pickle.as_ptr(), pickle.len(), room.as_mut_ptr());
        // SAFETY: each pointer is valid for its length, and nothing else uses `room` and `told`.
        let status = unsafe { call(pairs, count, &settings, at, length, names, size, &mut told) };
        assert!(status <= raw::NO, "the library doesn't know these settings: it is older");
        told
    }
}

/// What a call writes of a list file.
fn read(
    call: impl FnMut(*mut u8, usize, &mut u64, &mut raw::Verdict) -> u32,
) -> Result<Vec<u8>, ListFault> {
    let (texts, told) = records::within(std::usize::MAX, call);
    match texts {
        Ok(texts) if told.status == raw::YES => Ok(texts),
        _ => Err(ListFault { number: told.reason }),
    }
}

/// Why a list file cannot be read. It is printed by its name, such as `Shape(Imports)`.
#[derive(Clone, Copy, Debug, PartialEq, Eq)]
pub struct ListFault {
    number: u32,
}

impl ListFault {
    /// The number, which never changes.
    pub fn number(self) -> u32 {
        self.number
    }
}

impl Display for ListFault {
    fn fmt(&self, f: &mut Formatter<'_>) -> fmt::Result {
        // SAFETY: the text is static, and ends with a NUL.
        let text = unsafe { CStr::from_ptr(raw::storklocker_fault_text(self.number)) };
        write!(f, "list: {}", text.to_string_lossy())
    }
}

impl std::error::Error for ListFault {}

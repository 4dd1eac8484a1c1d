//! The pairs that the library writes: the length of a module in eight bytes, the module, and so its
//! name.

use crate::raw;
use std::convert::TryFrom;

/// At first the pairs are given so much room.
const ROOM: usize = 4096;

/// A text of the library, which is UTF-8.
pub fn text_of(bytes: &[u8]) -> String {
    String::from_utf8_lossy(bytes).into_owned()
}

/// What a call writes, called again with more room if it needs that; the last verdict. Whoever
/// calls compares what it needs with `most` first: then nothing is written.
pub fn within(
    most: usize,
    mut call: impl FnMut(*mut u8, usize, &mut u64, &mut raw::Verdict) -> u32,
) -> (Result<Vec<u8>, u64>, raw::Verdict) {
    let mut room = vec![0; ROOM.min(most)];
    let mut told = raw::Verdict::default();
    let mut wanted = 0;
    call(room.as_mut_ptr(), room.len(), &mut wanted, &mut told);
    if wanted > room.len() as u64 {
        match usize::try_from(wanted).ok().filter(|&it| it <= most) {
            Some(length) => room = vec![0; length],
            None => return (Err(wanted), told),
        }
        call(room.as_mut_ptr(), room.len(), &mut wanted, &mut told);
    }
    room.truncate(wanted as usize);
    (Ok(room), told)
}

fn text_at<'a>(rest: &mut &'a [u8]) -> Option<&'a [u8]> {
    let (head, tail) = rest.split_at(8);
    let length = u64::from_le_bytes(<[u8; 8]>::try_from(head).ok()?);
    if length == std::u64::MAX {
        *rest = tail;
        return None;
    }
    let (text, tail) = tail.split_at(length as usize);
    *rest = tail;
    Some(text)
}

/// The pairs; none in place of one that a pickle doesn't reveal.
pub fn parted(texts: &[u8]) -> impl Iterator<Item = Option<(&[u8], &[u8])>> {
    let mut rest = texts;
    std::iter::from_fn(move || {
        if rest.is_empty() {
            return None;
        }
        let (module, name) = (text_at(&mut rest), text_at(&mut rest));
        Some(module.and_then(|it| Some((it, name?))))
    })
}

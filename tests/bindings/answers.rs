//! Prints what the crate says of each pickle in a file, as the program does: answers FILE LIST
//! The file has records: how to check in a byte, a length in four, and so a pickle. Of a refused
//! pickle the program lists no imports.

use std::convert::TryInto;
use std::io::Write;
use storklocker::{imports, Limits, List, OldStrings, Verdict, MOST};

const OLD_STRINGS: [OldStrings; 3] = [OldStrings::Unknown, OldStrings::Ascii, OldStrings::Bytes];

fn said(verdict: &Verdict, is_stream: bool) -> String {
    match verdict {
        Err(refusal) => refusal.to_string(),
        Ok(it) if is_stream => {
            format!("yes: {} bytes, {} pickles, {} imports", it.taken, it.pickles, it.imports)
        }
        Ok(it) => format!("yes: {} bytes, {} imports", it.taken, it.imports),
    }
}

fn main() -> Result<(), Box<dyn std::error::Error>> {
    let words: Vec<String> = std::env::args().collect();
    let corpus = std::fs::read(&words[1])?;
    let mut list = List::parse(&std::fs::read_to_string(&words[2])?)?;
    let limits = Limits { numbers: 4_294_967_295, ..Limits::default() };
    let stdout = std::io::stdout();
    let mut out = std::io::BufWriter::new(stdout.lock());
    let mut rest = &corpus[..];
    while let Some((&kind, tail)) = rest.split_first() {
        let (length, tail) = tail.split_at(4);
        let (pickle, tail) = tail.split_at(u32::from_le_bytes(length.try_into()?) as usize);
        rest = tail;
        let old_strings = OLD_STRINGS[if kind < 3 { usize::from(kind) } else { 0 }];
        list.limits = Limits { old_strings, one_unpickler: kind == 4, ..limits };
        let is_stream = kind > 2;
        let verdict = if is_stream { list.check_stream(pickle) } else { list.check(pickle) };
        writeln!(out, "{}", said(&verdict, is_stream))?;
        let found = imports(pickle, &limits, MOST)?;
        for import in found.found.iter().filter(|_| found.verdict.is_ok()) {
            match import {
                Some(pair) => writeln!(out, "{}", pair)?,
                None => writeln!(out, "unknown")?,
            }
        }
        writeln!(out, "{}", said(&found.verdict, false))?;
    }
    Ok(())
}

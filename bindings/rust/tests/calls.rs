use storklocker::{imports, version, Limits, List, OldStrings, MOST};

const KEY: &[u8] = b"(dN\x85\x85\x85Ns."; // {(((None,),),): None}

fn told(list: &List, pickle: &[u8]) -> String {
    match list.check(pickle) {
        Ok(accepted) => format!("yes: {}", accepted.taken),
        Err(refusal) => refusal.to_string(),
    }
}

#[test]
fn limits_on_costs_refuse() {
    let mut list = List::of(&[]);
    assert_eq!(list.check(KEY).unwrap().bill, None);
    list.limits.levels = Some(3);
    assert_eq!(list.check(KEY).unwrap().bill.unwrap().levels, 3);
    list.limits.levels = Some(2);
    assert_eq!(told(&list, KEY), "no at 7: DeepKey");
    for none in &[1_023, 4_294_967_295] {
        list.limits.levels = Some(*none); // which no key exceeds
        assert_eq!(list.check(KEY).unwrap().bill, None);
    }
    list.limits.weight = Some(1_048_575);
    assert!(list.check(KEY).is_ok());
}

#[test]
fn old_strings_are_read_as_said() {
    let mut list = List::of(&[]);
    assert_eq!(told(&list, b"U\x01\xff."), "yes: 4");
    list.limits.old_strings = OldStrings::Ascii;
    assert_eq!(told(&list, b"U\x01\xff."), "no at 0: NotAscii");
}

#[test]
fn a_stream_keeps_a_memo_if_one_unpickler_loads_it() {
    let mut list = List::of(&[]);
    let stream = b"Np5\n.g5\n.";
    assert_eq!(
        list.check_stream(stream).unwrap_err().to_string(),
        "no in pickle 1 at 5: MissingMemo(5)"
    );
    list.limits.one_unpickler = true;
    assert_eq!(list.check_stream(stream).unwrap().pickles, 2);
}

#[test]
fn names_of_any_length_are_told() {
    let list = List::of(&[]);
    let module = "m".repeat(70_000);
    let mut pickle = b"\x80\x04X\x70\x11\x01\x00".to_vec();
    pickle.extend_from_slice(module.as_bytes());
    pickle.extend_from_slice(b"\x8c\x00\x93.");
    let pair = list.check(&pickle).unwrap_err().pair.unwrap();
    assert_eq!((pair.module.as_str(), pair.name.as_str()), (module.as_str(), ""));
    let found = imports(&pickle, &Limits::default(), MOST).unwrap().found;
    assert_eq!(found, [Some(pair)]);
    assert_eq!(imports(&pickle, &Limits::default(), 99).unwrap_err().wanted, 70_016);
}

#[test]
fn names_are_printed_in_ascii() {
    let refusal =
        List::of(&[]).check(b"\x80\x04\x8c\x03\x1b\"\n\x8c\x02\xc3\xa9\x93.").unwrap_err();
    let wanted = r#"no at 11: ImportOffList("\x1b\x22\x0a","\xc3\xa9")"#;
    assert_eq!(refusal.to_string(), wanted);
}

#[test]
fn imports_that_are_not_revealed_are_none() {
    let said = imports(b"\x80\x04cos\ngetcwd\n)R\x8c\x01a\x93.", &Limits::default(), MOST).unwrap();
    assert_eq!(said.found[0].as_ref().unwrap().name, "getcwd");
    assert_eq!(said.found[1], None);
    assert_eq!(said.verdict.unwrap().imports, 2);
}

#[test]
fn a_list_file_says_all() {
    let text =
        "version = 2\n[imports]\nq = [\"C.d\"]\na = [\"y\", \"x\", \"y\"]\n[limits]\nlevels = 20\n\
        [rules]\nbuild = \"made\"\n[substitutes]\n\"q:C.d\" = \"s.t:e\"\n";
    let list = List::parse(text).unwrap();
    let pairs: Vec<String> = list.pairs().map(|it| it.to_string()).collect();
    assert_eq!(pairs, [r#""a" "y""#, r#""a" "x""#, r#""a" "y""#, r#""q" "C.d""#]);
    assert_eq!(
        (list.limits.levels, list.limits.weight, list.limits.builds),
        (Some(20), None, false)
    );
    assert_eq!(list.substitutes(), [("q:C.d".to_owned(), "s.t:e".to_owned())]);
    for pickle in &[&b"ca\nx\n."[..], b"ca\ny\n.", b"cq\nC.d\n."] {
        assert!(list.check(pickle).is_ok());
    }
    assert!(list.check(b"cq\nC\n.").is_err());
    assert_eq!(List::parse("version = 9").unwrap_err().to_string(), "list: Version");
    assert_eq!(List::parse("").unwrap_err().number(), 2);
}

#[test]
fn threads_share_a_list() {
    let list = std::sync::Arc::new(List::of(&[("a", ""), ("", "b"), ("a", "b")]));
    let moved = list.clone();
    let thread = std::thread::spawn(move || moved.check(b"ca\nb\n.").is_ok());
    assert!(thread.join().unwrap());
    assert_eq!(list.pairs().count(), 3);
    assert!(list.check(b"").is_err());
    assert!(version().starts_with('0'));
}

//! A library that is newer than the binding: `tests/hosts` runs this with tests/header/newer.c in the library's place.
use shrikemuff::{
    compare, import, import_spot, library_version, names, read, write, Edit, Refusal, Table, COUNT_PLACES, TABLE_WORDS, VERSION,
};
use std::env::set_var;

/// What each call is refused with, in the order of `CALLS`.
fn refusals() -> Vec<Option<Refusal>> {
    let table = Table::from_words(Box::new([0; TABLE_WORDS]));
    let (mut doc, mut counts) = ([0; 4], [0; COUNT_PLACES]);
    vec![
        read(&[], &mut doc).err(),
        write(&[], &mut []).err(),
        import(&[], &mut []).err(),
        names(&[], &mut []).err(),
        import_spot(&[]).err().map(|spot| spot.refusal),
        Table::translate(&[]).err(),
        table.check(&doc, 0, &mut counts).err().map(|fault| fault.refusal),
        table.edit(&mut doc, 0, Edit::remove(1), &mut [0; 3], &mut counts).err().map(|fault| fault.refusal),
        table.list(&mut doc, 0, &[2, 1, 0], &mut counts).last.err().map(|fault| fault.refusal),
        table.group(&mut doc, 0, &[2, 1, 0], &mut [0; 4]).err().map(|fault| fault.fault.refusal),
        table.elements(&counts, 0).err(),
        compare(&table, &table, 0, &mut []).err(),
    ]
}

const CALLS: [&str; 12] =
    ["read", "write", "import", "names", "import_spot", "translate", "check", "edit", "list", "group", "elements", "compare"];

#[test]
#[ignore = "the library is not the newer one"]
fn newer() {
    for more in [1_000_000, 7_000_000] {
        set_var("NEWER_BY", more.to_string());
        assert_eq!(library_version(), VERSION + more);
        assert_eq!(refusals(), [Some(Refusal::Version(VERSION + more)); CALLS.len()]);
    }
    for more in [0, 1, 1_000] {
        set_var("NEWER_BY", more.to_string());
        for (i, call) in CALLS.iter().enumerate() {
            set_var("NEW_IN", call);
            let mut due = [None; CALLS.len()];
            due[i] = Some(Refusal::Unknown(1_013));
            assert_eq!(refusals(), due);
        }
    }
}

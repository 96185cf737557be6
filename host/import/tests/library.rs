//! The proved library's check of the tables that come of stores.

use formats::readers::Readers;
use formats::rows::Row;
use import::answer::read_answer;
use import::names::{read_names, EXISTS};
use import::{read_uses, Found, Gathered, Room, StoreRow, Told};

/// The packed table of what a store says, and how much of it was left out.
fn table(found: &[Found], room: Room) -> (Vec<u8>, usize) {
    let mut told = Told::default();
    let rows = Gathered::of(found, &mut told).into_rows(room, &mut told);
    let bytes = |StoreRow { name, flags }: &StoreRow| {
        let row = Row { flags: *flags, readers: Readers::ALL, name };
        row.to_bytes().expect("a row")
    };
    (rows.iter().flat_map(bytes).collect(), told.all_left_out().len())
}

#[test]
fn full_tables_pass() {
    let rows: Vec<String> = (0..600).map(|number| format!("{number:03}/x")).collect();
    let long: Vec<String> =
        (0..600).map(|number| format!("{number:03}{}", "n".repeat(197))).collect();
    for names in [rows, long] {
        for room in [Room::Program, Room::Library] {
            let found = read_names(names.join("\n").as_bytes(), b'/', EXISTS);
            let (table, left_out) = table(&found, room);
            assert!(left_out > 0 && luspemaro::check_table(&table));
        }
    }
}

/// Answers made of parts that fit together well or badly: whatever is kept passes.
#[test]
fn whatever_is_kept_passes() {
    let attributes = [
        "",
        "\\Noselect",
        "\\NoInferiors",
        "\\Marked \\Unmarked",
        "\\NonExistent",
        "\\Subscribed",
        "\\NonExistent \\Subscribed \\Trash",
        "\\Remote \\Sent \\Odd",
    ];
    let names = [
        "a",
        "a.b",
        "a/b",
        "a.b.c",
        "inbox",
        "INBOX.x",
        "Inbox/x",
        "a..b",
        ".a",
        "a.",
        "a%",
        "NIL",
        "a b",
        "b",
        "b.c.d.e.f.g.h.i.j.k.l.m.n.o.p.q.r.s",
        "\u{e9}",
    ];
    let mut seed = 1_u32;
    let mut next = |count: usize| {
        seed = seed.wrapping_mul(1_664_525).wrapping_add(1_013_904_223);
        seed as usize / 65_536 % count
    };
    for _ in 0..2_000 {
        let mut answer = String::new();
        for _ in 0..1 + next(12) {
            let word = ["LIST", "LIST", "LSUB"][next(3)];
            let delimiter = ["\".\"", "\"/\"", "NIL"][next(3)];
            let (attributes, name) = (attributes[next(attributes.len())], names[next(names.len())]);
            answer += &format!("* {word} ({attributes}) {delimiter} \"{name}\"\r\n");
        }
        let mut found = read_answer(answer.as_bytes(), &mut Told::default()).expect("an answer");
        let uses = ["sent=a,subscribed=a/b", "subscribed=INBOX/x", "trash=none,junk=a/b/c"];
        found.extend(read_uses(uses[next(uses.len())].as_bytes()).expect("uses"));
        let (table, _) = table(&found, Room::Program);
        assert!(luspemaro::check_table(&table), "{answer}");
    }
}

//! What a page looks like to who reads it: its words, its colours, and names of every length, depth and
//! script.

use child::testing::script;

use crate::page::Element;
use crate::reports::{report, run};

const EVERY_REFUSAL: &str = include_str!("../../../sessions/refusals.session");
const STYLE: &str = include_str!("../../src/report/report.css");

/// The widest picture that can still be read in print.
const MOST_WIDTH: usize = 1_000;
/// The widest indentation, in em.
const MOST_INDENT: f32 = 8.0;

fn drawn<'p>(page: &'p Element, tag: &str) -> Vec<&'p Element> {
    page.all().into_iter().filter(|element| element.tag == tag).collect()
}

fn width_of(picture: &Element) -> usize {
    let view = picture.attribute("viewBox").expect("a view");
    view.split(' ').nth(2).and_then(|part| part.parse().ok()).expect("a width")
}

/// The words that a page uses are on it, and none that only the papers know.
#[test]
fn words() {
    let source = "mailbox Foo/Bar exists subscribed\ncommand a LIST \"\" %\nwalk\nwalk 6\nwalk 9\nexpect 6\n";
    let page = report("words", source);
    let words: Vec<&str> = page.with("data-word").into_iter().map(|(_, word)| word).collect();
    for word in ["level", "subscribed", "implied name", "CHILDINFO", "refusal", "walk"] {
        assert!(words.contains(&word), "{word}");
    }
    let text = page.text();
    for paper in ["W1", "option byte 0", "option byte 6", "option byte 9"] {
        assert!(!text.contains(paper), "{paper}");
    }
    for walk in [
        "A walk that looks for subscribed mailboxes: local ones only.",
        "A walk that looks for mailboxes with a special use, subscribed or not: local ones only.",
        "A walk with options that no walk has: number 9.",
    ] {
        assert!(text.contains(walk), "{walk}");
    }
}

/// Refusals that the session expects are not red; others are.
#[test]
fn expected_refusals() {
    let page = report("expected", EVERY_REFUSAL);
    let refused = page.with("data-refused");
    assert_eq!(refused.len(), 34);
    for (line, _) in refused {
        assert_eq!(line.attribute("class"), Some("as-expected"), "{}", line.text());
    }
    let page = report("unexpected", "walk 9\nwalk 9\nexpect 7\n");
    for (line, _) in page.with("data-refused") {
        assert_eq!(line.attribute("class"), Some("wrong"));
    }
}

/// Names as long and as deep as they may be, and deeper: neither pictures nor indentation grow with them.
#[test]
fn long_and_deep_names() {
    let long = "W".repeat(200);
    let deep: Vec<String> = (1..=16).map(|level| format!("Level-{level:02}")).collect();
    let both = format!("{}/{}", vec!["d"; 15].join("/"), "W".repeat(170));
    let rows = [long.as_str(), &deep.join("/"), &both];
    let rows: String = rows.map(|name| format!("mailbox {name} exists subscribed\n")).concat();
    let unlawful = format!("mailbox {} exists\nwalk\nexpect 1\n", vec!["e"; 128].join("/"));
    for (name, source) in [
        ("long-names", format!("{rows}walk\ncommand a LIST \"\" *\n")),
        ("unlawful-names", unlawful),
    ] {
        let page = report(name, &source);
        for picture in drawn(&page, "svg") {
            assert!(width_of(picture) <= MOST_WIDTH, "{name}: {}", width_of(picture));
        }
        for (cell, style) in page.with("style") {
            if let Some(indent) = style.strip_prefix("padding-left:") {
                let indent: f32 = indent.trim_end_matches("em").parse().expect("a number");
                assert!(indent <= MOST_INDENT, "{}: {indent}", cell.text());
            }
        }
    }
    // A program that is not the proved one may find deeper names.
    let deeper = vec!["a"; 128].join("/");
    let hex: String = deeper.bytes().map(|byte| format!("{byte:02X}")).collect();
    let program = script(
        env!("CARGO_TARGET_TMPDIR"),
        "finds-deep",
        &format!("read x; echo 570080FF{hex}; cat"),
    );
    let (_, text) = run("deeper-names", &program, "walk\n", &[]);
    let page = Element::of_page(&text.expect("a page"));
    assert!(drawn(&page, "svg").iter().all(|picture| width_of(picture) <= MOST_WIDTH));
    assert_eq!((drawn(&page, "rect").len(), drawn(&page, "circle").len()), (128, 1));
    assert!(page.text().contains("level 128: a"));
    // The whole name stands in the table, however much of it is drawn.
    let page = report("long-names-again", &format!("{rows}walk\n"));
    let found: Vec<&str> = page.with("data-found-name").into_iter().map(|(_, name)| name).collect();
    assert!(found.contains(&long.as_str()) && found.contains(&both.as_str()));
}

/// The columns of every table are fixed, heads are repeated on each page in print, and pages are numbered.
#[test]
fn style() {
    for rule in [
        "table-layout:fixed",
        "thead{display:table-header-group}",
        "content:\"Page \" counter(page) \" of \" counter(pages)",
    ] {
        assert!(STYLE.contains(rule), "{rule}");
    }
    assert!(!STYLE.contains("url(") && !STYLE.contains("@import"));
}

/// Each level that is written from right to left stands in an element of its own, wherever a name does.
#[test]
fn levels_from_right_to_left() {
    // Two levels in Hebrew, 123 between them.
    let source = "mailbox &BdAF0Q-/123/&BdIF0w- exists subscribed\ncommand a LIST \"\" *\nwalk\n\
                  unsubscribe &BdAF0Q-/123/&BdIF0w-\n";
    let page = report("right-to-left", source);
    let whole = "&BdAF0Q-/123/&BdIF0w-  = \"\u{5d0}\u{5d1}/123/\u{5d2}\u{5d3}\"";
    let is_name = |element: &&Element| {
        matches!(element.tag.as_str(), "td" | "li" | "p") && element.text().contains(whole)
    };
    let names: Vec<&Element> = page.all().into_iter().filter(is_name).collect();
    // The tree, the find and the effect of the edit; the reasons of the answer have it once more.
    assert!(names.len() >= 3, "{}", names.len());
    for name in names {
        let levels: Vec<String> = drawn(name, "bdi").iter().map(|level| level.text()).collect();
        assert!(levels.len() >= 2 && levels.len().is_multiple_of(2), "{}", name.text());
        for pair in levels.chunks(2) {
            assert_eq!(pair, ["\u{5d0}\u{5d1}", "\u{5d2}\u{5d3}"]);
        }
    }
    assert!(
        drawn(&report("left-to-right", "mailbox Entw&APw-rfe exists\nwalk\n"), "bdi").is_empty()
    );
}

/// A title is text alone.
#[test]
fn titles() {
    let page = report("\u{5d0}\u{5d1}", "walk\n");
    let titles = drawn(&page, "title");
    assert!(titles[0].text().contains('\u{5d0}'), "{}", titles[0].text());
    assert!(titles.iter().all(|title| drawn(title, "bdi").is_empty()));
}

/// The comments of an imported table stand on the page: what it was made from, what such a source knows, and
/// what was left out.
#[test]
fn comments_of_an_import() {
    let comments = [
        "# 1 row from the Maildir++ tree /evidence/mail; 1 left out",
        "# A tree knows mailboxes and subscribed names; special uses and automatic subscriptions stand in \
         the server's configuration.",
        "# Left out: folder .50%: 50%: name bytes are 20 to 7E (hex), without % and *",
    ];
    let page = report("imported", &format!("{}\nmailbox a exists\nwalk\n", comments.join("\n")));
    let all = page.all();
    let shown = all.iter().filter(|part| part.attribute("class") == Some("comment"));
    assert_eq!(shown.map(|part| part.text()).collect::<Vec<_>>(), comments);
}

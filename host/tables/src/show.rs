//! A comparison as text, and as JSON for other tools.

use formats::json::Json;
use formats::rows::Row;
use formats::show::{beside, counted, row_text, said_text, show_namespaces, Shown};
use formats::text::{comment_text, name_text};
use session::{name_members, row_members};

use crate::difference::{Comparison, NameDifference, Said};
use crate::side::Side;

/// The words for the two tables, in labels.
struct Labels {
    table: &'static str,
    only: &'static str,
    differs: &'static str,
    left_out: &'static str,
    fault: &'static str,
    note: &'static str,
}

const A: Labels = Labels {
    table: "A",
    only: "Only A",
    differs: "  in A",
    left_out: "Left out A",
    fault: "Unlawful A",
    note: "Note A",
};
const B: Labels = Labels {
    table: "B",
    only: "Only B",
    differs: "  in B",
    left_out: "Left out B",
    fault: "Unlawful B",
    note: "Note B",
};

/// Lines with labels: the two tables, the differences in walk order, what was left out, the counts.
pub fn text(comparison: &Comparison) -> String {
    let Comparison { a, b, differences, .. } = comparison;
    let sides = [(a, &A), (b, &B)];
    let parts = [
        sides.map(|(side, labels)| side_line(side, labels)).concat(),
        differences.iter().map(difference_lines).collect(),
        namespace_lines(comparison),
        sides.map(|(side, labels)| remarks(side, labels)).concat(),
        line("Summary", summary_text(comparison)),
    ];
    let parts: Vec<String> = parts.into_iter().filter(|part| !part.is_empty()).collect();
    parts.join("\n")
}

fn line(label: &'static str, text: impl Into<String>) -> String {
    Shown::one_line(label, text.into()).to_string()
}

fn side_line(side: &Side, labels: &Labels) -> String {
    let rows = counted(side.rows.len(), "row", "rows");
    let kind = side.kind.text();
    line(labels.table, format!("{}, {kind}: {rows}", comment_text(&side.path)))
}

fn difference_lines(difference: &NameDifference) -> String {
    let NameDifference { name, a, b } = difference;
    let only = |labels: &Labels, said: &[Said]| -> String {
        let rows = said.iter().map(|&(flags, readers)| Row { flags, readers, name });
        rows.map(|row| line(labels.only, row_text(&row))).collect()
    };
    let both = |labels: &Labels, said: &[Said]| -> String {
        let said = said.iter().map(|&(flags, readers)| said_text(flags, readers));
        said.map(|text| line(labels.differs, text)).collect()
    };
    match (a.as_slice(), b.as_slice()) {
        (a, []) => only(&A, a),
        ([], b) => only(&B, b),
        (a, b) => line("Differs", name_text(name) + &beside(name)) + &both(&A, a) + &both(&B, b),
    }
}

/// The namespace lists where they differ, or that one was not compared.
fn namespace_lines(comparison: &Comparison) -> String {
    let Comparison { a, b, namespaces_differ, .. } = comparison;
    match namespaces_differ {
        Some(false) => String::new(),
        Some(true) => {
            let list = |side: &Side, labels: &Labels| -> String {
                let shown = show_namespaces(side.namespaces.as_deref().unwrap_or_default());
                shown.lines().map(|(_, entry)| line(labels.differs, entry)).collect()
            };
            line("Differs", "the namespace list") + &list(a, &A) + &list(b, &B)
        }
        None => {
            let has_list =
                |side: &Side| side.namespaces.as_ref().is_some_and(|list| !list.is_empty());
            let text = "its namespace list is not compared: the other one has none";
            let notes = [(a, &A), (b, &B)].map(|(side, labels)| match has_list(side) {
                true => line(labels.note, text),
                false => String::new(),
            });
            notes.concat()
        }
    }
}

/// What was left out, why a table does not pass, and notes.
fn remarks(side: &Side, labels: &Labels) -> String {
    let left_out = side.left_out.iter().map(|text| line(labels.left_out, text));
    let fault = side.fault.iter().map(|text| {
        line(labels.fault, format!("{text} (explained by the second program, not proved)"))
    });
    let notes = side.notes.iter().map(|text| line(labels.note, text));
    left_out.chain(fault).chain(notes).collect()
}

fn summary_text(comparison: &Comparison) -> String {
    let counts = comparison.counts();
    let left_out = comparison.a.left_out.len() + comparison.b.left_out.len();
    let names = counted(comparison.alike, "name", "names");
    let verdict = if comparison.is_alike() { "alike" } else { "not alike" };
    format!(
        "{} in A alone, {} in B alone, {} with other flags or readers, {names} alike; \
         {left_out} left out: the tables are {verdict}",
        counts.only_a, counts.only_b, counts.differ
    )
}

/// One JSON document.
pub fn json_text(comparison: &Comparison) -> String {
    let Comparison { a, b, differences, alike, namespaces_differ } = comparison;
    let differences: Vec<String> =
        differences.iter().map(|difference| difference_json(difference).to_string()).collect();
    let members = [
        ("format", Json::text("luspemaro tables 1").to_string()),
        ("a", side_json(a).to_string()),
        ("b", side_json(b).to_string()),
        ("differences", format!("[\n{}\n]", differences.join(",\n"))),
        ("namespaces_differ", Json::or_null(namespaces_differ.map(Json::Bool)).to_string()),
        ("names_alike", Json::number(*alike).to_string()),
        ("alike", Json::Bool(comparison.is_alike()).to_string()),
    ];
    let members = members.map(|(name, value)| format!("\"{name}\": {value}"));
    format!("{{{}}}\n", members.join(",\n"))
}

fn side_json(side: &Side) -> Json {
    Json::Object(vec![
        ("path", Json::bytes(&side.path)),
        ("kind", Json::text(side.kind.word())),
        ("rows", Json::number(side.rows.len())),
        ("left_out", Json::texts(side.left_out.iter().cloned())),
        ("fault", Json::or_null(side.fault.clone().map(Json::Text))),
        ("notes", Json::texts(side.notes.iter().cloned())),
    ])
}

fn difference_json(difference: &NameDifference) -> Json {
    let said = |said: &[Said]| {
        Json::list(said.iter().map(|&(flags, readers)| Json::Object(row_members(flags, readers))))
    };
    let sides = vec![("a", said(&difference.a)), ("b", said(&difference.b))];
    Json::Object([name_members(&difference.name), sides].concat())
}

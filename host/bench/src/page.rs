//! The tables of docs/PERFORMANCE.md.

use crate::inputs::{Beside, CASES, DEEP_WALK, SIZES};
use crate::measure::Measured;
use crate::trial::Taken;

/// The lines of the page between which the table stands.
const START: &str = "<!-- the table, written by host/bench/run -->";
const END: &str = "<!-- the end of the table -->";
const WORST_START: &str = "<!-- the worst commands, written by host/bench/run -->";
const WORST_END: &str = "<!-- the end of the worst commands -->";

/// All measures, case by case, and by size within a case.
pub type Measures = Vec<[Measured; SIZES.len()]>;

/// What stands after the table: measured without a bound.
pub struct Unbounded {
    /// The commands that were found by hand, and those that the search found.
    pub known: Vec<Taken>,
    pub found: Vec<Taken>,
    /// The deep walk, by size.
    pub walk: [Measured; SIZES.len()],
}

/// The page with new tables; none if it has no place for them.
pub fn with_measures(page: &str, measures: &Measures, unbounded: &Unbounded) -> Option<String> {
    let page = with_text(page, [START, END], &table(measures))?;
    with_text(&page, [WORST_START, WORST_END], &unbounded.text())
}

/// The page with this text between two of its lines.
fn with_text(page: &str, [start, end]: [&str; 2], text: &str) -> Option<String> {
    let (before, rest) = page.split_once(start)?;
    let (_, after) = rest.split_once(end)?;
    Some(format!("{before}{start}\n\n{text}\n{end}{after}"))
}

impl Unbounded {
    pub fn text(&self) -> String {
        let Unbounded { known, found, walk } = self;
        let mut text = format!("Commands that were found by hand:\n\n{}", hostile_table(known));
        text += &format!("\nThe worst that the search found:\n\n{}", hostile_table(found));
        text + &format!(
            "\nThe walk with the most commands, {}:\n\n{}",
            DEEP_WALK.title,
            walk_table(walk)
        )
    }
}

/// A line for each command, as its file has it.
fn hostile_table(taken: &[Taken]) -> String {
    let columns = "by the second program | by `LIST \"\" \"*\"` | steps";
    let mut text =
        format!("| Command | rows | their names | {columns} |\n|---|---:|---|---:|---:|---:|\n");
    for Taken { hostile, steps, by_second, by_reference, .. } in taken {
        text += &format!(
            "| {} | {} | `{}`, {} | {by_second:.2} | {by_reference:.0} | {steps} |\n",
            hostile.shown_line(),
            hostile.rows,
            hostile.name,
            hostile.kind.0
        );
    }
    text
}

fn walk_table(walk: &[Measured; SIZES.len()]) -> String {
    let header = "| Rows | by the second program | by half as many rows |\n|---:|---:|---:|\n";
    let mut text = header.to_string();
    for (at, (rows, one)) in SIZES.iter().zip(walk).enumerate() {
        let doubling = if at == 0 { String::new() } else { format!(" {:.1}", one.doubling) };
        text += &format!("| {rows} | {:.2} |{doubling} |\n", one.by_second);
    }
    text
}

fn table(measures: &Measures) -> String {
    let sizes = SIZES.map(|rows| format!(" {rows} rows |")).concat();
    let mut text =
        format!("| Call |{sizes} floor, by bytes | floor, by blocks | packed | `LIST` | steps |\n");
    text += &format!("|---|{}\n", "---:|".repeat(SIZES.len() + 5));
    for (case, measured) in CASES.iter().zip(measures) {
        let ratios: String =
            measured.iter().map(|one| format!(" {:.2} |", one.by_second)).collect();
        let full = &measured[SIZES.len() - 1];
        let floors = format!(" {:.1} | {:.0} |", full.by_byte_floor, full.by_block_floor);
        let beside: String = [Beside::Packed, Beside::Listing]
            .map(|column| match full.by_beside.filter(|_| case.beside() == Some(column)) {
                Some(ratio) => format!(" {ratio:.2} |"),
                None => " |".to_string(),
            })
            .concat();
        let steps = full.steps.map_or(String::new(), |steps| format!(" {steps}"));
        text += &format!("| {} |{ratios}{floors}{beside}{steps} |\n", case.title);
    }
    text
}

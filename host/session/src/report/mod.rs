//! A report of a session: one page that needs nothing beside it, to be read, printed and kept.
//!
//! The numbers, the lines and the names are the program's answers. Why a name was listed, and why
//! something was refused, is said by the second program and marked so; where its own answer is another
//! one, the page says that too. A [`Report`] is filled while a session runs and makes its page at the
//! end.

mod exchange;
mod facts;
mod glossary;
pub mod html;
mod tree;
mod verdict;
mod walk;

pub use exchange::Came;
pub use facts::{Facts, Matter, Versions};
pub(crate) use tree::Tables;

use formats::show::{counted, show_namespaces};

use crate::kept::Kept;
use crate::report::exchange::{exchange_html, Differing, Refused};
use crate::report::glossary::{glossary_html, glossary_link};
use crate::report::html::{cell, code_cell, fact, table, Html};
use crate::report::tree::Packed;
use crate::report::verdict::verdict_html;
use crate::second_program::Stored;
use crate::summary::RunSummary;
use crate::verdict::Conclusion;

/// No more exchanges than these are shown one by one, and no more than these bytes of them.
const MOST_EXCHANGES: usize = 1_000;
const MOST_BYTES: usize = 32 << 20;
/// No more refusals and no more differences than these are listed one by one. All are counted.
const MOST_LISTED: usize = 1_000;

const STYLE: &str = include_str!("report.css");
/// The page loads nothing and runs nothing.
const POLICY: &str = "default-src 'none'; style-src 'unsafe-inline'";

/// What is kept of a session for its page.
#[derive(Default)]
pub struct Report {
    exchanges: Html,
    shown: usize,
    /// Exchanges that are counted and not shown.
    more: usize,
    refused: Listed<Refused>,
    differing: Listed<Differing>,
    tables: Tables,
    namespaces: Vec<u8>,
}

/// The first ones of a list, and how many more there are.
struct Listed<T> {
    listed: Vec<T>,
    more: usize,
}

impl<T> Default for Listed<T> {
    fn default() -> Listed<T> {
        Listed { listed: Vec::new(), more: 0 }
    }
}

impl<T> Listed<T> {
    fn take(&mut self, one: Option<T>) {
        match one {
            Some(one) if self.listed.len() < MOST_LISTED => self.listed.push(one),
            Some(_) => self.more += 1,
            None => {}
        }
    }

    fn more_html(&self, one: &str, more: &str) -> Html {
        match self.more {
            0 => Html::default(),
            count => {
                let count = counted(count, one, more);
                Html::of_text("p", &[], format!("And {count} more, not listed."))
            }
        }
    }
}

impl Report {
    /// A comment of the session, for whoever reads the page too.
    pub fn record_comment(&mut self, comment: &str) {
        if self.has_room() {
            self.exchanges.push(Html::of_text("p", &[("class", "comment")], comment).and_line());
        }
    }

    /// What was sent and what came of it. A row or an entry that was kept is in the table.
    pub fn record(&mut self, came: &Came) {
        self.refused.take(Refused::of(came));
        self.differing.take(Differing::of(came));
        if !came.is_shown() {
            return;
        }
        if self.has_room() {
            self.shown += 1;
            self.exchanges.push(exchange_html(came));
        } else {
            self.more += 1;
        }
    }

    /// What the program and the second program keep at the end.
    pub fn record_end(&mut self, kept: &Kept, stored: &Stored) {
        self.tables = Tables::of(kept, stored);
        self.namespaces = kept.namespaces().to_vec();
    }

    fn has_room(&self) -> bool {
        self.more == 0 && self.shown < MOST_EXCHANGES && self.exchanges.len() < MOST_BYTES
    }

    /// The page. `stopped` says why the session was not run to its end, if it was not.
    pub fn page(self, facts: &Facts, summary: &RunSummary, stopped: Option<&str>) -> String {
        let title = "Report of a session";
        let body = [
            Html::of_text("h1", &[], title),
            verdict_html(&Conclusion::of(summary, stopped)),
            glossary_link(),
            self.facts(facts, summary),
            counts(summary),
            self.table_section(),
            self.exchanges_section(),
            self.refusals_section(),
            self.differences_section(summary),
            glossary_html(),
            Html::of_text("p", &[("class", "small")], ABOUT),
        ];
        page_of(&format!("{title}: {}", facts.session), body)
    }

    fn facts(&self, facts: &Facts, summary: &RunSummary) -> Html {
        let given = self.tables.given();
        let mut rows = facts.rows(summary);
        let (answers, differing) = summary.compared();
        let alike = format!("{} of {answers} answers, line by line", answers - differing);
        rows.push(fact("alike", "The second program answers the same", &alike));
        rows.push(fact("table", "Table as given, packed", &packed_text(&given)));
        rows.push(fact("table-sum", "SHA-256 of these bytes", &given.sum.to_string()));
        if let Some(end) = self.tables.at_end() {
            rows.push(fact("end", "Table after the edits, packed", &packed_text(&end)));
            rows.push(fact("end-sum", "SHA-256 of these bytes", &end.sum.to_string()));
        }
        let rows = Html::joined(rows.into_iter().map(Html::and_line));
        Html::element("table", &[("class", "facts")], Html::element("tbody", &[], rows))
    }

    fn table_section(&self) -> Html {
        let mut section = Html::of_text("h2", &[], "The table");
        section.push(self.tables.html());
        if !self.namespaces.is_empty() {
            section.push(Html::of_text("h2", &[], "The namespace list"));
            let lines = show_namespaces(&self.namespaces);
            let rows = lines.lines().map(|(_, line)| Html::element("tr", &[], code_cell(line)));
            section.push(table("namespaces", &["Class, prefix, delimiter"], rows));
        }
        section
    }

    fn exchanges_section(&self) -> Html {
        let mut section = Html::of_text("h2", &[], "What was asked, and what was answered");
        section.push(self.exchanges.clone());
        let more = self.more.to_string();
        if self.more > 0 {
            let count = counted(self.more, "exchange", "exchanges");
            let text = format!("After these came {count} more, counted above and not shown.");
            section.push(Html::of_text("p", &[("data-more", &more)], text));
        }
        section
    }

    fn refusals_section(&self) -> Html {
        let mut section = Html::of_text("h2", &[], "What was refused");
        if self.refused.listed.is_empty() {
            section.push(Html::of_text("p", &[], "Nothing was refused."));
            return section;
        }
        let heads = ["Line", "Number and meaning", "Why", "Expected"];
        section.push(table("refusals", &heads, self.refused.listed.iter().map(Refused::html)));
        section.push(self.refused.more_html("refusal", "refusals"));
        section
    }

    fn differences_section(&self, summary: &RunSummary) -> Html {
        let mut section = Html::of_text("h2", &[], "Where the second program answers otherwise");
        let (answers, differing) = summary.compared();
        if differing == 0 {
            let text = format!("Nowhere: {answers} of {answers} answers are the same.");
            section.push(Html::of_text("p", &[], text));
            return section;
        }
        let heads = ["Line", "How the answers differ"];
        section.push(table(
            "differences",
            &heads,
            self.differing.listed.iter().map(Differing::html),
        ));
        section.push(self.differing.more_html("difference", "differences"));
        section
    }
}

/// A whole page of these parts, which loads nothing and runs nothing.
pub fn page_of(title: &str, parts: impl IntoIterator<Item = Html>) -> String {
    let head = [
        Html::empty("meta", &[("charset", "utf-8")]),
        Html::empty("meta", &[("http-equiv", "Content-Security-Policy"), ("content", POLICY)]),
        Html::title(title),
        Html::style(STYLE),
    ];
    let head = Html::element("head", &[], Html::joined(head.map(Html::and_line)));
    let body = Html::joined(parts.into_iter().map(Html::and_line));
    let page = [head.and_line(), Html::element("body", &[], body).and_line()];
    Html::element("html", &[("lang", "en")], Html::joined(page)).into_page()
}

const ABOUT: &str = "The answers, counts and finds are the program's, those of a large walk the \
                     library's. Why a line was listed, why something was refused, what an edit \
                     does and what is hidden is explained by the second program, not proved.";

fn packed_text(packed: &Packed) -> String {
    let rows = counted(packed.rows, "row", "rows");
    format!("{rows}, {}", counted(packed.bytes, "byte", "bytes"))
}

fn counts(summary: &RunSummary) -> Html {
    let mut section = Html::of_text("h2", &[], "Counts");
    let row = |(what, count): (&'static str, usize)| {
        let count = count.to_string();
        let cells = [cell(what), Html::of_text("td", &[("data-count", what)], count)];
        Html::element("tr", &[], Html::joined(cells))
    };
    section.push(table("counts", &["What", "How many"], summary.counts().into_iter().map(row)));
    section
}

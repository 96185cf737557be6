//! What a report rests on: the session, the program and the library and who built them, the versions, and
//! the case that it was made for.

use formats::sha256::Sum;

use crate::ran::{library_text, Built, Ran};
use crate::report::html::{fact, Html};
use crate::summary::RunSummary;

/// What a report names beside the session's own answers.
pub struct Facts {
    pub matter: Matter,
    /// From this machine's clock.
    pub clock: String,
    /// From the call.
    pub date: Option<String>,
    /// Where the session is from.
    pub session: String,
    pub session_sum: Sum,
    pub versions: Versions,
}

/// What the report belongs to, in the examiner's words.
#[derive(Clone, Default)]
pub struct Matter {
    pub case: Option<String>,
    pub examiner: Option<String>,
    pub exhibit: Option<String>,
}

/// What made the program and this page.
#[derive(Default)]
pub struct Versions {
    /// The commit of the repository.
    pub commit: Option<String>,
    /// The sum of the files that the proof is about.
    pub sources: Option<String>,
    /// This tool's.
    pub tool: &'static str,
    pub tool_sum: Option<Sum>,
}

const NOT_GIVEN: &str = "not given";
const NOT_KNOWN: &str = "not known";

impl Facts {
    /// The rows of the table at the head of a page.
    pub fn rows(&self, summary: &RunSummary) -> Vec<Html> {
        let or = |text: &Option<String>, otherwise: &str| {
            text.clone().unwrap_or_else(|| otherwise.to_string())
        };
        let Matter { case, examiner, exhibit } = &self.matter;
        let mut rows = vec![
            fact("case", "Case", &or(case, NOT_GIVEN)),
            fact("examiner", "Examiner", &or(examiner, NOT_GIVEN)),
            fact("exhibit", "Exhibit", &or(exhibit, NOT_GIVEN)),
        ];
        if let Some(date) = &self.date {
            rows.push(fact("date", "Date as given by the examiner", date));
        }
        rows.push(fact("clock", "Date by this machine's clock", &self.clock));
        rows.push(fact("session", "Session", &self.session));
        rows.push(fact("session-sum", "SHA-256 of the session", &self.session_sum.to_string()));
        rows.extend(ran_rows(summary.ran(), summary.large_walks() > 0));
        rows.extend(self.versions.rows());
        rows
    }
}

/// What was run: the program, and the library where it was walked through.
fn ran_rows(ran: &Ran, has_large_walks: bool) -> Vec<Html> {
    let sum = ran.sum.map_or(NOT_KNOWN.to_string(), |sum| sum.to_string());
    let mut rows = vec![
        fact("program", "Program", &ran.path),
        fact("program-sum", "SHA-256 of the program", &sum),
        judged_row("origin", "Who built it", &ran.built().text(), ran.built() == Built::ByProof),
    ];
    if has_large_walks {
        let library = ran.library.as_ref();
        let sum = library.map_or(NOT_KNOWN, |library| &library.sum);
        let is_proved = library.is_some_and(|library| library.is_proved);
        rows.push(fact("library-sum", "SHA-256 of the library of large walks", sum));
        rows.push(judged_row("library", "Who built it", &library_text(library), is_proved));
    }
    rows
}

fn judged_row(id: &str, head: &str, text: &str, is_well: bool) -> Html {
    let class = if is_well { "well" } else { "wrong" };
    Html::fact_row(id, head, Html::of_text("span", &[("class", class)], text))
}

impl Versions {
    fn rows(&self) -> Vec<Html> {
        let or_not_known = |text: Option<String>| text.unwrap_or_else(|| NOT_KNOWN.to_string());
        let tool = format!("version {}, not proved", self.tool);
        let tool_sum = self.tool_sum.map(|sum| sum.to_string());
        vec![
            fact("commit", "Version of the repository", &or_not_known(self.commit.clone())),
            fact(
                "sources-sum",
                "SHA-256 of the proved sources",
                &or_not_known(self.sources.clone()),
            ),
            fact("tool", "This tool, which wrote the page", &tool),
            fact("tool-sum", "SHA-256 of this tool", &or_not_known(tool_sum)),
        ]
    }
}

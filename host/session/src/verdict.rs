//! The verdict on a session as a whole: green only where nothing is left to doubt, else with its reasons.
//! A page and the forms that are data have the same.

use formats::show::counted;

use crate::judged::{Judged, Standing};
use crate::ran::{library_text, Built, Library};
use crate::summary::RunSummary;

const PASSED: &str = "All checks passed.";
const NOT_PASSED: &str = "Not everything was checked or agreed.";

/// The verdict, with what passed or else what stands against it.
#[derive(Debug)]
pub struct Conclusion {
    pub is_green: bool,
    pub reasons: Vec<String>,
}

impl Conclusion {
    /// `stopped` says why the session was not run to its end, if it was not.
    pub fn of(summary: &RunSummary, stopped: Option<&str>) -> Conclusion {
        let against = against(summary, stopped);
        match against.is_empty() {
            true => Conclusion { is_green: true, reasons: what_passed(summary) },
            false => Conclusion { is_green: false, reasons: against },
        }
    }

    pub fn text(&self) -> &'static str {
        if self.is_green {
            PASSED
        } else {
            NOT_PASSED
        }
    }
}

/// What stands against a green verdict.
fn against(summary: &RunSummary, stopped: Option<&str>) -> Vec<String> {
    let mut reasons = Vec::new();
    if let Some(reason) = stopped {
        reasons.push(format!("The session was not run to its end: {reason}."));
    }
    let built = summary.ran().built();
    if built != Built::ByProof {
        reasons.push(built.text());
    }
    let library = summary.ran().library.as_ref();
    if summary.large_walks() > 0 && !library.is_some_and(|library| library.is_proved) {
        reasons.push(library_text(library));
    }
    if summary.sent() == 0 {
        reasons.push("Nothing was sent, so nothing was checked.".to_string());
    }
    let Judged { table, namespaces } = summary.judged();
    reasons.extend(standing_text(table, "table", 1));
    reasons.extend(standing_text(namespaces, "namespace list", 2));
    let (answers, differing) = summary.compared();
    if differing > 0 {
        let differ = counted(differing, "answer is not", "answers are not");
        reasons.push(format!("{differ} the second program's, of {answers} that were compared."));
    }
    if summary.unexpected() > 0 {
        let items = counted(summary.unexpected(), "item was", "items were");
        reasons.push(format!("{items} not answered or refused as the session expects."));
    }
    reasons
}

fn standing_text(standing: Standing, what: &str, refusal: u8) -> Option<String> {
    match standing {
        Standing::Passes => None,
        Standing::Refused => Some(format!("The {what} does not pass (refusal {refusal}).")),
        Standing::NotAsked => Some(format!("Nobody asked the program whether the {what} passes.")),
    }
}

/// What a green verdict says.
fn what_passed(summary: &RunSummary) -> Vec<String> {
    let answers = counted(summary.compared().0, "answer is", "answers are");
    let library: Option<&Library> = summary.ran().library.as_ref();
    let large = library.filter(|_| summary.large_walks() > 0);
    let mut passed = vec![summary.ran().built().text()];
    passed.extend(large.map(|library| library_text(Some(library))));
    passed.extend([
        "The table and the namespace list pass.".to_string(),
        format!("{answers} the second program's too, line by line."),
        "Every item was answered, or refused as the session expects.".to_string(),
    ]);
    passed
}

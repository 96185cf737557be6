//! The verdict on a night for a page: green only where nothing is left to doubt, else with its reasons.

use formats::show::counted;
use luspemaro::Verdict;

use crate::account::{served_doubts, verdict_text};
use crate::night::Account;

/// What stands against a green verdict on a night, beside who built the library.
pub fn against(account: &Account) -> Vec<String> {
    let followed = &account.followed;
    let mut reasons = Vec::new();
    match followed.verdict {
        Verdict::Agree => {}
        Verdict::Differs(frame) => reasons.push(format!(
            "The answer that is recorded for frame {frame} is not what the library answers now."
        )),
        Verdict::Refused(frame) => reasons.push(format!(
            "The log is refused with 13 at frame {frame}, so what comes from there on was not replayed."
        )),
    }
    let differing = followed.counts.differing as usize;
    if differing > 1 {
        reasons
            .push(format!("{} differ.", counted(differing, "recorded answer", "recorded answers")));
    }
    if followed.counts.commands() == 0 {
        reasons.push("No command was run again, so nothing was compared.".to_string());
    }
    reasons.extend(account.faults.iter().map(|fault| format!("At the start {fault}.")));
    let left_out = account.served.iter().filter_map(|(_, left_out)| left_out.as_ref());
    let doubts = left_out.filter(|one| one.is_doubt).map(|one| one.why.clone());
    let doubts = doubts.chain(served_doubts(followed));
    reasons.extend(doubts.map(|text| format!("Of the server's own log: {text}.")));
    reasons
}

/// What a green verdict says of a night.
pub fn what_agrees(account: &Account) -> String {
    let commands = counted(account.followed.counts.commands() as usize, "command", "commands");
    format!(
        "{}: {commands} of the log run again, each answered now as it was recorded, byte by byte.",
        verdict_text(account.followed.verdict)
    )
}

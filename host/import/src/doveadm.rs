//! The list of `doveadm mailbox list -8`: a name a line, in UTF-8.
//!
//! Servers name mailboxes in modified UTF-7, so names are put into that. The list does not say what parts
//! the levels.

use formats::name::DELIMITER;
use formats::text::line_text;
use formats::utf7::{decoded, encoded};

use crate::found::{Found, Said};
use crate::names::read_names;
use crate::told::Told;

/// What doveadm writes above the list in the forms of a table.
const HEAD: &[u8] = b"mailbox";
/// What parts levels on many servers.
const OTHER_DELIMITER: u8 = b'.';

/// The names of a list, each with what is said of it.
pub fn read_doveadm(bytes: &[u8], delimiter: u8, said: Said, told: &mut Told) -> Vec<Found> {
    let mut all_found = Vec::new();
    for (number, mut found) in read_names(bytes, delimiter, said).into_iter().enumerate() {
        if number == 0 && found.name == HEAD {
            let reason = "it may be the head of doveadm's table (-f table), so it is not taken";
            told.left_out(&found.origin, &found.name, reason);
            continue;
        }
        if decoded(&found.name).is_some_and(|says| !says.is_ascii()) {
            let says = "like modified UTF-7, and read as UTF-8; of a list made with -7 make names";
            told.note(&found.origin, &format!("{}: {says}", line_text(&found.name)));
        }
        if let Ok(text) = str::from_utf8(&found.name) {
            found.name = encoded(text);
        }
        all_found.push(found);
    }
    let has_name_with = |byte: u8| all_found.iter().any(|found: &Found| found.name.contains(&byte));
    if !has_name_with(delimiter) && delimiter == DELIMITER && has_name_with(OTHER_DELIMITER) {
        let text = "no name holds \"/\"; if \".\" parts the levels, --delimiter . says so";
        told.note("the list", text);
    }
    all_found
}

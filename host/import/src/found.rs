//! What a store says of one mailbox.

use formats::name::{self, DELIMITER};
use formats::rows::Flags;

/// What one line or folder of a store says.
#[derive(Clone, Debug, PartialEq, Eq)]
pub struct Found {
    /// Where it stands, for whoever is told of it.
    pub origin: String,
    /// The name as the store has it.
    pub name: Vec<u8>,
    /// What parts the levels of the name; none where it has one level.
    pub delimiter: Option<u8>,
    pub said: Said,
}

/// What is said of a name.
#[derive(Clone, Copy, Debug, PartialEq, Eq)]
pub enum Said {
    /// A mailbox has this name, with these flags, be SUBSCRIBED among them or not.
    Exists(Flags),
    /// The name is subscribed, whether there is a mailbox or not. The flags are said beside that, and
    /// are no reason for a row.
    Subscribed(Flags),
    /// The name is a level above others, and no mailbox. The flags are said beside that.
    Level(Flags),
    /// Flags that whoever calls adds to a name of the table, and that are no reason for a row but for
    /// SUBSCRIBED.
    Added(Flags),
}

impl Said {
    pub fn flags(self) -> Flags {
        match self {
            Said::Exists(flags)
            | Said::Subscribed(flags)
            | Said::Level(flags)
            | Said::Added(flags) => flags,
        }
    }
}

impl Found {
    /// The name with "/" between its levels and with INBOX spelled so, or why it has none.
    pub fn translated(&self) -> Result<Vec<u8>, &'static str> {
        let is_own = self.delimiter == Some(DELIMITER);
        if !is_own && self.name.contains(&DELIMITER) {
            return Err(match self.delimiter {
                Some(_) => "it holds \"/\" within a level, and \"/\" parts levels here",
                None => "it has one level and holds \"/\", which parts levels here",
            });
        }
        let in_levels = |&byte: &u8| if Some(byte) == self.delimiter { DELIMITER } else { byte };
        let name: Vec<u8> = self.name.iter().map(in_levels).collect();
        Ok(name::spelled(&name))
    }

    /// The name as the store has it, with INBOX spelled so: names that the store takes for one are
    /// equal. Spelling changes letters alone, before the first delimiter.
    pub fn own_name(&self, translated: &[u8]) -> Vec<u8> {
        if translated.split(|&byte| byte == DELIMITER).next() == Some(name::INBOX) {
            [name::INBOX, &self.name[name::INBOX.len()..]].concat()
        } else {
            self.name.clone()
        }
    }
}

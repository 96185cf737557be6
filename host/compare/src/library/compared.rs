//! What a group compares over: records for both libraries, or a packed table and its records.

use super::both::{Lent, Mailboxes};
use super::tables::check_both;
use super::tally::Tally;
use super::walks::{collect_both, Rooms};
use crate::records::Layout;

pub enum Compared {
    /// Each library has its own, which are the same.
    Records(Mailboxes),
    /// For reading: the second program has the packed table. The proved library checks and walks it
    /// too, and has its records, if its rows fill it.
    Packed { table: Vec<u8>, records: Option<Mailboxes> },
}

impl Compared {
    pub fn records(layout: Layout) -> Compared {
        Compared::Records(Mailboxes::new(layout))
    }

    pub fn packed(table: Vec<u8>) -> Compared {
        let records = Layout::of_packed(&table).map(Mailboxes::new);
        Compared::Packed { table, records }
    }

    /// Check 1, by the proved library over each form.
    pub fn check(&self, tally: &mut Tally) {
        self.forms().into_iter().for_each(|form| check_both(tally, form));
    }

    /// A walk of a reader, by the proved library over each form, and what found and pending need.
    pub fn collect(&self, tally: &mut Tally, reader: u8, option: u8, rooms: Rooms) -> Rooms {
        let forms = self.forms().into_iter();
        let walks = forms.map(|form| collect_both(tally, reader, form, option, rooms));
        walks.last().unwrap_or(rooms)
    }

    /// What the proved library has, and beside it what the second program has.
    fn forms(&self) -> Vec<[Lent<'_>; 2]> {
        match self {
            Compared::Records(records) => vec![[Lent::Records(records); 2]],
            Compared::Packed { table, records } => {
                let packed = Lent::Packed(table);
                let records = records.as_ref().map(Lent::Records);
                [packed].into_iter().chain(records).map(|form| [form, packed]).collect()
            }
        }
    }
}

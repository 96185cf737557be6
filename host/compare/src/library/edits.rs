//! Series of edits over lent records and areas, with other commands and walks between them.

use super::answers::answer_both;
use super::both::Asked;
use super::compared::Compared;
use super::tally::Tally;
use super::walks::Rooms;
use crate::edit_series::{
    some_call, some_call_of_a_reader, some_table, some_veiled_table, Call, Command,
};
use crate::random::Random;
use crate::records::Layout;

/// The calls of one series.
const CALLS: usize = 40;

/// What makes a table, and a call over what the calls before it have left. Both know of some names.
type SomeTable = fn(&mut Random) -> (Layout, Vec<Vec<u8>>);
type SomeCall = fn(&mut Random, &Layout, &mut Vec<Vec<u8>>) -> Call;

/// Tables of every kind; each call goes on with what the one before has left.
pub fn series(tally: &mut Tally) {
    series_of(tally, "library: edits", some_table, some_call);
}

/// The same with sets of readers, from whom the calls come.
pub fn series_of_every_reader(tally: &mut Tally) {
    series_of(tally, "library: edits of readers", some_veiled_table, some_call_of_a_reader);
}

fn series_of(tally: &mut Tally, stream: &str, some_table: SomeTable, some_call: SomeCall) {
    tally.for_each_seed(|tally, seed| {
        let mut random = Random::of(stream, seed);
        let (layout, mut names) = some_table(&mut random);
        let mut table = Compared::records(layout);
        for _ in 0..CALLS {
            let Compared::Records(records) = &mut table else {
                return;
            };
            let before = records.layout().count;
            match some_call(&mut random, records.layout(), &mut names) {
                Call::Walk { reader, option } => {
                    table.collect(tally, reader, option, Rooms::AMPLE);
                }
                Call::Answer(Command { reader, count, namespaces, line, room }) => {
                    records.set_count(count);
                    let asked = Asked { reader, list: &namespaces, line: &line };
                    // A refusal has no length: the rows are those that they were.
                    if answer_both(tally, records, asked, room) == 0 {
                        records.set_count(before);
                    }
                }
            }
        }
    });
}

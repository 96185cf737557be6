//! Walks below names of 200 bytes, whose commands are the longest (document 02, W12).

use super::compared::Compared;
use super::tally::{Tally, SEED};
use super::walks::{Rooms, OPTIONS};
use crate::own_commands::longest_rows;
use crate::random::Random;
use crate::readers::some_reader;
use crate::records::laid_out;
use crate::tables::table_bytes;

const TABLES: usize = 300;
/// More than the ancestors of the names of one table take.
const PENDING: usize = 20_000;

/// Walks of every reader, over records and packed tables.
pub fn walks(tally: &mut Tally) {
    let mut random = Random::of("library: walks below the longest names", SEED);
    let rooms = Rooms { pending: PENDING, ..Rooms::AMPLE };
    for _ in 0..TABLES {
        let rows = longest_rows(&mut random);
        let layout = laid_out(&mut random, &rows);
        for table in [Compared::records(layout), Compared::packed(table_bytes(&rows))] {
            for option in 0..OPTIONS {
                let reader = some_reader(&mut random);
                let need = table.collect(tally, reader, option, rooms);
                table.collect(tally, reader, option, need.near(&mut random));
            }
        }
    }
}

//! The C names of a replay and their structs, and a safe call of each, as in `raw`.

use crate::raw::{call, Record, RecordsMut};
use crate::summary::Summary;

/// `luspemaro_replayed` of the header: what a whole log comes to.
#[repr(C)]
pub struct ReplayReport {
    pub number: u8,
    pub frame: usize,
    pub count: usize,
}

/// `luspemaro_replay` of the header: a replay between two pieces of its log. The default is its start.
#[repr(C)]
#[derive(Clone, Copy, Debug, Default, PartialEq, Eq)]
pub struct ReplayState {
    pub frames: usize,
    pub first: usize,
    pub due: usize,
    pub gathered: usize,
    pub stopped: u8,
}

/// `luspemaro_replay_fed` of the header: what comes of a piece of a log.
#[repr(C)]
#[derive(Debug, PartialEq, Eq)]
pub struct FedPiece {
    pub taken: u8,
    pub number: u8,
    pub frame: usize,
    pub count: usize,
    pub state: ReplayState,
}

extern "C" {
    fn luspemaro_replay(
        records: *mut Record,
        records_len: usize,
        count: usize,
        area: *mut u8,
        area_len: usize,
        summary: *mut Summary,
        summary_len: usize,
        namespaces: *const u8,
        namespaces_len: usize,
        log: *const u8,
        log_len: usize,
    ) -> ReplayReport;
    fn luspemaro_replay_feed(
        records: *mut Record,
        records_len: usize,
        count: usize,
        state: ReplayState,
        area: *mut u8,
        area_len: usize,
        summary: *mut Summary,
        summary_len: usize,
        namespaces: *const u8,
        namespaces_len: usize,
        pending: *mut u8,
        pending_len: usize,
        line: *mut u8,
        line_len: usize,
        piece: *const u8,
        piece_len: usize,
    ) -> FedPiece;
}

pub fn replay(table: RecordsMut, namespaces: &[u8], log: &[u8]) -> ReplayReport {
    let RecordsMut { records, count, area, summary } = table;
    call!(luspemaro_replay:
        write records, value count, write area, write summary, read namespaces, read log)
}

pub fn replay_feed(
    table: RecordsMut,
    state: ReplayState,
    namespaces: &[u8],
    pending: &mut [u8],
    line: &mut [u8],
    piece: &[u8],
) -> FedPiece {
    let RecordsMut { records, count, area, summary } = table;
    call!(luspemaro_replay_feed:
        write records, value count, value state, write area, write summary, read namespaces,
        write pending, write line, read piece)
}

impl FedPiece {
    /// Whether the piece was taken. One that was not changes neither the rows nor the state.
    pub fn taken(&self, rows: usize, before: ReplayState) -> bool {
        let FedPiece { taken, number, frame, count, state } = *self;
        assert!(taken <= 1 && state.stopped <= 1, "taken {taken}, stopped {}", state.stopped);
        let same = ReplayState { stopped: (before.stopped != 0).into(), ..before };
        assert!(
            taken == 1 || (number, frame, count, state) == (0, 0, rows, same),
            "not taken: number {number}, frame {frame}, count {count} for {rows}, {state:?} for {before:?}"
        );
        taken == 1
    }
}

//! Why a table or a namespace list that the library refuses does not pass, as the second program sees it, which is not
//! proved. No other module of this crate uses the second program.

use session::second_program::{self, NOT_REFUSED};

/// Which row is wrong, and which rule it breaks.
pub fn table_fault(rows: &[u8]) -> String {
    second_program::table_fault(rows).unwrap_or_else(|| NOT_REFUSED.to_string())
}

/// Which entry is wrong, and which rule it breaks.
pub fn namespaces_fault(list: &[u8]) -> String {
    second_program::namespaces_fault(list).unwrap_or_else(|| NOT_REFUSED.to_string())
}

//! Why rows or entries do not pass, in words.

use formats::text::name_text;
use second::fault::ListFault;
use second::namespaces::{checked_entries, entry_at};
use second::packed::row_at;
use second::table::checked_rows;
use second::Table;

/// Which row of a packed table is wrong, and which rule it breaks; none where the table passes.
pub fn table_fault(rows: &[u8]) -> Option<String> {
    let name = |at| row_at(rows, at).map(|row| name_text(row.name));
    checked_rows(Table::Packed(rows)).err().map(|fault| list_fault_text(fault, name))
}

/// Which entry of a namespace list is wrong, and which rule it breaks; none where the list passes.
pub fn namespaces_fault(list: &[u8]) -> Option<String> {
    let prefix = |at| entry_at(list, at).map(|entry| name_text(entry.prefix));
    checked_entries(list).err().map(|fault| list_fault_text(fault, prefix))
}

/// A fault, with how the row or the entry at a place is shown.
pub fn list_fault_text(fault: ListFault, shown: impl Fn(usize) -> Option<String>) -> String {
    let ListFault { at, rule, other } = fault;
    let shown = |at| shown(at).unwrap_or_else(|| format!("byte {at}"));
    let other = other.map(|other| format!(" (beside {})", shown(other))).unwrap_or_default();
    format!("{}: {rule}{other}", shown(at))
}

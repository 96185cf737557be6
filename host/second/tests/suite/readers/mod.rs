//! Who may see which mailbox (document 02, W9), by the sentences of the request.

mod edits;
mod hidden;
mod program;
mod refusals;
mod twins;

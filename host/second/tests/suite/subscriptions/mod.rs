//! SUBSCRIBE and UNSUBSCRIBE (document 02, W6), by the sentences of the request: every record, every
//! byte of the area and every byte of the buffer.

mod grammar;
mod refusals;
mod rows;
mod series;

//! A plain reference for document 01 with requests and
//! R-8 of document 02: the reader of IPv4 UDP payloads with RFC 9868 options, the
//! writer, the reassembly table, a client's plain book and the program's text.
//! Section names in comments are document 01's; "RFC" is RFC 9868.
#![forbid(unsafe_code)]

pub mod book;
pub mod checksum;
pub mod crc;
pub mod docket;
pub mod generate;
pub mod program;
pub mod reader;
pub mod swift;
pub mod table;
pub mod writer;

pub use book::Book;
pub use docket::{decode, encode, list_options, list_reread, Listing};
pub use program::report;
pub use reader::{
    next_option, next_reread_option, read, reread, Apc, Fields, Fragment, Located, Options,
    PacketOffset, Range, ReadOption, Reading, Rereading, Standing, Strictness, Verdict,
};
pub use table::{
    bill, clock, fresh, piece, record_test, set_up, share, share_start, store_length, Account,
    Answer, Assembly, Flow, PieceCall, Record, Slot,
};
pub use writer::write;

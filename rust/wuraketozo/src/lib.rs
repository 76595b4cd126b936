//! Safe Rust over the proved library for UDP datagrams with the options of
//! RFC 9868: a reader, a writer, and reassembly for up to 12 clients that do
//! not show in each other's accounts, each with as many originals under way at
//! once as its plan allows.
//!
//! Every call takes any input: what can't be taken is refused, and no input
//! panics. What the library answers and what it leaves in each buffer and
//! record is proved; this crate only passes it on.
#![deny(unsafe_code)]
#![warn(missing_docs)]

#[allow(unsafe_code, missing_docs)]
mod ffi;
mod options;
mod reading;
mod record;
mod refusal;
mod table;
mod walk;
mod writing;

pub use options::{entries, list, relist, Entries, Entry, Listing, Value};
pub use reading::{
    read, reread, Apc, Fragment, PacketOffset, Reading, Rereading, Strictness, Verdict,
};
pub use record::{
    store_length, Account, Assembly, Client, Flow, Held, Place, Plan, ASSEMBLY_LIMIT, CLIENT_LIMIT,
    FRAGMENT_LIMIT, ORIGINAL_LIMIT,
};
pub use refusal::Refusal;
pub use table::{Answer, Arrival, Received, Table};
pub use walk::{rewalk, walk, Located, Rewalk, Walk};
pub use writing::write;

/// Whether the library linked has the sizes that this crate was written for.
/// A library of another layout does not link; [`Table::new`] asks this too.
///
/// ```
/// assert!(wuraketozo::fits());
/// ```
pub fn fits() -> bool {
    let shares = [Plan::SMALLEST.share(), Plan::LARGEST.share(), 0];
    let [record, out, clients, rest @ ..] = ffi::sizes();
    [record, out, clients] == [Client::SIZE, ORIGINAL_LIMIT, CLIENT_LIMIT] && rest == shares
}

/// The C structs as the library filled them, for tests.
#[cfg(feature = "raw")]
pub mod raw {
    pub use crate::ffi::{
        account, advance, list, next, offer, read, receive, relist, renext, reread, reset, write,
        Answer, Extent, Fragment, Listing, OriginalExtent, OriginalOption, PacketOption, Reading,
        Received, Rereading, Written,
    };
}

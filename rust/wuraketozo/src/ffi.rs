//! The C surface, as `include/wuraketozo.h` declares it, and safe calls of
//! it. All unsafe code of this crate is here.
//!
//! What the header asks of a caller, and why every call here meets it:
//! - pointers lead to as many bytes or records as the length says and are
//!   aligned: they come from slices;
//! - what may be written does not overlap anything else that is lent, and no
//!   other thread uses it: it comes from a `&mut`.

use crate::reading::PacketOffset;
use crate::record::{Account, Client, Flow, Place, Plan};
use core::mem::{align_of, offset_of, size_of};

#[repr(C)]
#[derive(Clone, Copy)]
struct Address {
    octets: [u8; 4],
}

impl Address {
    fn of(octets: [u8; 4]) -> Address {
        Address { octets }
    }
}

/// `wuraketozo_extent`: bytes of a payload.
#[repr(C)]
#[derive(Clone, Copy, Debug, Default, PartialEq, Eq)]
pub struct Extent {
    pub from: usize,
    pub to: usize,
}

/// `wuraketozo_original_extent`: bytes of an original.
#[repr(C)]
#[derive(Clone, Copy, Debug, Default, PartialEq, Eq)]
pub struct OriginalExtent {
    pub from: Place,
    pub to: Place,
}

/// `wuraketozo_reading`
#[repr(C)]
#[derive(Clone, Copy, Debug, Default, PartialEq, Eq)]
pub struct Reading {
    pub refusal: u32,
    pub verdict: u32,
    pub user: Extent,
    pub options: Extent,
    pub count: usize,
    pub fill: usize,
    pub fault_at: PacketOffset,
    pub apc: u32,
    pub identification: u32,
    pub place: Place,
    pub part: Extent,
    pub option_start: Place,
    pub last: u32,
}

/// `wuraketozo_rereading`
#[repr(C)]
#[derive(Clone, Copy, Debug, Default, PartialEq, Eq)]
pub struct Rereading {
    pub refusal: u32,
    pub verdict: u32,
    pub user: OriginalExtent,
    pub options: OriginalExtent,
    pub count: usize,
    pub fill: usize,
    pub fault_at: PacketOffset,
    pub apc: u32,
}

/// `wuraketozo_listing`
#[repr(C)]
#[derive(Clone, Copy, Debug, Default, PartialEq, Eq)]
pub struct Listing {
    pub refusal: u32,
    pub size: usize,
    pub fill: usize,
}

/// `wuraketozo_option`
#[repr(C)]
#[derive(Clone, Copy, Debug, Default, PartialEq, Eq)]
pub struct PacketOption {
    pub found: u32,
    pub kind: u32,
    pub offset: PacketOffset,
    pub body: Extent,
}

/// `wuraketozo_original_option`
#[repr(C)]
#[derive(Clone, Copy, Debug, Default, PartialEq, Eq)]
pub struct OriginalOption {
    pub found: u32,
    pub kind: u32,
    pub offset: PacketOffset,
    pub body: OriginalExtent,
}

/// `wuraketozo_written`
#[repr(C)]
#[derive(Clone, Copy, Debug, Default, PartialEq, Eq)]
pub struct Written {
    pub refusal: u32,
    pub size: usize,
}

/// `wuraketozo_answer`
#[repr(C)]
#[derive(Clone, Copy, Debug, Default, PartialEq, Eq)]
pub struct Answer {
    pub refusal: u32,
    pub outcome: u32,
    pub length: usize,
    pub option_start: Place,
    pub figures: Account,
}

/// `wuraketozo_fragment`
#[repr(C)]
#[derive(Clone, Copy, Debug, Default, PartialEq, Eq)]
pub struct Fragment {
    pub time: u64,
    pub flow: Flow,
    pub identification: u32,
    pub place: Place,
    pub option_start: Place,
    pub last: u32,
}

/// `wuraketozo_received`
#[repr(C)]
#[derive(Clone, Copy, Debug, Default, PartialEq, Eq)]
pub struct Received {
    pub what: u32,
    pub reading: Reading,
    pub answer: Answer,
}

mod c {
    use super::{
        Address, Answer, Client, Extent, Fragment, Listing, OriginalExtent, OriginalOption,
        PacketOption, Place, Reading, Received, Rereading, Written,
    };

    extern "C" {
        pub fn wuraketozo_read(
            payload: *const u8,
            length: usize,
            source: Address,
            destination: Address,
            strictness: u32,
        ) -> Reading;
        pub fn wuraketozo_reread(
            original: *const u8,
            length: usize,
            option_start: Place,
            strictness: u32,
        ) -> Rereading;
        pub fn wuraketozo_list(
            payload: *const u8,
            length: usize,
            verdict: u32,
            options: Extent,
            buffer: *mut u8,
            room: usize,
        ) -> Listing;
        pub fn wuraketozo_relist(
            original: *const u8,
            length: usize,
            verdict: u32,
            options: OriginalExtent,
            buffer: *mut u8,
            room: usize,
        ) -> Listing;
        pub fn wuraketozo_next(
            payload: *const u8,
            length: usize,
            verdict: u32,
            rest: Extent,
        ) -> PacketOption;
        pub fn wuraketozo_renext(
            original: *const u8,
            length: usize,
            verdict: u32,
            rest: OriginalExtent,
        ) -> OriginalOption;
        pub fn wuraketozo_write(
            source: Address,
            destination: Address,
            source_port: u16,
            destination_port: u16,
            user: *const u8,
            user_length: usize,
            list: *const u8,
            list_length: usize,
            fill: u8,
            buffer: *mut u8,
            room: usize,
        ) -> Written;
        pub fn wuraketozo_layout_7() -> usize;
        pub fn wuraketozo_share_size(plan: u64) -> usize;
        pub fn wuraketozo_out_size() -> usize;
        pub fn wuraketozo_client_limit() -> usize;
        pub fn wuraketozo_reset(
            records: *mut Client,
            count: usize,
            store: *const u8,
            store_length: usize,
        ) -> Answer;
        pub fn wuraketozo_offer(
            records: *mut Client,
            count: usize,
            store: *mut u8,
            store_length: usize,
            k: usize,
            fragment: Fragment,
            bytes: *const u8,
            length: usize,
            out: *mut u8,
            room: usize,
        ) -> Answer;
        pub fn wuraketozo_advance(
            records: *mut Client,
            count: usize,
            store: *const u8,
            store_length: usize,
            k: usize,
            time: u64,
        ) -> Answer;
        pub fn wuraketozo_account(
            records: *const Client,
            count: usize,
            store: *const u8,
            store_length: usize,
            k: usize,
        ) -> Answer;
        pub fn wuraketozo_receive(
            records: *mut Client,
            count: usize,
            store: *mut u8,
            store_length: usize,
            k: usize,
            time: u64,
            source: Address,
            destination: Address,
            strictness: u32,
            payload: *const u8,
            length: usize,
            out: *mut u8,
            room: usize,
        ) -> Received;
    }
}

/// A library of another layout has no symbol of this name, so that nothing
/// that uses this crate links against it.
#[used]
static LAYOUT: unsafe extern "C" fn() -> usize = c::wuraketozo_layout_7;

#[inline]
pub fn read(payload: &[u8], source: [u8; 4], destination: [u8; 4], strictness: u32) -> Reading {
    // SAFETY: see the head of this file.
    unsafe {
        c::wuraketozo_read(
            payload.as_ptr(),
            payload.len(),
            Address::of(source),
            Address::of(destination),
            strictness,
        )
    }
}

#[inline]
pub fn reread(original: &[u8], option_start: Place, strictness: u32) -> Rereading {
    // SAFETY: see the head of this file.
    unsafe { c::wuraketozo_reread(original.as_ptr(), original.len(), option_start, strictness) }
}

pub fn list(payload: &[u8], verdict: u32, options: Extent, buffer: &mut [u8]) -> Listing {
    // SAFETY: see the head of this file.
    unsafe {
        c::wuraketozo_list(
            payload.as_ptr(),
            payload.len(),
            verdict,
            options,
            buffer.as_mut_ptr(),
            buffer.len(),
        )
    }
}

pub fn relist(
    original: &[u8],
    verdict: u32,
    options: OriginalExtent,
    buffer: &mut [u8],
) -> Listing {
    // SAFETY: see the head of this file.
    unsafe {
        c::wuraketozo_relist(
            original.as_ptr(),
            original.len(),
            verdict,
            options,
            buffer.as_mut_ptr(),
            buffer.len(),
        )
    }
}

#[inline]
pub fn next(payload: &[u8], verdict: u32, rest: Extent) -> PacketOption {
    // SAFETY: see the head of this file.
    unsafe { c::wuraketozo_next(payload.as_ptr(), payload.len(), verdict, rest) }
}

#[inline]
pub fn renext(original: &[u8], verdict: u32, rest: OriginalExtent) -> OriginalOption {
    // SAFETY: see the head of this file.
    unsafe { c::wuraketozo_renext(original.as_ptr(), original.len(), verdict, rest) }
}

#[allow(clippy::too_many_arguments)]
#[inline]
pub fn write(
    source: [u8; 4],
    destination: [u8; 4],
    source_port: u16,
    destination_port: u16,
    user: &[u8],
    list: &[u8],
    fill: u8,
    buffer: &mut [u8],
) -> Written {
    // SAFETY: see the head of this file.
    unsafe {
        c::wuraketozo_write(
            Address::of(source),
            Address::of(destination),
            source_port,
            destination_port,
            user.as_ptr(),
            user.len(),
            list.as_ptr(),
            list.len(),
            fill,
            buffer.as_mut_ptr(),
            buffer.len(),
        )
    }
}

/// The sizes that the library was built with: of a record, of the smallest out
/// buffer, the most clients, and of the shares of the smallest plan, of the
/// largest one and of the number behind it, which is no plan.
pub fn sizes() -> [usize; 6] {
    // SAFETY: these take numbers and touch nothing.
    unsafe {
        [
            c::wuraketozo_layout_7(),
            c::wuraketozo_out_size(),
            c::wuraketozo_client_limit(),
            c::wuraketozo_share_size(Plan::SMALLEST.get()),
            c::wuraketozo_share_size(Plan::LARGEST.get()),
            c::wuraketozo_share_size(Plan::LARGEST.get() + 1),
        ]
    }
}

pub fn reset(records: &mut [Client], store: &[u8]) -> Answer {
    // SAFETY: see the head of this file.
    unsafe {
        c::wuraketozo_reset(
            records.as_mut_ptr(),
            records.len(),
            store.as_ptr(),
            store.len(),
        )
    }
}

pub fn offer(
    records: &mut [Client],
    store: &mut [u8],
    k: usize,
    fragment: Fragment,
    bytes: &[u8],
    out: &mut [u8],
) -> Answer {
    // SAFETY: see the head of this file.
    unsafe {
        c::wuraketozo_offer(
            records.as_mut_ptr(),
            records.len(),
            store.as_mut_ptr(),
            store.len(),
            k,
            fragment,
            bytes.as_ptr(),
            bytes.len(),
            out.as_mut_ptr(),
            out.len(),
        )
    }
}

pub fn advance(records: &mut [Client], store: &[u8], k: usize, time: u64) -> Answer {
    // SAFETY: see the head of this file.
    unsafe {
        c::wuraketozo_advance(
            records.as_mut_ptr(),
            records.len(),
            store.as_ptr(),
            store.len(),
            k,
            time,
        )
    }
}

pub fn account(records: &[Client], store: &[u8], k: usize) -> Answer {
    // SAFETY: see the head of this file.
    unsafe {
        c::wuraketozo_account(
            records.as_ptr(),
            records.len(),
            store.as_ptr(),
            store.len(),
            k,
        )
    }
}

#[allow(clippy::too_many_arguments)]
pub fn receive(
    records: &mut [Client],
    store: &mut [u8],
    k: usize,
    time: u64,
    source: [u8; 4],
    destination: [u8; 4],
    strictness: u32,
    payload: &[u8],
    out: &mut [u8],
) -> Received {
    // SAFETY: see the head of this file.
    unsafe {
        c::wuraketozo_receive(
            records.as_mut_ptr(),
            records.len(),
            store.as_mut_ptr(),
            store.len(),
            k,
            time,
            Address::of(source),
            Address::of(destination),
            strictness,
            payload.as_ptr(),
            payload.len(),
            out.as_mut_ptr(),
            out.len(),
        )
    }
}

/// The record's bytes as they lie in memory.
pub fn record_bytes(record: &Client) -> [u8; size_of::<Client>()] {
    // SAFETY: a record has no padding (`NO_GAP`), so each byte is a value.
    unsafe { core::mem::transmute(*record) }
}

/// The record of these bytes.
pub fn record_of(bytes: [u8; size_of::<Client>()]) -> Client {
    // SAFETY: its fields are numbers, for which any bits are a value.
    unsafe { core::mem::transmute(bytes) }
}

/// The fields of a record's structs leave no gap: their sizes sum to it.
#[allow(dead_code)]
const NO_GAP: () = {
    assert!(size_of::<Flow>() == 4 + 4 + 2 + 2);
    assert!(size_of::<Held>() == 2 + 2 + 2 + 2);
    assert!(
        size_of::<Assembly>() == size_of::<Flow>() + 4 + 8 + 8 + FRAGMENT_LIMIT * size_of::<Held>()
    );
    assert!(size_of::<Client>() == 9 * 8 + ASSEMBLY_LIMIT * size_of::<Assembly>());
};

/// A struct's name in C, its size, and where its fields stand.
#[cfg(test)]
type Layout = (&'static str, usize, &'static [(&'static str, usize)]);

/// States the size and alignment of each struct and where its fields stand,
/// as C lays the header's structs out on x86-64.
macro_rules! layouts {
    ($($name:ident $c:literal $size:literal $align:literal: $($field:ident $at:literal),+;)+) => {
        $(const _: () = {
            assert!(size_of::<$name>() == $size);
            assert!(align_of::<$name>() == $align);
            $(assert!(offset_of!($name, $field) == $at);)+
        };)+

        #[cfg(test)]
        const LAYOUTS: &[Layout] = &[
            $(($c, $size, &[$((stringify!($field), $at)),+])),+
        ];
    };
}

use crate::record::{Assembly, Held, ASSEMBLY_LIMIT, FRAGMENT_LIMIT};

layouts! {
    Address "wuraketozo_address" 4 1: octets 0;
    Flow "wuraketozo_flow" 12 2: source 0, destination 4, source_port 8, destination_port 10;
    Held "wuraketozo_held" 8 2: offset 0, length 2, option_start 4, last 6;
    Assembly "wuraketozo_assembly" 544 8:
        flow 0, identification 12, opened 16, count 24, fragments 32;
    Client "wuraketozo_client" 4424 8:
        plan 0, time 8, offered 16, held 24, delivered 32, expired 40, conflicted 48,
        repeated 56, rejected 64, assemblies 72;
    Account "wuraketozo_figures" 56 8:
        offered 0, held 8, delivered 16, expired 24, conflicted 32, repeated 40, rejected 48;
    Extent "wuraketozo_extent" 16 8: from 0, to 8;
    OriginalExtent "wuraketozo_original_extent" 16 8: from 0, to 8;
    Reading "wuraketozo_reading" 112 8:
        refusal 0, verdict 4, user 8, options 24, count 40, fill 48, fault_at 56, apc 64,
        identification 68, place 72, part 80, option_start 96, last 104;
    Rereading "wuraketozo_rereading" 72 8:
        refusal 0, verdict 4, user 8, options 24, count 40, fill 48, fault_at 56, apc 64;
    Listing "wuraketozo_listing" 24 8: refusal 0, size 8, fill 16;
    PacketOption "wuraketozo_option" 32 8: found 0, kind 4, offset 8, body 16;
    OriginalOption "wuraketozo_original_option" 32 8: found 0, kind 4, offset 8, body 16;
    Written "wuraketozo_written" 16 8: refusal 0, size 8;
    Answer "wuraketozo_answer" 80 8:
        refusal 0, outcome 4, length 8, option_start 16, figures 24;
    Fragment "wuraketozo_fragment" 48 8:
        time 0, flow 8, identification 20, place 24, option_start 32, last 40;
    Received "wuraketozo_received" 200 8: what 0, reading 8, answer 120;
}

#[cfg(test)]
mod tests {
    use super::LAYOUTS;
    use crate::reading::tests::verdicts;
    use crate::{Plan, Strictness, ASSEMBLY_LIMIT, CLIENT_LIMIT, FRAGMENT_LIMIT, ORIGINAL_LIMIT};
    use std::io::Write;
    use std::process::{Command, Stdio};

    /// The header has these layouts and numbers too: gcc is asked, where there
    /// is one.
    #[test]
    fn the_header_agrees() {
        let mut text = String::from("#include \"wuraketozo.h\"\n");
        for (name, size, fields) in LAYOUTS {
            text += &format!("_Static_assert(sizeof({name}) == {size}, \"{name}\");\n");
            for (field, at) in *fields {
                text += &format!(
                    "_Static_assert(offsetof({name}, {field}) == {at}, \"{name}.{field}\");\n"
                );
            }
        }
        for verdict in verdicts() {
            let (word, number) = (verdict.word(), verdict.number());
            let name = format!("WURAKETOZO_{}", word.to_uppercase());
            text += &format!("_Static_assert({name} == {number}, \"{word}\");\n");
        }
        for strictness in [Strictness::Plain, Strictness::Strict] {
            let (word, number) = (format!("{strictness:?}"), strictness.number());
            let name = format!("WURAKETOZO_{}", word.to_uppercase());
            text += &format!("_Static_assert({name} == {number}, \"{word}\");\n");
        }
        for (name, number) in [
            ("CLIENT_LIMIT", CLIENT_LIMIT),
            ("ASSEMBLY_LIMIT", ASSEMBLY_LIMIT),
            ("FRAGMENT_LIMIT", FRAGMENT_LIMIT),
            ("ORIGINAL_LIMIT", ORIGINAL_LIMIT),
        ] {
            text += &format!("_Static_assert(WURAKETOZO_{name} == {number}, \"{name}\");\n");
        }
        for plan in (0..=ASSEMBLY_LIMIT as u64 + 1).filter_map(Plan::new) {
            let (plan, share) = (plan.get(), plan.share());
            text += &format!("_Static_assert(WURAKETOZO_SHARE({plan}) == {share}, \"share\");\n");
        }
        let include = concat!(env!("CARGO_MANIFEST_DIR"), "/../../include");
        let spawned = Command::new("gcc")
            .args(["-std=c11", "-Wall", "-Wextra", "-Werror", "-I", include])
            .args(["-fsyntax-only", "-x", "c", "-"])
            .stdin(Stdio::piped())
            .spawn();
        let Ok(mut gcc) = spawned else {
            println!("gcc is missing, so the header is not looked at");
            return;
        };
        let written = gcc.stdin.take().map(|mut to| to.write_all(text.as_bytes()));
        assert!(matches!(written, Some(Ok(()))));
        assert!(gcc.wait().unwrap().success());
    }
}

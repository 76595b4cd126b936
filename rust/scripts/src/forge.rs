//! A record with one field set, as no call leaves it. A value that is too wide
//! for its field loses its upper bits.

use wuraketozo::{Assembly, Client, Held, ASSEMBLY_LIMIT, FRAGMENT_LIMIT};

/// Fields 0 to 7 are the time and the figures, in document 01's order; 19 is
/// the plan.
pub fn forge(record: &mut Client, field: u64, place: usize, slot: usize, value: u64) {
    match field {
        0 => record.time = value,
        1 => record.offered = value,
        2 => record.held = value,
        3 => record.delivered = value,
        4 => record.expired = value,
        5 => record.conflicted = value,
        6 => record.repeated = value,
        7 => record.rejected = value,
        19 => record.plan = value,
        _ => {
            let assembly = &mut record.assemblies[place % ASSEMBLY_LIMIT];
            forge_assembly(assembly, field, slot, value);
        }
    }
}

/// Fields 8 to 11, and 16 to 18: what an assembly has beside its fragments.
fn forge_assembly(assembly: &mut Assembly, field: u64, slot: usize, value: u64) {
    match field {
        8 => assembly.identification = value as u32,
        9 => assembly.flow.source_port = value as u16,
        10 => assembly.opened = value,
        11 => assembly.count = value,
        16 => assembly.flow.source = (value as u32).to_be_bytes(),
        17 => assembly.flow.destination = (value as u32).to_be_bytes(),
        18 => assembly.flow.destination_port = value as u16,
        _ => {
            let held = &mut assembly.fragments[slot % FRAGMENT_LIMIT];
            forge_fragment(held, field, value);
        }
    }
}

/// Fields 12 to 15.
fn forge_fragment(held: &mut Held, field: u64, value: u64) {
    match field {
        12 => held.offset = value as u16,
        13 => held.length = value as u16,
        14 => held.option_start = value as u16,
        _ => held.last = value as u16,
    }
}

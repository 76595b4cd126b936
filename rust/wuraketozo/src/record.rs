//! A client's record, as C and Rust share it.

/// The longest original that is put together, the smallest out buffer, and
/// the bytes of the store for one assembly.
pub const ORIGINAL_LIMIT: usize = 8_192;
/// The most fragments of an original.
pub const FRAGMENT_LIMIT: usize = 64;
/// The most originals that are put together at once for a client: the largest
/// plan.
pub const ASSEMBLY_LIMIT: usize = 8;
/// The most clients of a table.
pub const CLIENT_LIMIT: usize = 12;

/// A client's plan: how many originals are put together for it at once, 1 to
/// [`ASSEMBLY_LIMIT`].
///
/// ```
/// use wuraketozo::{Client, Plan};
/// let plan = Plan::new(4).ok_or("not 1 to 8")?;
/// assert_eq!((plan.get(), plan.share()), (4, 32_768));
/// assert_eq!(Client::new(plan).plan, 4);
/// assert_eq!((Plan::new(0), Plan::new(9)), (None, None));
/// # Ok::<(), &str>(())
/// ```
#[derive(Clone, Copy, Debug, PartialEq, Eq, PartialOrd, Ord, Hash)]
pub struct Plan(u64);

impl Plan {
    /// One original at once.
    pub const SMALLEST: Plan = Plan(1);
    /// [`ASSEMBLY_LIMIT`] originals at once.
    pub const LARGEST: Plan = Plan(ASSEMBLY_LIMIT as u64);

    /// The plan for so many originals at once; none unless it is 1 to
    /// [`ASSEMBLY_LIMIT`].
    pub const fn new(originals: u64) -> Option<Plan> {
        if Plan::SMALLEST.0 <= originals && originals <= Plan::LARGEST.0 {
            Some(Plan(originals))
        } else {
            None
        }
    }

    /// How many originals at once.
    pub const fn get(self) -> u64 {
        self.0
    }

    /// The bytes of the store for a client with this plan.
    pub const fn share(self) -> usize {
        self.0 as usize * ORIGINAL_LIMIT
    }
}

/// The bytes that the store of a table with these records must have: the sum
/// of the clients' shares. A plan that is none has no share; a table with one
/// is refused with 32 anyway
/// ([`Refusal::PlanOutOfRange`](crate::Refusal::PlanOutOfRange)).
///
/// ```
/// use wuraketozo::{store_length, Client, Plan};
/// let records = [Plan::SMALLEST, Plan::LARGEST].map(Client::new);
/// assert_eq!(store_length(&records), (1 + 8) * 8_192);
/// ```
pub fn store_length(records: &[Client]) -> usize {
    let plans = records.iter().filter_map(|record| Plan::new(record.plan));
    plans.map(Plan::share).sum()
}

/// A place in an original: a count from its first user byte. An offset counts
/// from the UDP header: by itself it is a
/// [`PacketOffset`](crate::PacketOffset), and in the range of a payload's bytes a
/// plain number.
#[repr(transparent)]
#[derive(Clone, Copy, Debug, Default, PartialEq, Eq, PartialOrd, Ord, Hash)]
pub struct Place(pub usize);

/// Where a datagram comes from and goes to.
#[repr(C)]
#[derive(Clone, Copy, Debug, Default, PartialEq, Eq, Hash)]
pub struct Flow {
    /// IPv4, first byte first.
    pub source: [u8; 4],
    /// IPv4, first byte first.
    pub destination: [u8; 4],
    /// UDP source port.
    pub source_port: u16,
    /// UDP destination port.
    pub destination_port: u16,
}

/// A fragment that is held.
#[repr(C)]
#[derive(Clone, Copy, Debug, Default, PartialEq, Eq)]
pub struct Held {
    /// Its first byte's place in the original.
    pub offset: u16,
    /// Its bytes.
    pub length: u16,
    /// Where the original's options start; counts only if it is the last.
    pub option_start: u16,
    /// Whether it is the original's last: 0 is no, any other number is yes.
    pub last: u16,
}

/// An original that is being put together. It is live if its count is not 0.
#[repr(C)]
#[derive(Clone, Copy, Debug, PartialEq, Eq)]
pub struct Assembly {
    /// With the identification, the key.
    pub flow: Flow,
    /// FRAG's identification.
    pub identification: u32,
    /// When its first fragment came, in ms.
    pub opened: u64,
    /// Fragments held.
    pub count: u64,
    /// The first `count` of them are in use, in order of arrival.
    pub fragments: [Held; FRAGMENT_LIMIT],
}

impl Assembly {
    /// As in a fresh record.
    const FRESH: Assembly = Assembly {
        flow: Flow {
            source: [0; 4],
            destination: [0; 4],
            source_port: 0,
            destination_port: 0,
        },
        identification: 0,
        opened: 0,
        count: 0,
        fragments: [Held {
            offset: 0,
            length: 0,
            option_start: 0,
            last: 0,
        }; FRAGMENT_LIMIT],
    };
}

impl Default for Assembly {
    /// As in a fresh record.
    fn default() -> Assembly {
        Assembly::FRESH
    }
}

/// One client's record. [`Client::new`] makes a fresh one, which is all zeros
/// but its plan. A host need not look inside. Any bytes are a record; one that
/// fails document 01's record test is refused with 22
/// ([`Refusal::UnsoundRecord`](crate::Refusal::UnsoundRecord)), and a table
/// with a plan that is none with 32
/// ([`Refusal::PlanOutOfRange`](crate::Refusal::PlanOutOfRange)). That holds of
/// a record of zeros too, so there is no `Default`.
///
/// To change a plan, make the records anew, lend a store of the new length and
/// set the table up: a plan that changes under a table moves the shares of the
/// clients behind it.
#[repr(C)]
#[derive(Clone, Copy, Debug, PartialEq, Eq)]
pub struct Client {
    /// How many originals are put together at once, 1 to [`ASSEMBLY_LIMIT`]. A
    /// set-up reads it and keeps it.
    pub plan: u64,
    /// The time of the last call taken, in ms.
    pub time: u64,
    /// Bytes offered, the sum of the six figures below.
    pub offered: u64,
    /// Bytes of fragments that wait for the rest of their original.
    pub held: u64,
    /// Bytes handed out.
    pub delivered: u64,
    /// Bytes dropped because their original took 120,000 ms or more.
    pub expired: u64,
    /// Bytes dropped in conflicts.
    pub conflicted: u64,
    /// Bytes that came again.
    pub repeated: u64,
    /// Bytes turned away (refusals 29 and 30).
    pub rejected: u64,
    /// What is being put together.
    pub assemblies: [Assembly; ASSEMBLY_LIMIT],
}

impl Client {
    /// The bytes of a record. None of them is padding.
    pub const SIZE: usize = core::mem::size_of::<Client>();

    /// A fresh record with this plan.
    ///
    /// ```
    /// use wuraketozo::{Client, Plan};
    /// static RECORDS: [Client; 2] = [Client::new(Plan::SMALLEST), Client::new(Plan::LARGEST)];
    /// assert_eq!((RECORDS[0].plan, RECORDS[1].plan), (1, 8));
    /// ```
    pub const fn new(plan: Plan) -> Client {
        Client {
            plan: plan.get(),
            time: 0,
            offered: 0,
            held: 0,
            delivered: 0,
            expired: 0,
            conflicted: 0,
            repeated: 0,
            rejected: 0,
            assemblies: [Assembly::FRESH; ASSEMBLY_LIMIT],
        }
    }

    /// The record's bytes as they lie in memory, to be kept or shipped to a
    /// host of the same kind.
    pub fn to_bytes(&self) -> [u8; Client::SIZE] {
        crate::ffi::record_bytes(self)
    }

    /// The record of these bytes; any bytes are one.
    ///
    /// ```
    /// use wuraketozo::{store_length, Client, Plan, Refusal, Table};
    /// let fresh = Client::new(Plan::SMALLEST);
    /// let mut bytes = fresh.to_bytes();
    /// bytes[8..].fill(0xFF);
    /// let mut records = [Client::from_bytes(bytes)];
    /// let mut store = vec![0; store_length(&records)];
    /// let mut table = Table::new(&mut records, &mut store);
    /// assert_eq!(table.account(0), Err(Refusal::UnsoundRecord));
    /// table.reset()?;
    /// assert_eq!(table.records()[0], fresh);
    /// // Zeros have no plan.
    /// let mut records = [Client::from_bytes([0; Client::SIZE])];
    /// let mut table = Table::new(&mut records, &mut store);
    /// assert_eq!(table.reset(), Err(Refusal::PlanOutOfRange));
    /// # Ok::<(), Refusal>(())
    /// ```
    pub fn from_bytes(bytes: [u8; Client::SIZE]) -> Client {
        crate::ffi::record_of(bytes)
    }
}

/// A client's account: what became of every byte it was offered.
#[repr(C)]
#[derive(Clone, Copy, Debug, Default, PartialEq, Eq)]
pub struct Account {
    /// Bytes offered, the sum of the six figures below.
    pub offered: u64,
    /// Bytes of fragments that wait for the rest of their original.
    pub held: u64,
    /// Bytes handed out.
    pub delivered: u64,
    /// Bytes dropped because their original took 120,000 ms or more.
    pub expired: u64,
    /// Bytes dropped in conflicts.
    pub conflicted: u64,
    /// Bytes that came again.
    pub repeated: u64,
    /// Bytes turned away (refusals 29 and 30).
    pub rejected: u64,
}

//! The reassembly table.

use crate::ffi;
use crate::reading::{Reading, Strictness};
use crate::record::{Account, Client, Flow, Place};
use crate::refusal::Refusal;

/// A fragment without its bytes, as it is offered to the table.
#[derive(Clone, Copy, Debug, PartialEq, Eq)]
pub struct Arrival {
    /// In ms; it must not run backwards for a client.
    pub time: u64,
    /// With the identification, the key of the original.
    pub flow: Flow,
    /// FRAG's identification.
    pub identification: u32,
    /// Where it stands in the original.
    pub place: Place,
    /// Whether it is the original's last.
    pub last: bool,
    /// Where the original's options start; looked at only if it is the last.
    pub option_start: Place,
}

/// What came of a fragment that was not refused.
#[derive(Clone, Copy, Debug, PartialEq, Eq)]
pub enum Answer {
    /// It is held until the rest of its original comes.
    Stored,
    /// The same fragment is held already.
    Repeated,
    /// It contradicts what is held: its original is dropped.
    Conflict,
    /// Its original is whole: the first `length` bytes of the out buffer.
    Delivered {
        /// Bytes of the original.
        length: usize,
        /// Where its options start, for [`reread`](crate::reread).
        option_start: Place,
    },
}

/// What came of a datagram.
#[derive(Clone, Debug, PartialEq, Eq)]
pub enum Received {
    /// It can't be read: refusals 1 to 4.
    Unread(Refusal),
    /// A datagram of its own; its user data is in the payload.
    Datagram(Reading),
    /// A fragment, and what the table answered.
    Fragment(Result<Answer, Refusal>),
}

/// A table of 1 to 12 clients over records and a store that the host lends. The
/// store has [`store_length`](crate::store_length) bytes: the clients' shares,
/// one behind another.
///
/// ```
/// use wuraketozo::{store_length, Client, Plan, Table, ORIGINAL_LIMIT};
/// use wuraketozo::{Answer, Arrival, Flow, Place, Refusal};
/// let mut records = [Client::new(Plan::LARGEST), Client::new(Plan::SMALLEST)];
/// let mut store = vec![0; store_length(&records)];
/// let mut out = [0; ORIGINAL_LIMIT];
/// let mut table = Table::new(&mut records, &mut store);
/// table.reset()?;
/// let first = Arrival {
///     time: 0,
///     flow: Flow::default(),
///     identification: 7,
///     place: Place(0),
///     last: false,
///     option_start: Place(0),
/// };
/// let last = Arrival { place: Place(8), last: true, option_start: Place(12), ..first };
/// assert_eq!(table.offer(1, &last, b"cm\r\n", &mut out)?, Answer::Stored);
/// // Its plan is for one original at once.
/// let other = Arrival { identification: 8, ..first };
/// assert_eq!(table.offer(1, &other, b"?", &mut out), Err(Refusal::NoFreeAssembly));
/// let delivered = Answer::Delivered { length: 12, option_start: Place(12) };
/// assert_eq!(table.offer(1, &first, b"level 41", &mut out)?, delivered);
/// assert_eq!(&out[..12], b"level 41cm\r\n");
/// assert_eq!(table.account(1)?.delivered, 12);
/// assert_eq!(table.account(1)?.rejected, 1);
/// assert_eq!(table.account(0)?.offered, 0);
/// # Ok::<(), Refusal>(())
/// ```
#[derive(Debug)]
pub struct Table<'a> {
    records: &'a mut [Client],
    store: &'a mut [u8],
}

impl<'a> Table<'a> {
    /// A table over these. Lengths that do not fit are refused with 20 by
    /// each call, a plan that is none with 32, whoever's it is.
    ///
    /// # Panics
    ///
    /// If the library linked has other sizes than this crate ([`fits`]
    /// (crate::fits)): a record of another size would be read and written past
    /// its end. No input brings that about.
    pub fn new(records: &'a mut [Client], store: &'a mut [u8]) -> Table<'a> {
        assert!(crate::fits(), "the library linked has another layout");
        Table { records, store }
    }

    /// The records as they are.
    pub fn records(&self) -> &[Client] {
        self.records
    }

    /// The store as it is.
    pub fn store(&self) -> &[u8] {
        self.store
    }

    /// Sets the table up: makes every record fresh but for its plan, which is
    /// kept, and leaves the store. Refusals 20, 32.
    pub fn reset(&mut self) -> Result<(), Refusal> {
        match taken(ffi::reset(self.records, self.store))?.outcome {
            1 => Ok(()),
            _ => Err(Refusal::Unknown),
        }
    }

    /// Offers a fragment with its bytes for a client. Refusals 20, 32, and 21 to
    /// 30. The out buffer is written only with `Delivered`.
    pub fn offer(
        &mut self,
        client: usize,
        arrival: &Arrival,
        bytes: &[u8],
        out: &mut [u8],
    ) -> Result<Answer, Refusal> {
        let fragment = ffi::Fragment {
            time: arrival.time,
            flow: arrival.flow,
            identification: arrival.identification,
            place: arrival.place,
            option_start: arrival.option_start,
            last: u32::from(arrival.last),
        };
        answer(ffi::offer(
            self.records,
            self.store,
            client,
            fragment,
            bytes,
            out,
        ))
    }

    /// Moves a client's time on and lets what is 120,000 ms old expire.
    /// Refusals 20, 32, 21, 22, 27.
    pub fn advance(&mut self, client: usize, time: u64) -> Result<(), Refusal> {
        match taken(ffi::advance(self.records, self.store, client, time))?.outcome {
            6 => Ok(()),
            _ => Err(Refusal::Unknown),
        }
    }

    /// A client's account. Refusals 20, 32, 21, 22.
    pub fn account(&self, client: usize) -> Result<Account, Refusal> {
        let raw = taken(ffi::account(self.records, self.store, client))?;
        match raw.outcome {
            7 => Ok(raw.figures),
            _ => Err(Refusal::Unknown),
        }
    }

    /// Reads a payload that arrived for a client and, if it is a fragment,
    /// offers it with its own flow. What is no fragment touches no record,
    /// no store and no out buffer. The strictness may be another one with each
    /// datagram.
    #[allow(clippy::too_many_arguments)]
    pub fn receive(
        &mut self,
        client: usize,
        time: u64,
        source: [u8; 4],
        destination: [u8; 4],
        strictness: Strictness,
        payload: &[u8],
        out: &mut [u8],
    ) -> Received {
        let raw = ffi::receive(
            self.records,
            self.store,
            client,
            time,
            source,
            destination,
            strictness.number(),
            payload,
            out,
        );
        match raw.what {
            1 => match Reading::of(raw.reading) {
                Ok(reading) => Received::Datagram(reading),
                Err(refusal) => Received::Unread(refusal),
            },
            2 => Received::Fragment(answer(raw.answer)),
            _ => Received::Unread(Refusal::of(raw.reading.refusal)),
        }
    }
}

/// The answer of a call that was not refused.
fn taken(raw: ffi::Answer) -> Result<ffi::Answer, Refusal> {
    match raw.refusal {
        0 => Ok(raw),
        number => Err(Refusal::of(number)),
    }
}

/// The answer to a fragment.
fn answer(raw: ffi::Answer) -> Result<Answer, Refusal> {
    let raw = taken(raw)?;
    Ok(match raw.outcome {
        2 => Answer::Stored,
        3 => Answer::Repeated,
        4 => Answer::Conflict,
        5 => Answer::Delivered {
            length: raw.length,
            option_start: raw.option_start,
        },
        _ => return Err(Refusal::Unknown),
    })
}

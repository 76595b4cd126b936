//! Plans, swept: which tables are refused, where the shares stand, and how many
//! places a client has.

use crate::calls::{run, Pair, Way};
use crate::counts::Counts;
use reference as plain;
use reference::generate::{Ask, Call, Lent, Random, World};
use reference::table::{ASSEMBLIES, CLIENTS_MOST, PLACE};

/// Numbers that are plans, and some that are none.
const NUMBERS: [u64; 12] = [0, 1, 2, 3, 4, 5, 6, 7, 8, 9, 257, u64::MAX];

/// Counts the calls that are made, and makes them.
struct Sweep<'a> {
    random: &'a mut Random,
    counts: &'a mut Counts,
    made: u64,
}

impl Sweep<'_> {
    fn call(&mut self, pair: &mut Pair, ask: Ask) -> Result<plain::Answer, String> {
        let lent = pair.plain.lent();
        self.made += 1;
        let call = Call { lent, ask };
        let answer = run(self.random, self.counts, Way::Offered, pair, &call)?;
        answer.ok_or_else(|| String::from("no answer"))
    }

    /// The same as a payload.
    fn received(&mut self, pair: &mut Pair, ask: Ask) -> Result<(), String> {
        let lent = pair.plain.lent();
        self.made += 1;
        let call = Call { lent, ask };
        run(self.random, self.counts, Way::Received, pair, &call)?;
        Ok(())
    }

    /// Every call on a table of these plans and this length, for each client
    /// and for one that is none.
    fn each_call(&mut self, plans: &[u64], store: usize) -> Result<(), String> {
        let lent = Lent {
            plans: plans.to_vec(),
            store,
        };
        let mut pair = Pair::of(World::new(&lent));
        for client in 0..=plans.len() {
            self.call(&mut pair, fragment(client, 7, 5))?;
            self.received(&mut pair, fragment(client, 7, 5))?;
            self.call(&mut pair, Ask::Clock { client, time: 6 })?;
            self.call(&mut pair, Ask::Bill { client })?;
        }
        self.call(&mut pair, Ask::SetUp)?;
        Ok(())
    }

    /// Every call on tables of these plans: with the store that they ask for,
    /// and with stores of nearly that length.
    fn lengths(&mut self, plans: &[u64]) -> Result<(), String> {
        let right = Lent::of(plans).store;
        let near = [right + 1, right + PLACE, right.saturating_sub(1)];
        for store in [right, near[0], near[1], near[2], 0] {
            self.each_call(plans, store)
                .map_err(|text| format!("plans {plans:?}, store of {store} bytes: {text}"))?;
        }
        Ok(())
    }

    /// As many originals as each client's plan allows, and one more; then a
    /// set-up by which the next client has each plan.
    fn filled(&mut self, plans: &[u64]) -> Result<(), String> {
        let mut pair = Pair::of(World::new(&Lent::of(plans)));
        for (client, &plan) in plans.iter().enumerate() {
            for identification in 0..=plan as u32 {
                self.call(&mut pair, fragment(client, identification, 5))?;
            }
            self.received(&mut pair, fragment(client, 99, 5))?;
        }
        for client in 0..plans.len() {
            self.call(&mut pair, Ask::Bill { client })?;
        }
        let mut next = Lent::of(plans);
        next.plans.rotate_right(1);
        let mut other = Pair::of(pair.plain.resized(&next));
        self.call(&mut other, Ask::SetUp)?;
        self.call(&mut other, fragment(0, 7, 5))?;
        Ok(())
    }

    /// A live assembly at one place, under each plan.
    fn live_at(&mut self, place: usize) -> Result<(), String> {
        for plan in 1..=ASSEMBLIES as u64 {
            let mut pair = Pair::of(World::new(&Lent::of(&[plan, 1])));
            let mut record = plain::fresh(plan);
            record.time = 5;
            (record.held, record.offered) = (2, 2);
            let assembly = &mut record.assemblies[place];
            assembly.opened = 5;
            assembly.identification = 7;
            assembly.count = 1;
            assembly.pieces[0].length = 2;
            for identification in [7, 8] {
                pair.set_record(record);
                self.call(&mut pair, Ask::Bill { client: 0 })?;
                self.call(&mut pair, fragment(0, identification, 6))?;
                let late = 120_005;
                let time = self.random.pick(&[5, late - 1, late]);
                self.call(&mut pair, Ask::Clock { client: 0, time })?;
                self.call(&mut pair, fragment(1, identification, 6))?;
            }
        }
        Ok(())
    }
}

/// Two bytes at the front of an original.
fn fragment(client: usize, identification: u32, time: u64) -> Ask {
    Ask::Piece {
        client,
        time,
        flow: plain::Flow::default(),
        identification,
        place: 0,
        bytes: vec![client as u8, identification as u8],
        last: false,
        r: 0,
        out: PLACE,
    }
}

/// Every pair of plans, and a plan at each place of tables of 11 to 14 clients,
/// with stores around the length that they ask for; each client filled to its
/// plan and past it; and a live assembly at every place under every plan.
/// Returns the calls made.
pub fn sweep(random: &mut Random, counts: &mut Counts) -> Result<u64, String> {
    let mut sweep = Sweep {
        random,
        counts,
        made: 0,
    };
    sweep.lengths(&[])?;
    for one in NUMBERS {
        sweep.lengths(&[one])?;
        for other in NUMBERS {
            sweep.lengths(&[one, other])?;
        }
    }
    for clients in CLIENTS_MOST - 1..=CLIENTS_MOST + 2 {
        for at in 0..clients {
            let mut plans = vec![1; clients];
            plans[at] = sweep.random.pick(&[0, 2, 9, u64::MAX]);
            sweep.lengths(&plans)?;
        }
        sweep.lengths(&vec![9; clients])?;
        sweep.lengths(&vec![ASSEMBLIES as u64; clients])?;
    }
    for one in 1..=ASSEMBLIES as u64 {
        for other in 1..=ASSEMBLIES as u64 {
            sweep.filled(&[one, other, 1])?;
        }
    }
    for place in 0..ASSEMBLIES {
        sweep.live_at(place)?;
    }
    Ok(sweep.made)
}

//! The journal: each accepted request with its reply, and what is read off it.

use crate::request::{
    DistrictRun, Entered, EnteredLine, Paid, Refusal, Reply, Request, RolledBack, Status, StatusLine, Wish,
};
use crate::rows::DISTRICTS;

const MOST_ENTRIES: usize = 1_000_000_000;

/// One accepted request.
pub struct Entry {
    /// Who asked, and how many entries it had before.
    pub terminal: u32,
    pub number: u32,
    pub request: Request,
    pub reply: Reply,
}

/// What a terminal has done: its number, its entries and what it paid.
pub struct Purse {
    pub terminal: u32,
    pub entries: u64,
    pub paid: i64,
}

impl Purse {
    /// A purse with no entries.
    pub fn new(terminal: u32) -> Self {
        Purse { terminal, entries: 0, paid: 0 }
    }
}

/// A list of entries that only grows.
#[derive(Default)]
pub struct Journal {
    entries: Vec<Entry>,
    // How many entries each terminal has.
    counts: Vec<u64>,
    // Where the runs of deliveries stand.
    runs: Vec<u32>,
}

impl Journal {
    /// Refuses a purse that isn't all of its terminal's, and any once the journal is full.
    pub fn admit(&self, purse: &Purse) -> Result<(), Refusal> {
        let seen = self.counts.get(purse.terminal as usize).copied().unwrap_or(0);
        if seen != purse.entries {
            return Err(Refusal::Stranger(seen));
        }
        if self.entries.len() == MOST_ENTRIES {
            return Err(Refusal::JournalFull);
        }
        Ok(())
    }

    /// Appends the entry of an admitted purse, and lends its reply.
    pub fn append(&mut self, purse: &mut Purse, request: Request, reply: Reply) -> &Reply {
        let terminal = purse.terminal as usize;
        if terminal >= self.counts.len() {
            self.counts.resize(terminal + 1, 0);
        }
        if let Reply::Delivered(_) = reply {
            self.runs.push(self.entries.len() as u32);
        }
        if let Request::Payment(payment) = &request {
            purse.paid += payment.amount;
        }
        let place = self.entries.len();
        self.entries.push(Entry { terminal: purse.terminal, number: purse.entries as u32, request, reply });
        self.counts[terminal] += 1;
        purse.entries += 1;
        &self.entries[place].reply
    }

    /// All entries, in their order.
    pub fn entries(&self) -> &[Entry] {
        &self.entries
    }

    /// The runs of deliveries, ten by ten; fewer than ten at the end are not there yet.
    pub fn results(&self) -> impl Iterator<Item = [DistrictRun; DISTRICTS as usize]> + '_ {
        self.runs.chunks_exact(DISTRICTS as usize).map(|ten| std::array::from_fn(|place| self.run(ten[place])))
    }

    /// Whether the purses, which have these entries and paid this in all, are all that the journal tells of.
    pub fn settles(&self, entries: u64, paid: i64) -> bool {
        let mut counts = vec![0; self.counts.len()];
        let mut payments = 0;
        for entry in &self.entries {
            let count = &mut counts[entry.terminal as usize];
            if entry.number != *count {
                return false;
            }
            *count += 1;
            if let Request::Payment(payment) = &entry.request {
                payments += payment.amount;
            }
        }
        self.entries.len() as u64 == entries && payments == paid
    }

    /// How many bytes the entries and all that hangs on them have.
    pub fn bytes(&self) -> usize {
        let entries = self.entries.iter();
        entries.map(|entry| size_of::<Entry>() + asked_bytes(&entry.request) + answered_bytes(&entry.reply)).sum()
    }

    fn run(&self, place: u32) -> DistrictRun {
        match self.entries[place as usize].reply {
            Reply::Delivered(run) => run,
            _ => unreachable!("only runs of deliveries are noted"),
        }
    }
}

fn asked_bytes(request: &Request) -> usize {
    match request {
        Request::NewOrder(order) => size_of::<Wish>() * order.lines.capacity(),
        _ => 0,
    }
}

fn answered_bytes(reply: &Reply) -> usize {
    match reply {
        Reply::Entered(entered) => size_of::<Entered>() + size_of::<EnteredLine>() * entered.lines.capacity(),
        Reply::RolledBack(_) => size_of::<RolledBack>(),
        Reply::Paid(paid) => size_of::<Paid>() + paid.information.as_ref().map_or(0, |text| text.len()),
        Reply::Status(status) => {
            let lines = status.order.as_ref().map_or(0, |order| order.lines.capacity());
            size_of::<Status>() + size_of::<StatusLine>() * lines
        }
        Reply::Level(_) | Reply::Queued { .. } | Reply::Delivered(_) | Reply::NoneQueued => 0,
    }
}

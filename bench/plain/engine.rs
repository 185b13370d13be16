//! The book: tables, queue and journal, and one request at a time.

use crate::delivery::{self, Queue};
use crate::journal::{Journal, Purse};
use crate::opening::{fill, Opening};
use crate::request::{Refusal, Reply, Request};
use crate::tables::Tables;
use crate::{lookups, new_order, payment};

/// All that requests change.
pub struct Engine {
    pub tables: Tables,
    pub queue: Queue,
    pub journal: Journal,
}

impl Engine {
    /// The rows of an opening, with nothing queued and no entry.
    pub fn start(opening: &Opening) -> Self {
        Engine { tables: fill(opening), queue: Queue::default(), journal: Journal::default() }
    }

    /// Serves a request: one entry of the journal, whose reply is lent, or the first refusal and no change.
    pub fn serve(&mut self, request: Request, purse: &mut Purse) -> Result<&Reply, Refusal> {
        let reply = self.turn(&request, purse)?;
        Ok(self.journal.append(purse, request, reply))
    }

    // Refusals 1 to 9 come before those of the purse and the journal, all others after them.
    fn turn(&mut self, request: &Request, purse: &Purse) -> Result<Reply, Refusal> {
        let Engine { tables, queue, journal } = self;
        match request {
            Request::NewOrder(order) => {
                let places = new_order::find(tables, order)?;
                journal.admit(purse)?;
                new_order::enter(tables, order, places)
            }
            Request::Payment(payment) => {
                let places = payment::find(tables, payment)?;
                journal.admit(purse)?;
                payment::pay(tables, payment, places)
            }
            Request::Status(query) => {
                let places = lookups::find_customer(tables, query)?;
                journal.admit(purse)?;
                Ok(lookups::order_status(tables, query, places))
            }
            Request::Stock(query) => {
                let place = lookups::find_level(tables, query)?;
                journal.admit(purse)?;
                Ok(lookups::stock_level(tables, query, place))
            }
            Request::Delivery(query) => {
                delivery::find(tables, query)?;
                journal.admit(purse)?;
                delivery::queue(queue, query)
            }
            Request::Deliver(at) => {
                journal.admit(purse)?;
                delivery::deliver_next(tables, queue, *at)
            }
        }
    }
}

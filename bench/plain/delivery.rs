//! The Delivery transaction (2.7): a request queues a ticket; each run of the first ticket delivers its next district.

use crate::money::{Cents, Moment, MOST_CENTS};
use crate::request::{DeliveryQuery, DistrictRun, Field, Refusal, Reply, Ticket};
use crate::rows::{District, Due, DISTRICTS};
use crate::tables::Tables;
use std::collections::VecDeque;

const MOST_TICKETS: usize = 1000;
const MOST_COUNT: u32 = 999_999_999;

/// The queued tickets. The first one may have run for some districts.
#[derive(Default)]
pub struct Queue {
    tickets: VecDeque<Ticket>,
    // Districts of the first ticket that have run.
    done: u32,
}

/// The refusals 1 and 8.
pub fn find(tables: &Tables, query: &DeliveryQuery) -> Result<(), Refusal> {
    tables.find_warehouse(query.warehouse)?;
    if !(1..=10).contains(&query.carrier) {
        return Err(Refusal::Carrier);
    }
    Ok(())
}

/// Queues a ticket, or tells refusal 12.
pub fn queue(queue: &mut Queue, query: &DeliveryQuery) -> Result<Reply, Refusal> {
    if queue.tickets.len() >= MOST_TICKETS {
        return Err(Refusal::QueueFull);
    }
    let (warehouse, carrier) = (query.warehouse as u8, query.carrier as u8);
    queue.tickets.push_back(Ticket { warehouse, carrier, queued: query.moment });
    Ok(Reply::Queued { warehouse, carrier })
}

/// Runs the next district of the first ticket, or tells the first of the refusals 14 and 15.
pub fn deliver_next(tables: &mut Tables, queue: &mut Queue, at: Moment) -> Result<Reply, Refusal> {
    let Some(&ticket) = queue.tickets.front() else {
        return Ok(Reply::NoneQueued);
    };
    let number = queue.done + 1;
    let place = tables.district_place(u32::from(ticket.warehouse), number);
    let order = deliver(tables, place, ticket.carrier, at)?;
    queue.done = number;
    if number == DISTRICTS {
        queue.done = 0;
        queue.tickets.pop_front();
    }
    Ok(Reply::Delivered(DistrictRun { ticket, at, district: number as u8, order }))
}

// Delivers the district's oldest new order. A district without one is skipped.
fn deliver(tables: &mut Tables, place: usize, carrier: u8, at: Moment) -> Result<Option<u32>, Refusal> {
    let district = &mut tables.districts[place];
    let number = district.oldest_new;
    let Some(order) = district.orders.get(number as usize - 1) else {
        return Ok(None);
    };
    let first = place * tables.scale.customers as usize;
    let customer = &mut tables.customers[first + usize::from(order.customer) - 1];
    if customer.deliveries == MOST_COUNT {
        return Err(Refusal::Count(Field::DeliveryCount));
    }
    let range = district.lines_of(number);
    let sum = sum_of(district, range.clone());
    if customer.balance + sum > MOST_CENTS {
        return Err(Refusal::Total(Field::Balance));
    }
    customer.balance += sum;
    customer.deliveries += 1;
    district.orders[number as usize - 1].carrier = carrier;
    district.oldest_new += 1;
    for line in &mut district.lines[range] {
        line.delivery = Due::at(at);
    }
    Ok(Some(number))
}

fn sum_of(district: &District, lines: std::ops::Range<usize>) -> Cents {
    district.lines[lines].iter().map(|line| i64::from(line.amount)).sum()
}

//! The transactions that change no row: Order-Status (2.6) and Stock-Level (2.8).

use crate::request::{LastOrder, Level, Refusal, Reply, Status, StatusLine, StatusQuery, StockQuery};
use crate::rows::District;
use crate::tables::Tables;

const LAST_ORDERS: usize = 20;

/// Where the rows of an Order-Status stand.
pub struct Places {
    district: usize,
    number: u32,
}

/// The refusals of an Order-Status.
pub fn find_customer(tables: &Tables, query: &StatusQuery) -> Result<Places, Refusal> {
    tables.find_warehouse(query.warehouse)?;
    let district = tables.find_district(query.warehouse, query.district)?;
    let number = tables.find_customer(district, &query.who)?;
    Ok(Places { district, number })
}

/// The customer's order of the largest number.
pub fn order_status(tables: &Tables, query: &StatusQuery, places: Places) -> Reply {
    let customer = &tables.customers[tables.customer_place(places.district, places.number)];
    let district = &tables.districts[places.district];
    Reply::Status(Box::new(Status {
        warehouse: query.warehouse as u8,
        district: query.district as u8,
        customer: places.number as u16,
        first: customer.first,
        middle: customer.middle,
        last: customer.last,
        balance: customer.balance,
        order: (customer.last_order > 0).then(|| last_order(district, customer.last_order)),
    }))
}

fn last_order(district: &District, number: u32) -> LastOrder {
    let order = &district.orders[number as usize - 1];
    let lines = district.lines[district.lines_of(number)].iter();
    LastOrder {
        order: number,
        entry: order.entry,
        carrier: (order.carrier > 0).then_some(order.carrier),
        lines: lines
            .map(|line| StatusLine {
                supply: line.supply,
                quantity: line.quantity,
                item: line.item,
                amount: line.amount,
                delivery: line.delivery.moment(),
            })
            .collect(),
    }
}

/// The refusals of a Stock-Level, or its district's place.
pub fn find_level(tables: &Tables, query: &StockQuery) -> Result<usize, Refusal> {
    tables.find_warehouse(query.warehouse)?;
    let district = tables.find_district(query.warehouse, query.district)?;
    if !(10..=20).contains(&query.threshold) {
        return Err(Refusal::Threshold);
    }
    Ok(district)
}

/// How many distinct items of the district's last orders are below the threshold in its warehouse.
pub fn stock_level(tables: &Tables, query: &StockQuery, district: usize) -> Reply {
    let district = &tables.districts[district];
    let first = district.orders.len().saturating_sub(LAST_ORDERS);
    let start = district.orders.get(first).map_or(0, |order| order.first_line as usize);
    let stocks = &tables.stocks[tables.stock_place(query.warehouse, 1)..];
    let mut low: Vec<u32> = district.lines[start..]
        .iter()
        .map(|line| line.item)
        .filter(|&item| u32::from(stocks[item as usize - 1].quantity) < query.threshold)
        .collect();
    // Few are low, so that sorting them is cheaper than a set of all.
    low.sort_unstable();
    low.dedup();
    Reply::Level(Level {
        warehouse: query.warehouse as u8,
        district: query.district as u8,
        threshold: query.threshold as u8,
        low_stock: low.len() as u16,
    })
}

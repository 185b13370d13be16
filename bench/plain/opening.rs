//! The two initial populations: plain, where each row is a rule of its numbers, and seeded, where each is drawn from a
//! stream of its own.

use crate::columns::{
    drawn_address, drawn_district_text, drawn_information, numbered, plain_address, plain_district_text,
    plain_information,
};
use crate::draws::{last_name, Purpose, Stream};
use crate::money::Moment;
use crate::names::Names;
use crate::rows::{
    Credit, Customer, District, Due, History, Item, ItemText, Order, OrderLine, Stock, StockText, Warehouse, DISTRICTS,
};
use crate::tables::{Scale, Tables};
use crate::text::Text;

// The constant C of NURand for last names of the population.
const NAME_CONSTANT: u32 = 100;

/// Which opening.
#[derive(Clone, Copy)]
pub enum Opening {
    Plain { scale: Scale },
    Seeded { scale: Scale, seed: u64, moment: Moment },
}

impl Opening {
    /// Its scale.
    pub fn scale(&self) -> Scale {
        match *self {
            Opening::Plain { scale } | Opening::Seeded { scale, .. } => scale,
        }
    }
}

/// Fills all nine tables.
pub fn fill(opening: &Opening) -> Tables {
    let maker = Maker::of(opening);
    let scale = maker.scale;
    let (warehouses, customers, items) = (scale.warehouses, scale.customers, scale.items);
    let districts = warehouses * DISTRICTS;
    let customer_rows: Vec<Customer> = (1..=districts * customers).map(|row| maker.customer(row)).collect();
    let names = customer_rows.chunks(customers as usize).map(Names::of).collect();
    let mut tables = Tables {
        scale,
        warehouses: (1..=warehouses).map(|row| maker.warehouse(row)).collect(),
        districts: (1..=districts).map(|row| maker.district(row)).collect(),
        customers: customer_rows,
        names,
        history: (1..=districts * customers).map(|row| maker.history(row)).collect(),
        items: Vec::with_capacity(items as usize),
        item_texts: Vec::with_capacity(items as usize),
        stocks: Vec::with_capacity((warehouses * items) as usize),
        stock_texts: Vec::with_capacity((warehouses * items) as usize),
    };
    maker.fill_items(&mut tables);
    maker.fill_stocks(&mut tables);
    link_orders(&mut tables);
    tables
}

// Sets each customer's last order.
fn link_orders(tables: &mut Tables) {
    let customers = tables.scale.customers as usize;
    for (district, customers) in tables.districts.iter().zip(tables.customers.chunks_mut(customers)) {
        for (number, order) in (1..).zip(&district.orders) {
            customers[usize::from(order.customer) - 1].last_order = number;
        }
    }
}

// Makes rows of an opening by their row numbers, which count from 1 in the order of the keys.
struct Maker {
    scale: Scale,
    seed: Option<u64>,
    moment: Moment,
}

impl Maker {
    fn of(opening: &Opening) -> Self {
        match *opening {
            Opening::Plain { scale } => Maker { scale, seed: None, moment: 0 },
            Opening::Seeded { scale, seed, moment } => Maker { scale, seed: Some(seed), moment },
        }
    }

    // The stream of a row, in the seeded opening.
    fn stream(&self, purpose: Purpose, row: u32) -> Option<Stream> {
        self.seed.map(|seed| Stream::of(seed, purpose, u64::from(row)))
    }

    fn warehouse(&self, row: u32) -> Warehouse {
        let ytd = i64::from(self.scale.customers) * 10_000;
        match self.stream(Purpose::Warehouse, row) {
            None => Warehouse { name: numbered(b"WARE", 3, row), address: plain_address(), tax: 1000, ytd },
            Some(mut stream) => Warehouse {
                name: stream.a_text(6, 10),
                address: drawn_address(&mut stream),
                tax: stream.between(0, 2000) as u16,
                ytd,
            },
        }
    }

    fn district(&self, row: u32) -> District {
        let number = (row - 1) % DISTRICTS + 1;
        let (name, address, tax) = match self.stream(Purpose::District, row) {
            None => (numbered(b"DIST", 2, number), plain_address(), number as u16 * 100),
            Some(mut stream) => (stream.a_text(6, 10), drawn_address(&mut stream), stream.between(0, 2000) as u16),
        };
        let (orders, lines) = self.orders(row);
        District {
            name,
            address,
            tax,
            ytd: i64::from(self.scale.customers) * 1000,
            orders,
            lines,
            oldest_new: self.delivered() + 1,
        }
    }

    // Of a district's orders, so many are delivered.
    fn delivered(&self) -> u32 {
        self.scale.customers / 10 * 7
    }

    fn customer(&self, row: u32) -> Customer {
        let number = (row - 1) % self.scale.customers + 1;
        match self.stream(Purpose::Customer, row) {
            None => plain_customer(number),
            Some(mut stream) => drawn_customer(&mut stream, number, self.moment),
        }
    }

    fn history(&self, row: u32) -> History {
        let district = (row - 1) / self.scale.customers;
        let information = match self.stream(Purpose::History, row) {
            None => Text::of(b"OPENINGPAYMENT"),
            Some(mut stream) => stream.a_text(12, 24),
        };
        let (warehouse, number) = (district / DISTRICTS + 1, district % DISTRICTS + 1);
        History {
            customer_warehouse: warehouse as u8,
            customer_district: number as u8,
            customer: ((row - 1) % self.scale.customers + 1) as u16,
            warehouse: warehouse as u8,
            district: number as u8,
            date: self.moment,
            amount: 1000,
            information,
        }
    }

    // The orders of the district of that row number, and their lines.
    fn orders(&self, district: u32) -> (Vec<Order>, Vec<OrderLine>) {
        let count = self.scale.customers;
        let customers = match self.stream(Purpose::Permutation, district) {
            None => (1..=count as u16).collect(),
            Some(mut stream) => stream.permutation(count),
        };
        let mut orders = Vec::with_capacity(count as usize);
        let mut lines = 0;
        for (number, customer) in (1..).zip(customers) {
            let order = self.order((district - 1) * count + number, number, customer, lines);
            lines += u32::from(order.count);
            orders.push(order);
        }
        let mut rows = Vec::with_capacity(lines as usize);
        for (number, order) in (1..).zip(&orders) {
            self.lines(&mut rows, district, number, u32::from(order.count));
        }
        (orders, rows)
    }

    fn order(&self, row: u32, number: u32, customer: u16, first_line: u32) -> Order {
        let is_delivered = number <= self.delivered();
        let (carrier, count) = match self.stream(Purpose::Order, row) {
            None => ((number - 1) % 10 + 1, 5),
            // A null carrier takes no draw.
            Some(mut stream) => (if is_delivered { stream.between(1, 10) } else { 0 }, stream.between(5, 15)),
        };
        Order {
            entry: self.moment,
            first_line,
            customer,
            carrier: if is_delivered { carrier as u8 } else { 0 },
            count: count as u8,
            all_local: true,
        }
    }

    // Appends the lines of one order.
    fn lines(&self, rows: &mut Vec<OrderLine>, district: u32, number: u32, count: u32) {
        let order_row = (district - 1) * self.scale.customers + number;
        let is_delivered = number <= self.delivered();
        let district_number = (district - 1) % DISTRICTS + 1;
        for line in 1..=count {
            let (item, amount, information) = match self.stream(Purpose::OrderLine, 15 * (order_row - 1) + line) {
                None => (
                    (5 * (number - 1) + line - 1) % self.scale.items + 1,
                    line * 100,
                    plain_district_text(district_number),
                ),
                Some(mut stream) => drawn_line(&mut stream, self.scale.items, is_delivered),
            };
            rows.push(OrderLine {
                item,
                amount: if is_delivered { 0 } else { amount },
                delivery: if is_delivered { Due::at(self.moment) } else { Due::NEVER },
                supply: ((district - 1) / DISTRICTS + 1) as u8,
                quantity: 5,
                information,
            });
        }
    }

    fn fill_items(&self, tables: &mut Tables) {
        for row in 1..=self.scale.items {
            let (image, name, price, (information, original)) = match self.stream(Purpose::Item, row) {
                None => (
                    (row - 1) % 10_000 + 1,
                    numbered(b"ITEMNAME", 6, row),
                    100 + (row - 1) % 9901,
                    plain_information(b'i', row % 10 == 0),
                ),
                Some(mut stream) => (
                    stream.between(1, 10_000),
                    stream.a_text(14, 24),
                    stream.between(100, 10_000),
                    drawn_information(&mut stream),
                ),
            };
            tables.items.push(Item { price, original, name });
            tables.item_texts.push(ItemText { image: image as u16, information });
        }
    }

    fn fill_stocks(&self, tables: &mut Tables) {
        for row in 1..=self.scale.warehouses * self.scale.items {
            let item = (row - 1) % self.scale.items + 1;
            let (quantity, districts, (information, original)) = match self.stream(Purpose::Stock, row) {
                None => (
                    10 + item % 91,
                    std::array::from_fn(|place| plain_district_text(place as u32 + 1)),
                    plain_information(b's', item % 20 == 0),
                ),
                Some(mut stream) => (
                    stream.between(10, 100),
                    std::array::from_fn(|_| drawn_district_text(&mut stream)),
                    drawn_information(&mut stream),
                ),
            };
            tables.stocks.push(Stock { ytd: 0, orders: 0, remote: 0, quantity: quantity as u8, original });
            tables.stock_texts.push(StockText { districts, information });
        }
    }
}

fn plain_customer(number: u32) -> Customer {
    let credit = if number % 10 == 0 { Credit::Bad } else { Credit::Good };
    Customer {
        limit: 5_000_000,
        discount: (number % 51 * 100) as u16,
        credit,
        first: numbered(b"FIRST", 4, 9999 - number),
        last: last_name((number - 1) % 3),
        address: plain_address(),
        phone: numbered(b"", 16, number),
        information: information_of(credit, 300, |bytes| bytes.fill(b'x')),
        ..new_customer(0)
    }
}

fn drawn_customer(stream: &mut Stream, number: u32, moment: Moment) -> Customer {
    let first = stream.a_text(8, 16);
    let last = match number {
        1..=1000 => number - 1,
        _ => stream.nurand(255, NAME_CONSTANT, 0, 999),
    };
    let address = drawn_address(stream);
    let phone = stream.n_text(16);
    let credit = if stream.between(1, 10) == 1 { Credit::Bad } else { Credit::Good };
    let discount = stream.between(0, 5000) as u16;
    let length = stream.between(300, 500) as usize;
    Customer {
        discount,
        credit,
        first,
        last: last_name(last),
        address,
        phone,
        information: information_of(credit, length, |bytes| stream.letters(bytes)),
        ..new_customer(moment)
    }
}

// The columns that all customers have alike.
fn new_customer(moment: Moment) -> Customer {
    Customer {
        balance: -1000,
        ytd_payment: 1000,
        limit: 5_000_000,
        payments: 1,
        deliveries: 0,
        last_order: 0,
        since: moment,
        discount: 0,
        credit: Credit::Good,
        first: Text::EMPTY,
        middle: *b"OE",
        last: Text::EMPTY,
        address: plain_address(),
        phone: Text::EMPTY,
        information: Vec::new(),
    }
}

// Payments put notes before C_DATA of customers with bad credit, so these get all the room at once.
fn information_of(credit: Credit, length: usize, write: impl FnOnce(&mut [u8])) -> Vec<u8> {
    let mut bytes = Vec::with_capacity(match credit {
        Credit::Good => length,
        Credit::Bad => 500,
    });
    bytes.resize(length, 0);
    write(&mut bytes);
    bytes
}

fn drawn_line(stream: &mut Stream, items: u32, is_delivered: bool) -> (u32, u32, [u8; 24]) {
    let item = stream.between(1, items);
    // The amount of a delivered line is 0.00 and takes no draw.
    let amount = if is_delivered { 0 } else { stream.between(1, 999_999) };
    (item, amount, drawn_district_text(stream))
}

//! The rows of the nine tables.
//!
//! A row keeps no column that its place in a table tells, and large texts that a transaction seldom reads stand apart.

use crate::money::{Cents, Moment, Rate};
use crate::text::Text;

/// Districts of a warehouse.
pub const DISTRICTS: u32 = 10;

/// The five columns of an address.
#[derive(Clone, Copy)]
pub struct Address {
    pub street_1: Text<20>,
    pub street_2: Text<20>,
    pub city: Text<20>,
    pub state: Text<2>,
    pub zip: Text<9>,
}

/// Good or bad credit.
#[derive(Clone, Copy, PartialEq, Eq)]
pub enum Credit {
    Good,
    Bad,
}

impl Credit {
    /// `GC` or `BC`.
    pub fn code(self) -> &'static [u8; 2] {
        match self {
            Credit::Good => b"GC",
            Credit::Bad => b"BC",
        }
    }
}

/// A row of WAREHOUSE.
pub struct Warehouse {
    pub name: Text<10>,
    pub address: Address,
    pub tax: Rate,
    pub ytd: Cents,
}

/// A row of DISTRICT with the orders that were entered there.
pub struct District {
    pub name: Text<10>,
    pub address: Address,
    pub tax: Rate,
    pub ytd: Cents,
    /// The district's orders, of which the first has the number 1.
    pub orders: Vec<Order>,
    /// The lines of all these orders, one order's behind the other's.
    pub lines: Vec<OrderLine>,
    /// The lowest number in NEW-ORDER. Deliveries take the lowest and orders add the highest, so that these rows are
    /// all the numbers from here to the last order's.
    pub oldest_new: u32,
}

impl District {
    /// D_NEXT_O_ID.
    pub fn next_order(&self) -> u32 {
        self.orders.len() as u32 + 1
    }

    /// Where an order's lines stand in `lines`.
    pub fn lines_of(&self, order: u32) -> std::ops::Range<usize> {
        let place = order as usize;
        let start = self.orders[place - 1].first_line;
        let end = match self.orders.get(place) {
            Some(next) => next.first_line as usize,
            None => self.lines.len(),
        };
        start as usize..end
    }
}

/// A row of CUSTOMER.
pub struct Customer {
    pub balance: Cents,
    pub ytd_payment: Cents,
    pub limit: Cents,
    pub payments: u32,
    pub deliveries: u32,
    /// The largest number of the customer's orders, 0 without any.
    pub last_order: u32,
    pub since: Moment,
    pub discount: Rate,
    pub credit: Credit,
    pub first: Text<16>,
    pub middle: [u8; 2],
    pub last: Text<16>,
    pub address: Address,
    pub phone: Text<16>,
    /// C_DATA.
    pub information: Vec<u8>,
}

/// A row of HISTORY.
pub struct History {
    pub customer_warehouse: u8,
    pub customer_district: u8,
    pub customer: u16,
    pub warehouse: u8,
    pub district: u8,
    pub date: Moment,
    pub amount: u32,
    pub information: Text<24>,
}

/// A row of ORDER.
pub struct Order {
    pub entry: Moment,
    /// Where its lines begin among the district's.
    pub first_line: u32,
    pub customer: u16,
    /// O_CARRIER_ID, 0 for null.
    pub carrier: u8,
    pub count: u8,
    pub all_local: bool,
}

/// A moment or null in four bytes: no moment is as great as `u32::MAX`.
#[derive(Clone, Copy, PartialEq, Eq)]
pub struct Due(u32);

impl Due {
    /// Null.
    pub const NEVER: Due = Due(u32::MAX);

    /// A moment.
    pub fn at(moment: Moment) -> Due {
        Due(moment)
    }

    /// The moment, if it isn't null.
    pub fn moment(self) -> Option<Moment> {
        (self != Due::NEVER).then_some(self.0)
    }
}

/// A row of ORDER-LINE.
pub struct OrderLine {
    pub item: u32,
    pub amount: u32,
    pub delivery: Due,
    pub supply: u8,
    pub quantity: u8,
    /// OL_DIST_INFO.
    pub information: [u8; 24],
}

/// What orders read of a row of ITEM.
pub struct Item {
    pub price: u32,
    /// Whether I_DATA contains ORIGINAL.
    pub original: bool,
    pub name: Text<24>,
}

/// The other columns of ITEM.
pub struct ItemText {
    pub image: u16,
    pub information: Text<50>,
}

/// What orders change of a row of STOCK.
pub struct Stock {
    pub ytd: u32,
    pub orders: u32,
    pub remote: u32,
    pub quantity: u8,
    /// Whether S_DATA contains ORIGINAL.
    pub original: bool,
}

/// The texts of a row of STOCK.
pub struct StockText {
    /// S_DIST_01 to S_DIST_10.
    pub districts: [[u8; 24]; DISTRICTS as usize],
    pub information: Text<50>,
}

//! Terminals: their homes, their decks of cards, and the requests that they draw (5.2.4.2).

use crate::draws::{last_name, Purpose, Stream};
use crate::money::Moment;
use crate::request::{DeliveryQuery, Order, Payment, Request, StatusQuery, StockQuery, Who, Wish};
use crate::rows::DISTRICTS;
use crate::tables::Scale;

// The constants C of NURand at terminals.
const LAST_NAMES: u32 = 187;
const CUSTOMERS: u32 = 259;
const ITEMS: u32 = 7911;

#[derive(Clone, Copy)]
enum Card {
    NewOrder,
    Payment,
    OrderStatus,
    Delivery,
    StockLevel,
}

const DECK: [Card; 23] = deck();

const fn deck() -> [Card; 23] {
    let mut cards = [Card::NewOrder; 23];
    let mut place = 10;
    while place < 20 {
        cards[place] = Card::Payment;
        place += 1;
    }
    cards[20] = Card::OrderStatus;
    cards[21] = Card::Delivery;
    cards[22] = Card::StockLevel;
    cards
}

/// A terminal with its stream.
pub struct Terminal {
    scale: Scale,
    warehouse: u32,
    district: u32,
    stream: Stream,
    cards: [Card; 23],
    dealt: usize,
}

impl Terminal {
    /// The terminal of that number, from 1.
    pub fn new(number: u32, scale: Scale, seed: u64) -> Self {
        Terminal {
            scale,
            warehouse: (number - 1) % scale.warehouses + 1,
            district: (number - 1) / scale.warehouses % DISTRICTS + 1,
            stream: Stream::of(seed, Purpose::Terminal, u64::from(number)),
            cards: DECK,
            dealt: DECK.len(),
        }
    }

    /// The request of the next card.
    pub fn next(&mut self, moment: Moment) -> Request {
        if self.dealt == DECK.len() {
            self.cards = DECK;
            self.stream.shuffle(&mut self.cards);
            self.dealt = 0;
        }
        let card = self.cards[self.dealt];
        self.dealt += 1;
        match card {
            Card::NewOrder => Request::NewOrder(self.order(moment)),
            Card::Payment => Request::Payment(self.payment(moment)),
            Card::OrderStatus => Request::Status(StatusQuery {
                warehouse: self.warehouse,
                district: self.stream.between(1, DISTRICTS),
                who: self.who(),
            }),
            Card::Delivery => Request::Delivery(DeliveryQuery {
                warehouse: self.warehouse,
                carrier: self.stream.between(1, 10),
                moment,
            }),
            Card::StockLevel => Request::Stock(StockQuery {
                warehouse: self.warehouse,
                district: self.district,
                threshold: self.stream.between(10, 20),
            }),
        }
    }

    fn order(&mut self, moment: Moment) -> Order {
        let district = self.stream.between(1, DISTRICTS);
        let customer = self.customer();
        let count = self.stream.between(5, 15);
        let is_unused = self.stream.between(1, 100) == 1;
        let mut lines = Vec::with_capacity(count as usize);
        for _ in 0..count {
            lines.push(self.wish());
        }
        if let Some(last) = lines.last_mut().filter(|_| is_unused) {
            last.item = self.scale.items + 1;
        }
        Order { warehouse: self.warehouse, district, customer, moment, lines }
    }

    fn wish(&mut self) -> Wish {
        let item = self.stream.nurand(8191, ITEMS, 1, self.scale.items);
        // This is drawn also where there is no other warehouse.
        let is_remote = self.stream.between(1, 100) == 1;
        Wish { item, supply: self.warehouse_of(is_remote), quantity: self.stream.between(1, 10) }
    }

    fn payment(&mut self, moment: Moment) -> Payment {
        let district = self.stream.between(1, DISTRICTS);
        let is_remote = self.stream.between(1, 100) > 85 && self.scale.warehouses > 1;
        let customer_warehouse = self.warehouse_of(is_remote);
        let customer_district = match is_remote {
            true => self.stream.between(1, DISTRICTS),
            false => district,
        };
        Payment {
            warehouse: self.warehouse,
            district,
            customer_warehouse,
            customer_district,
            who: self.who(),
            amount: i64::from(self.stream.between(100, 500_000)),
            moment,
        }
    }

    // The home warehouse, or another one where that is asked for and there is one.
    fn warehouse_of(&mut self, is_remote: bool) -> u32 {
        if !is_remote || self.scale.warehouses == 1 {
            return self.warehouse;
        }
        let other = self.stream.between(1, self.scale.warehouses - 1);
        other + u32::from(other >= self.warehouse)
    }

    fn who(&mut self) -> Who {
        if self.stream.between(1, 100) > 60 {
            return Who::Number(self.customer());
        }
        let most = self.scale.customers.min(1000) - 1;
        Who::Name(last_name(self.stream.nurand(255, LAST_NAMES, 0, most)))
    }

    fn customer(&mut self) -> u32 {
        self.stream.nurand(1023, CUSTOMERS, 1, self.scale.customers)
    }
}

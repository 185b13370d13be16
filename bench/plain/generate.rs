//! Scripts that two programs are compared by: drawn lines, drawn again the same from the same seed.

use crate::draws::{last_name, Purpose, Stream};
use crate::lines::put_line;
use crate::money::LAST_MOMENT;
use crate::request::{DeliveryQuery, Order, Payment, Request, StatusQuery, StockQuery, Who, Wish};
use crate::rows::DISTRICTS;
use crate::tables::Scale;
use crate::text::Text;

/// What lines a script has.
#[derive(Clone, Copy, PartialEq, Eq)]
pub enum Kind {
    /// Requests of rows that exist.
    Valid,
    /// One number of some twenty is at or past an end of its range.
    Mixed,
    /// Mixed lines, of which one is none of a script's.
    Hostile,
    /// Each kind of step: bad credit, other warehouses, roll-backs, whole tickets, each refusal that a line can meet.
    Tour,
}

const STEPS: u32 = 16;
const MOST_TICKETS: u32 = 1000;

impl Kind {
    /// The kind of that name.
    pub fn of(name: &str) -> Option<Kind> {
        Some(match name {
            "valid" => Kind::Valid,
            "mixed" => Kind::Mixed,
            "hostile" => Kind::Hostile,
            "tour" => Kind::Tour,
            _ => return None,
        })
    }
}

/// The bytes of a script of so many lines.
pub fn script(kind: Kind, lines: u32, scale: Scale, seed: u64) -> Vec<u8> {
    let mut author = Author { stream: Stream::of(seed, Purpose::Script, lines.into()), scale, kind };
    let mut out = Vec::new();
    if kind == Kind::Tour {
        author.put_tour(&mut out, lines);
        author.put_end(&mut out);
        return out;
    }
    let broken = author.stream.between(1, lines.max(1));
    for number in 1..=lines {
        let start = out.len();
        author.put_line(&mut out);
        if kind == Kind::Hostile && number == broken && author.spoil(&mut out, start) {
            break;
        }
    }
    if kind != Kind::Hostile {
        author.put_end(&mut out);
    }
    out
}

struct Author {
    stream: Stream,
    scale: Scale,
    kind: Kind,
}

impl Author {
    // One of so many times.
    fn once_in(&mut self, times: u32) -> bool {
        self.stream.between(1, times) == 1
    }

    // A number from 1 to the most there is, or one at the ends of all numbers.
    fn key(&mut self, most: u32) -> u32 {
        if matches!(self.kind, Kind::Valid | Kind::Tour) || !self.once_in(60) {
            return self.stream.between(1, most);
        }
        match self.stream.between(0, 3) {
            0 => 0,
            1 => most + 1,
            2 => u32::MAX,
            _ => self.stream.between(1, 1_000_000),
        }
    }

    fn moment(&mut self) -> u32 {
        match self.stream.between(1, 10) {
            1 => LAST_MOMENT,
            2 => 0,
            _ => self.stream.between(0, LAST_MOMENT),
        }
    }

    fn who(&mut self) -> Who {
        match self.stream.between(1, 10) {
            1..=4 => Who::Number(self.key(self.scale.customers)),
            // The three names of a plain opening.
            5..=6 => Who::Name(last_name(self.stream.between(0, 2))),
            7..=9 => Who::Name(last_name(self.stream.between(0, 999))),
            _ => {
                let length = self.stream.between(1, 16) as usize;
                let mut name = Text::EMPTY;
                for byte in name.room(length) {
                    *byte = b'A' + self.stream.between(0, 25) as u8;
                }
                Who::Name(name)
            }
        }
    }

    fn amount(&mut self) -> i64 {
        if !matches!(self.kind, Kind::Valid | Kind::Tour) && self.once_in(20) {
            let ends = [0, 99, 100, 500_000, 500_001, 999_999_999_999];
            return ends[self.stream.between(0, 5) as usize];
        }
        i64::from(self.stream.between(100, 500_000))
    }

    fn put_line(&mut self, out: &mut Vec<u8>) {
        let request = match self.stream.between(1, 100) {
            1..=30 => Request::NewOrder(self.order()),
            31..=55 => Request::Payment(self.payment()),
            56..=65 => Request::Status(self.status()),
            66..=72 => Request::Stock(StockQuery {
                warehouse: self.key(self.scale.warehouses),
                district: self.key(DISTRICTS),
                threshold: self.threshold(),
            }),
            73..=78 => Request::Delivery(DeliveryQuery {
                warehouse: self.key(self.scale.warehouses),
                carrier: self.key(10),
                moment: self.moment(),
            }),
            79..=97 => Request::Deliver(self.moment()),
            98 => return out.extend_from_slice(b"results\n"),
            _ => return out.extend_from_slice(b"check\n"),
        };
        put_line(out, &request);
    }

    fn order(&mut self) -> Order {
        let count = match self.stream.between(1, 20) {
            1 if !matches!(self.kind, Kind::Valid | Kind::Tour) => self.stream.between(0, 40),
            _ => self.stream.between(5, 15),
        };
        Order {
            warehouse: self.key(self.scale.warehouses),
            district: self.key(DISTRICTS),
            customer: self.key(self.scale.customers),
            moment: self.moment(),
            // Few items, so that lines of one order meet at one stock row.
            lines: (0..count).map(|_| self.wish()).collect(),
        }
    }

    fn wish(&mut self) -> Wish {
        let few = self.stream.between(1, self.scale.items);
        let item = if self.once_in(200) { self.scale.items + 1 } else { self.key(few) };
        Wish { item, supply: self.key(self.scale.warehouses), quantity: self.key(10) }
    }

    fn payment(&mut self) -> Payment {
        Payment {
            warehouse: self.key(self.scale.warehouses),
            district: self.key(DISTRICTS),
            customer_warehouse: self.key(self.scale.warehouses),
            customer_district: self.key(DISTRICTS),
            who: self.who(),
            amount: self.amount(),
            moment: self.moment(),
        }
    }

    fn status(&mut self) -> StatusQuery {
        StatusQuery { warehouse: self.key(self.scale.warehouses), district: self.key(DISTRICTS), who: self.who() }
    }

    fn threshold(&mut self) -> u32 {
        match self.kind {
            Kind::Valid | Kind::Tour => self.stream.between(10, 20),
            _ => self.stream.between(8, 22),
        }
    }

    // Each step once, and then drawn ones, until there are so many lines.
    fn put_tour(&mut self, out: &mut Vec<u8>, lines: u32) {
        let mut count = 0;
        let mut step = 0;
        while step < STEPS || count < lines {
            let drawn = if step < STEPS { step } else { self.stream.between(0, STEPS - 1) };
            let start = out.len();
            self.put_step(out, drawn);
            count += out[start..].iter().filter(|&&byte| byte == b'\n').count() as u32;
            step += 1;
        }
    }

    fn put_step(&mut self, out: &mut Vec<u8>, step: u32) {
        match step {
            0 => self.put_payments(out),
            1 => self.put_distant_order(out),
            2 => self.put_roll_back(out),
            3 => self.put_ticket(out),
            4..=12 => self.put_refused(out, step - 3),
            // Seldom more tickets than there is room for.
            13 if self.once_in(8) => {
                (0..=MOST_TICKETS).for_each(|_| self.put_delivery(out));
            }
            _ => self.put_line(out),
        }
    }

    // By customers of whom each tenth of a plain opening has bad credit, from everywhere, often the same again.
    fn put_payments(&mut self, out: &mut Vec<u8>) {
        let customer = 10 * self.stream.between(1, self.scale.customers / 10);
        for _ in 0..self.stream.between(3, 12) {
            let number = if self.once_in(3) { self.key(self.scale.customers) } else { customer };
            put_line(out, &Request::Payment(Payment { who: Who::Number(number), ..self.payment() }));
        }
    }

    // Some of its lines, if not all, come from the last warehouse.
    fn put_distant_order(&mut self, out: &mut Vec<u8>) {
        let mut order = self.order();
        order.warehouse = 1;
        let distant = self.stream.between(1, order.lines.len() as u32) as usize;
        order.lines[..distant].iter_mut().for_each(|line| line.supply = self.scale.warehouses);
        put_line(out, &Request::NewOrder(order));
    }

    // No item of a number past the last one, and none of the number 0; any line may have it.
    fn put_roll_back(&mut self, out: &mut Vec<u8>) {
        let mut order = self.order();
        let place = self.stream.between(0, order.lines.len() as u32 - 1) as usize;
        let unused = [0, self.scale.items + 1, u32::MAX];
        order.lines[place].item = unused[self.stream.between(0, 2) as usize];
        put_line(out, &Request::NewOrder(order));
    }

    fn put_delivery(&mut self, out: &mut Vec<u8>) {
        let (warehouse, carrier) = (self.key(self.scale.warehouses), self.key(10));
        put_line(out, &Request::Delivery(DeliveryQuery { warehouse, carrier, moment: self.moment() }));
    }

    // As many runs as a ticket has districts, with other requests between some of them.
    fn put_ticket(&mut self, out: &mut Vec<u8>) {
        self.put_delivery(out);
        for _ in 0..DISTRICTS {
            put_line(out, &Request::Deliver(self.moment()));
            if self.once_in(5) {
                self.put_line(out);
            }
        }
    }

    // A request that meets the refusal of that number, 1 to 9.
    fn put_refused(&mut self, out: &mut Vec<u8>, refusal: u32) {
        let is_first = self.once_in(2);
        let past = |least: u32, most: u32| if is_first { least - 1 } else { most + 1 };
        let Scale { warehouses, customers, .. } = self.scale;
        let request = match refusal {
            1 => Request::Payment(Payment { customer_warehouse: past(1, warehouses), ..self.payment() }),
            2 => Request::Status(StatusQuery { district: past(1, DISTRICTS), ..self.status() }),
            3 => Request::Status(StatusQuery { who: Who::Number(past(1, customers)), ..self.status() }),
            4..=6 => Request::NewOrder(self.refused_order(refusal, &past)),
            7 => Request::Payment(Payment { amount: i64::from(past(100, 500_000)), ..self.known_payment() }),
            8 => Request::Delivery(DeliveryQuery { warehouse: 1, carrier: past(1, 10), moment: self.moment() }),
            _ => Request::Stock(StockQuery { warehouse: 1, district: self.key(DISTRICTS), threshold: past(10, 20) }),
        };
        put_line(out, &request);
    }

    // Its customer exists.
    fn known_payment(&mut self) -> Payment {
        Payment { who: Who::Number(self.key(self.scale.customers)), ..self.payment() }
    }

    fn refused_order(&mut self, refusal: u32, past: &dyn Fn(u32, u32) -> u32) -> Order {
        let mut order = self.order();
        let place = self.stream.between(0, order.lines.len() as u32 - 1) as usize;
        match refusal {
            4 => order.lines = (0..past(5, 15)).map(|_| self.wish()).collect(),
            5 => order.lines[place].quantity = past(1, 10),
            _ => order.lines[place].supply = past(1, self.scale.warehouses),
        }
        order
    }

    // What the rows are in the end: some customers, what was delivered, the conditions.
    fn put_end(&mut self, out: &mut Vec<u8>) {
        for district in 1..=DISTRICTS {
            for _ in 0..4 {
                let request = Request::Status(StatusQuery {
                    warehouse: self.stream.between(1, self.scale.warehouses),
                    district,
                    who: Who::Number(self.stream.between(1, self.scale.customers)),
                });
                put_line(out, &request);
            }
        }
        out.extend_from_slice(b"results\ncheck\n");
    }

    // Makes the line from `start` on one that no script has, or one that is nearly so; whether it is the last one.
    fn spoil(&mut self, out: &mut Vec<u8>, start: usize) -> bool {
        match self.stream.between(1, 7) {
            1 | 2 => self.change_byte(out, start),
            3 => self.change_word(out, start),
            4 => {
                out.truncate(start);
                let length = self.stream.between(4090, 4103) as usize;
                out.resize(start + length, b'x');
                out.push(b'\n');
            }
            // Two lines become one.
            5 => out.truncate(out.len() - 1),
            // The last line is cut somewhere, or before its line feed.
            6 => {
                let end = self.stream.between(start as u32, out.len() as u32 - 1);
                let end = if self.once_in(2) { out.len() - 1 } else { end as usize };
                out.truncate(end);
                return true;
            }
            _ => {
                out.truncate(start);
                out.extend_from_slice(self.odd_line());
                out.push(b'\n');
            }
        }
        false
    }

    // Removes a byte, doubles it, or puts another in its place.
    fn change_byte(&mut self, out: &mut Vec<u8>, start: usize) {
        let place = self.stream.between(start as u32, out.len() as u32 - 1) as usize;
        match self.stream.between(1, 4) {
            1 => {
                out.remove(place);
            }
            2 => out.insert(place, out[place]),
            3 => out[place] = self.stream.between(0, 255) as u8,
            _ => {
                let bytes = b" :.0-+\tA\r\0\n";
                out[place] = bytes[self.stream.between(0, 10) as usize];
            }
        }
    }

    // Puts an odd word in the place of one.
    fn change_word(&mut self, out: &mut Vec<u8>, start: usize) {
        let line = String::from_utf8_lossy(&out[start..out.len() - 1]).into_owned();
        let mut words: Vec<&str> = line.split(' ').collect();
        let place = self.stream.between(0, words.len() as u32 - 1) as usize;
        words[place] = self.odd_word();
        out.truncate(start);
        out.extend_from_slice(words.join(" ").as_bytes());
        out.push(b'\n');
    }

    fn odd_word(&mut self) -> &'static str {
        const WORDS: [&str; 33] = [
            "",
            "0",
            "00",
            "01",
            "1",
            "-1",
            "+1",
            "1.0",
            "1.00",
            "01.00",
            ".50",
            "0.50",
            "1.000",
            "10000000000.00",
            "9999999999.99",
            "4294967295",
            "4294967296",
            "99999999999999999999",
            "4102444799",
            "4102444800",
            "BAR",
            "bar",
            "BARBARBARBARBARBA",
            "BARBARBARBARBARB",
            "1:1",
            "1:1:1",
            "1:1:1:1",
            "::",
            "1:01:1",
            "1:1:4294967296",
            "new-order",
            "x",
            "1e3",
        ];
        WORDS[self.stream.between(0, WORDS.len() as u32 - 1) as usize]
    }

    fn odd_line(&mut self) -> &'static [u8] {
        const LINES: [&[u8]; 24] = [
            b"",
            b" ",
            b"check ",
            b" check",
            b"check check",
            b"results 1",
            b"Check",
            b"deliver",
            b"deliver 1 1",
            b"delivery 1 1",
            b"delivery 1 1 0 0",
            b"status 1 1",
            b"status 1 1 1 1",
            b"stock 1 1",
            b"stock 1 1 10 0",
            b"payment 1 1 1 1 1 1.00",
            b"payment 1 1 1 1 1 1.00 0 0",
            b"new-order 1 1 1",
            b"new-order 1 1 1 0",
            b"new-order 1 1 BARBARBAR 0",
            b"new-order",
            b"check\r",
            b"check\0",
            b"\xff\xfe",
        ];
        LINES[self.stream.between(0, LINES.len() as u32 - 1) as usize]
    }
}

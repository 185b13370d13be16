//! The lines of a script.

use crate::money::{parse_amount, parse_number, Moment, LAST_MOMENT};
use crate::request::{DeliveryQuery, Order, Payment, Request, StatusQuery, StockQuery, Who, Wish};
use crate::text::Text;

const LONGEST_NAME: usize = 16;

/// What one line asks for.
pub enum Call {
    Serve(Request),
    Check,
    Results,
}

/// Reads a line without its line feed; None where it is none of the script's.
pub fn parse_line(line: &[u8]) -> Option<Call> {
    let mut words = Words { rest: Some(line) };
    let call = match words.next()? {
        b"new-order" => Call::Serve(Request::NewOrder(words.order()?)),
        b"payment" => Call::Serve(Request::Payment(words.payment()?)),
        b"status" => Call::Serve(Request::Status(words.status()?)),
        b"stock" => Call::Serve(Request::Stock(words.stock()?)),
        b"delivery" => Call::Serve(Request::Delivery(words.delivery()?)),
        b"deliver" => Call::Serve(Request::Deliver(words.moment()?)),
        b"check" => Call::Check,
        b"results" => Call::Results,
        _ => return None,
    };
    words.rest.is_none().then_some(call)
}

// What is left of a line. Two spaces, or one at an end, leave an empty word, which nothing takes.
struct Words<'a> {
    rest: Option<&'a [u8]>,
}

impl<'a> Words<'a> {
    fn next(&mut self) -> Option<&'a [u8]> {
        let rest = self.rest?;
        match rest.iter().position(|&byte| byte == b' ') {
            Some(end) => {
                self.rest = Some(&rest[end + 1..]);
                Some(&rest[..end])
            }
            None => {
                self.rest = None;
                Some(rest)
            }
        }
    }

    fn number(&mut self) -> Option<u32> {
        parse_u32(self.next()?)
    }

    fn moment(&mut self) -> Option<Moment> {
        let moment = parse_number(self.next()?, u64::from(LAST_MOMENT))?;
        Some(moment as Moment)
    }

    fn who(&mut self) -> Option<Who> {
        let word = self.next()?;
        if let Some(number) = parse_u32(word) {
            return Some(Who::Number(number));
        }
        let is_name = (1..=LONGEST_NAME).contains(&word.len()) && word.iter().all(|byte| byte.is_ascii_uppercase());
        is_name.then(|| Who::Name(Text::of(word)))
    }

    fn order(&mut self) -> Option<Order> {
        let warehouse = self.number()?;
        let district = self.number()?;
        let customer = self.number()?;
        let moment = self.moment()?;
        // Most orders have 5 to 15 lines.
        let mut lines = Vec::with_capacity(15);
        while let Some(word) = self.next() {
            lines.push(parse_wish(word)?);
        }
        Some(Order { warehouse, district, customer, moment, lines })
    }

    fn payment(&mut self) -> Option<Payment> {
        Some(Payment {
            warehouse: self.number()?,
            district: self.number()?,
            customer_warehouse: self.number()?,
            customer_district: self.number()?,
            who: self.who()?,
            amount: parse_amount(self.next()?)?,
            moment: self.moment()?,
        })
    }

    fn status(&mut self) -> Option<StatusQuery> {
        Some(StatusQuery { warehouse: self.number()?, district: self.number()?, who: self.who()? })
    }

    fn stock(&mut self) -> Option<StockQuery> {
        Some(StockQuery { warehouse: self.number()?, district: self.number()?, threshold: self.number()? })
    }

    fn delivery(&mut self) -> Option<DeliveryQuery> {
        Some(DeliveryQuery { warehouse: self.number()?, carrier: self.number()?, moment: self.moment()? })
    }
}

fn parse_u32(word: &[u8]) -> Option<u32> {
    parse_number(word, u64::from(u32::MAX)).map(|number| number as u32)
}

// ITEM:SUPPLY:QUANTITY
fn parse_wish(word: &[u8]) -> Option<Wish> {
    let mut parts = word.split(|&byte| byte == b':');
    let mut number = || parse_u32(parts.next()?);
    let wish = Wish { item: number()?, supply: number()?, quantity: number()? };
    parts.next().is_none().then_some(wish)
}

//! Requests as lines of a script.

use crate::money::{put_cents, put_number};
use crate::request::{Order, Payment, Request, Who};

/// Appends the line of a request.
pub fn put_line(out: &mut Vec<u8>, request: &Request) {
    match request {
        Request::NewOrder(order) => put_order(out, order),
        Request::Payment(payment) => put_payment(out, payment),
        Request::Status(query) => {
            put_words(out, b"status", &[query.warehouse, query.district]);
            put_who(out, &query.who);
        }
        Request::Stock(query) => {
            put_words(out, b"stock", &[query.warehouse, query.district, query.threshold]);
        }
        Request::Delivery(query) => {
            put_words(out, b"delivery", &[query.warehouse, query.carrier, query.moment]);
        }
        Request::Deliver(moment) => put_words(out, b"deliver", &[*moment]),
    }
    out.push(b'\n');
}

fn put_order(out: &mut Vec<u8>, order: &Order) {
    let words = [order.warehouse, order.district, order.customer, order.moment];
    put_words(out, b"new-order", &words);
    for line in &order.lines {
        put_words(out, b"", &[line.item]);
        for number in [line.supply, line.quantity] {
            out.push(b':');
            put_number(out, u64::from(number));
        }
    }
}

fn put_payment(out: &mut Vec<u8>, payment: &Payment) {
    let words = [payment.warehouse, payment.district, payment.customer_warehouse, payment.customer_district];
    put_words(out, b"payment", &words);
    put_who(out, &payment.who);
    out.push(b' ');
    put_cents(out, payment.amount);
    put_words(out, b"", &[payment.moment]);
}

fn put_words(out: &mut Vec<u8>, word: &[u8], numbers: &[u32]) {
    out.extend_from_slice(word);
    for &number in numbers {
        out.push(b' ');
        put_number(out, u64::from(number));
    }
}

fn put_who(out: &mut Vec<u8>, who: &Who) {
    match who {
        Who::Number(number) => put_words(out, b"", &[*number]),
        Who::Name(name) => {
            out.push(b' ');
            out.extend_from_slice(name.as_bytes());
        }
    }
}

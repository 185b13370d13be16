//! The Payment transaction (2.5).

use crate::money::{put_cents, put_number, MOST_CENTS};
use crate::request::{Field, Paid, Payment, Refusal, Reply};
use crate::rows::{Credit, Customer, History};
use crate::tables::Tables;
use crate::text::Text;

const MOST_COUNT: u32 = 999_999_999;
const MOST_INFORMATION: usize = 500;
const MOST_SHOWN: usize = 200;

/// Where the rows of a payment stand.
pub struct Places {
    warehouse: usize,
    district: usize,
    customer: usize,
    number: u32,
}

/// The refusals 1 to 3 and 7: both warehouses, both districts, the customer, the amount.
pub fn find(tables: &Tables, payment: &Payment) -> Result<Places, Refusal> {
    let warehouse = tables.find_warehouse(payment.warehouse)?;
    tables.find_warehouse(payment.customer_warehouse)?;
    let district = tables.find_district(payment.warehouse, payment.district)?;
    let home = tables.find_district(payment.customer_warehouse, payment.customer_district)?;
    let number = tables.find_customer(home, &payment.who)?;
    if !(100..=500_000).contains(&payment.amount) {
        return Err(Refusal::Amount);
    }
    let customer = tables.customer_place(home, number);
    Ok(Places { warehouse, district, customer, number })
}

/// Pays, or tells the first of the refusals 14 and 15.
pub fn pay(tables: &mut Tables, payment: &Payment, places: Places) -> Result<Reply, Refusal> {
    test_ranges(tables, payment, &places)?;
    let warehouse = &mut tables.warehouses[places.warehouse];
    let district = &mut tables.districts[places.district];
    let customer = &mut tables.customers[places.customer];
    warehouse.ytd += payment.amount;
    district.ytd += payment.amount;
    customer.balance -= payment.amount;
    customer.ytd_payment += payment.amount;
    customer.payments += 1;
    if customer.credit == Credit::Bad {
        put_note(&mut customer.information, payment, places.number);
    }
    let mut information = Text::EMPTY;
    for part in [warehouse.name.as_bytes(), b"    ", district.name.as_bytes()] {
        information.append(part);
    }
    tables.history.push(History {
        customer_warehouse: payment.customer_warehouse as u8,
        customer_district: payment.customer_district as u8,
        customer: places.number as u16,
        warehouse: payment.warehouse as u8,
        district: payment.district as u8,
        date: payment.moment,
        amount: payment.amount as u32,
        information,
    });
    Ok(Reply::Paid(Box::new(paid(tables, payment, &places))))
}

fn test_ranges(tables: &Tables, payment: &Payment, places: &Places) -> Result<(), Refusal> {
    let customer = &tables.customers[places.customer];
    let most = MOST_CENTS - payment.amount;
    if customer.payments == MOST_COUNT {
        return Err(Refusal::Count(Field::PaymentCount));
    }
    let totals = [
        (Field::WarehouseYtd, tables.warehouses[places.warehouse].ytd),
        (Field::DistrictYtd, tables.districts[places.district].ytd),
        (Field::Balance, -customer.balance),
        (Field::YtdPayment, customer.ytd_payment),
    ];
    match totals.iter().find(|(_, total)| *total > most) {
        Some(&(field, _)) => Err(Refusal::Total(field)),
        None => Ok(()),
    }
}

// Puts what was paid at the left of C_DATA, which is cut to its greatest length.
fn put_note(information: &mut Vec<u8>, payment: &Payment, customer: u32) {
    let mut note = Vec::with_capacity(64);
    let numbers =
        [customer, payment.customer_district, payment.customer_warehouse, payment.district, payment.warehouse];
    for number in numbers {
        put_number(&mut note, u64::from(number));
        note.push(b' ');
    }
    put_cents(&mut note, payment.amount);
    note.push(b' ');
    let kept = information.len().min(MOST_INFORMATION - note.len());
    information.resize(kept + note.len(), 0);
    information.copy_within(..kept, note.len());
    information[..note.len()].copy_from_slice(&note);
}

fn paid(tables: &Tables, payment: &Payment, places: &Places) -> Paid {
    let customer = &tables.customers[places.customer];
    Paid {
        warehouse: payment.warehouse as u8,
        district: payment.district as u8,
        customer_warehouse: payment.customer_warehouse as u8,
        customer_district: payment.customer_district as u8,
        customer: places.number as u16,
        amount: payment.amount,
        date: payment.moment,
        warehouse_address: tables.warehouses[places.warehouse].address,
        district_address: tables.districts[places.district].address,
        first: customer.first,
        middle: customer.middle,
        last: customer.last,
        address: customer.address,
        phone: customer.phone,
        since: customer.since,
        credit: customer.credit,
        limit: customer.limit,
        discount: customer.discount,
        balance: customer.balance,
        information: shown(customer),
    }
}

// What the screen shows of C_DATA.
fn shown(customer: &Customer) -> Option<Box<[u8]>> {
    let most = customer.information.len().min(MOST_SHOWN);
    (customer.credit == Credit::Bad).then(|| customer.information[..most].into())
}

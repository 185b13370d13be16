//! What a user sees: the screens of replies and refusals, and the report of a run.

use crate::check::Broken;
use crate::money::{put_cents, put_moment, put_number, put_rate, Cents};
use crate::request::{DistrictRun, Entered, EnteredLine, LastOrder, Level, Paid, Refusal, Reply, RolledBack, Status};
use crate::rows::Address;

/// Appends the screen of an outcome.
pub fn put_screen(out: &mut Vec<u8>, outcome: Result<&Reply, Refusal>) {
    match outcome {
        Ok(Reply::Entered(entered)) => put_entered(out, entered),
        Ok(Reply::RolledBack(order)) => put_rolled_back(out, order),
        Ok(Reply::Paid(paid)) => put_paid(out, paid),
        Ok(Reply::Status(status)) => put_status(out, status),
        Ok(Reply::Level(level)) => put_level(out, level),
        Ok(Reply::Queued { warehouse, carrier }) => put_queued(out, *warehouse, *carrier),
        Ok(Reply::Delivered(run)) => {
            put_delivered(out, run);
            put_district(out, run);
        }
        Ok(Reply::NoneQueued) => put(out, b"no delivery queued\n"),
        Err(refusal) => put_refusal(out, refusal),
    }
}

/// Appends the delivery result log's part of one ticket.
pub fn put_result(out: &mut Vec<u8>, ten: &[DistrictRun; 10]) {
    put_delivered(out, &ten[9]);
    for (number, run) in (1..).zip(ten) {
        put_district(out, &DistrictRun { district: number, ..*run });
    }
}

/// Appends whether all conditions hold.
pub fn put_check(out: &mut Vec<u8>, result: Result<(), Broken>) {
    let Err(broken) = result else {
        return put(out, b"consistent\n");
    };
    field(out, b"broken ", u64::from(broken.condition));
    field(out, b" ", u64::from(broken.warehouse));
    field(out, b" ", u64::from(broken.district));
    field(out, b" ", u64::from(broken.number));
    put(out, b"\n");
}

/// Appends the report of a run.
pub fn put_report(out: &mut Vec<u8>, entries: u64, paid: Cents, rise: Cents) {
    field(out, b"entries ", entries);
    put(out, b"\npaid ");
    put_cents(out, paid);
    put(out, b"\nrise ");
    put_cents(out, rise);
    put(out, b"\n");
}

fn put(out: &mut Vec<u8>, bytes: &[u8]) {
    out.extend_from_slice(bytes);
}

fn field(out: &mut Vec<u8>, name: &[u8], number: u64) {
    put(out, name);
    put_number(out, number);
}

fn amount(out: &mut Vec<u8>, name: &[u8], cents: Cents) {
    put(out, name);
    put_cents(out, cents);
}

fn rate(out: &mut Vec<u8>, name: &[u8], rate: u16) {
    put(out, name);
    put_rate(out, rate);
}

fn moment(out: &mut Vec<u8>, name: &[u8], moment: u32) {
    put(out, name);
    put_moment(out, moment);
}

fn text(out: &mut Vec<u8>, name: &[u8], text: &[u8]) {
    put(out, name);
    put(out, text);
}

fn put_address(out: &mut Vec<u8>, address: &Address) {
    put(out, address.street_1.as_bytes());
    text(out, b",", address.street_2.as_bytes());
    text(out, b",", address.city.as_bytes());
    text(out, b",", address.state.as_bytes());
    text(out, b",", address.zip.as_bytes());
}

fn put_entered(out: &mut Vec<u8>, entered: &Entered) {
    field(out, b"new-order W_ID=", u64::from(entered.warehouse));
    field(out, b" D_ID=", u64::from(entered.district));
    field(out, b" C_ID=", u64::from(entered.customer));
    text(out, b" C_LAST=", entered.last.as_bytes());
    text(out, b" C_CREDIT=", entered.credit.code());
    rate(out, b" C_DISCOUNT=", entered.discount);
    field(out, b" O_ID=", u64::from(entered.order));
    field(out, b" O_OL_CNT=", entered.lines.len() as u64);
    rate(out, b" W_TAX=", entered.warehouse_tax);
    rate(out, b" D_TAX=", entered.district_tax);
    moment(out, b" O_ENTRY_D=", entered.entry);
    amount(out, b" total=", entered.total);
    put(out, b"\n");
    for (number, line) in (1..).zip(&entered.lines) {
        put_entered_line(out, number, line);
    }
}

fn put_entered_line(out: &mut Vec<u8>, number: u64, line: &EnteredLine) {
    field(out, b"line ", number);
    field(out, b" OL_SUPPLY_W_ID=", u64::from(line.supply));
    field(out, b" OL_I_ID=", u64::from(line.item));
    text(out, b" I_NAME=", line.name.as_bytes());
    field(out, b" OL_QUANTITY=", u64::from(line.quantity));
    field(out, b" S_QUANTITY=", u64::from(line.stock));
    put(out, if line.original { b" brand=B" } else { b" brand=G" });
    amount(out, b" I_PRICE=", i64::from(line.price));
    amount(out, b" OL_AMOUNT=", i64::from(line.amount));
    put(out, b"\n");
}

fn put_rolled_back(out: &mut Vec<u8>, order: &RolledBack) {
    field(out, b"new-order W_ID=", u64::from(order.warehouse));
    field(out, b" D_ID=", u64::from(order.district));
    field(out, b" C_ID=", u64::from(order.customer));
    text(out, b" C_LAST=", order.last.as_bytes());
    text(out, b" C_CREDIT=", order.credit.code());
    field(out, b" O_ID=", u64::from(order.order));
    put(out, b" Item number is not valid\n");
}

fn put_paid(out: &mut Vec<u8>, paid: &Paid) {
    field(out, b"payment W_ID=", u64::from(paid.warehouse));
    field(out, b" D_ID=", u64::from(paid.district));
    field(out, b" C_W_ID=", u64::from(paid.customer_warehouse));
    field(out, b" C_D_ID=", u64::from(paid.customer_district));
    field(out, b" C_ID=", u64::from(paid.customer));
    amount(out, b" H_AMOUNT=", paid.amount);
    moment(out, b" H_DATE=", paid.date);
    put(out, b"\nwarehouse ");
    put_address(out, &paid.warehouse_address);
    put(out, b"\ndistrict ");
    put_address(out, &paid.district_address);
    put_payer(out, paid);
}

fn put_payer(out: &mut Vec<u8>, paid: &Paid) {
    text(out, b"\ncustomer ", paid.first.as_bytes());
    text(out, b" ", &paid.middle);
    text(out, b" ", paid.last.as_bytes());
    put(out, b" ");
    put_address(out, &paid.address);
    text(out, b" C_PHONE=", paid.phone.as_bytes());
    moment(out, b" C_SINCE=", paid.since);
    text(out, b" C_CREDIT=", paid.credit.code());
    amount(out, b" C_CREDIT_LIM=", paid.limit);
    rate(out, b" C_DISCOUNT=", paid.discount);
    amount(out, b" C_BALANCE=", paid.balance);
    if let Some(information) = &paid.information {
        text(out, b"\nC_DATA=", information);
    }
    put(out, b"\n");
}

fn put_status(out: &mut Vec<u8>, status: &Status) {
    field(out, b"order-status W_ID=", u64::from(status.warehouse));
    field(out, b" D_ID=", u64::from(status.district));
    field(out, b" C_ID=", u64::from(status.customer));
    text(out, b" C_FIRST=", status.first.as_bytes());
    text(out, b" C_MIDDLE=", &status.middle);
    text(out, b" C_LAST=", status.last.as_bytes());
    amount(out, b" C_BALANCE=", status.balance);
    put(out, b"\n");
    match &status.order {
        Some(order) => put_last_order(out, order),
        None => put(out, b"no order\n"),
    }
}

fn put_last_order(out: &mut Vec<u8>, order: &LastOrder) {
    field(out, b"order O_ID=", u64::from(order.order));
    moment(out, b" O_ENTRY_D=", order.entry);
    put(out, b" O_CARRIER_ID=");
    match order.carrier {
        Some(carrier) => put_number(out, u64::from(carrier)),
        None => put(out, b"-"),
    }
    put(out, b"\n");
    for line in &order.lines {
        field(out, b"line OL_SUPPLY_W_ID=", u64::from(line.supply));
        field(out, b" OL_I_ID=", u64::from(line.item));
        field(out, b" OL_QUANTITY=", u64::from(line.quantity));
        amount(out, b" OL_AMOUNT=", i64::from(line.amount));
        put(out, b" OL_DELIVERY_D=");
        match line.delivery {
            Some(moment) => put_moment(out, moment),
            None => put(out, b"-"),
        }
        put(out, b"\n");
    }
}

fn put_level(out: &mut Vec<u8>, level: &Level) {
    field(out, b"stock-level W_ID=", u64::from(level.warehouse));
    field(out, b" D_ID=", u64::from(level.district));
    field(out, b" threshold=", u64::from(level.threshold));
    field(out, b" low_stock=", u64::from(level.low_stock));
    put(out, b"\n");
}

fn put_queued(out: &mut Vec<u8>, warehouse: u8, carrier: u8) {
    field(out, b"delivery W_ID=", u64::from(warehouse));
    field(out, b" O_CARRIER_ID=", u64::from(carrier));
    put(out, b" Delivery has been queued\n");
}

fn put_delivered(out: &mut Vec<u8>, run: &DistrictRun) {
    field(out, b"delivered W_ID=", u64::from(run.ticket.warehouse));
    field(out, b" O_CARRIER_ID=", u64::from(run.ticket.carrier));
    moment(out, b" queued=", run.ticket.queued);
    moment(out, b" at=", run.at);
    put(out, b"\n");
}

fn put_district(out: &mut Vec<u8>, run: &DistrictRun) {
    field(out, b"district ", u64::from(run.district));
    match run.order {
        Some(order) => field(out, b" O_ID=", u64::from(order)),
        None => put(out, b" skipped"),
    }
    put(out, b"\n");
}

fn put_refusal(out: &mut Vec<u8>, refusal: Refusal) {
    let (number, name) = refusal.numbered();
    field(out, b"refused ", number);
    text(out, b" ", name.as_bytes());
    match refusal {
        Refusal::Stranger(seen) => field(out, b" ", seen),
        Refusal::Count(named) | Refusal::Total(named) => text(out, b" ", named.name().as_bytes()),
        _ => {}
    }
    put(out, b"\n");
}

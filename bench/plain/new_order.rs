//! The New-Order transaction (2.4).

use crate::money::order_total;
use crate::request::{Entered, EnteredLine, Field, Order, Refusal, Reply, RolledBack, Wish};
use crate::rows::{self, Due, OrderLine, DISTRICTS};
use crate::tables::Tables;

const MOST_ORDERS: u32 = 9_999_999;
const MOST_COUNT: u32 = 999_999_999;
const MOST_STOCK_YTD: u32 = 99_999_999;

// What one order can add to a count or to S_YTD of one stock row.
const MOST_LINES: u32 = 15;
const MOST_QUANTITY: u32 = 10;

/// Where an order's district and customer stand.
pub struct Places {
    district: usize,
    customer: usize,
}

/// The refusals 1 to 6, in their order.
pub fn find(tables: &Tables, order: &Order) -> Result<Places, Refusal> {
    let warehouse = order.warehouse;
    tables.find_warehouse(warehouse)?;
    let district = tables.find_district(warehouse, order.district)?;
    if !(1..=tables.scale.customers).contains(&order.customer) {
        return Err(Refusal::NoCustomer);
    }
    if !(5..=MOST_LINES as usize).contains(&order.lines.len()) {
        return Err(Refusal::LineCount);
    }
    if !order.lines.iter().all(|line| (1..=MOST_QUANTITY).contains(&line.quantity)) {
        return Err(Refusal::Quantity);
    }
    if !order.lines.iter().all(|line| tables.has_warehouse(line.supply)) {
        return Err(Refusal::NoSupply);
    }
    let customer = tables.customer_place(district, order.customer);
    Ok(Places { district, customer })
}

/// Enters the order, or rolls it back for an unused item, which changes no row.
pub fn enter(tables: &mut Tables, order: &Order, places: Places) -> Result<Reply, Refusal> {
    let items = tables.scale.items;
    if !order.lines.iter().all(|line| (1..=items).contains(&line.item)) {
        return Ok(roll_back(tables, order, places));
    }
    if tables.districts[places.district].next_order() == MOST_ORDERS {
        return Err(Refusal::OrderNumbers);
    }
    test_ranges(tables, order)?;
    Ok(Reply::Entered(Box::new(accept(tables, order, places))))
}

fn roll_back(tables: &Tables, order: &Order, places: Places) -> Reply {
    let customer = &tables.customers[places.customer];
    Reply::RolledBack(Box::new(RolledBack {
        warehouse: order.warehouse as u8,
        district: order.district as u8,
        customer: order.customer as u16,
        last: customer.last,
        credit: customer.credit,
        order: tables.districts[places.district].next_order(),
    }))
}

// The refusals 14 and 15. What the lines of one row add up to is counted only where a row is near a limit.
fn test_ranges(tables: &Tables, order: &Order) -> Result<(), Refusal> {
    let is_near = |line: &Wish| {
        let stock = &tables.stocks[tables.stock_place(line.supply, line.item)];
        stock.orders.max(stock.remote) > MOST_COUNT - MOST_LINES
            || stock.ytd > MOST_STOCK_YTD - MOST_LINES * MOST_QUANTITY
    };
    if order.lines.iter().any(is_near) {
        return test_sums(tables, order);
    }
    Ok(())
}

#[cold]
fn test_sums(tables: &Tables, order: &Order) -> Result<(), Refusal> {
    let any = |test: &dyn Fn(&rows::Stock, u32, u32, u32) -> bool| {
        order.lines.iter().any(|line| {
            let is_same = |other: &&Wish| (other.supply, other.item) == (line.supply, line.item);
            let lines = order.lines.iter().filter(is_same).count() as u32;
            let quantity = order.lines.iter().filter(is_same).map(|other| other.quantity).sum();
            let remote = if line.supply == order.warehouse { 0 } else { lines };
            let stock = &tables.stocks[tables.stock_place(line.supply, line.item)];
            test(stock, lines, remote, quantity)
        })
    };
    if any(&|stock, lines, _, _| stock.orders + lines > MOST_COUNT) {
        return Err(Refusal::Count(Field::StockOrders));
    }
    if any(&|stock, _, remote, _| stock.remote + remote > MOST_COUNT) {
        return Err(Refusal::Count(Field::RemoteOrders));
    }
    if any(&|stock, _, _, quantity| stock.ytd + quantity > MOST_STOCK_YTD) {
        return Err(Refusal::Total(Field::StockYtd));
    }
    Ok(())
}

fn accept(tables: &mut Tables, order: &Order, places: Places) -> Entered {
    let number = tables.districts[places.district].next_order();
    let first_line = tables.districts[places.district].lines.len() as u32;
    let lines = supply_all(tables, order, places.district);
    let sum = lines.iter().map(|line| i64::from(line.amount)).sum();
    let warehouse_tax = tables.warehouses[order.warehouse as usize - 1].tax;
    let customer = &mut tables.customers[places.customer];
    customer.last_order = number;
    let district = &mut tables.districts[places.district];
    district.orders.push(rows::Order {
        entry: order.moment,
        first_line,
        customer: order.customer as u16,
        carrier: 0,
        count: lines.len() as u8,
        all_local: order.lines.iter().all(|line| line.supply == order.warehouse),
    });
    Entered {
        warehouse: order.warehouse as u8,
        district: order.district as u8,
        customer: order.customer as u16,
        last: customer.last,
        credit: customer.credit,
        discount: customer.discount,
        order: number,
        warehouse_tax,
        district_tax: district.tax,
        entry: order.moment,
        total: order_total(sum, customer.discount, warehouse_tax, district.tax),
        lines,
    }
}

fn supply_all(tables: &mut Tables, order: &Order, district: usize) -> Vec<EnteredLine> {
    let mut lines = Vec::with_capacity(order.lines.len());
    for wish in &order.lines {
        lines.push(supply(tables, wish, order.warehouse, district));
    }
    lines
}

// Takes one line from stock and adds its ORDER-LINE row.
fn supply(tables: &mut Tables, wish: &Wish, home: u32, district: usize) -> EnteredLine {
    let place = tables.stock_place(wish.supply, wish.item);
    let quantity = wish.quantity as u8;
    let stock = &mut tables.stocks[place];
    stock.quantity = match stock.quantity.checked_sub(quantity) {
        Some(rest) if rest >= 10 => rest,
        _ => stock.quantity + 91 - quantity,
    };
    stock.ytd += wish.quantity;
    stock.orders += 1;
    stock.remote += u32::from(wish.supply != home);
    let item = &tables.items[wish.item as usize - 1];
    let amount = item.price * wish.quantity;
    tables.districts[district].lines.push(OrderLine {
        item: wish.item,
        amount,
        delivery: Due::NEVER,
        supply: wish.supply as u8,
        quantity,
        information: tables.stock_texts[place].districts[district % DISTRICTS as usize],
    });
    EnteredLine {
        supply: wish.supply as u8,
        quantity,
        stock: stock.quantity,
        original: item.original && stock.original,
        item: wish.item,
        name: item.name,
        price: item.price,
        amount,
    }
}

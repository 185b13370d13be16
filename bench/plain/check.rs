//! The consistency conditions of clause 3.3.2, from the rows alone and in one pass over each table.

use crate::money::Cents;
use crate::rows::{District, OrderLine, DISTRICTS};
use crate::tables::Tables;

/// The first condition that fails, at its first key. A part that doesn't apply is 0.
#[derive(Clone, Copy, Debug, PartialEq, Eq)]
pub struct Broken {
    pub condition: u8,
    pub warehouse: u32,
    pub district: u32,
    pub number: u32,
}

/// Tests the conditions 1 to 10 and 12 in their order.
pub fn check(tables: &Tables) -> Result<(), Broken> {
    let sums = Sums::of(tables);
    let districts = || tables.districts.iter().enumerate();
    let customers = || 0..tables.customers.len();
    of_warehouses(tables, 1, |place| districts_ytd(tables, place))?;
    all(districts(), |&(_, row)| has_last_order(row), |(place, _)| district_key(2, place))?;
    // NEW-ORDER rows are kept as the numbers from the lowest to the last, so 3 can't fail.
    all(districts(), |&(_, row)| counts_lines(row), |(place, _)| district_key(4, place))?;
    of_orders(tables, 5, |row, number| (row.orders[number as usize - 1].carrier == 0) == (number >= row.oldest_new))?;
    of_orders(tables, 6, |row, number| {
        row.lines_of(number).len() == usize::from(row.orders[number as usize - 1].count)
    })?;
    of_orders(tables, 7, |row, number| {
        let is_null = row.orders[number as usize - 1].carrier == 0;
        let lines = &row.lines[row.lines_of(number)];
        lines.iter().all(|line| line.delivery.moment().is_none() == is_null)
    })?;
    of_warehouses(tables, 8, |place| sums.warehouse_paid[place])?;
    let is_paid = |&(place, row): &(usize, &District)| row.ytd == sums.district_paid[place];
    all(districts(), is_paid, |(place, _)| district_key(9, place))?;
    let balances =
        |place: &usize| tables.customers[*place].balance == sums.delivered[*place] - sums.customer_paid[*place];
    all(customers(), balances, |place| customer_key(tables, 10, place))?;
    let adds_up = |place: &usize| {
        let customer = &tables.customers[*place];
        customer.balance + customer.ytd_payment == sums.delivered[*place]
    };
    all(customers(), adds_up, |place| customer_key(tables, 12, place))
}

// The sums over HISTORY and ORDER-LINE, by the places of the rows that they belong to.
struct Sums {
    warehouse_paid: Vec<Cents>,
    district_paid: Vec<Cents>,
    customer_paid: Vec<Cents>,
    delivered: Vec<Cents>,
}

impl Sums {
    fn of(tables: &Tables) -> Self {
        let mut sums = Sums {
            warehouse_paid: vec![0; tables.warehouses.len()],
            district_paid: vec![0; tables.districts.len()],
            customer_paid: vec![0; tables.customers.len()],
            delivered: vec![0; tables.customers.len()],
        };
        for row in &tables.history {
            let amount = i64::from(row.amount);
            let (warehouse, district) = (u32::from(row.warehouse), u32::from(row.district));
            let (home, part) = (u32::from(row.customer_warehouse), u32::from(row.customer_district));
            let payer = tables.district_place(home, part);
            sums.warehouse_paid[warehouse as usize - 1] += amount;
            sums.district_paid[tables.district_place(warehouse, district)] += amount;
            sums.customer_paid[tables.customer_place(payer, u32::from(row.customer))] += amount;
        }
        for (place, district) in tables.districts.iter().enumerate() {
            for (number, order) in (1..).zip(&district.orders) {
                let customer = tables.customer_place(place, u32::from(order.customer));
                sums.delivered[customer] += delivered(&district.lines[district.lines_of(number)]);
            }
        }
        sums
    }
}

fn delivered(lines: &[OrderLine]) -> Cents {
    let is_delivered = |line: &&OrderLine| line.delivery.moment().is_some();
    lines.iter().filter(is_delivered).map(|line| i64::from(line.amount)).sum()
}

fn districts_ytd(tables: &Tables, warehouse: usize) -> Cents {
    let first = warehouse * DISTRICTS as usize;
    let districts = &tables.districts[first..first + DISTRICTS as usize];
    districts.iter().map(|district| district.ytd).sum()
}

// D_NEXT_O_ID is one more than the number of ORDER rows; the lowest of NEW-ORDER is at most that.
fn has_last_order(district: &District) -> bool {
    (1..=district.next_order()).contains(&district.oldest_new)
}

fn counts_lines(district: &District) -> bool {
    let counted: usize = district.orders.iter().map(|order| usize::from(order.count)).sum();
    counted == district.lines.len()
}

// The first of the keys whose test fails.
fn all<K>(
    mut keys: impl Iterator<Item = K>,
    test: impl Fn(&K) -> bool,
    broken: impl Fn(K) -> Broken,
) -> Result<(), Broken> {
    match keys.find(|key| !test(key)) {
        Some(key) => Err(broken(key)),
        None => Ok(()),
    }
}

// W_YTD of each warehouse is the sum of its place.
fn of_warehouses(tables: &Tables, condition: u8, sum: impl Fn(usize) -> Cents) -> Result<(), Broken> {
    let broken = |(place, _)| Broken { condition, warehouse: place as u32 + 1, district: 0, number: 0 };
    all(tables.warehouses.iter().enumerate(), |(place, row)| row.ytd == sum(*place), broken)
}

// A test of each order by its number.
fn of_orders(tables: &Tables, condition: u8, test: impl Fn(&District, u32) -> bool) -> Result<(), Broken> {
    for (place, district) in tables.districts.iter().enumerate() {
        let numbers = 1..district.next_order();
        all(numbers, |&number| test(district, number), |number| Broken { number, ..district_key(condition, place) })?;
    }
    Ok(())
}

fn district_key(condition: u8, place: usize) -> Broken {
    Broken { condition, warehouse: place as u32 / DISTRICTS + 1, district: place as u32 % DISTRICTS + 1, number: 0 }
}

fn customer_key(tables: &Tables, condition: u8, place: usize) -> Broken {
    let customers = tables.scale.customers as usize;
    Broken { number: (place % customers) as u32 + 1, ..district_key(condition, place / customers) }
}

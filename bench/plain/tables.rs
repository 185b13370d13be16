//! The nine tables. Keys are dense from the opening on, and only ORDER, ORDER-LINE, NEW-ORDER and HISTORY ever grow, so
//! that a row is found by its place.

use crate::names::Names;
use crate::request::{Refusal, Who};
use crate::rows::{Customer, District, History, Item, ItemText, Stock, StockText, Warehouse, DISTRICTS};

/// How many rows an opening has: warehouses, customers of a district, items.
#[derive(Clone, Copy)]
pub struct Scale {
    pub warehouses: u32,
    pub customers: u32,
    pub items: u32,
}

/// All rows.
pub struct Tables {
    pub scale: Scale,
    pub warehouses: Vec<Warehouse>,
    pub districts: Vec<District>,
    pub customers: Vec<Customer>,
    /// The name index of each district.
    pub names: Vec<Names>,
    pub history: Vec<History>,
    pub items: Vec<Item>,
    pub item_texts: Vec<ItemText>,
    pub stocks: Vec<Stock>,
    pub stock_texts: Vec<StockText>,
}

impl Tables {
    /// Whether there is a warehouse of that number.
    pub fn has_warehouse(&self, warehouse: u32) -> bool {
        (1..=self.scale.warehouses).contains(&warehouse)
    }

    /// The place of a warehouse, which may not exist.
    pub fn find_warehouse(&self, warehouse: u32) -> Result<usize, Refusal> {
        if !self.has_warehouse(warehouse) {
            return Err(Refusal::NoWarehouse);
        }
        Ok(warehouse as usize - 1)
    }

    /// The place of a district, whose warehouse exists.
    pub fn find_district(&self, warehouse: u32, district: u32) -> Result<usize, Refusal> {
        if !(1..=DISTRICTS).contains(&district) {
            return Err(Refusal::NoDistrict);
        }
        Ok(self.district_place(warehouse, district))
    }

    /// The place of a district that exists.
    pub fn district_place(&self, warehouse: u32, district: u32) -> usize {
        ((warehouse - 1) * DISTRICTS + district - 1) as usize
    }

    /// The number of a customer of the district at this place.
    pub fn find_customer(&self, district: usize, who: &Who) -> Result<u32, Refusal> {
        let found = match who {
            Who::Number(number) => Some(*number).filter(|number| (1..=self.scale.customers).contains(number)),
            Who::Name(name) => self.names[district].chosen(name),
        };
        found.ok_or(Refusal::NoCustomer)
    }

    /// The place of a customer that exists, of the district at this place.
    pub fn customer_place(&self, district: usize, customer: u32) -> usize {
        district * self.scale.customers as usize + customer as usize - 1
    }

    /// The place of a stock row that exists.
    pub fn stock_place(&self, warehouse: u32, item: u32) -> usize {
        ((warehouse - 1) * self.scale.items + item - 1) as usize
    }

    /// The sum of W_YTD.
    pub fn ytd(&self) -> i64 {
        self.warehouses.iter().map(|warehouse| warehouse.ytd).sum()
    }
}

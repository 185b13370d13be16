//! Tables as CSV: a header, and a record for each row in the order of its key.
//!
//! No text of an opening has a comma, a quote or a line end, so nothing is ever quoted.

use crate::money::{put_cents, put_moment, put_number, put_rate};
use crate::rows::{Address, DISTRICTS};
use crate::stream::write_all;
use crate::tables::Tables;
use std::io::{Result, Write};

const BLOCK: usize = 1 << 16;

/// The nine tables.
#[derive(Clone, Copy, PartialEq, Eq)]
pub enum Table {
    Warehouse,
    District,
    Customer,
    History,
    Order,
    OrderLine,
    NewOrder,
    Item,
    Stock,
}

// In the order of the tables.
const NAMES: [(&str, Table); 9] = [
    ("WAREHOUSE", Table::Warehouse),
    ("DISTRICT", Table::District),
    ("CUSTOMER", Table::Customer),
    ("HISTORY", Table::History),
    ("ORDER", Table::Order),
    ("ORDER-LINE", Table::OrderLine),
    ("NEW-ORDER", Table::NewOrder),
    ("ITEM", Table::Item),
    ("STOCK", Table::Stock),
];

impl Table {
    /// The table of that name.
    pub fn of(name: &str) -> Option<Table> {
        NAMES.iter().find(|(known, _)| *known == name).map(|(_, table)| *table)
    }

    /// The table's name.
    pub fn name(self) -> &'static str {
        NAMES[self as usize].0
    }

    fn header(self) -> &'static str {
        match self {
            Table::Warehouse => "W_ID,W_NAME,W_STREET_1,W_STREET_2,W_CITY,W_STATE,W_ZIP,W_TAX,W_YTD",
            Table::District => "D_ID,D_W_ID,D_NAME,D_STREET_1,D_STREET_2,D_CITY,D_STATE,D_ZIP,D_TAX,D_YTD,D_NEXT_O_ID",
            Table::Customer => {
                "C_ID,C_D_ID,C_W_ID,C_FIRST,C_MIDDLE,C_LAST,C_STREET_1,C_STREET_2,C_CITY,C_STATE,C_ZIP,\
                 C_PHONE,C_SINCE,C_CREDIT,C_CREDIT_LIM,C_DISCOUNT,C_BALANCE,C_YTD_PAYMENT,C_PAYMENT_CNT,\
                 C_DELIVERY_CNT,C_DATA"
            }
            Table::History => "H_C_ID,H_C_D_ID,H_C_W_ID,H_D_ID,H_W_ID,H_DATE,H_AMOUNT,H_DATA",
            Table::Order => "O_ID,O_D_ID,O_W_ID,O_C_ID,O_ENTRY_D,O_CARRIER_ID,O_OL_CNT,O_ALL_LOCAL",
            Table::OrderLine => {
                "OL_O_ID,OL_D_ID,OL_W_ID,OL_NUMBER,OL_I_ID,OL_SUPPLY_W_ID,OL_DELIVERY_D,OL_QUANTITY,\
                 OL_AMOUNT,OL_DIST_INFO"
            }
            Table::NewOrder => "NO_O_ID,NO_D_ID,NO_W_ID",
            Table::Item => "I_ID,I_IM_ID,I_NAME,I_PRICE,I_DATA",
            Table::Stock => {
                "S_I_ID,S_W_ID,S_QUANTITY,S_DIST_01,S_DIST_02,S_DIST_03,S_DIST_04,S_DIST_05,S_DIST_06,\
                 S_DIST_07,S_DIST_08,S_DIST_09,S_DIST_10,S_YTD,S_ORDER_CNT,S_REMOTE_CNT,S_DATA"
            }
        }
    }
}

/// Writes a table.
pub fn dump(tables: &Tables, table: Table, output: &mut impl Write) -> Result<()> {
    let mut sheet = Sheet { out: Vec::with_capacity(2 * BLOCK), output };
    sheet.out.extend_from_slice(table.header().as_bytes());
    sheet.end()?;
    match table {
        Table::Warehouse => warehouses(tables, &mut sheet)?,
        Table::District => districts(tables, &mut sheet)?,
        Table::Customer => customers(tables, &mut sheet)?,
        Table::History => history(tables, &mut sheet)?,
        Table::Order => orders(tables, &mut sheet)?,
        Table::OrderLine => order_lines(tables, &mut sheet)?,
        Table::NewOrder => new_orders(tables, &mut sheet)?,
        Table::Item => items(tables, &mut sheet)?,
        Table::Stock => stocks(tables, &mut sheet)?,
    }
    sheet.flush()
}

// Records on their way out. A field but the first has its comma before it.
struct Sheet<'a, W> {
    out: Vec<u8>,
    output: &'a mut W,
}

impl<W: Write> Sheet<'_, W> {
    fn number(&mut self, number: impl Into<u64>) -> &mut Self {
        put_number(&mut self.out, number.into());
        self
    }

    fn comma(&mut self) -> &mut Self {
        self.out.push(b',');
        self
    }

    fn next(&mut self, number: impl Into<u64>) -> &mut Self {
        self.comma().number(number)
    }

    fn text(&mut self, text: &[u8]) -> &mut Self {
        self.comma().out.extend_from_slice(text);
        self
    }

    fn cents(&mut self, amount: i64) -> &mut Self {
        put_cents(&mut self.comma().out, amount);
        self
    }

    fn rate(&mut self, rate: u16) -> &mut Self {
        put_rate(&mut self.comma().out, rate);
        self
    }

    fn moment(&mut self, moment: Option<u32>) -> &mut Self {
        self.comma();
        if let Some(moment) = moment {
            put_moment(&mut self.out, moment);
        }
        self
    }

    fn address(&mut self, address: &Address) -> &mut Self {
        self.text(address.street_1.as_bytes())
            .text(address.street_2.as_bytes())
            .text(address.city.as_bytes())
            .text(address.state.as_bytes())
            .text(address.zip.as_bytes())
    }

    fn end(&mut self) -> Result<()> {
        self.out.push(b'\n');
        if self.out.len() >= BLOCK {
            self.flush()
        } else {
            Ok(())
        }
    }

    fn flush(&mut self) -> Result<()> {
        write_all(self.output, &self.out)?;
        self.out.clear();
        Ok(())
    }
}

// The number of a district and its warehouse, by the district's place.
fn keys(place: usize) -> (u32, u32) {
    (place as u32 % DISTRICTS + 1, place as u32 / DISTRICTS + 1)
}

fn warehouses<W: Write>(tables: &Tables, sheet: &mut Sheet<W>) -> Result<()> {
    for (number, row) in (1u32..).zip(&tables.warehouses) {
        sheet.number(number).text(row.name.as_bytes()).address(&row.address);
        sheet.rate(row.tax).cents(row.ytd).end()?;
    }
    Ok(())
}

fn districts<W: Write>(tables: &Tables, sheet: &mut Sheet<W>) -> Result<()> {
    for (place, row) in tables.districts.iter().enumerate() {
        let (district, warehouse) = keys(place);
        sheet.number(district).next(warehouse).text(row.name.as_bytes()).address(&row.address);
        sheet.rate(row.tax).cents(row.ytd).next(row.next_order()).end()?;
    }
    Ok(())
}

fn customers<W: Write>(tables: &Tables, sheet: &mut Sheet<W>) -> Result<()> {
    let count = tables.scale.customers as usize;
    for (place, row) in tables.customers.iter().enumerate() {
        let (district, warehouse) = keys(place / count);
        sheet.number((place % count) as u64 + 1).next(district).next(warehouse);
        sheet.text(row.first.as_bytes()).text(&row.middle).text(row.last.as_bytes());
        sheet.address(&row.address).text(row.phone.as_bytes()).moment(Some(row.since));
        sheet.text(row.credit.code()).cents(row.limit).rate(row.discount).cents(row.balance);
        sheet.cents(row.ytd_payment).next(row.payments).next(row.deliveries);
        sheet.text(&row.information).end()?;
    }
    Ok(())
}

fn history<W: Write>(tables: &Tables, sheet: &mut Sheet<W>) -> Result<()> {
    for row in &tables.history {
        sheet.number(row.customer).next(row.customer_district).next(row.customer_warehouse);
        sheet.next(row.district).next(row.warehouse).moment(Some(row.date));
        sheet.cents(i64::from(row.amount)).text(row.information.as_bytes()).end()?;
    }
    Ok(())
}

fn orders<W: Write>(tables: &Tables, sheet: &mut Sheet<W>) -> Result<()> {
    for (place, district) in tables.districts.iter().enumerate() {
        let (number, warehouse) = keys(place);
        for (order, row) in (1u32..).zip(&district.orders) {
            sheet.number(order).next(number).next(warehouse).next(row.customer);
            sheet.moment(Some(row.entry)).comma();
            if row.carrier > 0 {
                sheet.number(row.carrier);
            }
            sheet.next(row.count).next(row.all_local).end()?;
        }
    }
    Ok(())
}

fn order_lines<W: Write>(tables: &Tables, sheet: &mut Sheet<W>) -> Result<()> {
    for (place, district) in tables.districts.iter().enumerate() {
        let (number, warehouse) = keys(place);
        for order in 1..district.next_order() {
            for (line, row) in (1u32..).zip(&district.lines[district.lines_of(order)]) {
                sheet.number(order).next(number).next(warehouse).next(line).next(row.item);
                sheet.next(row.supply).moment(row.delivery.moment()).next(row.quantity);
                sheet.cents(i64::from(row.amount)).text(&row.information).end()?;
            }
        }
    }
    Ok(())
}

fn new_orders<W: Write>(tables: &Tables, sheet: &mut Sheet<W>) -> Result<()> {
    for (place, district) in tables.districts.iter().enumerate() {
        let (number, warehouse) = keys(place);
        for order in district.oldest_new..district.next_order() {
            sheet.number(order).next(number).next(warehouse).end()?;
        }
    }
    Ok(())
}

fn items<W: Write>(tables: &Tables, sheet: &mut Sheet<W>) -> Result<()> {
    for ((number, row), text) in (1u32..).zip(&tables.items).zip(&tables.item_texts) {
        sheet.number(number).next(text.image).text(row.name.as_bytes());
        sheet.cents(i64::from(row.price)).text(text.information.as_bytes()).end()?;
    }
    Ok(())
}

fn stocks<W: Write>(tables: &Tables, sheet: &mut Sheet<W>) -> Result<()> {
    let items = tables.scale.items;
    for ((place, row), text) in (0u32..).zip(&tables.stocks).zip(&tables.stock_texts) {
        sheet.number(place % items + 1).next(place / items + 1).next(row.quantity);
        for information in &text.districts {
            sheet.text(information);
        }
        sheet.next(row.ytd).next(row.orders).next(row.remote);
        sheet.text(text.information.as_bytes()).end()?;
    }
    Ok(())
}

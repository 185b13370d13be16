//! What terminals ask and what they are answered.

use crate::money::{Cents, Moment, Rate};
use crate::rows::{Address, Credit};
use crate::text::Text;

/// A customer by number or by last name.
pub enum Who {
    Number(u32),
    Name(Text<16>),
}

/// One line of a New-Order.
pub struct Wish {
    pub item: u32,
    pub supply: u32,
    pub quantity: u32,
}

/// A New-Order. Any number of lines may be asked for.
pub struct Order {
    pub warehouse: u32,
    pub district: u32,
    pub customer: u32,
    pub moment: Moment,
    pub lines: Vec<Wish>,
}

/// A Payment.
pub struct Payment {
    pub warehouse: u32,
    pub district: u32,
    pub customer_warehouse: u32,
    pub customer_district: u32,
    pub who: Who,
    pub amount: Cents,
    pub moment: Moment,
}

/// An Order-Status.
pub struct StatusQuery {
    pub warehouse: u32,
    pub district: u32,
    pub who: Who,
}

/// A Stock-Level.
pub struct StockQuery {
    pub warehouse: u32,
    pub district: u32,
    pub threshold: u32,
}

/// A Delivery to be queued.
pub struct DeliveryQuery {
    pub warehouse: u32,
    pub carrier: u32,
    pub moment: Moment,
}

/// One transaction that is asked for.
pub enum Request {
    NewOrder(Order),
    Payment(Payment),
    Status(StatusQuery),
    Stock(StockQuery),
    Delivery(DeliveryQuery),
    Deliver(Moment),
}

/// An accepted New-Order.
pub struct Entered {
    pub warehouse: u8,
    pub district: u8,
    pub customer: u16,
    pub last: Text<16>,
    pub credit: Credit,
    pub discount: Rate,
    pub order: u32,
    pub warehouse_tax: Rate,
    pub district_tax: Rate,
    pub entry: Moment,
    pub total: Cents,
    pub lines: Vec<EnteredLine>,
}

/// One line of an accepted New-Order.
pub struct EnteredLine {
    pub supply: u8,
    pub quantity: u8,
    /// S_QUANTITY as it stands after this line.
    pub stock: u8,
    /// Whether item and stock are both original, which is brand B.
    pub original: bool,
    pub item: u32,
    pub name: Text<24>,
    pub price: u32,
    pub amount: u32,
}

/// A New-Order with an unused item.
pub struct RolledBack {
    pub warehouse: u8,
    pub district: u8,
    pub customer: u16,
    pub last: Text<16>,
    pub credit: Credit,
    pub order: u32,
}

/// A Payment that was made; all values are those after it.
pub struct Paid {
    pub warehouse: u8,
    pub district: u8,
    pub customer_warehouse: u8,
    pub customer_district: u8,
    pub customer: u16,
    pub amount: Cents,
    pub date: Moment,
    pub warehouse_address: Address,
    pub district_address: Address,
    pub first: Text<16>,
    pub middle: [u8; 2],
    pub last: Text<16>,
    pub address: Address,
    pub phone: Text<16>,
    pub since: Moment,
    pub credit: Credit,
    pub limit: Cents,
    pub discount: Rate,
    pub balance: Cents,
    /// The first 200 bytes of C_DATA, of a customer with bad credit alone.
    pub information: Option<Box<[u8]>>,
}

/// A customer's last order.
pub struct Status {
    pub warehouse: u8,
    pub district: u8,
    pub customer: u16,
    pub first: Text<16>,
    pub middle: [u8; 2],
    pub last: Text<16>,
    pub balance: Cents,
    pub order: Option<LastOrder>,
}

/// The order of the largest number of a customer.
pub struct LastOrder {
    pub order: u32,
    pub entry: Moment,
    pub carrier: Option<u8>,
    pub lines: Vec<StatusLine>,
}

/// One line of a customer's last order.
pub struct StatusLine {
    pub supply: u8,
    pub quantity: u8,
    pub item: u32,
    pub amount: u32,
    pub delivery: Option<Moment>,
}

/// How many items of a district's last orders are low in stock.
pub struct Level {
    pub warehouse: u8,
    pub district: u8,
    pub threshold: u8,
    pub low_stock: u16,
}

/// A queued delivery.
#[derive(Clone, Copy)]
pub struct Ticket {
    pub warehouse: u8,
    pub carrier: u8,
    pub queued: Moment,
}

/// One district's part of a delivery.
#[derive(Clone, Copy)]
pub struct DistrictRun {
    pub ticket: Ticket,
    pub at: Moment,
    pub district: u8,
    pub order: Option<u32>,
}

/// What an accepted request is answered. Large answers stand apart, so that a journal's entry is small.
pub enum Reply {
    Entered(Box<Entered>),
    RolledBack(Box<RolledBack>),
    Paid(Box<Paid>),
    Status(Box<Status>),
    Level(Level),
    Queued { warehouse: u8, carrier: u8 },
    Delivered(DistrictRun),
    NoneQueued,
}

/// A count or a total that would leave its range.
#[derive(Clone, Copy, PartialEq, Eq)]
pub enum Field {
    PaymentCount,
    DeliveryCount,
    StockOrders,
    RemoteOrders,
    WarehouseYtd,
    DistrictYtd,
    Balance,
    YtdPayment,
    StockYtd,
}

impl Field {
    /// The field's name.
    pub fn name(self) -> &'static str {
        match self {
            Field::PaymentCount => "PaymentCount",
            Field::DeliveryCount => "DeliveryCount",
            Field::StockOrders => "StockOrders",
            Field::RemoteOrders => "RemoteOrders",
            Field::WarehouseYtd => "WarehouseYtd",
            Field::DistrictYtd => "DistrictYtd",
            Field::Balance => "Balance",
            Field::YtdPayment => "YtdPayment",
            Field::StockYtd => "StockYtd",
        }
    }
}

/// Why a request was refused. Want of memory ends this program instead.
#[derive(Clone, Copy, PartialEq, Eq)]
pub enum Refusal {
    NoWarehouse,
    NoDistrict,
    NoCustomer,
    LineCount,
    Quantity,
    NoSupply,
    Amount,
    Carrier,
    Threshold,
    Stranger(u64),
    JournalFull,
    QueueFull,
    OrderNumbers,
    Count(Field),
    Total(Field),
}

impl Refusal {
    /// The refusal's number and name.
    pub fn numbered(self) -> (u64, &'static str) {
        match self {
            Refusal::NoWarehouse => (1, "NoWarehouse"),
            Refusal::NoDistrict => (2, "NoDistrict"),
            Refusal::NoCustomer => (3, "NoCustomer"),
            Refusal::LineCount => (4, "LineCount"),
            Refusal::Quantity => (5, "Quantity"),
            Refusal::NoSupply => (6, "NoSupply"),
            Refusal::Amount => (7, "Amount"),
            Refusal::Carrier => (8, "Carrier"),
            Refusal::Threshold => (9, "Threshold"),
            Refusal::Stranger(_) => (10, "Stranger"),
            Refusal::JournalFull => (11, "JournalFull"),
            Refusal::QueueFull => (12, "QueueFull"),
            Refusal::OrderNumbers => (13, "OrderNumbers"),
            Refusal::Count(_) => (14, "Count"),
            Refusal::Total(_) => (15, "Total"),
        }
    }
}

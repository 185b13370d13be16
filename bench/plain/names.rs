//! A district's customers by last name.

use crate::rows::Customer;
use crate::text::Text;
use std::collections::HashMap;
use std::hash::{BuildHasherDefault, Hasher};

/// For each last name its customers, by C_FIRST and then by C_ID.
pub struct Names {
    groups: HashMap<u128, Group, BuildHasherDefault<Folding>>,
    numbers: Vec<u16>,
}

struct Group {
    start: u16,
    count: u16,
}

impl Names {
    /// The index of a district's customers, of which the first has the number 1.
    pub fn of(customers: &[Customer]) -> Self {
        let mut order: Vec<(u128, u128, u16)> = (1..)
            .zip(customers)
            .map(|(number, customer)| (customer.last.rank(), customer.first.rank(), number))
            .collect();
        order.sort_unstable();
        let mut groups: HashMap<u128, Group, _> = HashMap::default();
        for (place, &(last, _, _)) in (0..).zip(&order) {
            let group = groups.entry(last).or_insert(Group { start: place, count: 0 });
            group.count += 1;
        }
        let numbers = order.iter().map(|&(_, _, number)| number).collect();
        Names { groups, numbers }
    }

    /// Of n customers of a name the one at position n/2 rounded up, counted from 1.
    pub fn chosen(&self, name: &Text<16>) -> Option<u32> {
        let group = self.groups.get(&name.rank())?;
        let place = group.start + (group.count + 1) / 2 - 1;
        Some(u32::from(self.numbers[usize::from(place)]))
    }
}

/// One multiplication folded onto itself: names come from the rows, so nobody aims at collisions but in vain.
#[derive(Default)]
pub struct Folding(u64);

impl Hasher for Folding {
    fn write(&mut self, bytes: &[u8]) {
        for &byte in bytes {
            self.write_u64(u64::from(byte));
        }
    }

    fn write_u64(&mut self, word: u64) {
        let product = u128::from(self.0 ^ word) * 0x9E37_79B9_7F4A_7C15_F39C_C060_5CED_C835;
        self.0 = (product >> 64) as u64 ^ product as u64;
    }

    fn write_u128(&mut self, number: u128) {
        self.write_u64(number as u64);
        self.write_u64((number >> 64) as u64);
    }

    fn finish(&self) -> u64 {
        self.0
    }
}

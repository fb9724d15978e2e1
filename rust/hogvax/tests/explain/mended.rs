//! What an explanation says holds: a program that is changed as it says is not
//! refused in the same way.

mod names;
mod order;
mod rows;

use std::collections::BTreeMap;

use reference::kind;

use super::*;

/// How often each property was tried.
struct Tried(BTreeMap<&'static str, usize>);

impl Tried {
    fn new() -> Tried {
        Tried(BTreeMap::new())
    }

    fn once(&mut self, name: &'static str) {
        *self.0.entry(name).or_insert(0) += 1;
    }

    fn assert_often(&self, names: &[&str], least: usize) {
        for name in names {
            let count = self.0.get(name).copied().unwrap_or(0);
            assert!(count >= least, "{name}: {:?}", self.0);
        }
    }
}

/// Calls `each` with every program that is refused with this number: its
/// records and its explanation.
fn each_refused(number: u32, mut each: impl FnMut(&[Record], &Explanation)) {
    for Checked { records, refused } in programs() {
        if let Some(refused) = refused.filter(|refused| refused.number == number) {
            each(&Record::list(records), &explained(records, refused));
        }
    }
}

/// The explanation of these records, if they are refused with this number at
/// this record.
fn still_refused(records: &[Record], number: u32, position: usize) -> Option<Explanation> {
    let records = Record::bytes(records);
    let refused = hogvax::check_records(&records).err()?;
    let same = refused.number == number && refused.position == position as u64;
    same.then(|| explained(&records, refused))
}

/// The records with another name in one of them.
fn with_name(records: &[Record], place: usize, name: usize) -> Vec<Record> {
    let mut records = records.to_vec();
    records[place].a = name.try_into().unwrap();
    records
}

/// The function of a node's record.
fn function_at(records: &[Record], place: usize) -> usize {
    let functions = usize::from(records[0].a);
    let mut first = 1 + functions;
    for k in 0..functions {
        first += usize::from(records[1 + k].b);
        if place < first {
            return k;
        }
    }
    panic!("no function has record {place}");
}

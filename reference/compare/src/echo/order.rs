//! The order of the keys of an `Echo`, and its listing, with their faults.

use std::cmp::Ordering;

use reference::map::MOST_KEYS;
use reference::order::list_keys;
use reference::Table;

use super::{Echo, Fault};
use crate::memory::{self, number, rows, COUNT, LATEST, ORDER, PLACES};
use crate::subject::{write_code, GOOD};

/// The row numbers held, by a wrong order of their keys.
fn ordered_by(memory: &[u8], by: impl Fn(&[u8], &[u8]) -> Ordering) -> Vec<u8> {
    let rows = rows(memory).unwrap_or_default();
    let mut places: Vec<usize> = (0..rows.len()).collect();
    places.sort_by(|one, two| by(rows[*one].key, rows[*two].key));
    let row = |place: usize| memory[PLACES + place];
    places.into_iter().map(row).collect()
}

fn signed(key: &[u8]) -> Vec<i8> {
    key.iter().map(|byte| *byte as i8).collect()
}

/// By bytes, but a longer key before one that begins it.
fn longer_first(one: &[u8], two: &[u8]) -> Ordering {
    let unlike = one.iter().zip(two).find(|(mine, theirs)| mine != theirs);
    match unlike {
        Some((mine, theirs)) => mine.cmp(theirs),
        None => two.len().cmp(&one.len()),
    }
}

fn put_order(memory: &mut [u8], order: &[u8]) {
    memory[ORDER..ORDER + order.len()].copy_from_slice(order);
}

/// The order that a table has whose rows were added at its end.
fn appended(memory: &[u8], before: &[u8]) -> Vec<u8> {
    let count = number(memory, COUNT) as usize;
    let held = &memory[PLACES..PLACES + count];
    let mut order = before.to_vec();
    order.retain(|row| held.contains(row));
    order.extend(held.iter().filter(|row| !before.contains(row)));
    order
}

impl Echo {
    /// A fault in the order that is written; `before` is the one held before.
    pub(super) fn change_order(&self, memory: &mut [u8], before: &[u8]) {
        let by_length = |one: &[u8], two: &[u8]| (one.len(), one).cmp(&(two.len(), two));
        let by_sign = |one: &[u8], two: &[u8]| signed(one).cmp(&signed(two));
        let count = number(memory, COUNT) as usize;
        let order = match self.fault {
            Some(Fault::OrderByLength) => ordered_by(memory, by_length),
            Some(Fault::OrderSigned) => ordered_by(memory, by_sign),
            Some(Fault::OrderLongerFirst) => ordered_by(memory, longer_first),
            Some(Fault::OrderAppends) => appended(memory, before),
            Some(Fault::OrderKeepsRemoved) if count < before.len() => before[..count].to_vec(),
            _ => return,
        };
        put_order(memory, &order);
    }

    /// A fault in the order of a loaded table; `before` stood there.
    pub(super) fn change_loaded_order(&self, memory: &mut [u8], before: &[u8]) {
        let count = number(memory, COUNT) as usize;
        match self.fault {
            Some(Fault::LoadKeepsOrder) => put_order(memory, &before[..count]),
            Some(Fault::LoadByVersion) => {
                let places = memory[PLACES..PLACES + count].to_vec();
                put_order(memory, &places);
            }
            _ => self.change_order(memory, &[]),
        }
    }

    /// Mends what a faulty check of the order does not see; false where it sees
    /// what means nothing.
    pub(super) fn forgive_order(&self, memory: &mut [u8]) -> bool {
        let count = (number(memory, COUNT) as usize).min(MOST_KEYS);
        let held = |memory: &[u8]| memory[PLACES..PLACES + count].to_vec();
        let order = memory[ORDER..ORDER + count].to_vec();
        let sorted = |mut rows: Vec<u8>| {
            rows.sort_unstable();
            rows
        };
        match self.fault {
            Some(Fault::OrderUnchecked) => memory::set_order(memory),
            Some(Fault::OrderLooksBehind) => {
                return count == MOST_KEYS || memory[ORDER + count] < 0xf0;
            }
            Some(Fault::OrderLastUnchecked) if count > 0 => {
                memory::set_order(memory);
                put_order(memory, &order[..count - 1]);
            }
            Some(Fault::OrderCutToBits) => {
                put_order(
                    memory,
                    &order.iter().map(|row| row & 0x7f).collect::<Vec<_>>(),
                );
            }
            Some(Fault::OrderHeldOnly) if sorted(order.clone()) == sorted(held(memory)) => {
                memory::set_order(memory);
            }
            Some(Fault::OrderAscentOnly) if ascends(memory, &order) => memory::set_order(memory),
            _ => {}
        }
        true
    }

    pub(super) fn list(
        &self,
        memory: &[u8],
        name: &[u8],
        from: &[u8],
        most: u64,
        out: &mut [u8],
    ) -> u64 {
        let table = self.table(memory);
        match self.fault {
            Some(Fault::ListsNineFirst) if !name.is_empty() => return 9,
            Some(Fault::ListsTwelveFirst) if out.is_empty() && table.is_some() => return 12,
            Some(Fault::ListsRefusesLong) if from.len() > 64 && table.is_some() => return 6,
            _ => {}
        }
        let Some(table) = table else {
            return 13;
        };
        let asked = (name, from, most);
        self.list_sound(&self.listed_table(memory, table), asked, out)
    }

    /// The table that a faulty listing sees.
    fn listed_table(&self, memory: &[u8], mut table: Table) -> Table {
        let latest = number(memory, LATEST);
        for entry in table.entries.values_mut() {
            match self.fault {
                Some(Fault::ListsExpired) => entry.deadline = 0,
                Some(Fault::ListsEqual) if entry.deadline == latest => entry.deadline = 0,
                _ => {}
            }
        }
        table
    }

    fn list_sound(&self, table: &Table, asked: (&[u8], &[u8], u64), out: &mut [u8]) -> u64 {
        let (name, from, mut most) = asked;
        let mut from = from.to_vec();
        match self.fault {
            Some(Fault::ListsBehind) if table.entries.contains_key(&from) => from.push(0),
            Some(Fault::ListsCutKey) => from.truncate(64),
            Some(Fault::ListsZeroAll) if most == 0 => most = 128,
            Some(Fault::ListsOneMore) => most = most.saturating_add(1),
            Some(Fault::ListsWordOfMost) => most &= 0xffff_ffff,
            _ => {}
        }
        let mut all = [0; 9000];
        let code = write_code(list_keys(table, name, &from, most, &mut all));
        let Some(length) = code.checked_sub(GOOD) else {
            return code;
        };
        let mut body = all[..length as usize].to_vec();
        match self.fault {
            Some(Fault::ListsNoEnd) => drop(body.pop()),
            Some(Fault::ListsNeedsOneMore) if out.len() == body.len() => return 12,
            Some(Fault::ListsWithHeader) if out.len() < body.len() + 5 => return 12,
            _ => {}
        }
        if out.len() < body.len() {
            if self.has(Fault::ListsPart) {
                out.copy_from_slice(&body[..out.len()]);
            }
            return 12;
        }
        out[..body.len()].copy_from_slice(&body);
        GOOD + body.len() as u64
    }
}

/// Whether the keys of the rows that the order names ascend, held or not.
fn ascends(memory: &[u8], order: &[u8]) -> bool {
    let key = |row: &u8| {
        let at = memory::ROWS + memory::ROW * (*row as usize % MOST_KEYS);
        let length = number(memory, at + memory::KEY_LENGTH).min(64) as usize;
        &memory[at + memory::KEY..at + memory::KEY + length]
    };
    order.windows(2).all(|pair| key(&pair[0]) < key(&pair[1]))
}

//! The simple map with version numbers.

use std::collections::{BTreeMap, BTreeSet};

use crate::fields::{KEY_LIMIT, VALUE_LIMIT};
use crate::history::History;
use crate::listing::Listed;
use crate::operation::{
    body, Body, BULK_GET, BULK_GET_KEYS, CLEAR, CONTAINS_KEY, DONE_WITH_OLD, GET, GET_WITH_VERSION,
    NOT_DONE_WITH_OLD, PUT, PUT_IF_ABSENT, REMOVE, REMOVE_IF_UNMODIFIED, REPLACE,
    REPLACE_IF_UNMODIFIED, STATS,
};
use crate::reply::Reply;
use crate::request::{keeps_rules, Request, FLAG_DEFAULT_LIFESPAN};

/// The most keys a table holds.
pub const MOST_KEYS: usize = 128;
/// The largest entry version that a table gives out.
pub const LARGEST_VERSION: u64 = 9_223_372_036_854_775_807;
/// The largest deadline that a table may hold, which is the largest second
/// plus the largest lifespan. No call gives one so large.
pub const LARGEST_DEADLINE: u64 = 8_589_934_590;
/// 30 days, the longest lifespan that is added to the present second. A longer
/// one is a UNIX time.
pub const LONGEST_SPAN: u32 = 2_592_000;

#[derive(Clone, Debug, Default, PartialEq, Eq)]
pub struct Entry {
    pub value: Vec<u8>,
    pub version: u64,
    /// A second, or 0 for none.
    pub deadline: u64,
}

impl Entry {
    /// Whether the entry still stands at this second: it has no deadline, or
    /// one above the second.
    pub fn stands(&self, now: u64) -> bool {
        self.deadline == 0 || self.deadline > now
    }
}

#[derive(Clone, Debug, Default, PartialEq, Eq)]
pub struct Table {
    pub entries: BTreeMap<Vec<u8>, Entry>,
    /// The last version issued, 0 when fresh.
    pub last: u64,
    /// Of the calls served since start or the last load.
    pub history: History,
}

impl Table {
    /// The entries in ascending order of their versions.
    pub fn by_version(&self) -> Vec<(&Vec<u8>, &Entry)> {
        let mut entries: Vec<_> = self.entries.iter().collect();
        entries.sort_by_key(|(_, entry)| entry.version);
        entries
    }

    /// Drops the entries that do not stand at this second, and gives them.
    fn drop_expired(&mut self, now: u64) -> Vec<(Vec<u8>, Entry)> {
        let expired: Vec<Vec<u8>> = self
            .entries
            .iter()
            .filter(|(_, entry)| !entry.stands(now))
            .map(|(key, _)| key.clone())
            .collect();
        expired
            .iter()
            .filter_map(|key| self.entries.remove_entry(key))
            .collect()
    }
}

/// Whether the table is one: sizes kept, versions different and in range,
/// deadlines, counts and seconds in range. Entries that expired count too.
pub fn is_table(table: &Table) -> bool {
    let mut versions = BTreeSet::new();
    for (key, entry) in &table.entries {
        let good = key.len() <= KEY_LIMIT
            && entry.value.len() <= VALUE_LIMIT
            && entry.version >= 1
            && entry.version <= table.last
            && entry.deadline <= LARGEST_DEADLINE
            && versions.insert(entry.version);
        if !good {
            return false;
        }
    }
    table.entries.len() <= MOST_KEYS && table.last <= LARGEST_VERSION && table.history.is_sound()
}

/// What a request does to the table.
#[derive(Clone, Copy, PartialEq, Eq)]
enum Effect {
    Nothing,
    Store,
    Remove,
    Clear,
}

/// What comes of the request, by the entry held before the step: the status of
/// the reply in versions 10 to 12.
fn outcome(request: &Request, held: Option<&Entry>) -> u8 {
    match request.operation {
        PUT_IF_ABSENT if held.is_some() => 1,
        REPLACE if held.is_none() => 1,
        REPLACE_IF_UNMODIFIED | REMOVE_IF_UNMODIFIED => match held {
            None => 2,
            Some(entry) if entry.version == request.entry_version => 0,
            Some(_) => 1,
        },
        REMOVE | GET | GET_WITH_VERSION | CONTAINS_KEY if held.is_none() => 2,
        _ => 0,
    }
}

/// The status of the reply. Where it says whether an old value follows, the key
/// was held and its value is asked for, 03 stands for 00 and 04 for 01.
fn status(request: &Request, outcome: u8, held: Option<&Entry>) -> u8 {
    if held.is_none() || !request.asked().tells_by_status() {
        return outcome;
    }
    match outcome {
        0 => DONE_WITH_OLD,
        1 => NOT_DONE_WITH_OLD,
        _ => outcome,
    }
}

/// Only the outcome 00 changes the table.
fn effect(operation: u8, outcome: u8) -> Effect {
    if outcome != 0 {
        return Effect::Nothing;
    }
    match operation {
        PUT | PUT_IF_ABSENT | REPLACE | REPLACE_IF_UNMODIFIED => Effect::Store,
        REMOVE | REMOVE_IF_UNMODIFIED => Effect::Remove,
        CLEAR => Effect::Clear,
        _ => Effect::Nothing,
    }
}

/// The deadline of an entry that this request stores at the present second.
/// One that a UNIX time gives may be past.
fn deadline(request: &Request, now: u64) -> u64 {
    if request.lifespan == 0 || request.flags & FLAG_DEFAULT_LIFESPAN != 0 {
        return 0;
    }
    if request.lifespan > LONGEST_SPAN {
        return u64::from(request.lifespan);
    }
    now.saturating_add(u64::from(request.lifespan))
}

/// The reply to a request that is not refused.
fn answer(request: &Request, status: u8, held: Option<&Entry>) -> Reply {
    let mut reply = Reply {
        id: request.id,
        operation: request.operation + 1,
        status,
        ..Reply::default()
    };
    let Some(entry) = held else {
        return reply;
    };
    match body(request.asked(), status) {
        Body::Nothing | Body::EmptyValue | Body::Statistics | Body::Entries | Body::Keys => {}
        Body::Value => reply.value = entry.value.clone(),
        Body::VersionAndValue => {
            reply.version = entry.version;
            reply.value = entry.value.clone();
        }
    }
    reply
}

/// The entries of lowest versions: the first `count` of them, and all if it
/// is 0.
fn listed(table: &Table, count: u32, values: bool) -> Vec<Listed> {
    let mut entries = table.by_version();
    if count > 0 {
        entries.truncate(count as usize);
    }
    let shown = |(key, entry): (&Vec<u8>, &Entry)| Listed {
        key: key.clone(),
        value: if values {
            entry.value.clone()
        } else {
            Vec::new()
        },
    };
    entries.into_iter().map(shown).collect()
}

/// One step of the map. The entries that expired at the present second are
/// dropped before it. A refusal (9, 10 or 11) changes nothing: those entries
/// and the latest second served are as they were. The map is meant for
/// well-formed requests; one that breaks a rule is given back as 16 and
/// changes nothing.
pub fn step(request: &Request, second: u32, table: &mut Table) -> Result<Reply, u8> {
    if !keeps_rules(request) {
        return Err(16);
    }
    let now = table.history.present(second);
    let expired = table.drop_expired(now);
    let answered = step_of_standing(request, second, table);
    if answered.is_err() {
        table.entries.extend(expired);
    }
    answered
}

/// One step of a map whose entries all stand.
fn step_of_standing(request: &Request, second: u32, table: &mut Table) -> Result<Reply, u8> {
    if !request.name.is_empty() {
        return Err(9);
    }
    let held = table.entries.get(&request.key);
    let outcome = outcome(request, held);
    let effect = effect(request.operation, outcome);
    if effect == Effect::Store {
        if held.is_none() && table.entries.len() >= MOST_KEYS {
            return Err(10);
        }
        if table.last >= LARGEST_VERSION {
            return Err(11);
        }
    }
    let added = effect == Effect::Store && held.is_none();
    let mut reply = answer(request, status(request, outcome, held), held);
    match request.operation {
        STATS => reply.statistics = table.history.statistics(second, table.entries.len()),
        BULK_GET => reply.entries = listed(table, request.bulk, true),
        // All scopes mean the same.
        BULK_GET_KEYS => reply.entries = listed(table, 0, false),
        _ => {}
    }
    apply(effect, request, table.history.present(second), table);
    table
        .history
        .remember(second, request.operation, outcome, added);
    Ok(reply)
}

fn apply(effect: Effect, request: &Request, now: u64, table: &mut Table) {
    match effect {
        Effect::Nothing => {}
        Effect::Store => {
            table.last += 1;
            let entry = Entry {
                value: request.value.clone(),
                version: table.last,
                deadline: deadline(request, now),
            };
            table.entries.insert(request.key.clone(), entry);
        }
        Effect::Remove => {
            table.entries.remove(&request.key);
        }
        Effect::Clear => table.entries.clear(),
    }
}

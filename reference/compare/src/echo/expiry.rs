//! Entries of an `Echo` that expire, with their faults.

use reference::history::LARGEST_SECOND;
use reference::map::{LONGEST_SPAN, MOST_KEYS};
use reference::operation::{greatest_bulk, PUT, PUT_IF_ABSENT, STATS};
use reference::reply::reply_bytes;
use reference::serve::answer_request;
use reference::{read_reply, Read, Request, Table, Verdict};

use super::{cap, Echo, Fault};
use crate::memory::{self, greatest_bound, number, put_number, rows, BOUND, FIRST, LATEST};

/// A call: the request, its second, and the table's memory before it.
pub(super) struct Arrival<'a> {
    pub request: &'a Request,
    pub second: u32,
    pub memory: &'a [u8],
}

impl Echo {
    /// The entries that a fault has stand though they end at this second.
    fn stands_at_end(&self, arrival: &Arrival, now: u64) -> bool {
        match self.fault {
            Some(Fault::EqualStands) => true,
            Some(Fault::BoundEqualSkips) => number(arrival.memory, BOUND) == now,
            _ => false,
        }
    }

    /// The second of a call that is told more is needed, or refused in
    /// reading, goes into the memory by a fault.
    pub(super) fn arrive_unserved<T>(&self, read: &Read<T>, second: u32, memory: &mut [u8]) {
        let unserved = !matches!(read, Read::Whole(_, _));
        if self.has(Fault::UnservedMovesSecond) && unserved {
            put_number(memory, LATEST, memory::present(memory, second));
        }
    }

    /// What a fault changes in the table before the step.
    pub(super) fn before_step(&self, arrival: &Arrival, table: &mut Table) {
        let now = table.history.present(arrival.second);
        if self.stands_at_end(arrival, now) {
            let ending = table.entries.values_mut();
            ending
                .filter(|entry| entry.deadline == now && now > 0)
                .for_each(|entry| entry.deadline = now + 1);
        }
        let all = table.entries.values();
        let standing = all.clone().filter(|entry| entry.stands(now));
        match self.fault {
            Some(Fault::PresentIsCall) => table.history.latest = 0,
            Some(Fault::ReusesVersions) if standing.clone().count() < all.count() => {
                table.last = standing.map(|entry| entry.version).max().unwrap_or(0);
            }
            _ => {}
        }
    }

    /// What a fault changes in the table behind the step.
    pub(super) fn after_step(
        &self,
        arrival: &Arrival,
        before: &Table,
        table: &mut Table,
        verdict: Verdict,
    ) {
        let now = before.history.present(arrival.second);
        if self.stands_at_end(arrival, now) {
            give_back_ends(before, table, now);
        }
        let served = verdict == Verdict::Served;
        match self.fault {
            Some(Fault::PresentIsCall) => {
                table.history.latest = table.history.latest.max(before.history.latest);
            }
            Some(Fault::LatestFalls) if served => {
                table.history.latest = u64::from(arrival.second);
            }
            Some(Fault::RefusedMovesSecond) if !served => table.history.latest = now,
            Some(Fault::RefusedSweeps | Fault::ElevenSweeps) if !served => {
                table.entries.retain(|_, entry| entry.stands(now));
            }
            _ if table.last > before.last => self.after_write(arrival, table, now),
            _ => {}
        }
    }

    /// A fault in the entry that was written.
    fn after_write(&self, arrival: &Arrival, table: &mut Table, now: u64) {
        let lifespan = arrival.request.lifespan;
        let Some(entry) = table.entries.get_mut(&arrival.request.key) else {
            return;
        };
        let past = !entry.stands(now);
        match self.fault {
            Some(Fault::DeadlineFromCall) if entry.deadline > 0 && lifespan <= LONGEST_SPAN => {
                entry.deadline = u64::from(arrival.second) + u64::from(lifespan);
            }
            Some(Fault::PastIsGoneAtOnce) if past => {
                table.entries.remove(&arrival.request.key);
            }
            Some(Fault::PastTakesNoVersion) if past => {
                table.entries.remove(&arrival.request.key);
                table.last -= 1;
            }
            Some(Fault::PastIsNow) if past => entry.deadline = now + 1,
            _ => {}
        }
    }

    /// Whether a fault counts the expired entries of a full table too.
    pub(super) fn counts_expired(&self, request: &Request, second: u32, table: &Table) -> bool {
        let now = table.history.present(second);
        let held = table.entries.get(&request.key);
        self.has(Fault::TenCountsExpired)
            && [PUT, PUT_IF_ABSENT].contains(&request.operation)
            && request.name.is_empty()
            && table.entries.len() == MOST_KEYS
            && !held.is_some_and(|entry| entry.stands(now))
    }

    /// A fault in what a reply shows of entries that expired, or of seconds.
    pub(super) fn change_shown(&self, arrival: &Arrival, before: &Table, message: &mut Vec<u8>) {
        let (request, second) = (arrival.request, arrival.second);
        if self.has(Fault::BulkShowsExpired) && greatest_bulk(request.operation).is_some() {
            let mut all = before.clone();
            all.entries
                .values_mut()
                .for_each(|entry| entry.deadline = 0);
            *message = answer_request(request, second, &mut all).0;
        }
        if request.operation != STATS {
            return;
        }
        let Read::Whole(mut reply, _) = read_reply(request.asked(), message) else {
            return;
        };
        match (self.fault, before.history.first) {
            (Some(Fault::StatsCountExpired), _) => {
                reply.statistics[1] = before.entries.len() as u64;
            }
            (Some(Fault::TimeByPresent), Some(first)) => {
                let now = before.history.present(second);
                reply.statistics[0] = now.saturating_sub(first);
            }
            _ => return,
        }
        *message = reply_bytes(request.asked(), &reply);
    }

    /// A fault in the bound that is written; `before` stood there.
    pub(super) fn change_bound(&self, memory: &mut [u8], before: u64) {
        let greatest = greatest_bound(&rows(memory).unwrap_or_default());
        match (self.fault, greatest) {
            (Some(Fault::BoundTooHigh), Some(greatest)) => put_number(memory, BOUND, greatest + 1),
            (Some(Fault::WriteKeepsBound), _) => put_number(memory, BOUND, before),
            _ => {}
        }
    }

    /// Mends the seconds and the bound that a faulty check does not look at.
    pub(super) fn forgive_seconds(&self, memory: &mut [u8]) {
        match self.fault {
            Some(Fault::BoundUnchecked) => put_number(memory, BOUND, 0),
            Some(Fault::LatestUnchecked) => cap(memory, LATEST, LARGEST_SECOND),
            Some(Fault::FirstUnchecked) => cap(memory, FIRST, LARGEST_SECOND + 1),
            _ => {}
        }
    }

    /// The stored form, with a fault in what it holds.
    pub(super) fn stored_form(&self, mut table: Table) -> Vec<u8> {
        let latest = table.history.latest;
        match self.fault {
            Some(Fault::StoresExpired) => table.history.latest = 0,
            Some(Fault::StoresEqual) => table.history.latest = latest.saturating_sub(1),
            Some(Fault::StoresLastStanding) => {
                let all = table.entries.values();
                let standing = all.filter(|entry| entry.stands(latest));
                table.last = standing.map(|entry| entry.version).max().unwrap_or(0);
            }
            _ => {}
        }
        reference::store(&table)
    }

    /// A loaded table that a fault does not start from second 0.
    pub(super) fn change_loaded(&self, memory: &mut [u8], latest: u64) {
        if self.has(Fault::LoadKeepsLatest) {
            put_number(memory, memory::LATEST, latest);
        }
    }
}

/// Gives the entries that were held on beyond their end their deadline back.
fn give_back_ends(before: &Table, table: &mut Table, now: u64) {
    for (key, entry) in &mut table.entries {
        let old = before.entries.get(key);
        if old.is_some_and(|old| old.version == entry.version && old.deadline == now) {
            entry.deadline = now;
        }
    }
}

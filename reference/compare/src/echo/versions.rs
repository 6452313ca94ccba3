//! The protocol versions of an `Echo`, with their faults.

use reference::history::STORES;
use reference::operation::{sends_entry_version, BULK_GET_KEYS, DONE_WITH_OLD, NOT_DONE_WITH_OLD};
use reference::reply::reply_bytes;
use reference::{read_reply, read_request, write_reply, Asked, Read, Reply, Request, Table};

use super::{Echo, Fault};
use crate::subject::read_code;

/// The request read as one of another version.
fn read_as(input: &[u8], place: usize, version: u8) -> Read<Request> {
    let mut other = input.to_vec();
    let told = std::mem::replace(&mut other[place], version);
    match read_request(&other) {
        Read::Whole(mut request, taken) => {
            request.version = if told == 21 { 20 } else { told };
            Read::Whole(request, taken)
        }
        read => read,
    }
}

/// The request with its flags cut to those of version 12.
fn read_masked(input: &[u8], place: usize) -> Read<Request> {
    let mut other = input.to_vec();
    if let Some(flags) = other.get_mut(place + 3) {
        *flags &= 7;
    }
    read_request(&other)
}

impl Echo {
    /// What a fault in versions has the reader of requests answer.
    pub(super) fn wrong_version(&self, input: &[u8], place: usize) -> Option<Read<Request>> {
        let version = *input.get(place)?;
        let right = read_request(input);
        match (self.fault?, version) {
            (Fault::TwentyHasTransaction, 20) => Some(read_as(input, place, 12)),
            (Fault::TwelveHasNoTransaction, 12) => Some(read_as(input, place, 20)),
            (Fault::ServesTwentyOne, 21) => Some(read_as(input, place, 20)),
            (Fault::FlagsAboveSeven, 12) if right == Read::Refused(8) => {
                Some(read_masked(input, place))
            }
            (Fault::FlagsToSeven, 20) => match right {
                Read::Whole(request, _) if request.flags > 7 => Some(Read::Refused(8)),
                _ => None,
            },
            (Fault::NoKeysInTwenty, 20) if input.get(place + 1) == Some(&BULK_GET_KEYS) => {
                Some(Read::Refused(4))
            }
            _ => None,
        }
    }

    /// What a fault changes in a request of version 20 or 12 before its step.
    pub(super) fn change_version(&self, request: &mut Request) {
        match (self.fault, request.version) {
            (Some(Fault::TwentyAnswersAsTwelve), 20) => {
                request.version = 12;
                request.flags &= 7;
            }
            (Some(Fault::TwelveAnswersAsTwenty), 12) => request.version = 20,
            (Some(Fault::FlagsAsWhole), _) if request.flags != 1 => request.flags &= !1,
            (Some(Fault::EightIsDefault), _) if request.flags & 8 != 0 => request.flags |= 2,
            _ => {}
        }
    }

    /// A fault in a reply whose status says whether an old value follows.
    pub(super) fn change_status(&self, request: &Request, before: &Table, message: &mut Vec<u8>) {
        let asked = request.asked();
        let Read::Whole(mut reply, _) = read_reply(asked, message) else {
            return;
        };
        if !asked.tells_by_status() {
            return;
        }
        let with_old = [DONE_WITH_OLD, NOT_DONE_WITH_OLD].contains(&reply.status);
        let held = before.entries.get(&request.key);
        let odd = held.is_some_and(|entry| entry.value.first().is_some_and(|byte| byte % 2 == 1));
        match self.fault {
            Some(Fault::AbsentIsThree) if reply.status == 0 => reply.status = DONE_WITH_OLD,
            Some(Fault::EmptyIsAbsent) if with_old && reply.value.is_empty() => reply.status -= 3,
            Some(Fault::ConflictHidesValue) if sends_entry_version(request.operation) => {
                if reply.status == NOT_DONE_WITH_OLD {
                    reply.value.clear();
                }
            }
            Some(Fault::FourIsThree) if reply.status == NOT_DONE_WITH_OLD => {
                reply.status = DONE_WITH_OLD;
            }
            Some(Fault::ValueSteersStatus) if odd && with_old => reply.status ^= 7,
            _ => return,
        }
        *message = reply_bytes(asked, &reply);
    }

    /// A fault in what is counted of a reply in version 20.
    pub(super) fn change_counted(&self, request: &Request, before: &Table, table: &mut Table) {
        let told = request.asked().tells_by_status() && before.entries.contains_key(&request.key);
        if self.has(Fault::ThreeCountsNot) && told {
            table.history.counts[STORES] = before.history.counts[STORES];
        }
    }

    /// A wrong code of a reader of replies that is told the version.
    pub(super) fn wrong_asked(&self, asked: Asked, input: &[u8], code: u64) -> Option<u64> {
        let again = |asked: Asked| Some(read_code(&read_reply(asked, input)));
        let in_version = |version: u8| again(Asked { version, ..asked });
        match self.fault? {
            Fault::FourBeforeThree if code == 3 && asked.op % 2 == 0 => Some(4),
            Fault::LooksBeforeVersion if code == 3 && input.is_empty() => Some(0),
            Fault::ReadsAnyVersion if code == 3 => in_version(20),
            Fault::ThreeInTwelve if code == 8 && asked.version == 12 => in_version(20),
            Fault::PlainInTwenty if code == 8 && asked.version == 20 => again(Asked {
                flag: false,
                ..asked
            }),
            Fault::KeysReplyInTen if asked.op == BULK_GET_KEYS && code == 4 => in_version(12),
            _ => None,
        }
    }

    /// What a faulty writer of replies is told.
    pub(super) fn told_writer(&self, asked: Asked, reply: &Reply) -> Asked {
        let refused = write_reply(asked, reply, &mut [0; 512]) == Err(16);
        match self.fault {
            Some(Fault::WritesAnyVersion) if refused => Asked {
                version: 20,
                ..asked
            },
            Some(Fault::WritesPlainInTwenty) if refused && asked.version == 20 => Asked {
                flag: false,
                ..asked
            },
            Some(Fault::WritesKeysInTen) if refused && asked.op == BULK_GET_KEYS => Asked {
                version: 12,
                ..asked
            },
            _ => asked,
        }
    }
}

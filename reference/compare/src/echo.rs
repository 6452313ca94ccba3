//! The reference in the shape of the library: the same functions over byte
//! slices, the table in the same memory. The tests of the harness put one
//! fault at a time into it, and the harness has to find it.

mod bulk;
mod expiry;
mod many;
mod order;
mod versions;

use reference::history::{COUNTS, RETRIEVALS, STORES};
use reference::lines::{LINE_END, LINE_LIMIT};
use reference::map::{LARGEST_DEADLINE, LARGEST_VERSION, LONGEST_SPAN, MOST_KEYS};
use reference::number::LARGEST_VLONG;
use reference::operation::{
    sends_entry_version, sends_value, BULK_GET, CLEAR, GET, GET_WITH_VERSION, PUT, REMOVE, STATS,
};
use reference::serve::{answer_request, error_id, LEAST_ROOM};
use reference::statistics::NAMES;
use reference::{
    is_text, load, read_reply, same_key, serve_line, write_reply, write_request, History, Read,
    Reply, Request, Statistics, Table, Verdict,
};

use self::expiry::Arrival;
use self::many::Lent;
use crate::fields::{of_reply, of_request, place, Kind};
use crate::lines::LEAST;
use crate::memory::{
    self, number, put_history, put_number, row_at, BOUND, COUNT, COUNTED, DEADLINE, LAST, LATEST,
    ORDER, PLACES, SIZE,
};
use crate::messages::{reply_numbers, request_numbers};
use crate::subject::{
    read_code, verdict_code, write_code, Asked, ComparesKeys, EntryParts, ListsKeys, Piece,
    ReplyParts, RequestParts, ServesLines, ServesMany, Stores, Subject, ENTRY_WORDS, FULL, GOOD,
    KEYS_WORDS, REPLY_WORDS, REQUEST_WORDS, SERVE_WORDS, STREAM_WORDS, UNTOLD,
};

/// What is wrong with an `Echo`.
#[derive(Clone, Copy, Debug, PartialEq, Eq)]
pub enum Fault {
    // Messages.
    TakesOneMore,
    SixForFive,
    ShortIsMore,
    LengthOfOneByte,
    SpanOff,
    AnswersMore,
    AnswersInShortBuffer,
    IgnoresFlag,
    ReplyTextUnchecked,
    LooksBeforeOperation,
    WritesBehind,
    RoomBeforeRules,
    NeedsOneMore,
    CutsNumbers,
    WritesUnsentFields,
    // Serving.
    OldValueAlways,
    VersionAtLeast,
    FullRefusesOverwrite,
    ClearRestarts,
    RemovalUsesVersion,
    DeadlineWraps,
    DateAtThirtyDays,
    DateIsAdded,
    DateBeatsFlag,
    LastVersionEarly,
    RefusedTouchesMemory,
    ReplyTouchesBehind,
    ServesAnyName,
    RoomOneLess,
    MoreTakes,
    LeavesOrder,
    // Streams.
    StopsAtNine,
    CountsReplies,
    HidesTwelve,
    ChecksOnce,
    // Tables.
    EqualKeys,
    VersionZero,
    LateDeadline,
    LastTooLarge,
    VersionAboveLast,
    AnyOrder,
    PlacesBehind,
    PlaceCutToBits,
    LooksBehind,
    CountCutToByte,
    LengthCutToByte,
    MakesAnyLength,
    // Values.
    ValueSteersReply,
    ValueSteersVersion,
    ValueLeaksToId,
    ValueLeaksToOther,
    // Lines.
    LongLineTwice,
    EndsAsRead,
    ServesBeforeFifteen,
    ChecksNoTable,
    LimitOneMore,
    // Stored tables.
    StoreNeedsOneMore,
    RoomBeforeTable,
    LoadsUpperCase,
    LoadsWithoutEnd,
    LoadTouchesOld,
    LoadsLateDeadline,
    // Statistics.
    SwapsStatistics,
    TakesTenStatistics,
    LastNameUnread,
    TellsStatisticsAlways,
    ReadsLeadingZero,
    SevenForName,
    AnyNumberOfStatistics,
    RefusedPutCounts,
    RefusedCallIsFirst,
    GetWithVersionCounts,
    CountWraps,
    LastCallIsFirst,
    ClearClearsCounts,
    ValueSteersCount,
    LoadKeepsCounts,
    GreatCount,
    // Bulk requests and replies.
    BulkCountIgnored,
    BulkOneMore,
    BulkHighest,
    BulkByKey,
    BulkByRow,
    BulkHidesDated,
    KeysInEleven,
    ScopeThree,
    BulkFits,
    BulkRoomOneMore,
    BulkTwelveTakesNothing,
    BulkTwelveIsFirst,
    NineBeforeBulkTwelve,
    BulkCounts,
    BulkNoEnd,
    BulkEndsWithOne,
    BulkTwelveInStream,
    BulkTwelveEndsStream,
    SixForMoreByte,
    Reads129,
    SixBehind129,
    EntriesOneLess,
    EntriesWithoutEnd,
    EntryPlacesFromPart,
    EntryNotAtEnd,
    EntrySkipsValue,
    EntryRefusedIsMore,
    Writes129,
    PartsRefused,
    FewNumbersRefused,
    ValueWithKeys,
    EntriesRoomFirst,
    EntriesNeedOneMore,
    ValueLeaksToEntry,
    EqualValueOnce,
    // Entries that expire.
    EqualStands,
    BoundEqualSkips,
    PresentIsCall,
    LatestFalls,
    RefusedSweeps,
    RefusedMovesSecond,
    ElevenSweeps,
    BulkTwelveSweeps,
    UnservedMovesSecond,
    TenCountsExpired,
    DeadlineFromCall,
    PastIsGoneAtOnce,
    PastTakesNoVersion,
    PastIsNow,
    ReusesVersions,
    BulkShowsExpired,
    StatsCountExpired,
    TimeByPresent,
    BoundTooHigh,
    WriteKeepsBound,
    BoundUnchecked,
    LatestUnchecked,
    FirstUnchecked,
    StoresExpired,
    StoresEqual,
    StoresLastStanding,
    LoadKeepsLatest,
    // The order of the keys, and the listing.
    OrderByLength,
    OrderSigned,
    OrderLongerFirst,
    OrderAppends,
    OrderKeepsRemoved,
    LoadKeepsOrder,
    LoadByVersion,
    OrderUnchecked,
    OrderLooksBehind,
    OrderLastUnchecked,
    OrderCutToBits,
    OrderHeldOnly,
    OrderAscentOnly,
    ListsNineFirst,
    ListsTwelveFirst,
    ListsRefusesLong,
    ListsExpired,
    ListsEqual,
    ListsBehind,
    ListsCutKey,
    ListsZeroAll,
    ListsOneMore,
    ListsWordOfMost,
    ListsNoEnd,
    ListsNeedsOneMore,
    ListsWithHeader,
    ListsPart,
    // Many connections.
    ManySwapsShares,
    ManyFromStart,
    ManyOverwrites,
    ManyBulkRefused,
    ManyNoTable,
    ManyEndCut,
    ManyAnyOrder,
    ManyStopsAtRefused,
    ManyStopsAtFull,
    ManyShortList,
    ManyEndsFirst,
    ManyRoomFirst,
    ManyTableFirst,
    ManyTailIsLast,
    ManyEmptyDone,
    ManyWaitsTwelve,
    ManyTellsMore,
    // Versions.
    TwentyHasTransaction,
    TwelveHasNoTransaction,
    ServesTwentyOne,
    FlagsAboveSeven,
    FlagsToSeven,
    NoKeysInTwenty,
    TwentyAnswersAsTwelve,
    TwelveAnswersAsTwenty,
    FlagsAsWhole,
    EightIsDefault,
    AbsentIsThree,
    EmptyIsAbsent,
    ConflictHidesValue,
    FourIsThree,
    ValueSteersStatus,
    ThreeCountsNot,
    FourBeforeThree,
    LooksBeforeVersion,
    ReadsAnyVersion,
    ThreeInTwelve,
    PlainInTwenty,
    KeysReplyInTen,
    WritesAnyVersion,
    WritesPlainInTwenty,
    WritesKeysInTen,
    // Keys.
    ComparesFromFront,
    OnePairTooFew,
    CountsUnlikeLengths,
    EndingIsEqual,
    TellsInShortList,
}

impl Fault {
    fn is_of_deadlines(self) -> bool {
        use Fault::*;
        [DeadlineWraps, DateAtThirtyDays, DateIsAdded, DateBeatsFlag].contains(&self)
    }
}

/// The deadline of an entry that was stored, wrong by this fault.
fn wrong_deadline(fault: Fault, request: &Request, right: u64, second: u32) -> u64 {
    let lifespan = u64::from(request.lifespan);
    let is_date = request.lifespan > LONGEST_SPAN;
    match fault {
        Fault::DeadlineWraps => right & 0xffff_ffff,
        Fault::DateAtThirtyDays if request.lifespan == LONGEST_SPAN && right > 0 => lifespan,
        Fault::DateIsAdded if is_date && right > 0 => u64::from(second) + lifespan,
        Fault::DateBeatsFlag if is_date => lifespan,
        _ => right,
    }
}

pub struct Echo {
    fault: Option<Fault>,
}

/// Writes the words if the buffer is long enough for all.
fn fill(answer: &mut [u64], words: &[u64]) {
    if answer.len() >= words.len() {
        answer[..words.len()].copy_from_slice(words);
    }
}

/// Start and length of a field.
fn span(start: usize, bytes: &[u8]) -> [u64; 2] {
    [start as u64, bytes.len() as u64]
}

fn small(number: u64) -> Option<u8> {
    u8::try_from(number).ok()
}

fn int(number: u64) -> Option<u32> {
    u32::try_from(number).ok()
}

fn request_from(numbers: &[u64], parts: RequestParts) -> Option<Request> {
    let number = |at: usize| numbers.get(at).copied();
    Some(Request {
        id: number(0)?,
        version: small(number(1)?)?,
        operation: small(number(2)?)?,
        flags: int(number(3)?)?,
        intelligence: small(number(4)?)?,
        topology: int(number(5)?)?,
        lifespan: int(number(6)?)?,
        max_idle: int(number(7)?)?,
        entry_version: number(8)?,
        bulk: int(number(9)?)?,
        name: parts.name.to_vec(),
        key: parts.key.to_vec(),
        value: parts.value.to_vec(),
    })
}

fn reply_from(numbers: &[u64], parts: ReplyParts) -> Option<Reply> {
    let number = |at: usize| numbers.get(at).copied();
    Some(Reply {
        id: number(0)?,
        operation: small(number(1)?)?,
        status: small(number(2)?)?,
        version: number(3)?,
        value: parts.value.to_vec(),
        text: parts.text.to_vec(),
        ..Reply::default()
    })
}

/// One call: the code, the bytes taken, and the bytes sent.
type Called = (u64, usize, usize);

impl Echo {
    pub fn new() -> Echo {
        Echo { fault: None }
    }

    pub fn with(fault: Fault) -> Echo {
        Echo { fault: Some(fault) }
    }

    fn has(&self, fault: Fault) -> bool {
        self.fault == Some(fault)
    }

    fn faulty_read(&self, code: u64, input: &[u8]) -> u64 {
        match self.fault {
            Some(Fault::TakesOneMore) if code >= GOOD => code + 1,
            Some(Fault::SixForFive) if code == 5 => 6,
            Some(Fault::ShortIsMore) if code == 8 && input.len() < 9 => 0,
            _ => code,
        }
    }

    /// A number written at the end of a message that has room behind it.
    fn after_writing(&self, code: u64, out: &mut [u8]) -> u64 {
        let length = code.saturating_sub(GOOD) as usize;
        if self.has(Fault::WritesBehind) && code >= GOOD && length < out.len() {
            out[length] = out[length].wrapping_add(1);
        }
        code
    }

    /// The table that the memory holds, if it is one.
    fn table(&self, memory: &[u8]) -> Option<Table> {
        let mut memory = memory.to_vec();
        if memory.len() != SIZE {
            return None;
        }
        self.forgive(&mut memory);
        self.forgive_seconds(&mut memory);
        if !self.forgive_order(&mut memory) {
            return None;
        }
        let free = row_at(&memory, MOST_KEYS - 1) + memory::ROW - 1;
        let full = number(&memory, COUNT) >= MOST_KEYS as u64;
        if self.has(Fault::LooksBehind) && !full && memory[free] == 0x55 {
            return None;
        }
        let table = memory::decode(&memory)?;
        reference::is_table(&table).then_some(table)
    }

    /// Mends what a faulty check of the table does not see.
    fn forgive(&self, memory: &mut [u8]) {
        let count = number(memory, COUNT).min(MOST_KEYS as u64) as usize;
        match self.fault {
            Some(Fault::LastTooLarge) => cap(memory, LAST, LARGEST_VERSION),
            Some(Fault::GreatCount) => {
                (0..COUNTS).for_each(|at| cap(memory, COUNTED + 8 * at, LARGEST_VLONG));
            }
            Some(Fault::VersionAboveLast) if count > 0 => {
                let greatest = number(memory, row_at(memory, count - 1));
                put_number(memory, LAST, greatest.max(number(memory, LAST)));
            }
            Some(Fault::CountCutToByte) => cut_to(memory, COUNT, 0xff),
            Some(Fault::EqualKeys) => {
                spread_keys(memory, count);
                memory::set_order(memory);
            }
            Some(Fault::AnyOrder) => sort_places(memory, count),
            Some(Fault::PlacesBehind) => mend_places(memory, count),
            Some(Fault::PlaceCutToBits) => {
                memory[PLACES..ORDER].iter_mut().for_each(|at| *at &= 0x7f)
            }
            _ => self.forgive_rows(memory, count),
        }
    }

    fn forgive_rows(&self, memory: &mut [u8], count: usize) {
        for row in 0..count {
            let at = row_at(memory, row);
            match self.fault {
                Some(Fault::LateDeadline) => cap(memory, at + DEADLINE, LARGEST_DEADLINE),
                Some(Fault::VersionZero) if row == 0 && number(memory, at) == 0 => {
                    put_number(memory, at, 1);
                }
                Some(Fault::LengthCutToByte) => {
                    cut_to(memory, at + memory::KEY_LENGTH, 0xff);
                    cut_to(memory, at + memory::VALUE_LENGTH, 0x1ff);
                }
                _ => {}
            }
        }
    }

    fn one_call(&self, input: &[u8], memory: &mut [u8], second: u32, reply: &mut [u8]) -> Called {
        let least = LEAST_ROOM - usize::from(self.has(Fault::RoomOneLess));
        if reply.len() < least {
            return (12, 0, 0);
        }
        let Some(table) = self.table(memory) else {
            return (13, 0, 0);
        };
        let (code, taken, message) = self.answer(input, memory, second, table, reply.len());
        let sent = message.len();
        reply[..sent].copy_from_slice(&message);
        if self.has(Fault::ReplyTouchesBehind) && sent > 0 {
            reply[sent] ^= 1;
        }
        if self.has(Fault::RefusedTouchesMemory) && code != GOOD && code != 0 {
            memory[SIZE - 1] ^= 1;
        }
        (code, taken, sent)
    }

    fn answer(
        &self,
        input: &[u8],
        memory: &mut [u8],
        second: u32,
        mut table: Table,
        room: usize,
    ) -> (u64, usize, Vec<u8>) {
        let read = self.read(input);
        self.arrive_unserved(&read, second, memory);
        match read {
            Read::More => {
                let taken = if self.has(Fault::MoreTakes) {
                    input.len()
                } else {
                    0
                };
                (0, taken, Vec::new())
            }
            Read::Refused(refusal) => {
                let id = error_id(refusal, input);
                let message = reference::reply::error_bytes(id, refusal);
                (u64::from(refusal), 0, message)
            }
            Read::Whole(request, taken) if self.lacks_room(&request, &table, room) => {
                self.change_unlisted(second, &mut table, memory);
                let nothing = self.has(Fault::BulkTwelveTakesNothing);
                (12, if nothing { 0 } else { taken }, Vec::new())
            }
            Read::Whole(request, taken) => {
                let (message, verdict) = self.step(request, second, &mut table, memory);
                if verdict == Verdict::Served || self.counts_refused(verdict) {
                    self.put_back(&table, memory);
                }
                (verdict_code(verdict), taken, message)
            }
        }
    }

    fn counts_refused(&self, verdict: Verdict) -> bool {
        match self.fault {
            Some(Fault::RefusedPutCounts) => verdict == Verdict::Refused(10),
            Some(Fault::RefusedCallIsFirst) => verdict == Verdict::Refused(9),
            Some(Fault::ElevenSweeps) => verdict == Verdict::Refused(11),
            Some(Fault::RefusedSweeps | Fault::RefusedMovesSecond) => true,
            _ => false,
        }
    }

    fn put_back(&self, table: &Table, memory: &mut [u8]) {
        let bound = number(memory, BOUND);
        let held = number(memory, COUNT) as usize;
        let order = memory[ORDER..ORDER + held].to_vec();
        memory::encode(table, memory);
        self.change_bound(memory, bound);
        self.change_order(memory, &order);
        let count = table.entries.len();
        if self.has(Fault::LeavesOrder) && count > 1 {
            memory.swap(PLACES + count - 1, PLACES + count - 2);
        }
    }

    /// The reference's step with a fault before or after it.
    fn step(
        &self,
        mut request: Request,
        second: u32,
        table: &mut Table,
        memory: &[u8],
    ) -> (Vec<u8>, Verdict) {
        if let Some(refusal) = self.wrong_refusal(&request, second, table) {
            let message = reference::reply::error_bytes(request.id, refusal);
            return (message, Verdict::Refused(refusal));
        }
        self.change_request(&mut request, table);
        self.change_version(&mut request);
        let before = table.clone();
        let arrival = Arrival {
            request: &request,
            second,
            memory,
        };
        self.before_step(&arrival, table);
        let mut answer = answer_request(&request, second, table);
        if answer.1 == Verdict::Served {
            self.change_listing(&arrival, &before, &mut answer.0);
            self.change_shown(&arrival, &before, &mut answer.0);
            self.change_status(&request, &before, &mut answer.0);
        }
        self.after_step(&arrival, &before, table, answer.1);
        self.change_table(&request, second, &before, table);
        self.change_history(&request, second, &before, table);
        self.change_counted(&request, &before, table);
        answer
    }

    fn wrong_refusal(&self, request: &Request, second: u32, table: &Table) -> Option<u8> {
        if self.counts_expired(request, second, table) {
            return Some(10);
        }
        let writes = sends_value(request.operation) && request.name.is_empty();
        let first = request.value.first().copied().unwrap_or(0);
        match self.fault {
            Some(Fault::FullRefusesOverwrite) if writes && table.entries.len() == MOST_KEYS => {
                Some(10)
            }
            Some(Fault::LastVersionEarly) if writes && table.last == LARGEST_VERSION - 1 => {
                Some(11)
            }
            Some(Fault::ValueSteersReply) if writes && first == 0xff => Some(10),
            _ => None,
        }
    }

    fn change_request(&self, request: &mut Request, table: &Table) {
        let held = table.entries.get(&request.key).map_or(0, |e| e.version);
        let first = table
            .entries
            .get(&request.key)
            .and_then(|e| e.value.first());
        match self.fault {
            Some(Fault::ValueLeaksToId) if first > Some(&0x7f) => request.id ^= 1,
            Some(Fault::OldValueAlways) => request.flags |= 1,
            Some(Fault::ServesAnyName) => request.name.clear(),
            Some(Fault::VersionAtLeast)
                if sends_entry_version(request.operation) && request.entry_version >= held =>
            {
                request.entry_version = held;
            }
            _ => {}
        }
    }

    fn change_table(&self, request: &Request, second: u32, before: &Table, table: &mut Table) {
        let wrote = table.last > before.last;
        match self.fault {
            Some(Fault::ClearRestarts) if request.operation == CLEAR => table.last = 0,
            Some(Fault::RemovalUsesVersion)
                if request.operation == REMOVE && table.last < LARGEST_VERSION =>
            {
                table.last += 1;
            }
            Some(fault) if wrote && fault.is_of_deadlines() => {
                if let Some(entry) = table.entries.get_mut(&request.key) {
                    entry.deadline = wrong_deadline(fault, request, entry.deadline, second);
                }
            }
            Some(Fault::ValueLeaksToOther) if wrote => {
                let low = request.value.first().unwrap_or(&0) & 1;
                for (key, entry) in &mut table.entries {
                    if *key != request.key {
                        entry.value.iter_mut().for_each(|byte| *byte ^= low);
                    }
                }
            }
            Some(Fault::ValueSteersVersion)
                if wrote && request.value.len() == 1 && request.value[0] > 0xf0 =>
            {
                table.last = LARGEST_VERSION;
            }
            _ => {}
        }
    }

    fn change_history(&self, request: &Request, second: u32, before: &Table, table: &mut Table) {
        let wrote = table.last > before.last;
        let history = &mut table.history;
        let odd = u64::from(request.value.first().unwrap_or(&0) & 1);
        match (self.fault, request.operation) {
            (Some(Fault::RefusedPutCounts), PUT) if !wrote => once_more(history, STORES),
            (Some(Fault::GetWithVersionCounts), GET_WITH_VERSION) => once_more(history, RETRIEVALS),
            (Some(Fault::BulkCounts), BULK_GET) => once_more(history, RETRIEVALS),
            (Some(Fault::RefusedCallIsFirst), _) => {
                history.first.get_or_insert(u64::from(second));
            }
            (Some(Fault::LastCallIsFirst), _) => history.first = Some(u64::from(second)),
            (Some(Fault::CountWraps), GET)
                if before.history.counts[RETRIEVALS] == LARGEST_VLONG =>
            {
                history.counts[RETRIEVALS] = 0;
            }
            (Some(Fault::ClearClearsCounts), CLEAR) => history.counts = [0; COUNTS],
            (Some(Fault::ValueSteersCount), _) if wrote => {
                history.counts[STORES] = (history.counts[STORES] & !1) | odd;
            }
            _ => {}
        }
    }

    /// Whether a stream goes on behind a call that took its request.
    fn stream_goes_on(&self, code: u64, taken: usize) -> bool {
        match self.fault {
            Some(Fault::StopsAtNine) if code == 9 => false,
            Some(Fault::BulkTwelveEndsStream) if code == 12 => false,
            _ => taken > 0,
        }
    }

    /// A wrong code for a reply that is read.
    fn wrong_reply(&self, asked: Asked, input: &[u8], code: u64) -> Option<u64> {
        let stats = asked.op == STATS && code == 8;
        let again = |input: &[u8]| read_code(&read_reply(asked, input));
        match self.fault? {
            Fault::SevenForName if stats && !is_text(input.get(6..).unwrap_or(&[])) => Some(7),
            Fault::AnyNumberOfStatistics if stats => Some(again(&with_nine(input))),
            Fault::LastNameUnread if stats => Some(again(&with_last_name(input))),
            Fault::ReadsLeadingZero if code == 8 => Some(again(&without_zero(input))),
            Fault::ReplyTextUnchecked if code == 7 => Some(0),
            Fault::LooksBeforeOperation if code == 4 && input.is_empty() => Some(0),
            _ => None,
        }
    }

    fn reply_words(&self, asked: Asked, reply: &Reply, taken: usize) -> Vec<u64> {
        let fields = of_reply(asked, reply);
        let spans = [
            span(place(&fields, Kind::Value), &reply.value),
            span(place(&fields, Kind::Text), &reply.text),
        ];
        let numbers = reply_numbers(reply, taken);
        let entries = self.entries_words(&fields, reply);
        let mut words = [&numbers[..], &spans.concat(), &reply.statistics, &entries].concat();
        if self.has(Fault::TellsStatisticsAlways) {
            words[9] += 1;
        }
        words
    }

    fn line_limit(&self) -> usize {
        LINE_LIMIT + usize::from(self.has(Fault::LimitOneMore))
    }

    /// The output line for a line, which leads the memory on.
    fn line(&self, line: &[u8], memory: &mut [u8]) -> Vec<u8> {
        let mut table = memory::decode(memory).unwrap_or_default();
        let mut out = serve_line(line, &mut table);
        if self.has(Fault::LimitOneMore) && line.len() == LINE_LIMIT + 1 {
            out = serve_line(&line[..LINE_LIMIT - 1], &mut table);
        }
        if self.has(Fault::ServesBeforeFifteen) && out == b"refused 15" {
            table.last = (table.last + 1).min(LARGEST_VERSION);
        }
        memory::encode(&table, memory);
        out.push(LINE_END);
        out
    }

    /// The next line of the rest: its length with its end, and the line. A
    /// line that is cut counts only if nothing comes behind it.
    fn next_line<'a>(&self, rest: &'a [u8], last: bool) -> Option<(usize, &'a [u8])> {
        match rest.iter().position(|byte| *byte == LINE_END) {
            Some(end) => Some((end + 1, &rest[..end])),
            None if last && !rest.is_empty() => Some((rest.len(), rest)),
            None => None,
        }
    }
}

impl Default for Echo {
    fn default() -> Echo {
        Echo::new()
    }
}

fn once_more(history: &mut History, place: usize) {
    history.counts[place] = (history.counts[place] + 1).min(LARGEST_VLONG);
}

fn cap(memory: &mut [u8], at: usize, greatest: u64) {
    put_number(memory, at, number(memory, at).min(greatest));
}

fn cut_to(memory: &mut [u8], at: usize, bits: u64) {
    put_number(memory, at, number(memory, at) & bits);
}

/// Gives each key of full length that is there twice another last byte.
fn spread_keys(memory: &mut [u8], count: usize) {
    for row in 1..count {
        let at = row_at(memory, row);
        let last = row_at(memory, row - 1);
        let key = at + memory::KEY_LENGTH..at + memory::VALUE;
        let before = last + memory::KEY_LENGTH..last + memory::VALUE;
        if memory[key.clone()] == memory[before] && memory[key.start + 7] > 0 {
            let length = memory[key.start + 7] as usize;
            memory[at + memory::KEY + length - 1] ^= 0x80;
        }
    }
}

fn sort_places(memory: &mut [u8], count: usize) {
    for end in (1..count).rev() {
        for place in 0..end {
            let one = number(memory, row_at(memory, place));
            if one > number(memory, row_at(memory, place + 1)) {
                memory.swap(PLACES + place, PLACES + place + 1);
            }
        }
    }
}

/// Gives the places behind those held the rows that are left.
fn mend_places(memory: &mut [u8], count: usize) {
    let held = memory[PLACES..PLACES + count].to_vec();
    let free = (0..MOST_KEYS as u8).filter(|row| !held.contains(row));
    for (place, row) in (count..MOST_KEYS).zip(free.collect::<Vec<u8>>()) {
        memory[PLACES + place] = row;
    }
}

impl Subject for Echo {
    fn read_request(&mut self, input: &[u8], answer: &mut [u64]) -> u64 {
        if answer.len() < REQUEST_WORDS {
            if self.has(Fault::AnswersInShortBuffer) && answer.len() == REQUEST_WORDS - 1 {
                answer[0] = input.len() as u64;
            }
            return UNTOLD;
        }
        let read = self.read(input);
        let code = self.faulty_read(read_code(&read), input);
        let Read::Whole(request, taken) = read else {
            if self.has(Fault::AnswersMore) && code == 0 {
                fill(answer, &[0]);
            }
            return code;
        };
        if self.has(Fault::LengthOfOneByte) && request.value.len() > 127 {
            return 5;
        }
        let fields = of_request(&request);
        let off = usize::from(self.has(Fault::SpanOff));
        let spans = [
            span(place(&fields, Kind::Name), &request.name),
            span(place(&fields, Kind::Key), &request.key),
            span(place(&fields, Kind::Value) + off, &request.value),
        ];
        let words = [&request_numbers(&request, taken)[..], &spans.concat()].concat();
        fill(answer, &words);
        code
    }

    fn write_request(&mut self, out: &mut [u8], numbers: &[u64], parts: RequestParts) -> u64 {
        let mut numbers = numbers.to_vec();
        if self.has(Fault::CutsNumbers) && numbers.len() > 1 {
            numbers[1] &= 0xff;
        }
        if self.has(Fault::RoomBeforeRules) && out.is_empty() {
            return 12;
        }
        let Some(mut request) = request_from(&numbers, parts) else {
            return 16;
        };
        if self.has(Fault::WritesUnsentFields) && !sends_value(request.operation) {
            request.lifespan = 0;
        }
        let code = write_code(write_request(&request, out));
        if self.has(Fault::NeedsOneMore) && code == GOOD + out.len() as u64 {
            return 12;
        }
        self.after_writing(code, out)
    }

    fn read_reply(&mut self, input: &[u8], asked: Asked, answer: &mut [u64]) -> u64 {
        if answer.len() < REPLY_WORDS {
            return UNTOLD;
        }
        let flag = asked.flag || self.has(Fault::IgnoresFlag);
        let asked = Asked { flag, ..asked };
        let read = read_reply(asked, input);
        let code = read_code(&read);
        let wrong = self.wrong_reply(asked, input, code);
        let wrong = wrong.or_else(|| self.wrong_asked(asked, input, code));
        if let Some(code) = wrong.or_else(|| self.wrong_bulk_reply(asked, input, code)) {
            return code;
        }
        if let Read::Whole(reply, taken) = read {
            fill(answer, &self.reply_words(asked, &reply, taken));
        }
        code
    }

    fn write_reply(
        &mut self,
        out: &mut [u8],
        asked: Asked,
        numbers: &[u64],
        parts: ReplyParts,
    ) -> u64 {
        let Some(reply) = reply_from(numbers, parts) else {
            return 16;
        };
        if reply.operation == STATS + 1 {
            return 16;
        }
        let asked = self.told_writer(asked, &reply);
        let code = write_code(write_reply(asked, &reply, out));
        self.after_writing(code, out)
    }

    fn write_statistics(&mut self, out: &mut [u8], version: u8, id: u64, numbers: &[u64]) -> u64 {
        let first_nine = self.has(Fault::TakesTenStatistics) && numbers.len() > 9;
        let statistics = &numbers[..if first_nine { 9 } else { numbers.len() }];
        let Ok(mut statistics) = Statistics::try_from(statistics) else {
            return 16;
        };
        if self.has(Fault::SwapsStatistics) {
            statistics.swap(5, 6);
        }
        let reply = Reply {
            id,
            operation: STATS + 1,
            statistics,
            ..Reply::default()
        };
        let asked = Asked {
            version,
            op: STATS,
            flag: false,
        };
        let code = write_code(write_reply(asked, &reply, out));
        self.after_writing(code, out)
    }

    fn next_entry(&mut self, input: &[u8], at: usize, values: bool, answer: &mut [u64]) -> u64 {
        if answer.len() < ENTRY_WORDS {
            return UNTOLD;
        }
        self.entry_at(input, at, values, answer)
    }

    fn write_entries(&mut self, out: &mut [u8], version: u8, id: u64, entries: EntryParts) -> u64 {
        let code = self.entries_to(out, version, id, entries);
        self.after_writing(code, out)
    }

    fn serve(
        &mut self,
        input: &[u8],
        table: &mut [u8],
        second: u32,
        reply: &mut [u8],
        answer: &mut [u64],
    ) -> u64 {
        if answer.len() < SERVE_WORDS {
            return UNTOLD;
        }
        let (code, taken, sent) = self.one_call(input, table, second, reply);
        fill(answer, &[taken as u64, sent as u64]);
        code
    }

    fn serve_stream(
        &mut self,
        input: &[u8],
        table: &mut [u8],
        second: u32,
        reply: &mut [u8],
        answer: &mut [u64],
    ) -> u64 {
        if answer.len() < STREAM_WORDS {
            return UNTOLD;
        }
        let mut lent = Lent {
            table,
            second,
            reply,
        };
        let stream = self.stream(input, &mut lent, 0);
        fill(
            answer,
            &[stream.taken as u64, stream.sent as u64, stream.calls],
        );
        let hidden = self.has(Fault::HidesTwelve) && stream.code == FULL;
        let unchecked = self.has(Fault::ChecksOnce) && stream.code == 13;
        if hidden || unchecked {
            GOOD
        } else {
            stream.code
        }
    }

    fn is_table(&mut self, table: &[u8]) -> bool {
        self.table(table).is_some()
    }

    fn make(&mut self, table: &mut [u8]) -> u64 {
        if table.len() != SIZE && !(self.has(Fault::MakesAnyLength) && table.len() > SIZE) {
            return 13;
        }
        memory::encode(&Table::default(), &mut table[..SIZE]);
        GOOD
    }
}

impl ListsKeys for Echo {
    fn list_keys(
        &mut self,
        table: &[u8],
        name: &[u8],
        from: &[u8],
        most: u64,
        out: &mut [u8],
    ) -> u64 {
        self.list(table, name, from, most, out)
    }
}

impl ServesMany for Echo {
    fn serve_many(
        &mut self,
        input: &[u8],
        ends: &[u64],
        table: &mut [u8],
        second: u32,
        reply: &mut [u8],
        answer: &mut [u64],
    ) -> u64 {
        let lent = Lent {
            table,
            second,
            reply,
        };
        self.many(input, ends, lent, answer)
    }
}

impl ServesLines for Echo {
    fn serve_lines(
        &mut self,
        input: &[u8],
        table: &mut [u8],
        out: &mut [u8],
        piece: Piece,
        answer: &mut [u64],
    ) -> u64 {
        if out.len() < LEAST {
            return 12;
        }
        if self.table(table).is_none() && !self.has(Fault::ChecksNoTable) {
            return 13;
        }
        let (mut taken, mut written, mut passing) = (0, 0, piece.passing);
        while taken < input.len() && out.len() - written >= LEAST {
            let rest = &input[taken..];
            let next = self.next_line(rest, piece.last);
            if passing {
                taken += next.map_or(rest.len(), |(length, _)| length);
                passing = next.is_none();
                continue;
            }
            let too_long = next.is_none() && rest.len() > self.line_limit();
            let (length, line) = match next {
                Some(next) => next,
                None if too_long => (rest.len(), rest),
                None => break,
            };
            let line = self.line(line, table);
            out[written..written + line.len()].copy_from_slice(&line);
            written += line.len();
            taken += length;
            passing = too_long && !self.has(Fault::LongLineTwice);
            if self.has(Fault::EndsAsRead) && input[taken - 1] != LINE_END {
                written -= 1;
            }
        }
        fill(answer, &[taken as u64, written as u64, u64::from(passing)]);
        GOOD
    }
}

impl Stores for Echo {
    fn store(&mut self, table: &[u8], out: &mut [u8]) -> u64 {
        if self.has(Fault::RoomBeforeTable) && out.len() < 19 {
            return 12;
        }
        let Some(table) = self.table(table) else {
            return 13;
        };
        let file = self.stored_form(table);
        let needed = file.len() + usize::from(self.has(Fault::StoreNeedsOneMore));
        if out.len() < needed {
            return 12;
        }
        out[..file.len()].copy_from_slice(&file);
        GOOD + file.len() as u64
    }

    fn load(&mut self, file: &[u8], table: &mut [u8]) -> u64 {
        let mut file = file.to_vec();
        if self.has(Fault::LoadsUpperCase) {
            file.make_ascii_lowercase();
        }
        if self.has(Fault::LoadsWithoutEnd) && file.last() != Some(&LINE_END) {
            file.push(LINE_END);
        }
        if table.len() != SIZE {
            return 17;
        }
        if self.has(Fault::LoadsLateDeadline) {
            file = with_early_deadlines(&file);
        }
        let Some(loaded) = load(&file) else {
            if self.has(Fault::LoadTouchesOld) {
                table[SIZE - 1] ^= 1;
            }
            return 17;
        };
        let history = memory::history(table);
        let latest = number(table, LATEST);
        let order = table[ORDER..ORDER + MOST_KEYS].to_vec();
        memory::encode(&loaded, table);
        self.change_loaded(table, latest);
        self.change_loaded_order(table, &order);
        if self.has(Fault::LoadKeepsCounts) {
            put_history(table, &history);
        }
        GOOD
    }
}

impl ComparesKeys for Echo {
    fn same_key(&mut self, one: &[u8], other: &[u8], answer: &mut [u64]) -> u64 {
        if answer.len() < KEYS_WORDS {
            if self.has(Fault::TellsInShortList) && !answer.is_empty() {
                answer[0] = 0;
            }
            return UNTOLD;
        }
        let mut told = same_key(one, other);
        let common = one.len().min(other.len());
        match self.fault {
            Some(Fault::ComparesFromFront) if one.len() == other.len() => {
                let unlike = one.iter().zip(other).position(|(a, b)| a != b);
                told.pairs = unlike.map_or(common, |at| at + 1);
            }
            Some(Fault::OnePairTooFew) if !told.equal => {
                told.pairs = told.pairs.saturating_sub(1);
            }
            Some(Fault::CountsUnlikeLengths) if one.len() != other.len() => told.pairs = common,
            Some(Fault::EndingIsEqual) => told.equal |= one.ends_with(other),
            _ => {}
        }
        fill(answer, &[u64::from(told.equal), told.pairs as u64]);
        GOOD
    }
}

/// The reply with its number of statistics, a number of one byte, made nine.
fn with_nine(input: &[u8]) -> Vec<u8> {
    let mut bytes = input.to_vec();
    let id = bytes.iter().skip(1).position(|byte| *byte < 0x80);
    if let Some(number) = id.and_then(|last| bytes.get_mut(last + 5)) {
        *number = if *number < 0x80 { 9 } else { *number };
    }
    bytes
}

/// The reply with its last name made the right one, if its length is right.
fn with_last_name(input: &[u8]) -> Vec<u8> {
    let mut bytes = input.to_vec();
    let name = NAMES[8].as_bytes();
    let length = input.iter().rposition(|byte| *byte as usize == name.len());
    let start = length.map_or(0, |at| at + 1);
    if let Some(place) = bytes.get_mut(start..start + name.len()) {
        place.copy_from_slice(name);
    }
    bytes
}

/// The reply with the first zero in front of other digits taken out.
fn without_zero(input: &[u8]) -> Vec<u8> {
    let mut bytes = input.to_vec();
    let zero = |at: usize| {
        let length = usize::from(input[at]);
        let value = input.get(at + 1..at + 1 + length);
        let digits = value.is_some_and(|value| value.iter().all(u8::is_ascii_digit));
        (2..=19).contains(&length) && digits && input[at + 1] == b'0'
    };
    if let Some(at) = (0..input.len()).find(|at| zero(*at)) {
        bytes[at] -= 1;
        bytes.remove(at + 1);
    }
    bytes
}

/// The file with each deadline of ten digits and more made 0.
fn with_early_deadlines(file: &[u8]) -> Vec<u8> {
    let mut lines: Vec<Vec<u8>> = file
        .split_inclusive(|byte| *byte == LINE_END)
        .map(<[u8]>::to_vec)
        .collect();
    for line in lines.iter_mut().skip(1) {
        if line.len() > 32 && line[23] != b'0' {
            line[16..32].fill(b'0');
        }
    }
    lines.concat()
}

//! The harness tried on `Echo`: without a fault no part finds a difference,
//! and each fault is found by its part.

use compare::echo::{Echo, Fault};
use compare::run::{
    dates_part, expiry_part, keys_part, lines_part, many_part, order_part, parts, play,
    statistics_part, stored_part, Part,
};
use compare::subject::GOOD;
use compare::trial::Counts;

const SEED: u64 = 11;

fn all_parts() -> Vec<Part<Echo>> {
    let mut all = parts();
    all.push(lines_part());
    all.push(stored_part());
    all.push(dates_part());
    all.push(statistics_part());
    all.push(keys_part());
    all.push(expiry_part());
    all.push(many_part());
    all.push(order_part());
    all
}

fn part(name: &str) -> Part<Echo> {
    let found = all_parts().into_iter().find(|part| part.name == name);
    found.expect("there is such a part")
}

/// Plays so many rounds without a fault, which have to find nothing.
fn sound_rounds(name: &str, rounds: u64) -> Counts {
    let part = part(name);
    let mut sum = Counts::default();
    for round in 0..rounds {
        match play(&part, &mut Echo::new(), SEED, round) {
            Ok(counts) => sum.add(&counts),
            Err(found) => panic!("{found}"),
        }
    }
    sum
}

fn all_given(counts: &Counts, codes: &[u64]) {
    for code in codes {
        assert!(counts.given(*code) > 0, "{code} not in {}", counts.shown());
    }
}

/// Plays rounds until the fault is found.
fn is_found(name: &str, fault: Fault) {
    let part = part(name);
    let found = (0..600).find_map(|round| play(&part, &mut Echo::with(fault), SEED, round).err());
    let found = found.unwrap_or_else(|| panic!("{fault:?} is not found by {name}"));
    let text = found.to_string();
    assert!(!text.contains("broke off"), "{fault:?}: {text}");
}

fn are_found(name: &str, faults: &[Fault]) {
    for fault in faults {
        is_found(name, *fault);
    }
}

#[test]
fn messages_give_every_code_of_reading_and_writing() {
    let counts = sound_rounds("messages", 60);
    all_given(&counts, &[GOOD, 0, 1, 2, 3, 4, 5, 6, 7, 8, 12, 16]);
    assert_eq!(counts.messages, counts.inputs);
}

#[test]
fn serving_gives_every_code_but_13() {
    let counts = sound_rounds("serving", 200);
    all_given(&counts, &[GOOD, 0, 1, 2, 3, 4, 5, 6, 7, 8, 9, 10, 11, 12]);
}

#[test]
fn streams_give_every_code_but_13() {
    let counts = sound_rounds("streams", 300);
    all_given(&counts, &[GOOD, 0, 1, 2, 3, 4, 5, 6, 7, 8, 9, 10, 11, 12]);
}

#[test]
fn tables_give_13_and_others() {
    all_given(&sound_rounds("tables", 40), &[GOOD, 9, 12, 13]);
}

#[test]
fn edges_give_what_the_paper_says() {
    let counts = sound_rounds("edges", 1);
    all_given(&counts, &[GOOD, 0, 6, 7, 9, 10, 11]);
}

#[test]
fn values_give_most_codes() {
    let counts = sound_rounds("values", 200);
    all_given(&counts, &[GOOD, 0, 1, 9, 10, 11, 12]);
}

#[test]
fn lines_are_served_alike() {
    all_given(&sound_rounds("lines", 40), &[GOOD, 12, 13]);
}

#[test]
fn stored_tables_are_alike() {
    all_given(&sound_rounds("stored", 30), &[GOOD, 12, 13, 17]);
}

#[test]
fn deadlines_are_those_worked_out_by_hand() {
    all_given(&sound_rounds("dates", 1), &[GOOD, 0, 12]);
}

#[test]
fn keys_are_compared_alike() {
    all_given(&sound_rounds("keys", 1), &[GOOD, 12]);
}

#[test]
fn statistics_are_those_counted_from_the_replies() {
    let counts = sound_rounds("statistics", 60);
    all_given(&counts, &[GOOD, 0, 4, 5, 8, 9, 10, 12]);
}

#[test]
fn bulk_replies_are_the_rows() {
    let counts = sound_rounds("bulk", 4);
    all_given(&counts, &[GOOD, 0, 2, 4, 5, 6, 8, 9, 12, 16]);
}

#[test]
fn entries_expire_alike() {
    let counts = sound_rounds("expiry", 40);
    all_given(&counts, &[GOOD, 0, 4, 5, 8, 9, 10, 11, 12, 13]);
}

#[test]
fn orders_and_listings_are_alike() {
    all_given(&sound_rounds("order", 6), &[GOOD, 9, 12, 13]);
}

#[test]
fn faults_of_orders_are_found() {
    use Fault::*;
    let faults = [
        OrderByLength,
        OrderSigned,
        OrderLongerFirst,
        OrderAppends,
        OrderKeepsRemoved,
    ];
    are_found("order", &faults);
    are_found("serving", &faults);
    are_found("streams", &faults);
    are_found("order", &[LoadKeepsOrder, LoadByVersion]);
    are_found("stored", &[LoadKeepsOrder, LoadByVersion]);
}

#[test]
fn faults_of_the_check_of_orders_are_found() {
    use Fault::*;
    let faults = [
        OrderUnchecked,
        OrderLooksBehind,
        OrderLastUnchecked,
        OrderCutToBits,
        OrderHeldOnly,
        OrderAscentOnly,
    ];
    are_found("order", &faults);
    are_found("tables", &faults);
}

#[test]
fn faults_of_listings_by_key_are_found() {
    use Fault::*;
    let faults = [
        ListsNineFirst,
        ListsTwelveFirst,
        ListsRefusesLong,
        ListsExpired,
        ListsEqual,
        ListsBehind,
        ListsCutKey,
        ListsZeroAll,
        ListsOneMore,
        ListsWordOfMost,
        ListsNoEnd,
        ListsNeedsOneMore,
        ListsWithHeader,
        ListsPart,
    ];
    are_found("order", &faults);
}

#[test]
fn many_connections_are_served_alike() {
    all_given(&sound_rounds("many", 6), &[GOOD, 12, 13]);
}

#[test]
fn faults_of_many_connections_are_found() {
    use Fault::*;
    let faults = [
        ManySwapsShares,
        ManyFromStart,
        ManyOverwrites,
        ManyBulkRefused,
        ManyNoTable,
        ManyEndCut,
        ManyAnyOrder,
        ManyStopsAtRefused,
        ManyStopsAtFull,
        ManyShortList,
        ManyEndsFirst,
        ManyRoomFirst,
        ManyTableFirst,
        ManyTailIsLast,
        ManyEmptyDone,
        ManyWaitsTwelve,
        ManyTellsMore,
        RoomOneLess,
        StopsAtNine,
        BulkTwelveEndsStream,
        BulkTwelveInStream,
    ];
    are_found("many", &faults);
}

#[test]
fn versions_give_what_the_papers_say() {
    let counts = sound_rounds("versions", 8);
    all_given(&counts, &[GOOD, 0, 1, 2, 3, 4, 5, 6, 7, 8, 16]);
}

#[test]
fn faults_of_versions_in_requests_are_found() {
    use Fault::*;
    let faults = [
        TwentyHasTransaction,
        TwelveHasNoTransaction,
        ServesTwentyOne,
        FlagsAboveSeven,
        FlagsToSeven,
        NoKeysInTwenty,
    ];
    are_found("versions", &faults);
    are_found("messages", &faults);
    are_found("serving", &faults);
}

#[test]
fn faults_of_versions_in_serving_are_found() {
    use Fault::*;
    let faults = [
        TwentyAnswersAsTwelve,
        TwelveAnswersAsTwenty,
        FlagsAsWhole,
        AbsentIsThree,
        EmptyIsAbsent,
        ConflictHidesValue,
        FourIsThree,
        ValueSteersStatus,
        ThreeCountsNot,
    ];
    are_found("versions", &faults);
    are_found("serving", &faults);
    are_found("streams", &faults);
    is_found("serving", EightIsDefault);
    is_found("dates", EightIsDefault);
    is_found("statistics", ThreeCountsNot);
    is_found("values", ValueSteersStatus);
}

#[test]
fn faults_of_versions_in_replies_are_found() {
    use Fault::*;
    let faults = [
        LooksBeforeVersion,
        ReadsAnyVersion,
        ThreeInTwelve,
        PlainInTwenty,
        KeysReplyInTen,
        WritesAnyVersion,
        WritesPlainInTwenty,
        WritesKeysInTen,
    ];
    are_found("versions", &faults);
    are_found("messages", &faults);
    is_found("versions", FourBeforeThree);
}

#[test]
fn faults_of_entries_that_expire_are_found() {
    use Fault::*;
    let faults = [
        EqualStands,
        BoundEqualSkips,
        PresentIsCall,
        LatestFalls,
        RefusedSweeps,
        RefusedMovesSecond,
        ElevenSweeps,
        BulkTwelveSweeps,
        UnservedMovesSecond,
        TenCountsExpired,
        DeadlineFromCall,
        PastIsGoneAtOnce,
        PastTakesNoVersion,
        PastIsNow,
        ReusesVersions,
        BulkShowsExpired,
        StatsCountExpired,
        TimeByPresent,
        BoundTooHigh,
        WriteKeepsBound,
    ];
    are_found("expiry", &faults);
    are_found("serving", &faults);
    are_found("streams", &faults);
}

#[test]
fn faults_of_seconds_in_tables_and_files_are_found() {
    use Fault::*;
    let checks = [BoundUnchecked, LatestUnchecked, FirstUnchecked];
    are_found("tables", &checks);
    are_found("expiry", &checks);
    are_found("stored", &checks);
    let files = [
        StoresExpired,
        StoresEqual,
        StoresLastStanding,
        LoadKeepsLatest,
    ];
    are_found("stored", &files);
    are_found("expiry", &files);
    is_found("statistics", LoadKeepsLatest);
}

#[test]
fn faults_of_listings_are_found() {
    use Fault::*;
    let faults = [
        BulkCountIgnored,
        BulkOneMore,
        BulkHighest,
        BulkByKey,
        BulkByRow,
        BulkHidesDated,
        BulkFits,
        BulkRoomOneMore,
        BulkTwelveTakesNothing,
        BulkTwelveIsFirst,
        NineBeforeBulkTwelve,
        BulkCounts,
        BulkNoEnd,
        BulkEndsWithOne,
    ];
    are_found("bulk", &faults);
    are_found("serving", &faults);
    are_found("bulk", &[KeysInEleven, ScopeThree]);
    are_found("messages", &[KeysInEleven, ScopeThree]);
}

#[test]
fn faults_of_bulk_requests_in_streams_are_found() {
    use Fault::*;
    let faults = [BulkTwelveInStream, BulkTwelveEndsStream];
    are_found("bulk", &faults);
    are_found("streams", &faults);
}

#[test]
fn faults_of_bulk_replies_are_found() {
    use Fault::*;
    let faults = [
        SixForMoreByte,
        Reads129,
        SixBehind129,
        EntriesOneLess,
        EntriesWithoutEnd,
        EntryPlacesFromPart,
        EntryNotAtEnd,
        EntrySkipsValue,
        EntryRefusedIsMore,
    ];
    are_found("bulk", &faults);
    are_found(
        "messages",
        &[SixForMoreByte, EntriesOneLess, EntriesWithoutEnd],
    );
}

#[test]
fn faults_of_writers_of_entries_are_found() {
    use Fault::*;
    let faults = [
        Writes129,
        PartsRefused,
        FewNumbersRefused,
        ValueWithKeys,
        EntriesRoomFirst,
        EntriesNeedOneMore,
    ];
    are_found("bulk", &faults);
    are_found("messages", &faults);
}

#[test]
fn values_that_leak_in_bulk_replies_are_found() {
    use Fault::*;
    are_found("bulk", &[ValueLeaksToEntry, EqualValueOnce]);
    are_found("values", &[ValueLeaksToEntry]);
}

#[test]
fn faults_of_statistics_are_found() {
    use Fault::*;
    let faults = [
        RefusedPutCounts,
        RefusedCallIsFirst,
        GetWithVersionCounts,
        LastCallIsFirst,
        ClearClearsCounts,
    ];
    are_found("serving", &faults);
    are_found("statistics", &faults);
    is_found("serving", CountWraps);
    is_found("values", ValueSteersCount);
    is_found("statistics", LoadKeepsCounts);
    is_found("stored", LoadKeepsCounts);
    is_found("tables", GreatCount);
}

#[test]
fn faults_of_stats_replies_are_found() {
    use Fault::*;
    let faults = [
        SwapsStatistics,
        TakesTenStatistics,
        LastNameUnread,
        TellsStatisticsAlways,
        ReadsLeadingZero,
        SevenForName,
        AnyNumberOfStatistics,
    ];
    are_found("messages", &faults);
}

#[test]
fn faults_of_keys_are_found() {
    use Fault::*;
    let faults = [
        ComparesFromFront,
        OnePairTooFew,
        CountsUnlikeLengths,
        EndingIsEqual,
        TellsInShortList,
    ];
    are_found("keys", &faults);
}

#[test]
fn faults_of_readers_are_found() {
    use Fault::*;
    let faults = [
        TakesOneMore,
        SixForFive,
        ShortIsMore,
        LengthOfOneByte,
        SpanOff,
        AnswersMore,
        AnswersInShortBuffer,
        IgnoresFlag,
        ReplyTextUnchecked,
        LooksBeforeOperation,
    ];
    are_found("messages", &faults);
}

#[test]
fn faults_of_writers_are_found() {
    use Fault::*;
    let faults = [
        WritesBehind,
        RoomBeforeRules,
        NeedsOneMore,
        CutsNumbers,
        WritesUnsentFields,
    ];
    are_found("messages", &faults);
}

#[test]
fn faults_of_serving_are_found() {
    use Fault::*;
    let faults = [
        OldValueAlways,
        VersionAtLeast,
        FullRefusesOverwrite,
        ClearRestarts,
        RemovalUsesVersion,
        DeadlineWraps,
        DateAtThirtyDays,
        DateIsAdded,
        DateBeatsFlag,
        LastVersionEarly,
        RefusedTouchesMemory,
        ReplyTouchesBehind,
        ServesAnyName,
        RoomOneLess,
        MoreTakes,
        LeavesOrder,
    ];
    are_found("serving", &faults);
}

#[test]
fn faults_of_streams_are_found() {
    use Fault::*;
    are_found("streams", &[StopsAtNine, CountsReplies, HidesTwelve]);
    is_found("tables", ChecksOnce);
}

#[test]
fn faults_of_deadlines_are_found() {
    use Fault::*;
    let faults = [DeadlineWraps, DateAtThirtyDays, DateIsAdded, DateBeatsFlag];
    are_found("dates", &faults);
    are_found("streams", &faults);
}

#[test]
fn faults_of_the_table_check_are_found() {
    use Fault::*;
    let faults = [
        EqualKeys,
        VersionZero,
        LateDeadline,
        LastTooLarge,
        VersionAboveLast,
        AnyOrder,
        PlacesBehind,
        PlaceCutToBits,
        LooksBehind,
        CountCutToByte,
        LengthCutToByte,
        MakesAnyLength,
    ];
    are_found("tables", &faults);
}

#[test]
fn values_that_steer_are_found() {
    use Fault::*;
    let faults = [
        ValueSteersReply,
        ValueSteersVersion,
        ValueLeaksToId,
        ValueLeaksToOther,
    ];
    are_found("values", &faults);
}

#[test]
fn faults_of_lines_are_found() {
    use Fault::*;
    let faults = [
        LongLineTwice,
        EndsAsRead,
        ServesBeforeFifteen,
        ChecksNoTable,
        LimitOneMore,
    ];
    are_found("lines", &faults);
}

#[test]
fn faults_of_stored_tables_are_found() {
    use Fault::*;
    let faults = [
        StoreNeedsOneMore,
        RoomBeforeTable,
        LoadsUpperCase,
        LoadsWithoutEnd,
        LoadTouchesOld,
        LoadsLateDeadline,
    ];
    are_found("stored", &faults);
}

#[test]
fn a_difference_is_told_in_full_and_can_be_played_again() {
    let part = part("serving");
    let mut echo = Echo::with(Fault::ServesAnyName);
    let found = (0..50).find_map(|round| play(&part, &mut echo, SEED, round).err());
    let text = found.expect("the fault is found").to_string();
    for word in [
        "expected: 9",
        "got: 256",
        "input: ",
        "table before: ",
        "seed: 11",
    ] {
        assert!(text.contains(word), "{word} is not in {text}");
    }
    let round = text.split("again 11 serving ").nth(1).expect("a round");
    let round = round.trim().parse().expect("a number");
    let again = play(&part, &mut echo, SEED, round).expect_err("a difference");
    assert_eq!(again.to_string(), text);
}

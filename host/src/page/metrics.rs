//! What a server counts, in the text form of Prometheus: the statistics that it
//! answers, and the host's own counts.

use std::fmt::Write;

use crate::counts::{get, Counts};
use crate::limits::STATISTICS;
use crate::refusals::TEXTS;

/// The name of each statistic, what it is, and what it counts.
const NAMES: [(&str, &str, &str); STATISTICS] = [
    (
        "first_call_age_seconds",
        "gauge",
        "Seconds since the first call.",
    ),
    ("entries", "gauge", "Entries that stand."),
    ("keys_added_total", "counter", "Writes that added a key."),
    ("puts_total", "counter", "Puts."),
    ("gets_total", "counter", "Gets."),
    ("get_hits_total", "counter", "Gets that found the key."),
    ("get_misses_total", "counter", "Gets that did not."),
    (
        "remove_hits_total",
        "counter",
        "Removes that found the key.",
    ),
    ("remove_misses_total", "counter", "Removes that did not."),
];

/// A metric with one number.
fn one(out: &mut String, (name, kind, help): (&str, &str, &str), value: impl std::fmt::Display) {
    head(out, name, kind, help);
    let _ = writeln!(out, "feyqoolad_{name} {value}");
}

fn head(out: &mut String, name: &str, kind: &str, help: &str) {
    let _ = writeln!(out, "# HELP feyqoolad_{name} {help}");
    let _ = writeln!(out, "# TYPE feyqoolad_{name} {kind}");
}

/// The statistics.
pub fn of_statistics(statistics: &[u64; STATISTICS]) -> String {
    let mut out = String::new();
    for (name, number) in NAMES.into_iter().zip(statistics) {
        one(&mut out, name, number);
    }
    out
}

/// The host's counts, and whether the server answers.
pub fn of_counts(counts: &Counts, answers: bool) -> String {
    let mut out = String::new();
    let help = "Whether the server answers its page; where not, its statistics are missing.";
    one(&mut out, ("answers", "gauge", help), u8::from(answers));
    for (name, kind, help, count) in [
        (
            "connections",
            "gauge",
            "Connections that are open.",
            &counts.open,
        ),
        (
            "connections_limit",
            "gauge",
            "Connections that may be open.",
            &counts.limit,
        ),
        (
            "connections_accepted_total",
            "counter",
            "Connections that were taken.",
            &counts.accepted,
        ),
        (
            "connections_refused_total",
            "counter",
            "Connections above the limit.",
            &counts.turned_away,
        ),
        (
            "connections_idle_total",
            "counter",
            "Connections that were closed since they were idle.",
            &counts.idle,
        ),
    ] {
        one(&mut out, (name, kind, help), get(count));
    }
    head(
        &mut out,
        "refusals_total",
        "counter",
        "Requests that were refused, by the number of the refusal.",
    );
    for ((at, text), count) in TEXTS.iter().enumerate().zip(counts.refusals()) {
        let number = at + 1;
        let _ = writeln!(
            out,
            "feyqoolad_refusals_total{{number=\"{number}\",text=\"{text}\"}} {count}"
        );
    }
    of_stores(&mut out, counts);
    out
}

fn of_stores(out: &mut String, counts: &Counts) {
    let (stores, failures, time) = counts.stores();
    let seconds = time.as_secs_f64();
    one(
        out,
        (
            "stores_total",
            "counter",
            "Times that the table was stored.",
        ),
        stores,
    );
    one(
        out,
        ("store_seconds_total", "counter", "Seconds that these took."),
        seconds,
    );
    one(
        out,
        (
            "store_failures_total",
            "counter",
            "Times that it could not be stored.",
        ),
        failures,
    );
    let help = "Whether the last try to store it failed.";
    one(
        out,
        ("store_failing", "gauge", help),
        u8::from(counts.is_failing()),
    );
    if let Some(age) = counts.age() {
        let help = "Seconds since it was last stored; a table that does not change is not stored.";
        one(
            out,
            ("last_store_age_seconds", "gauge", help),
            age.as_secs_f64(),
        );
    }
}

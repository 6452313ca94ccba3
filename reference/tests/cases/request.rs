use crate::help::{bare, bytes_of, digits, flagged, hex, request, versioned};
use reference::operation::*;
use reference::{
    read_limited, read_limited_text, read_request, read_version, write_request, Read, Request,
};

fn read(form: &str) -> Read<Request> {
    read_request(&hex(form))
}

#[test]
fn a_request_of_every_operation() {
    assert_eq!(
        read("a0 02 0a 01 00 00 01 00 00 02 6231 64 00 03 496461"),
        Read::Whole(
            Request {
                id: 2,
                lifespan: 100,
                ..request(PUT, b"b1", b"Ida")
            },
            18
        )
    );
    for operation in SERVED {
        let mut given = flagged(operation, b"key", b"value");
        if sends_entry_version(operation) {
            given.entry_version = u64::MAX;
        }
        let bytes = bytes_of(&given);
        assert_eq!(read_request(&bytes), Read::Whole(given, bytes.len()));
    }
}

#[test]
fn the_order_of_the_fields() {
    let given = Request {
        id: 128,
        version: 12,
        operation: REPLACE_IF_UNMODIFIED,
        name: b"cafe".to_vec(),
        flags: 7,
        intelligence: 3,
        topology: 300,
        key: b"K".to_vec(),
        lifespan: 1,
        max_idle: 2,
        entry_version: 3,
        value: b"V".to_vec(),
        bulk: 0,
    };
    let form = "a0 8001 0c 09 0463616665 07 03 ac02 00 014b 01 02 0000000000000003 0156";
    assert_eq!(digits(&bytes_of(&given)), digits(&hex(form)));
    assert_eq!(read(form), Read::Whole(given, hex(form).len()));
}

#[test]
fn refusals_in_field_order() {
    assert_eq!(read(""), Read::More);
    assert_eq!(read("a1"), Read::Refused(1));
    assert_eq!(read("00"), Read::Refused(1));
    assert_eq!(read("a0 8000"), Read::Refused(2));
    assert_eq!(read("a0 ffffffffffffffff80"), Read::Refused(2));
    assert_eq!(read("a0 01 09"), Read::Refused(3));
    assert_eq!(read("a0 01 0d"), Read::Refused(3));
    assert_eq!(read("a0 01 41 99"), Read::Refused(3));
    assert_eq!(read("a0 01 0a 1b"), Read::Refused(4));
    assert_eq!(read("a0 01 0a 1d"), Read::Refused(4));
    assert_eq!(read("a0 01 0b 1d"), Read::Refused(4));
    assert_eq!(read("a0 01 0a 02"), Read::Refused(4));
    assert_eq!(read("a0 01 0a 50"), Read::Refused(4));
    assert_eq!(read("a0 01 0a 17 8000"), Read::Refused(5));
    assert_eq!(read("a0 01 0a 17 21"), Read::Refused(6));
    assert_eq!(read("a0 01 0a 17 ffffffff0f"), Read::Refused(6));
    assert_eq!(read("a0 01 0a 17 ffffffff10"), Read::Refused(5));
    assert_eq!(read("a0 01 0a 17 01 c3"), Read::Refused(7));
    assert_eq!(read("a0 01 0a 17 02 c080"), Read::Refused(7));
    assert_eq!(read("a0 01 0a 17 03 eda080"), Read::Refused(7));
    assert_eq!(read("a0 01 0a 17 00 8000"), Read::Refused(5));
    assert_eq!(read("a0 01 0a 17 00 02"), Read::Refused(8));
    assert_eq!(read("a0 01 0b 17 00 02"), Read::Refused(8));
    assert_eq!(read("a0 01 0c 17 00 08"), Read::Refused(8));
    assert_eq!(read("a0 01 0c 17 00 8001"), Read::Refused(8));
    assert_eq!(read("a0 01 0a 17 00 00 00"), Read::Refused(8));
    assert_eq!(read("a0 01 0a 17 00 00 04"), Read::Refused(8));
    assert_eq!(read("a0 01 0a 17 00 00 01 ffffffff10"), Read::Refused(5));
    assert_eq!(read("a0 01 0a 17 00 00 01 00 01"), Read::Refused(8));
    assert_eq!(read("a0 01 0a 03 00 00 01 00 00 8000"), Read::Refused(5));
    assert_eq!(read("a0 01 0a 03 00 00 01 00 00 41"), Read::Refused(6));
    assert_eq!(read("a0 01 0a 01 00 00 01 00 00 00 8000"), Read::Refused(5));
    assert_eq!(
        read("a0 01 0a 01 00 00 01 00 00 00 00 8000"),
        Read::Refused(5)
    );
    assert_eq!(
        read("a0 01 0a 01 00 00 01 00 00 00 00 00 8102"),
        Read::Refused(6)
    );
    assert_eq!(
        read("a0 01 0a 01 00 00 01 00 00 00 00 00 8000"),
        Read::Refused(5)
    );
}

#[test]
fn a_field_not_whole_is_more_needed_even_if_no_ending_is_good() {
    assert_eq!(read("a0 01 0a 17 02 c0"), Read::More);
    assert_eq!(read("a0 01 0a 17 ff"), Read::More);
    assert_eq!(read("a0 01 0a 17 00 80"), Read::More);
    assert_eq!(read("a0 01 0a 17 80808080"), Read::More);
    assert_eq!(read("a0 01 0a 03 00 00 01 00 00 80"), Read::More);
}

#[test]
fn flags_of_every_version() {
    for version in [10, 11, 12] {
        for flags in 0..=9 {
            let good = if version == 12 {
                flags <= 7
            } else {
                flags <= 1
            };
            for operation in SERVED {
                let given = Request {
                    version,
                    flags,
                    ..bare(operation)
                };
                let mut out = [0; 64];
                let good = good && serves(version, operation);
                assert_eq!(write_request(&given, &mut out).is_ok(), good);
            }
        }
    }
}

#[test]
fn limits_of_name_key_and_value() {
    let name = |length| Request {
        name: vec![b'n'; length],
        ..bare(PING)
    };
    let key = |length| request(GET, &vec![1; length], b"");
    let value = |length| request(PUT, b"", &vec![0xff; length]);
    for (good, bad) in [
        (name(32), name(33)),
        (key(64), key(65)),
        (value(256), value(257)),
    ] {
        let bytes = bytes_of(&good);
        assert_eq!(read_request(&bytes), Read::Whole(good, bytes.len()));
        assert_eq!(write_request(&bad, &mut [0; 1000]), Err(16));
        assert_eq!(write_request(&bad, &mut []), Err(16));
    }
    let wire = |front: &str, length: usize| [hex(front), vec![b'a'; length]].concat();
    assert_eq!(read_request(&wire("a0010a17 21", 33)), Read::Refused(6));
    assert_eq!(
        read_request(&wire("a0010a030000010000 41", 65)),
        Read::Refused(6)
    );
    assert_eq!(
        read_request(&wire("a0010a01000001000000 0000 8102", 257)),
        Read::Refused(6)
    );
}

#[test]
fn the_longest_request_and_all_its_beginnings() {
    let longest = Request {
        id: i64::MAX as u64,
        version: 12,
        operation: REPLACE_IF_UNMODIFIED,
        name: vec![b'n'; 32],
        flags: 7,
        intelligence: 3,
        topology: u32::MAX,
        key: vec![0xa0; 64],
        lifespan: u32::MAX,
        max_idle: u32::MAX,
        entry_version: u64::MAX,
        value: vec![0xff; 256],
        bulk: 0,
    };
    let bytes = bytes_of(&longest);
    assert_eq!(bytes.len(), 394);
    for end in 0..bytes.len() {
        assert_eq!(read_request(&bytes[..end]), Read::More);
    }
    assert_eq!(read_request(&bytes), Read::Whole(longest, 394));
}

#[test]
fn bytes_behind_a_request_are_not_used() {
    let mut bytes = bytes_of(&bare(PING));
    bytes.extend([0xa0, 0xff, 0x00]);
    assert_eq!(read_request(&bytes), Read::Whole(bare(PING), 9));
}

#[test]
fn writing_refuses_16_before_12_and_keeps_the_buffer() {
    let good = request(PUT, b"k", b"v");
    let length = bytes_of(&good).len();
    let mut out = vec![7; length - 1];
    assert_eq!(write_request(&good, &mut out), Err(12));
    assert_eq!(out, vec![7; length - 1]);
    let mut out = vec![7; length];
    assert_eq!(write_request(&good, &mut out), Ok(length));
    let mut out = vec![7; length + 3];
    assert_eq!(write_request(&good, &mut out), Ok(length));
    assert_eq!(out[length..], [7; 3]);
    let bad = Request {
        version: 13,
        ..good
    };
    assert_eq!(write_request(&bad, &mut []), Err(16));
}

#[test]
fn every_broken_rule_is_16() {
    let put = request(PUT, b"k", b"v");
    let broken = [
        Request {
            id: 1 << 63,
            ..put.clone()
        },
        Request {
            version: 9,
            ..put.clone()
        },
        Request {
            operation: 0x1b,
            ..put.clone()
        },
        Request {
            operation: 0x02,
            ..put.clone()
        },
        Request {
            name: hex("c3"),
            ..put.clone()
        },
        Request {
            flags: 2,
            ..put.clone()
        },
        Request {
            intelligence: 0,
            ..put.clone()
        },
        Request {
            intelligence: 4,
            ..put.clone()
        },
        Request {
            entry_version: 1,
            ..put.clone()
        },
        Request {
            key: b"k".to_vec(),
            ..bare(PING)
        },
        Request {
            key: b"k".to_vec(),
            ..bare(CLEAR)
        },
        Request {
            value: b"v".to_vec(),
            ..bare(GET)
        },
        Request {
            lifespan: 1,
            ..bare(REMOVE)
        },
        Request {
            max_idle: 1,
            ..bare(REMOVE_IF_UNMODIFIED)
        },
        Request {
            value: b"v".to_vec(),
            ..bare(REMOVE_IF_UNMODIFIED)
        },
        Request {
            entry_version: 1,
            ..bare(GET_WITH_VERSION)
        },
    ];
    for given in broken {
        let mut out = [9; 600];
        assert_eq!(write_request(&given, &mut out), Err(16), "{given:?}");
        assert_eq!(out, [9; 600]);
    }
}

#[test]
fn another_cache_and_any_entry_version_are_written() {
    let named = Request {
        name: "café".as_bytes().to_vec(),
        ..bare(PING)
    };
    let bytes = bytes_of(&named);
    assert_eq!(read_request(&bytes), Read::Whole(named, bytes.len()));
    for version in [0, 1, 1 << 63, u64::MAX] {
        let given = versioned(REMOVE_IF_UNMODIFIED, b"k", b"", version);
        let bytes = bytes_of(&given);
        assert_eq!(read_request(&bytes), Read::Whole(given, bytes.len()));
    }
}

#[test]
fn single_fields() {
    assert_eq!(
        read_limited(&hex("03 010203 04"), 3),
        Read::Whole(&[1, 2, 3][..], 4)
    );
    assert_eq!(read_limited(&hex("03 0102"), 3), Read::More);
    assert_eq!(read_limited(&hex("04"), 3), Read::Refused(6));
    assert_eq!(read_limited(&hex("8000"), 3), Read::Refused(5));
    assert_eq!(read_limited(&hex("00"), 0), Read::Whole(&[][..], 1));
    assert_eq!(read_limited_text(&hex("01c3"), 9), Read::Refused(7));
    assert_eq!(read_limited_text(&hex("02c3"), 9), Read::More);
    assert_eq!(
        read_limited_text(&hex("02c3a9"), 9),
        Read::Whole(&[0xc3, 0xa9][..], 3)
    );
    assert_eq!(
        read_version(&hex("0000000000000102 ff")),
        Read::Whole(258, 8)
    );
    assert_eq!(
        read_version(&hex("ffffffffffffffff")),
        Read::Whole(u64::MAX, 8)
    );
    assert_eq!(read_version(&hex("00000000000001")), Read::More);
}

use crate::help::{asked, digits, hex};
use reference::operation::*;
use reference::{error_reply, read_reply, write_reply, Read, Reply};

fn reply(op: u8, status: u8, value: &[u8]) -> Reply {
    Reply {
        id: 1,
        operation: op + 1,
        status,
        value: value.to_vec(),
        ..Reply::default()
    }
}

fn error(status: u8, text: &[u8]) -> Reply {
    Reply {
        id: 1,
        operation: ERROR,
        status,
        text: text.to_vec(),
        ..Reply::default()
    }
}

fn written(op: u8, flag: bool, reply: &Reply) -> Result<String, u8> {
    let mut out = [0; 600];
    let length = write_reply(asked(op, flag), reply, &mut out)?;
    Ok(digits(&out[..length]))
}

fn read(op: u8, flag: bool, form: &str) -> Read<Reply> {
    read_reply(asked(op, flag), &hex(form))
}

#[test]
fn statuses_of_every_operation() {
    let listed = [
        (PUT, vec![0]),
        (PUT_IF_ABSENT, vec![0, 1]),
        (REPLACE, vec![0, 1]),
        (REPLACE_IF_UNMODIFIED, vec![0, 1, 2]),
        (REMOVE, vec![0, 2]),
        (REMOVE_IF_UNMODIFIED, vec![0, 1, 2]),
        (GET, vec![0, 2]),
        (GET_WITH_VERSION, vec![0, 2]),
        (CONTAINS_KEY, vec![0, 2]),
        (CLEAR, vec![0]),
        (PING, vec![0]),
    ];
    for (op, statuses) in listed {
        for status in 0..=255u8 {
            let good = statuses.contains(&status);
            let form = format!("a101{:02x}{status:02x}", op + 1);
            let answer = read(op, false, &form);
            assert_eq!(answer, if good { Read::More } else { Read::Refused(8) });
            assert_eq!(written(op, false, &reply(op, status, b"")).is_ok(), good);
        }
    }
}

#[test]
fn old_values_with_and_without_the_flag() {
    let any = [
        (PUT, 0),
        (PUT_IF_ABSENT, 1),
        (REPLACE, 0),
        (REPLACE_IF_UNMODIFIED, 0),
        (REMOVE, 0),
        (REMOVE_IF_UNMODIFIED, 0),
    ];
    for (op, status) in any {
        let header = format!("a101{:02x}{status:02x}00", op + 1);
        let given = reply(op, status, b"Ida");
        assert_eq!(
            written(op, true, &given).unwrap(),
            format!("{header}03496461")
        );
        assert_eq!(
            read(op, true, &format!("{header}03496461")),
            Read::Whole(given.clone(), 9)
        );
        assert_eq!(written(op, false, &given), Err(16));
        assert_eq!(
            written(op, true, &reply(op, status, b"")).unwrap(),
            format!("{header}00")
        );
        assert_eq!(written(op, true, &reply(op, status, &[0; 257])), Err(16));
        assert_eq!(read(op, true, &format!("{header}8102")), Read::Refused(6));
        assert_eq!(read(op, true, &format!("{header}8000")), Read::Refused(5));
        assert_eq!(read(op, true, &header), Read::More);
        assert_eq!(
            read(op, false, &header),
            Read::Whole(reply(op, status, b""), 5)
        );
    }
}

#[test]
fn old_values_that_must_be_empty() {
    let empty = [
        (PUT_IF_ABSENT, 0),
        (REPLACE, 1),
        (REPLACE_IF_UNMODIFIED, 1),
        (REPLACE_IF_UNMODIFIED, 2),
        (REMOVE, 2),
        (REMOVE_IF_UNMODIFIED, 1),
        (REMOVE_IF_UNMODIFIED, 2),
    ];
    for (op, status) in empty {
        let header = format!("a101{:02x}{status:02x}00", op + 1);
        let given = reply(op, status, b"");
        assert_eq!(written(op, true, &given).unwrap(), format!("{header}00"));
        assert_eq!(
            read(op, true, &format!("{header}00")),
            Read::Whole(given.clone(), 6)
        );
        assert_eq!(read(op, true, &header), Read::More);
        assert_eq!(read(op, true, &format!("{header}01")), Read::Refused(6));
        assert_eq!(read(op, true, &format!("{header}80")), Read::More);
        assert_eq!(read(op, true, &format!("{header}8000")), Read::Refused(5));
        assert_eq!(written(op, true, &reply(op, status, b"x")), Err(16));
        assert_eq!(written(op, false, &given).unwrap(), header);
    }
}

#[test]
fn bodies_of_the_reading_operations() {
    for flag in [false, true] {
        assert_eq!(
            written(GET, flag, &reply(GET, 0, b"A")).unwrap(),
            "a1010400000141"
        );
        assert_eq!(
            written(GET, flag, &reply(GET, 2, b"")).unwrap(),
            "a101040200"
        );
        assert_eq!(written(GET, flag, &reply(GET, 2, b"A")), Err(16));
        let held = Reply {
            version: u64::MAX,
            ..reply(GET_WITH_VERSION, 0, b"A")
        };
        let form = "a101120000ffffffffffffffff0141";
        assert_eq!(written(GET_WITH_VERSION, flag, &held).unwrap(), form);
        assert_eq!(read(GET_WITH_VERSION, flag, form), Read::Whole(held, 15));
        assert_eq!(
            read(CONTAINS_KEY, flag, "a101100000"),
            Read::Whole(reply(CONTAINS_KEY, 0, b""), 5)
        );
        assert_eq!(
            written(CONTAINS_KEY, flag, &reply(CONTAINS_KEY, 0, b"A")),
            Err(16)
        );
        assert_eq!(
            written(PING, flag, &reply(PING, 0, b"")).unwrap(),
            "a101180000"
        );
        assert_eq!(
            written(CLEAR, flag, &reply(CLEAR, 0, b"")).unwrap(),
            "a101140000"
        );
    }
}

#[test]
fn refusals_in_field_order() {
    assert_eq!(read(PING, false, ""), Read::More);
    assert_eq!(read(PING, false, "a0"), Read::Refused(1));
    assert_eq!(read(PING, false, "a18000"), Read::Refused(2));
    assert_eq!(read(PING, false, "a1ffffffffffffffffff"), Read::Refused(2));
    assert_eq!(read(PING, false, "a10117"), Read::Refused(4));
    assert_eq!(read(PING, false, "a10114"), Read::Refused(4));
    assert_eq!(read(PING, false, "a10150 00"), Read::Refused(8));
    assert_eq!(read(PING, false, "a10150 80"), Read::Refused(8));
    assert_eq!(read(PING, false, "a10150 87"), Read::Refused(8));
    assert_eq!(read(PING, false, "a10118 81"), Read::Refused(8));
    assert_eq!(read(PING, false, "a10118 00 01"), Read::Refused(8));
    assert_eq!(read(PING, false, "a10150 81 01"), Read::Refused(8));
    assert_eq!(read(PING, false, "a10150 81 00 8000"), Read::Refused(5));
    assert_eq!(read(PING, false, "a10150 81 00 41"), Read::Refused(6));
    assert_eq!(read(PING, false, "a10150 81 00 02 c0"), Read::More);
    assert_eq!(read(PING, false, "a10150 81 00 02 c080"), Read::Refused(7));
}

#[test]
fn an_operation_not_served_is_4_before_any_byte() {
    for op in [0x00, 0x02, 0x14, 0x1b, 0x50, 0xff] {
        assert_eq!(read(op, false, ""), Read::Refused(4));
        assert_eq!(read(op, true, "a1015081000161"), Read::Refused(4));
        assert_eq!(read(op, false, "00"), Read::Refused(4));
        assert_eq!(written(op, false, &error(0x81, b"a")), Err(16));
    }
}

#[test]
fn errors_are_free_in_text_and_status() {
    for op in SERVED {
        for status in 0x81..=0x86 {
            for text in [&b""[..], b"full", &[b't'; 64]] {
                let given = error(status, text);
                let form = written(op, true, &given).unwrap();
                assert_eq!(read(op, true, &form), Read::Whole(given, form.len() / 2));
            }
        }
        assert_eq!(written(op, false, &error(0x81, &[b't'; 65])), Err(16));
        assert_eq!(written(op, false, &error(0x81, &[0xc3])), Err(16));
        assert_eq!(written(op, false, &error(0x80, b"")), Err(16));
        assert_eq!(written(op, false, &error(0x00, b"")), Err(16));
        assert_eq!(written(op, false, &error(0x87, b"")), Err(16));
    }
}

#[test]
fn fields_that_are_not_sent_are_16() {
    let put = reply(PUT, 0, b"");
    assert_eq!(
        written(
            PUT,
            false,
            &Reply {
                version: 1,
                ..put.clone()
            }
        ),
        Err(16)
    );
    assert_eq!(
        written(
            PUT,
            true,
            &Reply {
                version: 1,
                ..put.clone()
            }
        ),
        Err(16)
    );
    assert_eq!(
        written(
            PUT,
            false,
            &Reply {
                text: b"a".to_vec(),
                ..put.clone()
            }
        ),
        Err(16)
    );
    assert_eq!(
        written(
            PUT,
            false,
            &Reply {
                id: 1 << 63,
                ..put.clone()
            }
        ),
        Err(16)
    );
    assert_eq!(written(GET, false, &put), Err(16));
    let absent = reply(GET_WITH_VERSION, 2, b"");
    assert_eq!(
        written(
            GET_WITH_VERSION,
            false,
            &Reply {
                version: 1,
                ..absent
            }
        ),
        Err(16)
    );
    let fault = error(0x85, b"full");
    assert_eq!(
        written(
            PUT,
            true,
            &Reply {
                value: b"a".to_vec(),
                ..fault.clone()
            }
        ),
        Err(16)
    );
    assert_eq!(
        written(
            PUT,
            true,
            &Reply {
                version: 1,
                ..fault
            }
        ),
        Err(16)
    );
}

#[test]
fn the_longest_reply_and_all_its_beginnings() {
    let longest = Reply {
        id: i64::MAX as u64,
        version: 1,
        ..reply(GET_WITH_VERSION, 0, &[0xff; 256])
    };
    let mut out = [5; 300];
    assert_eq!(
        write_reply(asked(GET_WITH_VERSION, false), &longest, &mut out),
        Ok(279)
    );
    assert_eq!(out[279..], [5; 21]);
    for end in 0..279 {
        assert_eq!(
            read_reply(asked(GET_WITH_VERSION, false), &out[..end]),
            Read::More
        );
    }
    assert_eq!(
        read_reply(asked(GET_WITH_VERSION, false), &out),
        Read::Whole(longest.clone(), 279)
    );
    let mut short = [5; 278];
    assert_eq!(
        write_reply(asked(GET_WITH_VERSION, false), &longest, &mut short),
        Err(12)
    );
    assert_eq!(short, [5; 278]);
    let bad = Reply {
        status: 1,
        ..longest
    };
    assert_eq!(
        write_reply(asked(GET_WITH_VERSION, false), &bad, &mut short),
        Err(16)
    );
}

#[test]
fn the_error_reply_of_every_refusal() {
    let expected = [
        (1, 0x81, "bad magic"),
        (2, 0x81, "bad message id"),
        (3, 0x83, "bad version"),
        (4, 0x82, "bad command"),
        (5, 0x84, "bad number"),
        (6, 0x84, "too long"),
        (7, 0x84, "bad text"),
        (8, 0x84, "bad field"),
        (9, 0x85, "no such cache"),
        (10, 0x85, "full"),
        (11, 0x85, "no versions left"),
    ];
    for (number, status, text) in expected {
        assert_eq!(error_reply(1, number), Some(error(status, text.as_bytes())));
    }
    for number in [0, 12, 13, 14, 15, 16, 17, 18, 255] {
        assert_eq!(error_reply(1, number), None);
    }
}

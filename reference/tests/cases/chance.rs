//! Many inputs made by a simple generator: no call panics, and what is read
//! is written again as it was read.

use crate::help::*;
use reference::operation::*;
use reference::*;

/// A simple generator of numbers.
struct Dice(u64);

impl Dice {
    fn roll(&mut self, below: u64) -> u64 {
        self.0 = self
            .0
            .wrapping_mul(6_364_136_223_846_793_005)
            .wrapping_add(1_442_695_040_888_963_407);
        (self.0 >> 33) % below
    }

    fn bytes(&mut self, most: u64) -> Vec<u8> {
        let length = self.roll(most + 1);
        (0..length).map(|_| self.roll(256) as u8).collect()
    }

    fn request(&mut self) -> Request {
        let operation = SERVED[self.roll(SERVED.len() as u64) as usize];
        let key = vec![self.roll(6) as u8; self.roll(3) as usize];
        let value = self.bytes(5);
        let mut given = request(operation, &key, &value);
        given.id = self.roll(1 << 30) << self.roll(33);
        let version = VERSIONS[self.roll(4) as usize];
        if serves(version, operation) {
            given.version = version;
        }
        given.flags = self.roll(u64::from(greatest_flags(given.version)) + 1) as u32;
        given.intelligence = 1 + self.roll(3) as u8;
        if sends_value(operation) {
            given.lifespan = self.roll(1000) as u32;
        }
        if sends_entry_version(operation) {
            given.entry_version = self.roll(12);
        }
        if let Some(greatest) = greatest_bulk(operation) {
            given.bulk = self.roll(u64::from(greatest.min(9)) + 1) as u32;
        }
        if self.roll(12) == 0 {
            given.name = b"x".to_vec();
        }
        given
    }

    /// A good request with up to three bytes changed, and perhaps cut.
    fn broken(&mut self) -> Vec<u8> {
        let mut bytes = bytes_of(&self.request());
        for _ in 0..self.roll(4) {
            let at = self.roll(bytes.len() as u64) as usize;
            bytes[at] = self.roll(256) as u8;
        }
        if self.roll(4) == 0 {
            bytes.truncate(self.roll(bytes.len() as u64) as usize);
        }
        bytes
    }
}

#[test]
fn what_is_read_is_written_as_read() {
    let mut dice = Dice(1);
    for _ in 0..40_000 {
        let bytes = dice.broken();
        if let Read::Whole(request, taken) = read_request(&bytes) {
            assert_eq!(bytes_of(&request), bytes[..taken]);
        }
    }
}

#[test]
fn replies_read_are_written_as_read() {
    let mut dice = Dice(2);
    let mut whole = 0;
    for _ in 0..200_000 {
        let op = SERVED[dice.roll(SERVED.len() as u64) as usize];
        let asked = Asked {
            version: VERSIONS[dice.roll(4) as usize],
            op,
            flag: dice.roll(2) == 1,
        };
        let code = if dice.roll(4) == 0 { ERROR } else { op + 1 };
        let status = if code == ERROR { 0x81 } else { 0 } + dice.roll(5) as u8;
        let mut bytes = vec![
            0xa1,
            dice.roll(128) as u8,
            code,
            status,
            dice.roll(9) as u8 / 8,
        ];
        bytes.extend(dice.bytes(3).iter().map(|byte| byte % 4));
        bytes.extend(dice.bytes(9));
        if let Read::Whole(reply, taken) = read_reply(asked, &bytes) {
            let mut out = [0; 300];
            assert_eq!(write_reply(asked, &reply, &mut out), Ok(taken));
            assert_eq!(out[..taken], bytes[..taken]);
            whole += 1;
        }
    }
    assert!(whole > 10_000);
}

#[test]
fn serving_is_reading_and_stepping_and_writing() {
    let mut dice = Dice(3);
    let mut table = Table::default();
    for _ in 0..40_000 {
        let bytes = dice.broken();
        let second = dice.roll(1 << 32) as u32;
        let before = table.clone();
        let mut room = vec![0xee; [512, 512, 41_599, 41_600][dice.roll(4) as usize]];
        let answer = serve(&bytes, &mut table, second, &mut room);
        assert!(is_table(&table));
        assert!(room[answer.reply_len..].iter().all(|byte| *byte == 0xee));
        let sent = &room[..answer.reply_len];
        match read_request(&bytes) {
            Read::More => assert_eq!((answer.verdict, answer.reply_len), (Verdict::More, 0)),
            Read::Refused(number) => {
                assert_eq!(
                    (answer.verdict, answer.taken),
                    (Verdict::Refused(number), 0)
                );
                assert_eq!(table, before);
                assert_eq!(&sent[..1], [0xa1]);
            }
            Read::Whole(request, taken)
                if greatest_bulk(request.operation).is_some() && room.len() < 41_600 =>
            {
                assert_eq!((answer.taken, answer.reply_len), (taken, 0));
                assert_eq!(answer.verdict, Verdict::Refused(12));
                assert_eq!(table, before);
            }
            Read::Whole(request, taken) => {
                assert_eq!(answer.taken, taken);
                let read = read_reply(request.asked(), sent);
                let mut again = before.clone();
                match step(&request, second, &mut again) {
                    Ok(reply) => assert_eq!(read, Read::Whole(reply, sent.len())),
                    Err(number) => {
                        let error = error_reply(request.id, number).unwrap();
                        assert_eq!(read, Read::Whole(error, sent.len()));
                    }
                }
                assert_eq!(again, table);
            }
        }
    }
}

#[test]
fn a_stream_is_the_steps_of_its_requests() {
    let mut dice = Dice(4);
    for _ in 0..500 {
        let requests: Vec<Request> = (0..dice.roll(30)).map(|_| dice.request()).collect();
        let mut input: Vec<u8> = requests.iter().flat_map(bytes_of).collect();
        let length = input.len();
        input.push(0xff);
        let mut expected = Table::default();
        for request in &requests {
            let _ = step(request, 8, &mut expected);
        }
        let mut table = Table::default();
        let mut room = vec![0; 41_600 * (requests.len() + 1)];
        let answer = serve_stream(&input, &mut table, 8, &mut room);
        assert_eq!(
            (answer.taken, answer.answered),
            (length, requests.len() + 1)
        );
        assert_eq!(answer.verdict, Verdict::Refused(1));
        assert_eq!(table, expected);
        assert_eq!(load(&store(&table)), Some(contents(&table)));
    }
}

#[test]
fn no_bytes_make_a_reader_panic() {
    let mut dice = Dice(5);
    for _ in 0..40_000 {
        let bytes = dice.bytes(40);
        let _ = read_request(&bytes);
        let _ = read_reply(asked(dice.roll(256) as u8, dice.roll(2) == 0), &bytes);
        let _ = serve_line(&bytes, &mut Table::default());
        let _ = load(&bytes);
        let _ = is_text(&bytes);
        let _ = read_limited(&bytes, dice.roll(300) as usize);
        let _ = read_number(&bytes, dice.roll(12) as usize);
    }
}

//! A file of request lines, and the reply lines to it.

use std::io::{self, BufRead, Write};

use crate::fields::Read;
use crate::hex::{from_digits, to_digits};
use crate::map::Table;
use crate::reply::error_bytes;
use crate::request::read_request;
use crate::serve::{answer_request, error_id};

/// The one byte that ends a line.
pub const LINE_END: u8 = 0x0a;
/// The most characters of a request line, its end not counted.
pub const LINE_LIMIT: usize = 1024;
/// The number of digits of the second.
const SECOND_DIGITS: usize = 8;

/// The second and the frame of a line, or nothing if the line is not of the
/// form.
fn parse_line(line: &[u8]) -> Option<(u32, Vec<u8>)> {
    if line.len() > LINE_LIMIT || line.get(SECOND_DIGITS) != Some(&b' ') {
        return None;
    }
    let mut second: u32 = 0;
    for byte in from_digits(&line[..SECOND_DIGITS])? {
        second = second * 256 + u32::from(byte);
    }
    let frame = from_digits(&line[SECOND_DIGITS + 1..])?;
    Some((second, frame))
}

/// Serves one request line and gives the reply line, both without line end.
/// The order is 14, 1 to 8, 15, then the rest.
pub fn serve_line(line: &[u8], table: &mut Table) -> Vec<u8> {
    let Some((second, frame)) = parse_line(line) else {
        return b"refused 14".to_vec();
    };
    match read_request(&frame) {
        Read::Refused(number) => to_digits(&error_bytes(error_id(number, &frame), number)),
        Read::Whole(request, taken) if taken == frame.len() => {
            let (message, _) = answer_request(&request, second, table);
            to_digits(&message)
        }
        // The frame is cut, or bytes stand behind it.
        Read::More | Read::Whole(_, _) => b"refused 15".to_vec(),
    }
}

/// The lines of a file, without their ends. Behind the last line end there is
/// no further line.
pub fn lines_of(file: &[u8]) -> Vec<&[u8]> {
    let mut lines: Vec<&[u8]> = file.split(|byte| *byte == LINE_END).collect();
    if lines.last() == Some(&&b""[..]) {
        lines.pop();
    }
    lines
}

/// Serves all lines of a file from a fresh table.
pub fn serve_lines(file: &[u8]) -> Vec<u8> {
    let mut table = Table::default();
    let mut out = Vec::new();
    for line in lines_of(file) {
        out.extend(serve_line(line, &mut table));
        out.push(LINE_END);
    }
    out
}

/// Reads the next line into `line`, without its end, and says whether there
/// was one. Of a line that is too long only the front is kept, one character
/// more than the limit, so that it is still seen to be too long.
fn next_line(input: &mut impl BufRead, line: &mut Vec<u8>) -> io::Result<bool> {
    line.clear();
    let mut any = false;
    loop {
        let part = input.fill_buf()?;
        if part.is_empty() {
            return Ok(any);
        }
        any = true;
        let end = part.iter().position(|byte| *byte == LINE_END);
        let length = end.unwrap_or(part.len());
        let room = LINE_LIMIT + 1 - line.len();
        line.extend_from_slice(&part[..length.min(room)]);
        if end.is_some() {
            input.consume(length + 1);
            return Ok(true);
        }
        input.consume(length);
    }
}

/// Serves the lines of a file as they are read, one at a time.
pub fn serve_reader(
    input: &mut impl BufRead,
    output: &mut impl Write,
    table: &mut Table,
) -> io::Result<()> {
    let mut line = Vec::new();
    while next_line(input, &mut line)? {
        let mut reply = serve_line(&line, table);
        reply.push(LINE_END);
        output.write_all(&reply)?;
    }
    Ok(())
}

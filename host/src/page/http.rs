//! As much of HTTP/1.1 as the page needs: the head of a request, and the head
//! of an answer, behind which the connection is closed.

use std::sync::Arc;

/// Bytes of a request's head at most.
pub const LONGEST_HEAD: usize = 8192;

/// What a visitor asks for.
#[derive(Clone, Copy, Debug, PartialEq, Eq)]
pub struct Request {
    pub wanted: Wanted,
    /// Whether the answer has a body: not the one to HEAD.
    pub with_body: bool,
}

#[derive(Clone, Copy, Debug, PartialEq, Eq)]
pub enum Wanted {
    Page,
    Style,
    Script,
    Icon,
    Data,
    Health,
    /// Nothing that there is.
    Refused(Refusal),
}

/// Why there is nothing for a visitor: the status and the words of the answer.
pub type Refusal = (u16, &'static str);

const LINES: Refusal = (400, "Bad request: lines have to end with CR LF.\n");
const FIRST: Refusal = (
    400,
    "Bad request: the first line has to be like 'GET / HTTP/1.1'.\n",
);
const FIELD: Refusal = (
    400,
    "Bad request: each line behind the first has to be like 'Name: value'.\n",
);
const CUT: Refusal = (400, "Bad request: its head is cut.\n");
const ABSENT: Refusal = (404, "Not found: there is nothing at this address.\n");
const METHOD: Refusal = (405, "Not allowed: there are only GET and HEAD here.\n");
const LONG: Refusal = (431, "The request's head is too long.\n");

/// The bytes of an answer behind its head.
pub enum Body {
    Fixed(&'static [u8]),
    Shared(Arc<[u8]>),
}

impl Body {
    pub fn bytes(&self) -> &[u8] {
        match self {
            Body::Fixed(bytes) => bytes,
            Body::Shared(bytes) => bytes,
        }
    }
}

/// The request at the front of these bytes, if its head is whole or can't
/// become a good one. `ended` says that no more bytes come.
pub fn request(bytes: &[u8], ended: bool) -> Option<Request> {
    let end = bytes.windows(4).position(|four| four == b"\r\n\r\n");
    let found = match end {
        Some(end) => of_head(&bytes[..end]),
        None if !has_good_lines(bytes) => Err(LINES),
        None if bytes.len() >= LONGEST_HEAD => Err(LONG),
        None if ended && !bytes.is_empty() => Err(CUT),
        None => return None,
    };
    Some(found.unwrap_or_else(|refusal| Request {
        wanted: Wanted::Refused(refusal),
        with_body: true,
    }))
}

/// Whether CR and LF stand together, and there is no other control character
/// but the tab. A CR at the end may still get its LF.
fn has_good_lines(bytes: &[u8]) -> bool {
    let is_good = |at: usize| match bytes[at] {
        b'\r' => bytes.get(at + 1).is_none_or(|next| *next == b'\n'),
        b'\n' => at > 0 && bytes[at - 1] == b'\r',
        byte => byte >= b' ' || byte == b'\t',
    };
    (0..bytes.len()).all(is_good)
}

/// What a whole head asks for. The fields behind the first line make no
/// difference.
fn of_head(head: &[u8]) -> Result<Request, Refusal> {
    if !has_good_lines(head) {
        return Err(LINES);
    }
    let mut lines = head.split(|byte| *byte == b'\r');
    let first = lines.next().and_then(|line| std::str::from_utf8(line).ok());
    let parts: Vec<&str> = first.ok_or(FIRST)?.split(' ').collect();
    let [method, target, version] = parts[..] else {
        return Err(FIRST);
    };
    let is_method = !method.is_empty() && method.bytes().all(|byte| byte.is_ascii_alphabetic());
    let path = path_of(target).ok_or(FIRST)?;
    if !is_method || !matches!(version, "HTTP/1.1" | "HTTP/1.0") {
        return Err(FIRST);
    }
    if !lines.all(is_field) {
        return Err(FIELD);
    }
    if !matches!(method, "GET" | "HEAD") {
        return Err(METHOD);
    }
    let with_body = method == "GET";
    let wanted = at(path).unwrap_or(Wanted::Refused(ABSENT));
    Ok(Request { wanted, with_body })
}

/// The path of a target, which may stand behind the name of the server.
fn path_of(target: &str) -> Option<&str> {
    let is_graphic = target.bytes().all(|byte| byte.is_ascii_graphic());
    let named = target
        .get(..7)
        .filter(|scheme| scheme.eq_ignore_ascii_case("http://"));
    let path = match named {
        Some(_) => target[7..]
            .find(['/', '?'])
            .map_or("/", |at| &target[7 + at..]),
        None => target,
    };
    let path = path.split('?').next().unwrap_or_default();
    let path = if named.is_some() && path.is_empty() {
        "/"
    } else {
        path
    };
    (is_graphic && path.starts_with('/')).then_some(path)
}

/// Whether a line, whose LF is at its front, has a name before a colon.
fn is_field(line: &[u8]) -> bool {
    let is_token = |byte: &u8| byte.is_ascii_alphanumeric() || b"!#$%&'*+-.^_`|~".contains(byte);
    match line.iter().position(|byte| *byte == b':') {
        Some(colon) => colon > 1 && line[1..colon].iter().all(is_token),
        None => false,
    }
}

/// What there is at a path.
fn at(path: &str) -> Option<Wanted> {
    match path {
        "/" => Some(Wanted::Page),
        "/page.css" => Some(Wanted::Style),
        "/page.js" => Some(Wanted::Script),
        "/favicon.svg" | "/favicon.ico" => Some(Wanted::Icon),
        "/data" => Some(Wanted::Data),
        "/health" => Some(Wanted::Health),
        _ => None,
    }
}

/// The words for a status.
fn reason(status: u16) -> &'static str {
    match status {
        200 => "OK",
        400 => "Bad Request",
        404 => "Not Found",
        405 => "Method Not Allowed",
        431 => "Request Header Fields Too Large",
        _ => "Service Unavailable",
    }
}

/// What every answer says: nothing is kept, nothing is taken from elsewhere,
/// nobody else may frame it or load it, and no kind is guessed.
const ALWAYS: &str = "Allow: GET, HEAD\r
Cache-Control: no-store\r
Connection: close\r
Content-Security-Policy: default-src 'none'; script-src 'self'; style-src 'self'; img-src 'self'; connect-src 'self'; base-uri 'none'; form-action 'none'; frame-ancestors 'none'\r
Cross-Origin-Opener-Policy: same-origin\r
Cross-Origin-Resource-Policy: same-origin\r
Referrer-Policy: no-referrer\r
X-Content-Type-Options: nosniff\r
X-Frame-Options: DENY\r
\r
";

/// The head of an answer.
pub fn head(status: u16, kind: &str, length: usize) -> Vec<u8> {
    let reason = reason(status);
    format!("HTTP/1.1 {status} {reason}\r\nContent-Type: {kind}\r\nContent-Length: {length}\r\n{ALWAYS}")
        .into_bytes()
}

#[cfg(test)]
mod tests {
    use super::*;

    /// What is wanted by these bytes, with the status of a refusal.
    fn wanted(bytes: &[u8], ended: bool) -> Option<Result<Wanted, u16>> {
        request(bytes, ended).map(|request| match request.wanted {
            Wanted::Refused((status, _)) => Err(status),
            wanted => Ok(wanted),
        })
    }

    #[test]
    fn heads_are_read() {
        let cases: [(&[u8], Option<Result<Wanted, u16>>); 29] = [
            (b"", None),
            (b"GET / HTTP/1.1\r\nHost: x\r\n", None),
            (b"GET / HTTP/1.1\r\nHost: x\r\n\r", None),
            (b"GET / HTTP/1.1\r\nHost: x\r\n\r\n", Some(Ok(Wanted::Page))),
            (b"GET /?x=1 HTTP/1.0\r\n\r\nmore\n", Some(Ok(Wanted::Page))),
            (b"GET /data HTTP/1.1\r\n\r\n", Some(Ok(Wanted::Data))),
            (b"GET /page.js HTTP/1.1\r\n\r\n", Some(Ok(Wanted::Script))),
            (b"GET /page.css HTTP/1.1\r\n\r\n", Some(Ok(Wanted::Style))),
            (b"GET /favicon.ico HTTP/1.1\r\n\r\n", Some(Ok(Wanted::Icon))),
            (b"GET /health HTTP/1.1\r\n\r\n", Some(Ok(Wanted::Health))),
            (b"HEAD / HTTP/1.1\r\n\r\n", Some(Ok(Wanted::Page))),
            (b"GET http://x HTTP/1.1\r\n\r\n", Some(Ok(Wanted::Page))),
            (
                b"GET HTTP://x:8/data?y HTTP/1.1\r\n\r\n",
                Some(Ok(Wanted::Data)),
            ),
            (
                b"GET http://x?y=/data HTTP/1.1\r\n\r\n",
                Some(Ok(Wanted::Page)),
            ),
            (b"GET https://x/ HTTP/1.1\r\n\r\n", Some(Err(400))),
            (b"GET /../x HTTP/1.1\r\n\r\n", Some(Err(404))),
            (b"GET /data/ HTTP/1.1\r\n\r\n", Some(Err(404))),
            (b"get / HTTP/1.1\r\n\r\n", Some(Err(405))),
            (b"GET  / HTTP/1.1\r\n\r\n", Some(Err(400))),
            (b"GET x HTTP/1.1\r\n\r\n", Some(Err(400))),
            (b"GET / HTTP/2\r\n\r\n", Some(Err(400))),
            (b"GET /\x80 HTTP/1.1\r\n\r\n", Some(Err(400))),
            (b"GET / HTTP/1.1\n", Some(Err(400))),
            (b"GET / HTTP/1.1\r\nHost: x\n\r\n\r\n", Some(Err(400))),
            (b"GET / HTTP/1.1\r\nHost\r\n\r\n", Some(Err(400))),
            (b"GET / HTTP/1.1\r\nX: y\r\n z\r\n\r\n", Some(Err(400))),
            (b"\x16\x03\x01", Some(Err(400))),
            (b"\r\n\r\n", Some(Err(400))),
            (&[b'x'; LONGEST_HEAD], Some(Err(431))),
        ];
        for (bytes, answer) in cases {
            assert_eq!(wanted(bytes, false), answer, "{}", bytes.escape_ascii());
        }
        assert_eq!(wanted(b"GET / HTTP/1.1\r\n", true), Some(Err(400)));
        assert_eq!(wanted(b"", true), None);
    }

    #[test]
    fn only_the_answer_to_head_has_no_body() {
        let cases: [(&[u8], bool); 3] = [
            (b"GET /data HTTP/1.1\r\n\r\n", true),
            (b"HEAD /data HTTP/1.1\r\n\r\n", false),
            (b"POST /data HTTP/1.1\r\n\r\n", true),
        ];
        for (bytes, with_body) in cases {
            let found = request(bytes, false).map(|request| request.with_body);
            assert_eq!(found, Some(with_body));
        }
    }
}

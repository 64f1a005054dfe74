//! Reads requests of HTTP/1.1 as `osv_service replay` does, in plain Rust over httparse.

use std::fs::File;
use std::io::{self, ErrorKind, Read, Write};
use std::mem::ManuallyDrop;
use std::os::fd::FromRawFd;

const MOST_HEAD: usize = 65_536;
const PIECE: usize = 16_384;
const MOST_BODY: u64 = 268_435_456;
/// How many requests are answered.
pub const MOST_REQUESTS: u64 = 1_000_000;

/// Why a request is refused: its status line, its number and its message.
pub struct Fault(pub &'static str, pub u8, pub String);

/// Why no request follows.
pub enum Stop {
    Refused(Fault),
    Ended,
    Truncated,
    Io,
}

impl From<io::Error> for Stop {
    fn from(_: io::Error) -> Stop {
        Stop::Io
    }
}

/// A request, its body among it.
pub struct Request {
    pub method: String,
    pub path: String,
    /// The value of the first `x-osv-min-snapshot`.
    pub least: Option<Vec<u8>>,
    pub close: bool,
    pub body: Vec<u8>,
    waits: bool,
    framing: Framing,
}

enum Framing {
    Sized(u64),
    Chunked,
}

/// The bytes that were read and that no request has taken yet.
pub struct Held {
    bytes: Vec<u8>,
    start: usize,
    end: usize,
}

impl Default for Held {
    fn default() -> Held {
        Held { bytes: vec![0; MOST_HEAD + PIECE], start: 0, end: 0 }
    }
}

impl Held {
    fn slice(&self) -> &[u8] {
        &self.bytes[self.start..self.end]
    }

    fn fill(&mut self, source: &mut impl Read) -> io::Result<usize> {
        if self.bytes.len() - self.end < PIECE {
            self.bytes.copy_within(self.start..self.end, 0);
            self.end -= self.start;
            self.start = 0;
        }
        loop {
            match source.read(&mut self.bytes[self.end..]) {
                Err(error) if error.kind() == ErrorKind::Interrupted => {}
                Err(error) => return Err(error),
                Ok(count) => {
                    self.end += count;
                    return Ok(count);
                }
            }
        }
    }
}

fn fault(line: &'static str, code: u8, message: &str) -> Stop {
    Stop::Refused(Fault(line, code, message.to_string()))
}

fn too_large() -> Stop {
    Stop::Refused(Fault("413 Content Too Large", 5, format!("body larger than {MOST_BODY}")))
}

/// Where the head ends: at the first empty line behind `from`.
fn head_end(bytes: &[u8], from: usize) -> Option<usize> {
    let mut at = from;
    while let Some(place) = bytes[at..].iter().position(|byte| *byte == b'\n') {
        at += place + 1;
        match &bytes[at..] {
            [b'\n', ..] => return Some(at + 1),
            [b'\r', b'\n', ..] => return Some(at + 2),
            _ => {}
        }
    }
    None
}

/// How many bytes of line ends stand in front.
fn line_ends(bytes: &[u8]) -> usize {
    let mut at = 0;
    loop {
        match &bytes[at..] {
            [b'\n', ..] => at += 1,
            [b'\r', b'\n', ..] => at += 2,
            _ => return at,
        }
    }
}

fn read_head(source: &mut impl Read, held: &mut Held) -> Result<Request, Stop> {
    let mut seen = 0;
    loop {
        let bytes = held.slice();
        let front = &bytes[..bytes.len().min(MOST_HEAD)];
        let skipped = line_ends(front);
        if let Some(end) = head_end(front, seen.max(skipped)) {
            let asked = judge(&front[skipped..end]);
            held.start += end;
            return asked;
        }
        if front.len() == MOST_HEAD {
            return Err(fault("431 Request Header Fields Too Large", 7, "request head too long"));
        }
        seen = front.len().saturating_sub(2);
        let nothing = skipped == front.len();
        if held.fill(source)? == 0 {
            return Err(if nothing { Stop::Ended } else { Stop::Truncated });
        }
    }
}

fn is_chunked(value: &[u8]) -> bool {
    value.eq_ignore_ascii_case(b"chunked")
}

fn length_of(value: &[u8]) -> Option<u64> {
    if value.is_empty() || value.len() > 19 || !value.iter().all(u8::is_ascii_digit) {
        return None;
    }
    Some(value.iter().fold(0, |sum, digit| sum * 10 + u64::from(digit - b'0')))
}

fn trim(mut text: &[u8]) -> &[u8] {
    while let [b' ' | b'\t', rest @ ..] = text {
        text = rest;
    }
    while let [rest @ .., b' ' | b'\t'] = text {
        text = rest;
    }
    text
}

fn judge(head: &[u8]) -> Result<Request, Stop> {
    let mut lines = [httparse::EMPTY_HEADER; 100];
    let mut request = httparse::Request::new(&mut lines);
    match request.parse(head) {
        Ok(httparse::Status::Complete(len)) if len == head.len() => {}
        _ => return Err(fault("400 Bad Request", 1, "bad request head")),
    }
    let minor = request.version.unwrap_or(0);
    let (mut lengths, mut length, mut same) = (0, 0, true);
    let (mut codings, mut chunked, mut identity) = (0, true, true);
    let (mut close, mut waits, mut least) = (minor == 0, false, None);
    for line in request.headers.iter() {
        let (name, value) = (line.name, trim(line.value));
        if name.eq_ignore_ascii_case("content-length") {
            match length_of(value) {
                Some(found) if lengths == 0 || found == length => length = found,
                _ => same = false,
            }
            lengths += 1;
        } else if name.eq_ignore_ascii_case("transfer-encoding") {
            codings += 1;
            chunked = chunked && codings == 1 && is_chunked(value);
        } else if name.eq_ignore_ascii_case("content-encoding") {
            identity = identity && value.eq_ignore_ascii_case(b"identity");
        } else if name.eq_ignore_ascii_case("expect") {
            waits = waits || value.eq_ignore_ascii_case(b"100-continue");
        } else if name.eq_ignore_ascii_case("connection") {
            close = close || value.split(|byte| *byte == b',').any(|member| trim(member).eq_ignore_ascii_case(b"close"));
        } else if least.is_none() && name.eq_ignore_ascii_case("x-osv-min-snapshot") {
            least = Some(value.to_vec());
        }
    }
    if lengths > 0 && codings > 0 {
        return Err(fault("400 Bad Request", 3, "content-length with transfer-encoding"));
    }
    if !chunked {
        return Err(fault("501 Not Implemented", 8, "transfer-encoding not supported"));
    }
    if !same {
        return Err(fault("400 Bad Request", 2, "bad content-length"));
    }
    if !identity {
        return Err(fault("415 Unsupported Media Type", 6, "content-encoding not supported"));
    }
    if length > MOST_BODY {
        return Err(too_large());
    }
    let framing = if codings > 0 { Framing::Chunked } else { Framing::Sized(length) };
    let waits = waits && minor == 1 && (codings > 0 || length > 0);
    let target = request.path.unwrap_or_default();
    let path = target.split('?').next().unwrap_or_default().to_string();
    let method = request.method.unwrap_or_default().to_string();
    Ok(Request { method, path, least, close, body: Vec::new(), waits, framing })
}

fn take(source: &mut impl Read, held: &mut Held, body: &mut Vec<u8>, mut count: u64) -> Result<(), Stop> {
    while count > 0 {
        if held.slice().is_empty() && held.fill(source)? == 0 {
            return Err(Stop::Truncated);
        }
        let part = (held.slice().len() as u64).min(count) as usize;
        body.extend_from_slice(&held.slice()[..part]);
        held.start += part;
        count -= part as u64;
    }
    Ok(())
}

/// A line that ends with CR LF, of at most so many bytes with them; what stands before.
fn take_line(source: &mut impl Read, held: &mut Held, most: usize) -> Result<Vec<u8>, Stop> {
    loop {
        let bytes = held.slice();
        let front = &bytes[..bytes.len().min(most)];
        if let Some(end) = front.iter().position(|byte| *byte == b'\n') {
            if end == 0 || front[end - 1] != b'\r' {
                return Err(fault("400 Bad Request", 4, "bad chunk"));
            }
            let line = front[..end - 1].to_vec();
            held.start += end + 1;
            return Ok(line);
        }
        if bytes.len() > most {
            return Err(fault("400 Bad Request", 4, "bad chunk"));
        }
        if held.fill(source)? == 0 {
            return Err(Stop::Truncated);
        }
    }
}

fn size_of(line: &[u8]) -> Option<u64> {
    let digits = line.split(|byte| *byte == b';').next()?;
    if digits.is_empty() || digits.len() > 16 || line.contains(&b'\r') || !digits.iter().all(u8::is_ascii_hexdigit) {
        return None;
    }
    u64::from_str_radix(std::str::from_utf8(digits).ok()?, 16).ok()
}

fn take_chunks(source: &mut impl Read, held: &mut Held, body: &mut Vec<u8>) -> Result<(), Stop> {
    loop {
        let line = take_line(source, held, 1_024)?;
        let size = size_of(&line).ok_or_else(|| fault("400 Bad Request", 4, "bad chunk"))?;
        if size == 0 {
            break;
        }
        if size > MOST_BODY - body.len() as u64 {
            return Err(too_large());
        }
        take(source, held, body, size)?;
        while held.slice().len() < 2 {
            if held.fill(source)? == 0 {
                return Err(Stop::Truncated);
            }
        }
        if &held.slice()[..2] != b"\r\n" {
            return Err(fault("400 Bad Request", 4, "bad chunk"));
        }
        held.start += 2;
    }
    let mut room = 65_536;
    loop {
        let line = take_line(source, held, room)?;
        if line.is_empty() {
            return Ok(());
        }
        room -= line.len() + 2;
    }
}

/// The next request of a connection; the interim reply is written where the client waits for it.
pub fn next(source: &mut impl Read, sink: &mut impl Write, held: &mut Held) -> Result<Request, Stop> {
    let mut request = read_head(source, held)?;
    if request.waits {
        sink.write_all(b"HTTP/1.1 100 Continue\r\n\r\n")?;
    }
    match request.framing {
        Framing::Sized(length) => take(source, held, &mut request.body, length)?,
        Framing::Chunked => take_chunks(source, held, &mut request.body)?,
    }
    Ok(request)
}

/// The line of a status.
pub fn line(status: u16) -> &'static str {
    match status {
        200 => "200 OK",
        400 => "400 Bad Request",
        404 => "404 Not Found",
        405 => "405 Method Not Allowed",
        409 => "409 Conflict",
        410 => "410 Gone",
        507 => "507 Insufficient Storage",
        _ => "500",
    }
}

/// Writes a reply at once, by way of `out`; `field` is one more line of its head, or empty.
pub fn reply(sink: &mut impl Write, out: &mut Vec<u8>, line: &str, field: &str, body: &[u8], close: bool) -> io::Result<()> {
    out.clear();
    let length = body.len();
    let closes = if close { "connection: close\r\n" } else { "" };
    write!(out, "HTTP/1.1 {line}\r\ncontent-type: application/json\r\ncontent-length: {length}\r\n{field}{closes}\r\n")?;
    out.extend_from_slice(body);
    sink.write_all(out)
}

/// Answers the requests of a connection by `answer`, and the status of the run.
pub fn run_over<S: Read, K: Write>(
    source: &mut S,
    sink: &mut K,
    mut answer: impl FnMut(Request, bool, &mut K) -> io::Result<()>,
) -> u8 {
    let mut held = Held::default();
    for number in 1..=MOST_REQUESTS {
        let request = match next(source, sink, &mut held) {
            Ok(request) => request,
            Err(Stop::Ended) => return 0,
            Err(Stop::Truncated) => return 5,
            Err(Stop::Io) => return 3,
            Err(Stop::Refused(Fault(line, code, message))) => {
                let body = format!("{{\"code\":{code},\"message\":\"{message}\"}}");
                return match reply(sink, &mut Vec::new(), line, "", body.as_bytes(), true) {
                    Ok(()) => 5,
                    Err(_) => 4,
                };
            }
        };
        let close = request.close;
        if answer(request, close || number == MOST_REQUESTS, sink).is_err() {
            return 4;
        }
        if close {
            return 0;
        }
    }
    5
}

/// The same for the requests on standard input.
pub fn run(answer: impl FnMut(Request, bool, &mut File) -> io::Result<()>) -> u8 {
    // The files themselves: std's would put buffers of their own between.
    let mut source = ManuallyDrop::new(unsafe { File::from_raw_fd(0) });
    let mut sink = ManuallyDrop::new(unsafe { File::from_raw_fd(1) });
    run_over(&mut *source, &mut *sink, answer)
}

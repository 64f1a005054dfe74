//! What `osv_service replay` does before any path is there, in plain Rust over httparse: it reads requests of
//! HTTP/1.1 from standard input and answers each with code 9, or with the refusal that is due.
//!
//! The status is 0 where the input ended between requests or a request asked for close, 5 where it was refused or
//! ended inside a request.

use std::process::exit;

fn main() {
    let mut out = Vec::with_capacity(256);
    let body = b"{\"code\":9,\"message\":\"no such path\"}";
    let status = wire_twin::run(|_, close, sink| wire_twin::reply(sink, &mut out, wire_twin::line(404), "", body, close));
    exit(i32::from(status));
}

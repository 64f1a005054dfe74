//! What `osv_service` answers, in plain Rust over httparse, serde_json and std's HashMap, to be measured beside it:
//! `replay [SETTINGS]` over standard input and output, and `serve [SETTINGS] [--lanes N] ADDRESS` over TCP, with a thread for
//! each of N lanes, four where nothing is said. SETTINGS are `--keep N`, `--page N`, `--weight N` and `--commits FILE`. It takes no
//! commits of repositories: which advisories hit a commit is told by the lines of FILE, each a commit and the ids of those.

mod query;
mod service;

use service::{read_commits, Service, Settings};
use std::net::TcpListener;
use std::process::exit;

struct Words {
    settings: Settings,
    lanes: u64,
    /// Where `serve` listens.
    address: Option<String>,
}

fn words() -> Words {
    let mut found = Words { settings: Settings { keep: 8, page: 100, weight: 1 << 30, commits: Vec::new() }, lanes: 4, address: None };
    let mut words = std::env::args().skip(1).filter(|word| word != "replay" && word != "serve");
    while let Some(word) = words.next() {
        if word == "--commits" {
            let text = words.next().and_then(|path| std::fs::read_to_string(path).ok());
            found.settings.commits = text.and_then(|text| read_commits(&text)).unwrap_or_else(|| exit(2));
            continue;
        }
        let mut number = || -> u64 { words.next().and_then(|text| text.parse().ok()).unwrap_or_else(|| exit(2)) };
        match word.as_str() {
            "--keep" => found.settings.keep = number(),
            "--page" => found.settings.page = number() as usize,
            "--weight" => found.settings.weight = number(),
            "--lanes" => found.lanes = number(),
            _ => found.address = Some(word),
        }
    }
    found
}

fn replay(service: &Service) -> u8 {
    let mut out = Vec::with_capacity(1 << 16);
    wire_twin::run(|request, close, sink| {
        let answer = service.answer(request);
        wire_twin::reply(sink, &mut out, wire_twin::line(answer.status), &answer.field, &answer.body, close)
    })
}

/// Each lane accepts a connection and serves it to its end.
fn lane(service: &Service, listener: &TcpListener) {
    let mut out = Vec::with_capacity(1 << 16);
    while let Ok((stream, _)) = listener.accept() {
        let _ = stream.set_nodelay(true);
        wire_twin::run_over(&mut &stream, &mut &stream, |request, close, sink| {
            let answer = service.answer(request);
            wire_twin::reply(sink, &mut out, wire_twin::line(answer.status), &answer.field, &answer.body, close)
        });
    }
}

fn main() {
    let words = words();
    let service = Service::new(words.settings);
    let Some(address) = words.address else { exit(i32::from(replay(&service))) };
    let listener = TcpListener::bind(address).unwrap_or_else(|_| exit(3));
    std::thread::scope(|scope| {
        for _ in 0..words.lanes {
            scope.spawn(|| lane(&service, &listener));
        }
    });
}

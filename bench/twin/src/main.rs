//! Does what `osv_service ask` does, in plain Rust, to be measured beside it.

use std::collections::BTreeSet;
use std::io::{self, BufRead, BufReader, Read, Write};
use std::process::ExitCode;
use twin::advisory::Advisory;
use twin::fault::Fault;
use twin::package::Package;
use twin::version::Version;

const MOST_INPUT: u64 = 1 << 30;

const USAGE: &str = "\
usage: osv_service ask [--input N] ECOSYSTEM NAME [VERSION]
       osv_service ask [--input N] --commit OID [ECOSYSTEM NAME]
       osv_service check [--input N]
       osv_service replay [SETTINGS]
       osv_service drill SEED SIZE
       osv_service serve [SETTINGS] [--lanes N] [--helpers N] ADDRESS
";

/// A package, and one version of it or all.
struct Question<'a> {
    package: Package<'a>,
    version: Option<Version<'a>>,
}

/// The question that the words ask, where they are `ask ECOSYSTEM NAME [VERSION]`. There are no options.
fn question(words: &[String]) -> Option<Question<'_>> {
    let (ecosystem, name, version) = match words {
        [ask, ecosystem, name] if ask == "ask" => (ecosystem, name, None),
        [ask, ecosystem, name, version] if ask == "ask" => (ecosystem, name, Some(version)),
        _ => return None,
    };
    let is_option = |word: &String| word.len() > 1 && word.starts_with('-');
    if ecosystem.is_empty() || name.is_empty() || words.iter().any(is_option) {
        return None;
    }
    Some(Question {
        package: Package::new(ecosystem.into(), name.into()),
        version: version.map(|text| Version::new(text)),
    })
}

/// The answer's status and text. Only the ids of hits are kept, of the last advisory of each id.
fn answer(question: &Question, input: impl Read) -> io::Result<(u8, String)> {
    let mut input = BufReader::with_capacity(1 << 18, input.take(MOST_INPUT + 1));
    let mut hits = BTreeSet::new();
    let mut line = Vec::new();
    let mut number = 0;
    let mut refused: Option<(u64, Fault)> = None;
    while refused.is_none() {
        line.clear();
        if input.read_until(b'\n', &mut line)? == 0 {
            break;
        }
        number += 1;
        if line.last() == Some(&b'\n') {
            line.pop();
        }
        if line.is_empty() {
            continue;
        }
        match Advisory::read(&line) {
            Ok(advisory) if advisory.is_hit(&question.package, question.version.as_ref()) => {
                if !hits.contains(&*advisory.id) {
                    hits.insert(advisory.id.into_owned());
                }
            }
            Ok(advisory) => {
                hits.remove(&*advisory.id);
            }
            Err(fault) => refused = Some((number, fault)),
        }
    }
    // The input's size is tested before its lines.
    io::copy(&mut input, &mut io::sink())?;
    if input.into_inner().limit() == 0 {
        return Ok((5, format!("refused input larger than {MOST_INPUT}\n")));
    }
    if let Some((number, fault)) = refused {
        return Ok((5, format!("refused line {number} {fault}\n")));
    }
    let mut text = String::new();
    for id in hits {
        text.push_str(&id);
        text.push('\n');
    }
    Ok((0, text))
}

fn main() -> ExitCode {
    let words: Result<Vec<String>, _> = std::env::args_os()
        .skip(1)
        .map(|word| word.into_string())
        .collect();
    // A word that is not UTF-8 is in no question.
    let words = words.unwrap_or_default();
    let (status, text) = match question(&words) {
        None => (2, USAGE.to_string()),
        Some(question) => match answer(&question, io::stdin().lock()) {
            Ok(answer) => answer,
            Err(_) => return ExitCode::from(3),
        },
    };
    match io::stdout().write_all(text.as_bytes()) {
        Ok(()) => ExitCode::from(status),
        Err(_) => ExitCode::from(4),
    }
}

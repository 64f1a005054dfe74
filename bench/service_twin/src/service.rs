//! What was imported and published, and what is answered of it.

use crate::query::{commit_of, is_id, percent_decoded, read_batch, read_query, Query};
use std::collections::{HashMap, VecDeque};
use std::io::Write as _;
use std::sync::{Arc, Mutex, RwLock, RwLockReadGuard};
use twin::advisory::Advisory;
use twin::version::Version;
use wire_twin::Request;

pub struct Settings {
    pub keep: u64,
    pub page: usize,
    pub weight: u64,
    /// The ids of the advisories that hit each commit, ascending, since it computes none.
    pub commits: Vec<([u8; 20], Vec<String>)>,
}

/// Lines of a commit and the ids of the advisories that hit it.
pub fn read_commits(text: &str) -> Option<Vec<([u8; 20], Vec<String>)>> {
    let of_line = |line: &str| {
        let mut words = line.split_whitespace();
        Some((commit_of(words.next()?)?, words.map(str::to_string).collect()))
    };
    text.lines().map(of_line).collect()
}

/// An advisory with its bytes. The history keeps all of them for good, so none is ever freed.
struct Stored {
    text: &'static [u8],
    read: Advisory<'static>,
}

/// The last advisory of each id, and under each ecosystem and name those that have the package, ascending by id.
#[derive(Clone, Default)]
struct Snapshot {
    by_id: HashMap<&'static str, &'static Stored>,
    by_package: HashMap<(String, String), Vec<&'static Stored>>,
    /// Those that hit each commit that is known.
    by_commit: Arc<HashMap<[u8; 20], Vec<&'static Stored>>>,
}

/// A reply: its status, one more line of its head or none, and its body.
pub struct Answer {
    pub status: u16,
    pub field: String,
    pub body: Vec<u8>,
}

/// What was imported and published so far.
struct State {
    entries: u64,
    used: u64,
    imports: Vec<&'static Stored>,
    published: usize,
    newest: u64,
    /// The snapshots that are kept, the newest last.
    kept: VecDeque<Arc<Snapshot>>,
}

pub struct Service {
    settings: Settings,
    state: RwLock<State>,
    /// Held while a snapshot is made, which no query waits for.
    publishing: Mutex<()>,
}

type Refusal = Answer;

fn refused(status: u16, code: u8, message: &str) -> Answer {
    let body = format!("{{\"code\":{code},\"message\":\"{message}\"}}").into_bytes();
    Answer { status, field: String::new(), body }
}

fn done(body: String) -> Answer {
    Answer { status: 200, field: String::new(), body: body.into_bytes() }
}

fn of_snapshot(snapshot: u64, body: Vec<u8>) -> Answer {
    Answer { status: 200, field: format!("x-osv-snapshot: {snapshot}\r\n"), body }
}

/// The ecosystems under which a package is found: its own, and the same without what stands behind `:`.
fn ecosystems(ecosystem: &str) -> impl Iterator<Item = &str> {
    let base = ecosystem.split(':').next().filter(|base| base.len() < ecosystem.len());
    [Some(ecosystem), base].into_iter().flatten()
}

impl Snapshot {
    fn add(&mut self, stored: &'static Stored) {
        if let Some(old) = self.by_id.insert(&stored.read.id, stored) {
            self.list(old, false);
        }
        self.list(stored, true);
    }

    fn list(&mut self, stored: &'static Stored, is_there: bool) {
        for package in stored.read.packages() {
            for ecosystem in ecosystems(&package.ecosystem) {
                let listed = self.by_package.entry((ecosystem.to_string(), package.name.to_string())).or_default();
                match (listed.binary_search_by(|one| one.read.id.cmp(&stored.read.id)), is_there) {
                    (Err(place), true) => listed.insert(place, stored),
                    (Ok(place), true) => listed[place] = stored,
                    (Ok(place), false) => drop(listed.remove(place)),
                    (Err(_), false) => {}
                }
            }
        }
    }

    /// Those that are there of the advisories that hit each commit.
    fn add_commits(&mut self, known: &[([u8; 20], Vec<String>)]) {
        let listed = |ids: &[String]| ids.iter().filter_map(|id| self.by_id.get(id.as_str()).copied()).collect();
        self.by_commit = Arc::new(known.iter().map(|(commit, ids)| (*commit, listed(ids))).collect());
    }

    /// The first hits behind the token's advisory, and whether more remain.
    fn page(&self, query: &Query, size: usize) -> (Vec<&'static Stored>, bool) {
        let listed = match (&query.package, &query.commit) {
            (None, Some(commit)) => self.by_commit.get(commit),
            (Some(package), None) => self.by_package.get(&(package.ecosystem.to_string(), package.name.to_string())),
            _ => None,
        };
        let listed = listed.map_or(&[][..], |listed| listed);
        let after = query.token.as_ref().map_or("", |token| &token.1);
        let start = listed.partition_point(|one| &*one.read.id <= after);
        let version = query.version.as_deref().map(Version::new);
        let mut found = Vec::new();
        for one in &listed[start..] {
            if query.package.as_ref().map_or(true, |package| one.read.is_hit(package, version.as_ref())) {
                if found.len() == size {
                    return (found, true);
                }
                found.push(*one);
            }
        }
        (found, false)
    }
}

impl Service {
    pub fn new(settings: Settings) -> Service {
        let kept = VecDeque::from([Arc::default()]);
        let state = State { entries: 0, used: 0, imports: Vec::new(), published: 0, newest: 0, kept };
        Service { settings, state: RwLock::new(state), publishing: Mutex::new(()) }
    }

    pub fn answer(&self, request: Request) -> Answer {
        let path = request.path.as_str();
        let allowed = match path {
            "/v1/query" | "/v1/querybatch" | "/x/import" | "/x/publish" => "POST",
            _ if path.starts_with("/v1/vulns/") => "GET",
            _ => return refused(404, 9, "no such path"),
        };
        if request.method != allowed {
            return Answer { field: format!("allow: {allowed}\r\n"), ..refused(405, 10, "method not allowed") };
        }
        let least = match &request.least {
            Some(text) if path.starts_with("/v1/") => match number(text) {
                Some(least) => least,
                None => return refused(400, 23, "bad x-osv-min-snapshot"),
            },
            _ => 0,
        };
        let answered = match path {
            "/x/import" => return self.import(request.body),
            "/x/publish" => return self.publish(),
            "/v1/query" => self.query(&request.body, least),
            "/v1/querybatch" => self.batch(&request.body, least),
            _ => self.advisory(&path["/v1/vulns/".len()..], least),
        };
        answered.unwrap_or_else(|refusal| refusal)
    }

    fn state(&self) -> RwLockReadGuard<'_, State> {
        self.state.read().unwrap_or_else(|held| held.into_inner())
    }

    fn import(&self, body: Vec<u8>) -> Answer {
        let text: &'static [u8] = Box::leak(body.into_boxed_slice());
        let free = || drop(unsafe { Box::from_raw(text as *const [u8] as *mut [u8]) });
        let read = match Advisory::read(text) {
            Ok(read) => read,
            Err(fault) => {
                // Nothing refers to the bytes any more.
                free();
                return refused(400, 12, &format!("record refused: {fault}"));
            }
        };
        let weight = 64 + text.len() as u64 + 64 * read.git_ranges() as u64;
        let stored = Box::leak(Box::new(Stored { text, read }));
        let mut state = self.state.write().unwrap_or_else(|held| held.into_inner());
        if state.used + weight > self.settings.weight {
            return refused(507, 20, &format!("journal full, used {} limit {}", state.used, self.settings.weight));
        }
        state.used += weight;
        state.imports.push(stored);
        state.entries += 1;
        done(format!("{{\"entry\":{}}}", state.entries - 1))
    }

    fn publish(&self) -> Answer {
        let _turn = self.publishing.lock().unwrap_or_else(|held| held.into_inner());
        let (last, more) = {
            let state = self.state();
            (Arc::clone(state.last()), state.imports[state.published..].to_vec())
        };
        if !more.is_empty() {
            let mut next = Snapshot::clone(&last);
            for stored in &more {
                next.add(stored);
            }
            if more.iter().any(|stored| stored.read.git_ranges() > 0) {
                next.add_commits(&self.settings.commits);
            }
            let mut state = self.state.write().unwrap_or_else(|held| held.into_inner());
            state.published += more.len();
            state.newest += 1;
            state.entries += 1;
            state.kept.push_back(Arc::new(next));
            if state.kept.len() as u64 > self.settings.keep {
                state.kept.pop_front();
            }
        }
        let state = self.state();
        done(format!("{{\"state\":\"published\",\"snapshot\":{},\"upto\":{}}}", state.newest, state.published))
    }

    fn put_page(&self, query: &Query, number: u64, snapshot: &Snapshot, is_brief: bool, body: &mut Vec<u8>) {
        let (found, more) = snapshot.page(query, self.settings.page);
        let last = match found.last() {
            None => return body.extend_from_slice(b"{}"),
            Some(last) => last,
        };
        body.extend_from_slice(b"{\"vulns\":[");
        for (place, one) in found.iter().enumerate() {
            if place > 0 {
                body.push(b',');
            }
            if is_brief {
                let _ = write!(body, "{{\"id\":\"{}\",\"modified\":\"{}\"}}", one.read.id, one.read.modified);
            } else {
                body.extend_from_slice(one.text);
            }
        }
        body.push(b']');
        if more {
            let _ = write!(body, ",\"next_page_token\":\"{number}~{}\"", last.read.id);
        }
        body.push(b'}');
    }

    fn query(&self, body: &[u8], least: u64) -> Result<Answer, Refusal> {
        let query = read_query(body).map_err(|(code, name)| refused(400, 13, &format!("query refused: {code} {name}")))?;
        let (number, snapshot) = {
            let state = self.state();
            state.test_least(least)?;
            state.snapshot_of(&query, "")?
        };
        let mut body = Vec::new();
        self.put_page(&query, number, &snapshot, false, &mut body);
        Ok(of_snapshot(number, body))
    }

    fn batch(&self, body: &[u8], least: u64) -> Result<Answer, Refusal> {
        let queries = read_batch(body).map_err(|(index, (code, name))| {
            let front = index.map_or(String::new(), |index| format!("query {index}: "));
            refused(400, 13, &format!("{front}query refused: {code} {name}"))
        })?;
        let (newest, snapshots) = {
            let state = self.state();
            state.test_least(least)?;
            let of = |(index, query)| state.snapshot_of(query, &format!("query {index}: "));
            let snapshots: Vec<(u64, Arc<Snapshot>)> = queries.iter().enumerate().map(of).collect::<Result<_, _>>()?;
            (state.newest, snapshots)
        };
        let mut body = b"{\"results\":[".to_vec();
        for (place, (query, (number, snapshot))) in queries.iter().zip(snapshots).enumerate() {
            if place > 0 {
                body.push(b',');
            }
            self.put_page(query, number, &snapshot, true, &mut body);
        }
        body.extend_from_slice(b"]}");
        Ok(of_snapshot(newest, body))
    }

    fn advisory(&self, id: &str, least: u64) -> Result<Answer, Refusal> {
        let (newest, snapshot) = {
            let state = self.state();
            state.test_least(least)?;
            (state.newest, Arc::clone(state.last()))
        };
        let id = String::from_utf8(percent_decoded(id)).unwrap_or_default();
        match snapshot.by_id.get(id.as_str()).filter(|_| is_id(&id)) {
            Some(stored) => Ok(of_snapshot(newest, stored.text.to_vec())),
            None => Err(refused(404, 11, "no such id")),
        }
    }
}

impl State {
    fn last(&self) -> &Arc<Snapshot> {
        &self.kept[self.kept.len() - 1]
    }

    fn oldest(&self) -> u64 {
        self.newest + 1 - self.kept.len() as u64
    }

    fn test_least(&self, least: u64) -> Result<(), Refusal> {
        if least > self.newest {
            return Err(refused(409, 18, &format!("snapshot {least} not yet, newest {}", self.newest)));
        }
        Ok(())
    }

    fn snapshot_of(&self, query: &Query, front: &str) -> Result<(u64, Arc<Snapshot>), Refusal> {
        let number = query.token.as_ref().map_or(self.newest, |token| token.0);
        if number > self.newest {
            return Err(refused(400, 17, &format!("{front}snapshot {number} ahead, newest {}", self.newest)));
        }
        if number < self.oldest() {
            return Err(refused(410, 16, &format!("{front}snapshot {number} gone, oldest {}", self.oldest())));
        }
        Ok((number, Arc::clone(&self.kept[(number - self.oldest()) as usize])))
    }
}

/// The number of 64 bits that digits spell.
fn number(text: &[u8]) -> Option<u64> {
    let is_digits = !text.is_empty() && text.iter().all(u8::is_ascii_digit);
    std::str::from_utf8(text).ok().filter(|_| is_digits)?.parse().ok()
}

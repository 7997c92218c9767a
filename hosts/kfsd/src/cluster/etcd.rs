//! etcd's version 3 over its JSON gateway: transactions. Questions go to one member after another until one answers.

use super::http::Http;
use super::tls::Connector;
use super::{secret, ClusterFault, Settings};
use serde_json::{json, Value};
use std::fmt::Display;
use std::io::{self, ErrorKind};
use std::path::Path;
use std::sync::atomic::{AtomicUsize, Ordering};
use std::sync::Arc;
use std::time::{Duration, Instant};
use thiserror::Error;
use tokio::sync::Mutex;
use tokio::time::{sleep, timeout};
use tracing::debug;

/// How long one member may take for one answer, and how long where the question is a small one.
const ATTEMPT: Duration = Duration::from_secs(1);
const QUICK: Duration = Duration::from_millis(300);

/// How long one member may take to look at the password, which it makes slow by intent.
const LOGIN: Duration = Duration::from_secs(2);

/// How many bytes a password may have.
const PASSWORD: std::ops::RangeInclusive<u64> = 1..=1024;

/// How many bytes of a question each member has a second more for.
const BYTES_A_SECOND: u64 = 1 << 18;

/// How long to wait where each member was asked in vain.
const AGAIN: Duration = Duration::from_millis(50);

/// Why there is no answer.
#[derive(Debug, Error)]
pub enum EtcdFault {
    /// Whether it was done nobody says.
    #[error("no member of etcd has answered in time; the last fault: {0}")]
    Unreached(String),
    /// It wasn't done.
    #[error("etcd refuses it: {0}")]
    Refused(String),
    #[error("what etcd has answered isn't understood: {0}")]
    Nonsense(&'static str),
    /// It wasn't done, and is where it is asked with another token.
    #[error("etcd doesn't take the token that it gave: {0}")]
    Stale(String),
}

/// A key, its value, and what etcd says of it.
#[derive(Clone, Debug, PartialEq, Eq)]
pub struct Row {
    pub key: String,
    pub value: Vec<u8>,
    /// The revision at which it was put last. The same key has none of them twice.
    pub revision: i64,
}

/// What has to be so for a transaction to be done.
#[derive(Clone, Debug)]
pub enum If {
    /// The key was put last at this revision; at 0 where it isn't there.
    PutAt(String, i64),
    /// The key is there with this value.
    Is(String, Vec<u8>),
}

/// What a transaction does.
#[derive(Clone, Debug)]
pub enum Do {
    /// Puts a value.
    Put(String, Vec<u8>),
    /// Reads a key.
    Get(String),
    /// Reads at most so many of the keys from one up to another without that, in their order.
    Range(String, String, usize),
    /// Removes the keys from one up to another without that.
    Remove(String, String),
}

/// What a transaction has answered.
#[derive(Debug)]
pub struct Done {
    /// Whether all was so, and the first list was done; else the second.
    pub was_so: bool,
    /// What each step of that list has read, in their order.
    pub found: Vec<Vec<Row>>,
    /// The term of etcd's own leader, as the member that has answered knows it.
    pub term: i64,
}

/// Who kfsd is to etcd.
struct Login {
    user: String,
    password: String,
    /// What etcd has given for that, and takes for some time.
    token: Mutex<Option<Arc<str>>>,
}

/// The members of etcd.
#[derive(Debug)]
pub struct Etcd {
    members: Vec<Http>,
    /// None where etcd asks nobody who it is.
    login: Option<Login>,
    /// The place of the one that is asked first.
    first: AtomicUsize,
}

impl std::fmt::Debug for Login {
    fn fmt(&self, to: &mut std::fmt::Formatter<'_>) -> std::fmt::Result {
        write!(to, "user {}", self.user)
    }
}

impl Login {
    /// A user whose password is in a file. A line's end behind it isn't part of it.
    fn read(user: &str, path: &Path) -> io::Result<Login> {
        let text = String::from_utf8(secret::read(path, PASSWORD)?).map_err(|_| ErrorKind::InvalidData)?;
        Ok(Login { user: user.to_string(), password: text.trim_end_matches('\n').to_string(), token: Mutex::default() })
    }
}

impl Etcd {
    /// The members at these addresses, each a host and a port, which ask nobody who it is. There is one at least.
    pub fn open(endpoints: &[String]) -> Etcd {
        Etcd::new(endpoints, &Connector::default(), None, None)
    }

    /// Those of these settings.
    pub fn of(settings: &Settings) -> Result<Etcd, ClusterFault> {
        let (mut connector, mut name) = (Connector::default(), None);
        if let Some(tls) = &settings.etcd_tls {
            connector = tls.connector().map_err(ClusterFault::Secret)?;
            name = tls.name.as_deref();
        }
        let login = settings.etcd_user.as_deref().zip(settings.etcd_password_file.as_deref());
        let login =
            login.map(|(user, path)| Login::read(user, path).map_err(|fault| ClusterFault::Path(path.to_path_buf(), fault)));
        Ok(Etcd::new(&settings.etcd, &connector, name, login.transpose()?))
    }

    fn new(endpoints: &[String], connector: &Connector, name: Option<&str>, login: Option<Login>) -> Etcd {
        let members = endpoints.iter().map(|endpoint| Http::new(endpoint, connector, name)).collect();
        Etcd { members, login, first: AtomicUsize::new(0) }
    }

    /// Does one list or the other, all of it at once. It may be done twice where a member's answer is lost or late.
    pub async fn transact(&self, ifs: &[If], then: &[Do], or_else: &[Do], end: Instant) -> Result<Done, EtcdFault> {
        self.choose(ifs, [then, or_else], ATTEMPT, end).await
    }

    /// The same for a few small keys, which each member has less time for.
    pub async fn transact_soon(&self, ifs: &[If], then: &[Do], or_else: &[Do], end: Instant) -> Result<Done, EtcdFault> {
        self.choose(ifs, [then, or_else], QUICK, end).await
    }

    async fn choose(&self, ifs: &[If], lists: [&[Do]; 2], attempt: Duration, end: Instant) -> Result<Done, EtcdFault> {
        let questions = |steps: &[Do]| steps.iter().map(Do::question).collect::<Vec<_>>();
        let [then, or_else] = lists;
        let question = json!({
            "compare": ifs.iter().map(If::question).collect::<Vec<_>>(),
            "success": questions(then),
            "failure": questions(or_else),
        });
        let said = self.ask("kv/txn", &question, attempt, end).await?;
        let was_so = said["succeeded"].as_bool().unwrap_or(false);
        done_of(&said, was_so, if was_so { then } else { or_else })
    }

    /// Reads as one member has it, also while etcd has no leader. That may be older than what another one has told.
    pub async fn look(&self, steps: &[Do], end: Instant) -> Result<Done, EtcdFault> {
        let question = json!({ "success": steps.iter().map(Do::own_question).collect::<Vec<_>>() });
        done_of(&self.ask("kv/txn", &question, ATTEMPT, end).await?, true, steps)
    }

    /// Asks one member after another until there is an answer, or the time is over.
    async fn ask(&self, path: &str, question: &Value, attempt: Duration, end: Instant) -> Result<Value, EtcdFault> {
        let text = question.to_string();
        let attempt = attempt + Duration::from_millis(1000 * text.len() as u64 / BYTES_A_SECOND);
        let mut tried = 0;
        loop {
            // Where all are slow, the same isn't asked ever more often.
            let most = attempt * (1 + tried / self.members.len() as u32);
            let left = end.saturating_duration_since(Instant::now()).min(most);
            let place = self.first.load(Ordering::Relaxed) % self.members.len();
            let member = &self.members[place];
            let fault = match self.ask_as_user(member, path, &text, left).await {
                Err(EtcdFault::Unreached(fault) | EtcdFault::Stale(fault)) => fault,
                other => return other,
            };
            debug!("etcd: {path}: {fault}");
            // Where another question has found out meanwhile, this one goes where that went.
            let next = (place + 1) % self.members.len();
            let _ = self.first.compare_exchange(place, next, Ordering::Relaxed, Ordering::Relaxed);
            tried += 1;
            if Instant::now() >= end {
                return Err(EtcdFault::Unreached(fault));
            }
            if tried % self.members.len() as u32 == 0 {
                sleep(AGAIN).await;
            }
        }
    }
}

impl Etcd {
    /// Asks one member, with a token where kfsd is a user of etcd. Where that isn't taken any more, another one is asked for at once.
    async fn ask_as_user(&self, member: &Http, path: &str, text: &str, time: Duration) -> Result<Value, EtcdFault> {
        let login = match &self.login {
            None => return ask_one(member, path, text, None, time).await,
            Some(login) => login,
        };
        let token = login.token(member, None).await?;
        match ask_one(member, path, text, Some(&token), time).await {
            Err(EtcdFault::Stale(fault)) => {
                debug!("etcd: {fault}: another token is asked for");
                let other = login.token(member, Some(&token)).await?;
                ask_one(member, path, text, Some(&other), time).await
            }
            other => other,
        }
    }
}

impl Login {
    /// A token of etcd; another one than this, which isn't taken any more. One at a time asks for it.
    async fn token(&self, member: &Http, stale: Option<&Arc<str>>) -> Result<Arc<str>, EtcdFault> {
        let mut kept = self.token.lock().await;
        if let Some(token) = kept.as_ref().filter(|token| stale.map_or(true, |stale| !Arc::ptr_eq(token, stale))) {
            return Ok(Arc::clone(token));
        }
        *kept = None;
        let question = json!({ "name": self.user, "password": self.password }).to_string();
        let said = ask_one(member, "auth/authenticate", &question, None, LOGIN).await?;
        let token = said["token"].as_str().filter(|token| token.bytes().all(|byte| byte.is_ascii_graphic()));
        let token: Arc<str> = token.ok_or(EtcdFault::Nonsense("it gives no token"))?.into();
        *kept = Some(Arc::clone(&token));
        Ok(token)
    }
}

/// Asks one member once.
async fn ask_one(member: &Http, path: &str, text: &str, token: Option<&str>, time: Duration) -> Result<Value, EtcdFault> {
    let unreached = |fault: &dyn Display| EtcdFault::Unreached(format!("{}: {fault}", member.address()));
    let path = format!("/v3/{path}");
    let posted = timeout(time, member.post(&path, text, token)).await.map_err(|_| unreached(&"it takes too long"))?;
    let (status, bytes) = posted.map_err(|fault| unreached(&fault))?;
    let said: Value = serde_json::from_slice(&bytes).unwrap_or(Value::Null);
    let why = said["error"].as_str().unwrap_or("without a word");
    match status {
        200 if said.is_object() => Ok(said),
        _ if is_stale(status, why) => Err(EtcdFault::Stale(format!("{}: {why}", member.address()))),
        400 | 403 | 404 => Err(EtcdFault::Refused(why.to_string())),
        // It has no leader, it is short of something, or it is another program.
        _ => Err(unreached(&format!("status {status}, {why}"))),
    }
}

/// Whether another token helps: this one's time is over, the member that gave it was started anew, or users have changed since.
fn is_stale(status: u16, why: &str) -> bool {
    status == 401 || ["invalid auth token", "revision of auth store is old"].iter().any(|known| why.contains(known))
}

impl If {
    fn question(&self) -> Value {
        match self {
            If::PutAt(key, revision) => {
                json!({ "key": coded(key), "target": "MOD", "result": "EQUAL", "mod_revision": revision.to_string() })
            }
            If::Is(key, value) => {
                json!({ "key": coded(key), "target": "VALUE", "result": "EQUAL", "value": base64::encode(value) })
            }
        }
    }
}

impl Do {
    fn question(&self) -> Value {
        match self {
            Do::Put(key, value) => json!({ "request_put": { "key": coded(key), "value": base64::encode(value) } }),
            Do::Get(key) => json!({ "request_range": { "key": coded(key) } }),
            Do::Range(from, to, most) => json!({ "request_range": {
                "key": coded(from), "range_end": coded(to), "limit": most.to_string()
            } }),
            Do::Remove(from, to) => json!({ "request_delete_range": { "key": coded(from), "range_end": coded(to) } }),
        }
    }

    /// The question of a step that reads, for one member alone.
    fn own_question(&self) -> Value {
        let mut question = self.question();
        question["request_range"]["serializable"] = json!(true);
        question
    }
}

fn coded(key: &str) -> String {
    base64::encode(key)
}

/// A number of 64 bits, which stands as a text; 0 where it isn't there.
fn long_in(value: &Value) -> i64 {
    value.as_str().and_then(|text| text.parse().ok()).unwrap_or(0)
}

/// What the member says that these steps have found.
fn done_of(said: &Value, was_so: bool, steps: &[Do]) -> Result<Done, EtcdFault> {
    let answers = said["responses"].as_array().map_or(&[][..], Vec::as_slice);
    if answers.len() != steps.len() {
        return Err(EtcdFault::Nonsense("a transaction has fewer answers than steps"));
    }
    let found = answers.iter().map(|answer| rows_of(&answer["response_range"])).collect::<Result<_, _>>()?;
    Ok(Done { was_so, found, term: long_in(&said["header"]["raft_term"]) })
}

/// The rows that were read; none where the step was no question.
fn rows_of(answer: &Value) -> Result<Vec<Row>, EtcdFault> {
    let rows = answer["kvs"].as_array().map_or(&[][..], Vec::as_slice);
    rows.iter().map(row_of).collect()
}

fn row_of(row: &Value) -> Result<Row, EtcdFault> {
    let wrong = || EtcdFault::Nonsense("a row that isn't one");
    let bytes = |name: &str| match &row[name] {
        // What is empty isn't there.
        Value::Null => Ok(vec![]),
        value => value.as_str().and_then(|text| base64::decode(text).ok()).ok_or_else(wrong),
    };
    let key = String::from_utf8(bytes("key")?).map_err(|_| wrong())?;
    Ok(Row { key, value: bytes("value")?, revision: long_in(&row["mod_revision"]) })
}

#[cfg(test)]
mod tests {
    use super::*;

    #[test]
    fn questions_are_as_the_gateway_has_them() {
        let put_at = If::PutAt("a".into(), 3).question();
        assert_eq!(put_at["key"], "YQ==");
        assert_eq!((put_at["target"].as_str(), put_at["mod_revision"].as_str()), (Some("MOD"), Some("3")));
        assert_eq!(Do::Put("a".into(), b"b".to_vec()).question()["request_put"]["value"], "Yg==");
        assert_eq!(Do::Get("a".into()).own_question()["request_range"]["serializable"], true);
        assert_eq!(Do::Range("a".into(), "b".into(), 5).question()["request_range"]["range_end"], "Yg==");
    }

    #[test]
    fn another_token_is_asked_for_where_that_helps() {
        assert!(is_stale(401, "etcdserver: invalid auth token"));
        assert!(is_stale(400, "etcdserver: revision of auth store is old"));
        for (status, why) in [(400, "etcdserver: user name is empty"), (403, "etcdserver: permission denied"), (503, "")] {
            assert!(!is_stale(status, why), "{why}");
        }
    }

    #[test]
    fn rows_are_read() {
        let said = json!({ "kvs": [{ "key": "YQ==", "create_revision": "2", "mod_revision": "4", "value": "Yg==" }] });
        let row = Row { key: "a".into(), value: b"b".to_vec(), revision: 4 };
        assert_eq!(rows_of(&said).unwrap(), [row]);
        assert_eq!(rows_of(&Value::Null).unwrap(), []);
        assert!(rows_of(&json!({ "kvs": [{ "key": "*" }] })).is_err());
        let empty = rows_of(&json!({ "kvs": [{ "key": "YQ==", "mod_revision": "4" }] })).unwrap();
        assert_eq!((empty[0].value.len(), empty[0].revision), (0, 4));
    }
}

//! The volumes in etcd, as a text for `kfsctl`.

use super::etcd::{Do, Etcd, EtcdFault, Row};
use super::volume::{number_of, second_word, INDEX, MEMBERS};
use std::fmt::Write as _;
use std::time::{Duration, Instant};

/// How long one question may take.
const TIME: Duration = Duration::from_secs(5);

/// The most volumes that are listed.
const MOST: usize = 10_000;

/// A line for each volume: who leads it, the numbers of its first group in etcd and of the next one, and what its members keep.
pub async fn volumes(etcd: &Etcd) -> Result<String, EtcdFault> {
    let names = read(etcd, Do::Range(INDEX.to_string(), format!("{INDEX}~"), MOST)).await?;
    let mut text =
        String::from("volume           leader                           first       next members, and what they keep\n");
    for row in &names {
        let name = row.key.trim_start_matches(INDEX);
        let range = |part: &str, most| Do::Range(format!("kfsd/{name}/{part}/"), format!("kfsd/{name}/{part}0"), most);
        let get = |key: &str| Do::Get(format!("kfsd/{name}/{key}"));
        let steps = [get("leader"), get("next"), range("group", 1), range("base", MEMBERS)];
        let done = etcd.transact(&[], &steps, &[], Instant::now() + TIME).await?;
        let rows = |step: usize| done.found.get(step).map_or(&[][..], Vec::as_slice);
        let leader = rows(0).first().and_then(leader).unwrap_or_else(|| "nobody".to_string());
        let next = rows(1).first().and_then(number_of).unwrap_or(0);
        let first = rows(2).first().and_then(|row| u64::from_str_radix(last_word(&row.key), 16).ok()).unwrap_or(next);
        let members: Vec<String> = rows(3).iter().filter_map(member).collect();
        // Nothing is refused where a String is written to.
        let _ = writeln!(text, "{name:<16} {leader:<30} {first:>7} {next:>10} {}", members.join(", "));
    }
    Ok(text)
}

/// The name of the member that leads, and where it is.
fn leader(row: &Row) -> Option<String> {
    let text = std::str::from_utf8(&row.value).ok()?;
    Some(format!("{} {}", text.split(' ').next()?, second_word(row)?))
}

/// A member, and the number up to which groups are part of the state that it keeps.
fn member(row: &Row) -> Option<String> {
    let _address = second_word(row)?;
    Some(format!("{} {}", last_word(&row.key), number_of(row)?))
}

fn last_word(key: &str) -> &str {
    key.rsplit('/').next().unwrap_or(key)
}

async fn read(etcd: &Etcd, step: Do) -> Result<Vec<Row>, EtcdFault> {
    let done = etcd.transact(&[], &[step], &[], Instant::now() + TIME).await?;
    Ok(done.found.into_iter().flatten().collect())
}

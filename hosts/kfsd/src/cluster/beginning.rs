//! A volume that begins with a desk that is there: with the two files of one, or with the state that a member of a volume has kept.

use super::base::{Base, Bases, Since};
use super::origin::Origin;
use super::replica::{begin_anew, Replica};
use super::volume::Volume;
use super::{blocking, ClusterFault, Settings};
use crate::config::Config;
use crate::desk;
use crate::folder::{copy, Folder, FILES};
use crate::following::Following;
use crate::journal;
use crate::store::{Store, NAME};
use std::fs;
use std::io::{self, BufReader, ErrorKind, Seek, SeekFrom};
use std::path::Path;
use tracing::info;

/// The number of the first group of such a volume: its state stands for what would be before.
const FIRST: u64 = 1;

/// Begins the volume of a configuration with the desk in a folder, which stays as it is. This member keeps its state, and others have
/// it sent. The folder may be the member's own, which is locked.
pub async fn begin(settings: &Settings, config: &Config, own: &Folder, from: &Path) -> Result<(), ClusterFault> {
    let (volume, bases) = (Volume::new(settings)?, Bases::new(own.path()));
    let is_own = fs::canonicalize(from).and_then(|from| Ok(from == fs::canonicalize(own.path())?));
    let is_own = is_own.map_err(|fault| ClusterFault::Path(from.to_path_buf(), fault))?;
    if volume.origin().await?.is_some() {
        return Err(ClusterFault::Begun(settings.volume.clone()));
    }
    let kept = bases.read().map_err(ClusterFault::Folder)?;
    if let Some(base) = kept.filter(|_| !is_own) {
        return Err(ClusterFault::Kept(own.path().to_path_buf(), base.number));
    }
    let no_desk = |why: String| ClusterFault::NoDesk(from.to_path_buf(), why);
    let folder = begin_anew(own.path()).map_err(ClusterFault::Folder)?;
    let following = Following::default();
    let moment = take_in(from, is_own, &folder, &following).map_err(no_desk)?;
    let words = ["open".into(), folder.clone().into(), config.rows.to_string().into()];
    let mut replica = Replica::start(&config.program, &words, config.rows, folder.clone())
        .await
        .map_err(|fault| no_desk(fault.to_string()))?;
    if !replica.copy_state(&bases, &mut Since::new(0, 0)).await? {
        return Err(no_desk("kfs_serve is of an older version".to_string()));
    }
    replica.end().await;
    let origin = origin_of(&folder).map_err(ClusterFault::Folder)?;
    if origin.tiers != config.tiers {
        return Err(no_desk(format!("its tiers are {:?}, and the configuration has others", origin.tiers)));
    }
    let base = Base::now(origin.volume, FIRST, moment, &following);
    let keeping = bases.clone();
    blocking(move || keeping.keep(&base)).await?;
    let text = origin.text();
    if volume.begin(&text, FIRST).await? != text {
        return Err(ClusterFault::Begun(settings.volume.clone()));
    }
    info!("volume {} begins with the desk in {}: {} keeps its state", settings.volume, from.display(), settings.member);
    Ok(())
}

/// Copies a desk for `kfs_serve`, and reads what is known beside it. Tells its moment.
fn take_in(from: &Path, is_own: bool, to: &Path, following: &Following) -> Result<u64, String> {
    let bases = Bases::new(from);
    let failed = |fault: io::Error| fault.to_string();
    let files = FILES.iter().filter(|name| from.join(name).exists()).count();
    match (files, bases.read().map_err(failed)?) {
        (2, None) => {
            let lock = if is_own { None } else { Some(Folder::lock(from).map_err(failed)?.ok_or("a kfsd has it")?) };
            for name in FILES {
                copy(&from.join(name), &to.join(name)).map_err(failed)?;
            }
            for name in [NAME.to_string(), format!("{NAME}-wal")] {
                match copy(&from.join(&name), &to.join(&name)) {
                    Err(fault) if fault.kind() != ErrorKind::NotFound => return Err(failed(fault)),
                    _ => {}
                }
            }
            drop(lock);
            let mut store = Store::open(to).map_err(|fault| fault.to_string())?;
            desk::recall(to, &mut store, following).map_err(|fault| fault.to_string())?;
            Ok(following.leases().moment)
        }
        (0, Some(base)) => {
            let moment = base.moment;
            bases.put(to).and_then(|()| base.recall(to, following)).map_err(failed)?;
            Ok(following.leases().moment.max(moment))
        }
        (0, None) => Err("it has neither the two files of one nor a state (base)".to_string()),
        (2, Some(_)) => Err("it has two files and a state (base): leave the one or the other there".to_string()),
        _ => Err("it has one of the two files".to_string()),
    }
}

/// What a volume that begins with the state in a folder is begun with.
fn origin_of(folder: &Path) -> io::Result<Origin> {
    let (mut file, _) = journal::counting(folder)?.ok_or(ErrorKind::NotFound)?;
    file.seek(SeekFrom::Start(journal::HEAD as u64))?;
    Origin::of_state(BufReader::new(file))
}

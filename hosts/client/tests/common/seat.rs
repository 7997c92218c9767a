//! Several clients of one program, each with a desk of its own. Who is refused a lease has its holder told.

use kfs_client::desk::{Answer, Desk, LeaseRefusal, Unanswered, Wanted, Wish};
use kfs_client::program::Program;
use kfs_client::{Client, Header, Name, Shown, Unshown};
use std::collections::{BTreeSet, HashMap};
use std::sync::{Arc, Mutex, MutexGuard};

pub struct Shared {
    pub program: Program,
    wants: HashMap<u32, BTreeSet<u32>>,
    pub moment: u64,
}

/// What the next submission meets.
#[derive(Clone, Copy, Debug, PartialEq)]
pub enum Trouble {
    None,
    /// It is made, and the answer is lost.
    AnswerLost,
    /// It never comes to the server, and that isn't known.
    CallLost,
}

#[derive(Clone)]
pub struct Seat {
    pub shared: Arc<Mutex<Shared>>,
    pub client: u32,
    pub trouble: Trouble,
    pub calls: u64,
    /// Whether leases are asked for by the path alone that the client gives.
    pub is_by_path: bool,
}

/// The seats of these clients at a new program.
pub fn seats(path: &str, tiers: [u32; 3], clients: &[Client]) -> Vec<Seat> {
    let program = Program::start(path, tiers, clients).unwrap();
    let shared = Arc::new(Mutex::new(Shared { program, wants: HashMap::new(), moment: 0 }));
    let seat = |client: &Client| Seat {
        shared: Arc::clone(&shared),
        client: client.number,
        trouble: Trouble::None,
        calls: 0,
        is_by_path: false,
    };
    clients.iter().map(seat).collect()
}

impl Seat {
    pub fn taken(&self) -> MutexGuard<'_, Shared> {
        let mut shared = self.shared.lock().unwrap();
        shared.program.act_for(self.client);
        shared
    }

    pub fn tick(&self, moment: u64) {
        let mut shared = self.taken();
        shared.moment = moment;
        let reply = shared.program.ask(&format!("tick {moment}")).unwrap();
        assert!(reply.ends_with(&format!("ticked {moment}")), "{reply}");
    }
}

impl Shown for Seat {
    fn header(&mut self, number: u32) -> Result<Option<Header>, Unshown> {
        self.calls += 1;
        self.taken().program.header(number)
    }

    fn find(&mut self, directory: u32, name: &Name) -> Result<Option<u32>, Unshown> {
        self.calls += 1;
        self.taken().program.find(directory, name)
    }

    fn list(&mut self, directory: u32, behind: Option<&Name>, most: usize) -> Result<Vec<(Name, u32)>, Unshown> {
        self.calls += 1;
        self.taken().program.list(directory, behind, most)
    }

    fn read(&mut self, number: u32, start: u64, most: usize) -> Result<Vec<u8>, Unshown> {
        self.calls += 1;
        self.taken().program.read(number, start, most)
    }
}

impl Desk for Seat {
    fn lease(&mut self, wanted: &Wanted) -> Result<Result<(), LeaseRefusal>, Unanswered> {
        let mut shared = self.taken();
        let answer = match &wanted.path {
            Some(path) if self.is_by_path => shared.program.lease_by_path(wanted, path)?,
            _ => shared.program.lease(wanted)?,
        };
        if let Err(LeaseRefusal::Held(holder)) = answer {
            shared.wants.entry(holder).or_default().insert(wanted.number);
        }
        Ok(answer)
    }

    fn drop_lease(&mut self, number: u32) -> Result<Result<(), LeaseRefusal>, Unanswered> {
        self.taken().program.drop_lease(number)
    }

    fn submit(&mut self, log: &[u8], plan: &[u8]) -> Result<Answer, Unanswered> {
        match std::mem::replace(&mut self.trouble, Trouble::None) {
            Trouble::None => self.taken().program.submit(log, plan),
            Trouble::AnswerLost => {
                self.taken().program.submit(log, plan)?;
                Err(Unanswered::Unknown)
            }
            Trouble::CallLost => Err(Unanswered::Unknown),
        }
    }

    fn moment(&mut self) -> Result<u64, Unanswered> {
        Ok(self.taken().moment)
    }

    fn wanted_by_others(&mut self) -> Result<Vec<Wish>, Unanswered> {
        let client = self.client;
        let wanted = self.taken().wants.remove(&client).unwrap_or_default();
        Ok(wanted.into_iter().map(Wish::Node).collect())
    }
}

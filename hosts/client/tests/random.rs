//! Random entries, over a draft, a plain model, and the program.
//!
//! A draft takes an entry where the model does, and refuses it for the same reason. It shows what the model has, before it is
//! handed in. Its plan is the one that the program makes, byte by byte, and is answered yes; the program's tree is the model's
//! then. An entry that the draft refused, handed in behind the others, is refused by the program, at its index and for the same
//! reason. A log whose entries are mixed up is refused where the model refuses it, and a plan that lacks a row at that row.

mod common;

use common::chance::Chance;
use common::model::{Leased, Model, Run};
use common::{clients, compare_draft, compare_shown, first_seed, program_path, runs};
use kfs_client::desk::{Answer, Desk, LeaseKind, RowPart, Wanted};
use kfs_client::program::Program;
use kfs_client::{Client, Draft, Entry, Fault, Kind, Log, Name, Reason};

const MODES: [u16; 12] = [0o777, 0o755, 0o700, 0o1777, 0o770, 0o644, 0o666, 0o400, 0o000, 0o1700, 0o500, 0o555];
const NAMES: [&[u8]; 7] = [b"a", b"b", b"c", b"dd", b"e", b"f", b"\xff"];

/// Counts of what was tried, so that a test tells that it tried something.
#[derive(Debug, Default)]
struct Counts {
    taken: u64,
    refused: u64,
    refused_by_program: u64,
    handed_in: u64,
    wrong_logs: u64,
    wrong_plans: u64,
    pieces: u64,
}

/// One random run, with its own program.
struct Session<'a> {
    chance: Chance,
    program: Program,
    model: Model,
    clients: &'a [Client],
    drafts: Vec<Draft>,
    counts: &'a mut Counts,
}

fn entry(chance: &mut Chance, draft: &mut Draft, program: &mut Program, model: &Model) -> Entry {
    let numbers: Vec<u32> = model.nodes.keys().copied().collect();
    let directories: Vec<u32> = numbers.iter().copied().filter(|number| model.nodes[number].kind == Kind::Directory).collect();
    let files: Vec<u32> = numbers.iter().copied().filter(|number| model.nodes[number].kind == Kind::File).collect();
    let any = |chance: &mut Chance| if chance.percent(97) { *chance.of(&numbers) } else { chance.below(80) as u32 };
    let directory = |chance: &mut Chance| if chance.percent(95) { *chance.of(&directories) } else { any(chance) };
    let file = |chance: &mut Chance| if chance.percent(95) && !files.is_empty() { *chance.of(&files) } else { any(chance) };
    let name = |chance: &mut Chance| Name::new(chance.of::<&[u8]>(&NAMES)).unwrap();
    // A name that is there, mostly.
    let named = |chance: &mut Chance| match chance.percent(85) && !model.names.is_empty() {
        true => chance.of(&model.names.keys().cloned().collect::<Vec<_>>()).clone(),
        false => (directory(chance), name(chance)),
    };
    let kind = |chance: &mut Chance| if chance.percent(50) { Kind::File } else { Kind::Directory };
    let place = |chance: &mut Chance| match chance.below(30) {
        0 => (1 << 32) - 3 + chance.below(5),
        1 => u64::MAX - chance.below(3),
        2 => chance.below(70_000),
        _ => chance.below(60),
    };
    match chance.below(20) {
        0..=5 => {
            let free = draft.free_number(program).ok().filter(|_| chance.percent(96));
            let number = free.unwrap_or(chance.below(80) as u32);
            let (directory, name, mode) = (directory(chance), name(chance), *chance.of(&MODES));
            Entry::Create { directory, name, number, kind: kind(chance), mode }
        }
        6..=9 => {
            let length = if chance.percent(3) { 9000 } else { chance.below(30) as usize };
            let (number, payload) = (file(chance), chance.bytes(length));
            // What is so far away that it makes the model's file too large is too big for all of them.
            let offset = place(chance);
            let is_vast = offset > 1 << 20 && offset + (length as u64).min(u64::MAX - offset) <= 1 << 32;
            Entry::Write { number, offset: if is_vast { 7 } else { offset }, payload }
        }
        10..=11 => {
            let size = place(chance);
            Entry::Truncate { number: file(chance), size: if size > 1 << 20 && size <= 1 << 32 { 11 } else { size } }
        }
        12 => Entry::Link { number: file(chance), directory: directory(chance), name: name(chance) },
        13..=14 => {
            let (directory, name) = named(chance);
            let there = model.names.get(&(directory, name.clone())).and_then(|number| model.nodes.get(number));
            let kind = there.map(|node| node.kind).filter(|_| chance.percent(90)).unwrap_or_else(|| kind(chance));
            Entry::Unlink { directory, name, kind }
        }
        15..=17 => {
            let (from, old) = named(chance);
            let (to, new) = if chance.percent(50) { named(chance) } else { (directory(chance), name(chance)) };
            Entry::Rename { directory: from, name: old, new_directory: to, new_name: new }
        }
        18 => Entry::Chmod { number: any(chance), mode: *chance.of(&MODES) },
        _ => Entry::Regroup { number: any(chance), group: *chance.of(&[50, 1000, 1001, 7]) },
    }
}

impl Session<'_> {
    /// Takes leases on most nodes that the client can reach.
    fn take_leases(&mut self, at: usize) -> Leased {
        let draft = &mut self.drafts[at];
        let mut leased = Leased::default();
        let mut left = vec![1];
        while let Some(number) = left.pop() {
            let path = draft.paths().path(number);
            let wanted = Wanted { number, path, kind: LeaseKind::Write, end: 1 << 40 };
            if self.chance.percent(96) && self.program.lease(&wanted).unwrap().is_ok() {
                leased.0.insert(number);
            }
            if self.model.nodes[&number].kind == Kind::Directory {
                let names = draft.list(&mut self.program, number, None, usize::MAX).unwrap();
                left.extend(names.into_iter().map(|(_, number)| number));
            }
        }
        leased
    }

    /// One log, from its leases to its answer.
    fn log(&mut self, count: u64) {
        let at = self.chance.below(self.clients.len() as u64) as usize;
        let clients = self.clients;
        self.program.act_for(clients[at].number);
        let leased = self.take_leases(at);
        let before = self.model.clone();
        let mut run = Run::new(&before, &clients[at], &leased);
        for _ in 0..count {
            self.one_entry(at, &leased, &mut run);
        }
        compare_draft(&mut self.drafts[at], &mut self.program, &run.model);
        let after = run.model;
        if self.chance.percent(90) {
            self.hand_in(at, after, &before, &leased);
        }
        self.drafts[at].clear();
        for number in leased.0 {
            // A lease on a node that went has ended.
            let _ = self.program.drop_lease(number).unwrap();
        }
        compare_shown(&mut self.program, &self.model);
    }

    fn one_entry(&mut self, at: usize, leased: &Leased, run: &mut Run) {
        let draft = &mut self.drafts[at];
        let entry = entry(&mut self.chance, draft, &mut self.program, &run.model);
        if let Entry::Write { number, payload, .. } = &entry {
            // Each write may go on where it is the last one's.
            let offset = run.model.nodes.get(number).map_or(0, |node| node.bytes.len() as u64);
            let count = draft.write_on(leased, *number, offset, payload);
            if count > 0 {
                run.enter(&Entry::Write { number: *number, offset, payload: payload[..count].to_vec() }).unwrap();
            }
        }
        let due = run.enter(&entry);
        match (draft.enter(&mut self.program, leased, &entry), due) {
            (Ok(()), Ok(())) => self.counts.taken += 1,
            (Err(Fault::Refused(reason)), Err(due)) if reason == due => {
                self.counts.refused += 1;
                if self.chance.percent(30) {
                    self.refused_by_program(at, &entry, due);
                }
            }
            (found, due) => panic!("{entry:?}: the draft says {found:?}, and the model {due:?}"),
        }
        if self.chance.percent(4) {
            compare_draft(&mut self.drafts[at], &mut self.program, &run.model);
        }
    }

    /// Hands the log in with an entry that the draft refused.
    fn refused_by_program(&mut self, at: usize, entry: &Entry, due: Reason) {
        let draft = &self.drafts[at];
        let mut log = draft.log().clone();
        log.push(entry).unwrap();
        let answer = self.program.submit(log.as_bytes(), &draft.plan().to_bytes()).unwrap();
        assert_eq!(answer, Answer::Entry(log.len() - 1, due), "{entry:?}");
        // A plan is made as though all leases were held.
        let is_for_leases = matches!(due, Reason::NoLease(_));
        assert!(is_for_leases || self.program.plan(log.as_bytes()).unwrap().is_none());
        self.counts.refused_by_program += 1;
    }

    fn hand_in(&mut self, at: usize, after: Model, before: &Model, leased: &Leased) {
        let draft = &self.drafts[at];
        let plan = draft.plan();
        let bytes = plan.to_bytes();
        let made = self.program.plan(draft.log().as_bytes()).unwrap();
        assert!(made.as_ref() == Some(&bytes), "the plan is another one: {plan:?}");
        self.wrong_plans(at);
        self.wrong_log(at, before, leased);
        let answer = self.program.submit(self.drafts[at].log().as_bytes(), &bytes).unwrap();
        assert_eq!(answer, Answer::Yes);
        self.model = after;
        self.counts.handed_in += 1;
        self.counts.pieces += plan.pieces.len() as u64;
    }

    /// Hands in the log with an entry left out, twice there, or at another's place. Where the model refuses it, so does the program.
    fn wrong_log(&mut self, at: usize, before: &Model, leased: &Leased) {
        let mut entries: Vec<Entry> = self.drafts[at].log().entries().collect();
        if entries.is_empty() {
            return;
        }
        let (one, other) = (self.chance.below(entries.len() as u64) as usize, self.chance.below(entries.len() as u64) as usize);
        match self.chance.below(3) {
            0 => drop(entries.remove(one)),
            1 => entries.insert(other, entries[one].clone()),
            _ => entries.swap(one, other),
        }
        let mut run = Run::new(before, &self.clients[at], leased);
        let fault = entries.iter().enumerate().find_map(|(index, entry)| Some((index, run.enter(entry).err()?)));
        if let Some((index, reason)) = fault {
            let mut log = Log::new(self.clients[at].number);
            entries.iter().for_each(|entry| log.push(entry).unwrap());
            let answer = self.program.submit(log.as_bytes(), &self.drafts[at].plan().to_bytes()).unwrap();
            assert_eq!(answer, Answer::Entry(index, reason));
            self.counts.wrong_logs += 1;
        }
    }

    /// Hands the log in with plans that lack a row.
    fn wrong_plans(&mut self, at: usize) {
        let right = self.drafts[at].plan();
        let log = self.drafts[at].log().as_bytes().to_vec();
        let lengths = [right.names.len(), right.nodes.len(), right.pieces.len()];
        for (part, length) in [RowPart::Names, RowPart::Nodes, RowPart::Pieces].into_iter().zip(lengths) {
            if length == 0 {
                continue;
            }
            let row = self.chance.below(length as u64) as usize;
            let mut wrong = right.clone();
            match part {
                RowPart::Names => drop(wrong.names.remove(row)),
                RowPart::Nodes => drop(wrong.nodes.remove(row)),
                RowPart::Pieces => drop(wrong.pieces.remove(row)),
            }
            let answer = self.program.submit(&log, &wrong.to_bytes()).unwrap();
            assert_eq!(answer, Answer::Row(part, row));
            self.counts.wrong_plans += 1;
        }
    }
}

#[test]
fn random_logs_are_those_of_the_model_and_of_the_program() {
    let (clients, mut counts) = (clients(), Counts::default());
    for seed in first_seed()..first_seed() + runs(200) {
        let program = Program::start(program_path(), [4096, 16, 16], &clients).unwrap();
        let drafts = clients.iter().cloned().map(Draft::new).collect();
        let chance = Chance(seed);
        let mut session = Session { chance, program, model: Model::fresh(), clients: &clients, drafts, counts: &mut counts };
        let told = std::panic::catch_unwind(std::panic::AssertUnwindSafe(|| {
            for _ in 0..session.chance.below(10) + 1 {
                let count = session.chance.below(120);
                session.log(count);
            }
        }));
        if let Err(fault) = told {
            eprintln!("seed {seed}");
            std::panic::resume_unwind(fault);
        }
    }
    println!("{counts:?}");
    assert!(
        counts.taken > 0
            && counts.refused_by_program > 0
            && counts.wrong_plans > 0
            && counts.wrong_logs > 0
            && counts.pieces > 0
    );
}

//! Makes the calls in one thread for each site, side by side.
//!
//! A thread makes calls of its site as long as it has read access to the open round. One whose call would break the treaty asks for
//! write access, for which the others make way behind their call in hand; by then there may be another round, so it tries once more.

use std::sync::atomic::{AtomicUsize, Ordering};
use std::sync::{Mutex, MutexGuard, PoisonError, RwLock, RwLockReadGuard, RwLockWriteGuard};
use std::thread;

use crate::program::Program;
use crate::rounds::Rounds;
use crate::site::Site;

/// How many rounds a thread may close before another one has its turn. To hand over takes longer than to close a round.
const TURN: usize = 64;

/// What the threads share.
struct Board<'a> {
    program: &'a Program,
    rounds: RwLock<Rounds>,
    sites: Vec<Mutex<Site>>,
    /// How many threads want to close the round.
    closing: AtomicUsize,
}

/// The report of a run in threads.
pub fn run(program: &Program) -> Vec<u8> {
    let objects = program.workload.objects.len();
    let board = Board {
        program,
        rounds: RwLock::new(Rounds::new(program)),
        sites: (0..program.workload.sites).map(|site| Mutex::new(Site::new(site, objects))).collect(),
        closing: AtomicUsize::new(0),
    };
    thread::scope(|scope| {
        for site in 0..program.workload.sites {
            let calls = calls_of(program, site);
            let board = &board;
            if !calls.is_empty() {
                scope.spawn(move || board.make_calls(site as usize, &calls));
            }
        }
    });
    let Board { rounds, mut sites, .. } = board;
    let rounds = rounds.into_inner().unwrap_or_else(PoisonError::into_inner);
    rounds.finish(program, sites.iter_mut().map(|site| site.get_mut().unwrap_or_else(PoisonError::into_inner)))
}

/// The calls of a site's clients, one of each client in turn.
fn calls_of(program: &Program, site: u32) -> Vec<(u32, usize)> {
    let clients = program.workload.clients.iter().enumerate().filter(|(_, client)| client.site == site);
    let mut left: Vec<u32> = clients.map(|(client, _)| client as u32).collect();
    let mut calls = Vec::new();
    for position in 0.. {
        left.retain(|&client| position < program.count(client));
        if left.is_empty() {
            break;
        }
        calls.extend(left.iter().map(|&client| (client, position)));
    }
    calls
}

impl Board<'_> {
    fn make_calls(&self, site: usize, calls: &[(u32, usize)]) {
        let mut made = 0;
        while made < calls.len() {
            let (local, is_broken) = self.make_local_calls(site, &calls[made..]);
            made += local;
            if is_broken {
                made += self.make_closing_calls(site, &calls[made..]);
            }
        }
    }

    /// Makes calls until one would break the treaty or another thread wants to close the round.
    fn make_local_calls(&self, site: usize, calls: &[(u32, usize)]) -> (usize, bool) {
        let rounds = self.read();
        let mut site = self.site(site);
        for (made, &(client, position)) in calls.iter().enumerate() {
            if self.closing.load(Ordering::Relaxed) > 0 {
                return (made, false);
            }
            if site.make(self.program, &rounds.plan, client, position).is_err() {
                return (made, true);
            }
        }
        (calls.len(), false)
    }

    /// Makes calls with all sites in hand as long as each closes its round, but not more than a turn of them. The first one may keep
    /// the treaty by now; then it is made as a local call.
    fn make_closing_calls(&self, site: usize, calls: &[(u32, usize)]) -> usize {
        self.closing.fetch_add(1, Ordering::Relaxed);
        let mut rounds = self.write();
        let mut made = 0;
        for &(client, position) in calls.iter().take(TURN) {
            made += 1;
            let tried = self.site(site).make(self.program, &rounds.plan, client, position);
            match tried {
                Ok(()) => break,
                Err(finding) => rounds.close(self.program, self.sites.iter().map(lock), (client, position), &finding),
            }
        }
        self.closing.fetch_sub(1, Ordering::Relaxed);
        made
    }

    fn read(&self) -> RwLockReadGuard<'_, Rounds> {
        self.rounds.read().unwrap_or_else(PoisonError::into_inner)
    }

    fn write(&self) -> RwLockWriteGuard<'_, Rounds> {
        self.rounds.write().unwrap_or_else(PoisonError::into_inner)
    }

    fn site(&self, site: usize) -> MutexGuard<'_, Site> {
        lock(&self.sites[site])
    }
}

fn lock(site: &Mutex<Site>) -> MutexGuard<'_, Site> {
    site.lock().unwrap_or_else(PoisonError::into_inner)
}

//! When the table is stored, and what is done where that fails.

use std::io;
use std::sync::mpsc::{sync_channel, Receiver, RecvTimeoutError, SyncSender, TrySendError};
use std::thread::{self, JoinHandle};
use std::time::{Duration, Instant};

use crate::border::library::Table;
use crate::border::system::Signals;
use crate::failure::{say, Failure};
use crate::keeper::Keeper;

/// After a change the table is stored within a second: this wait, and the
/// storing.
const STORE_AFTER: Duration = Duration::from_millis(500);
/// How often a store that failed is tried again.
pub const TRY_AGAIN: Duration = Duration::from_secs(1);
/// How long storing fails until that is said again, and then each time that it
/// has lasted twice as long.
const SAY_AGAIN: Duration = Duration::from_secs(5);
/// How often it is looked for a signal while the table is stored at the end.
const LOOK: Duration = Duration::from_millis(20);

/// When a change is stored.
#[derive(Clone, Copy, Debug, PartialEq, Eq)]
pub enum Sync {
    /// Within a second.
    Second,
    /// Before the replies of the turn go out.
    Always,
}

/// A time in which the table can't be stored.
struct Failing {
    since: Instant,
    /// How long it has to last until it is said again.
    next: Duration,
}

impl Failing {
    fn lasted(&self) -> String {
        match self.since.elapsed().as_secs() {
            1 => "1 second".to_string(),
            count => format!("{count} seconds"),
        }
    }
}

/// Stores what is to be the table's file, and says what fails.
struct Storer {
    keeper: Keeper,
    sync: Sync,
    failing: Option<Failing>,
}

impl Storer {
    /// Whether the file is this one, after storing it where it is not.
    fn store(&mut self, file: &[u8]) -> bool {
        let result = match self.keeper.has(file) {
            true => Ok(()),
            false => self.keeper.store(file),
        };
        match (&result, &mut self.failing) {
            (Ok(()), None) => {}
            (Ok(()), Some(failing)) => {
                let lasted = failing.lasted();
                say(format!("the table is stored again, after {lasted}"));
                self.failing = None;
            }
            (Err(failure), None) => {
                self.say_failing(failure);
                self.failing = Some(Failing {
                    since: Instant::now(),
                    next: SAY_AGAIN,
                });
            }
            (Err(_), Some(failing)) if failing.since.elapsed() >= failing.next => {
                let lasted = failing.lasted();
                say(format!("warning: nothing could be stored for {lasted}"));
                failing.next *= 2;
            }
            _ => {}
        }
        result.is_ok()
    }

    fn say_failing(&self, failure: &Failure) {
        let meanwhile = match self.sync {
            Sync::Always => "Meanwhile writes wait, and reads are answered from the table as it was stored last.",
            Sync::Second => "Meanwhile all requests are answered, and their changes are in memory alone.",
        };
        say(format!(
            "warning: {failure}\nThe file is one whole table. Storing is tried again each second. {meanwhile}"
        ));
    }

    /// Stores each file that comes, until none will come. One that can't be
    /// stored is tried again, unless a later one has come.
    fn store_all(mut self, files: Receiver<Vec<u8>>) -> Storer {
        while let Ok(mut file) = files.recv() {
            while !self.store(&file) {
                match files.recv_timeout(TRY_AGAIN) {
                    Ok(later) => file = later,
                    Err(RecvTimeoutError::Timeout) => {}
                    Err(RecvTimeoutError::Disconnected) => return self,
                }
            }
        }
        self
    }
}

/// Who stores.
enum Way {
    /// The server itself, which waits for the disk.
    Here(Storer),
    /// A thread of its own, so that nobody waits for the disk.
    Beside(SyncSender<Vec<u8>>, JoinHandle<Storer>),
}

impl Way {
    /// Stores the last file, and tries until that works.
    fn finish(self, file: &[u8]) -> Result<(), Failure> {
        let mut storer = match self {
            Way::Here(storer) => storer,
            Way::Beside(sender, thread) => {
                drop(sender);
                thread.join().map_err(|_| unstored(Sync::Second))?
            }
        };
        while !storer.store(file) {
            thread::sleep(TRY_AGAIN);
        }
        Ok(())
    }
}

pub struct Saver {
    way: Way,
    /// When the table is to be stored.
    due: Option<Instant>,
}

impl Saver {
    /// Signals have to be blocked before, so that they come to the server.
    pub fn new(keeper: Keeper, sync: Sync) -> io::Result<Saver> {
        let storer = Storer {
            keeper,
            sync,
            failing: None,
        };
        let way = match sync {
            Sync::Always => Way::Here(storer),
            Sync::Second => {
                let (sender, files) = sync_channel(1);
                let name = thread::Builder::new().name("store".to_string());
                Way::Beside(sender, name.spawn(move || storer.store_all(files))?)
            }
        };
        Ok(Saver { way, due: None })
    }

    /// Whether replies wait until the table is stored.
    pub fn delays(&self) -> bool {
        matches!(self.way, Way::Here(_))
    }

    /// Whether replies wait, and the last store failed.
    pub fn is_failing(&self) -> bool {
        matches!(&self.way, Way::Here(storer) if storer.failing.is_some())
    }

    /// When something is to be done next.
    pub fn due(&self) -> Option<Instant> {
        self.due
    }

    /// Whether a store that failed is to be tried again.
    pub fn is_due_again(&self, now: Instant) -> bool {
        self.is_failing() && self.due.is_some_and(|due| now >= due)
    }

    /// Requests were served: whether their replies may go out.
    pub fn served(&mut self, table: &Table, now: Instant) -> bool {
        let Way::Here(storer) = &mut self.way else {
            self.due.get_or_insert(now + STORE_AFTER);
            return true;
        };
        let stored = storer.store(&table.store());
        self.due = (!stored).then(|| Instant::now() + TRY_AGAIN);
        stored
    }

    /// Has the table stored if that is due. Where the one before still waits
    /// for the disk, it is due again.
    pub fn look(&mut self, table: &Table, now: Instant) -> Result<(), Failure> {
        let Way::Beside(sender, _) = &self.way else {
            return Ok(());
        };
        if self.due.is_some_and(|due| now >= due) {
            self.due = match sender.try_send(table.store()) {
                Ok(()) => None,
                Err(TrySendError::Full(_)) => Some(now + STORE_AFTER),
                Err(TrySendError::Disconnected(_)) => {
                    return Err("can't serve on, since nobody stores the table".to_string())
                }
            };
        }
        Ok(())
    }

    /// Stores the table at the end. A signal meanwhile ends it at once, also
    /// where the disk does not answer.
    pub fn finish(self, table: &Table, signals: &mut Signals) -> Result<(), Failure> {
        let sync = match self.way {
            Way::Here(_) => Sync::Always,
            Way::Beside(..) => Sync::Second,
        };
        let file = table.store();
        let (sender, done) = sync_channel(1);
        thread::spawn(move || sender.send(self.way.finish(&file)));
        loop {
            match done.recv_timeout(LOOK) {
                Ok(result) => return result,
                Err(RecvTimeoutError::Timeout) if !signals.take() => {}
                Err(_) => return Err(unstored(sync)),
            }
        }
    }
}

/// Says that the table was not stored at the end.
pub fn unstored(sync: Sync) -> Failure {
    let lost = match sync {
        Sync::Always => "Every write that was answered is in the file.",
        Sync::Second => "The changes since the last store are lost.",
    };
    format!("ended at once, before the table could be stored; the file is one whole table.\n{lost}")
}

#[cfg(test)]
mod tests {
    use super::*;

    #[test]
    fn a_store_thread_that_is_gone_is_told() {
        let (sender, files) = sync_channel(1);
        let thread = thread::spawn(move || {
            drop(files);
            std::panic::resume_unwind(Box::new("gone"))
        });
        while !thread.is_finished() {
            thread::yield_now();
        }
        let (table, now) = (Table::fresh(), Instant::now());
        let mut saver = Saver {
            way: Way::Beside(sender, thread),
            due: Some(now),
        };
        let told = saver.look(&table, now).unwrap_err();
        assert!(told.contains("nobody stores the table"), "{told}");
        let mut signals = Signals::new().unwrap();
        let told = saver.finish(&table, &mut signals).unwrap_err();
        assert!(told.contains("since the last store are lost"), "{told}");
    }
}

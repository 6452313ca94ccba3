//! The open connections, each at a place that it keeps until it is closed.

use std::time::{Duration, Instant};

use crate::connection::Connection;

#[derive(Default)]
pub struct Places {
    connections: Vec<Option<Connection>>,
    free: Vec<usize>,
    /// How many were told that no reply follows.
    shut: usize,
    /// The place that is kept beside those of clients, and is never idle.
    kept: Option<usize>,
}

impl Places {
    /// How many places are taken by clients.
    pub fn taken(&self) -> usize {
        self.connections.len() - self.free.len() - usize::from(self.kept.is_some())
    }

    /// How many connections are open: those that get no reply any more only
    /// linger for a moment.
    pub fn open(&self) -> usize {
        self.taken() - self.shut
    }

    pub fn get(&self, index: usize) -> Option<&Connection> {
        self.connections[index].as_ref()
    }

    pub fn get_mut(&mut self, index: usize) -> Option<&mut Connection> {
        self.connections[index].as_mut()
    }

    /// Gives a connection a place.
    pub fn add(&mut self, connection: Connection) -> usize {
        match self.free.pop() {
            Some(index) => {
                self.connections[index] = Some(connection);
                index
            }
            None => {
                self.connections.push(Some(connection));
                self.connections.len() - 1
            }
        }
    }

    /// Gives a connection the place that is kept.
    pub fn keep(&mut self, connection: Connection) -> usize {
        let index = self.add(connection);
        self.kept = Some(index);
        index
    }

    fn is_kept(&self, index: usize) -> bool {
        self.kept == Some(index)
    }

    /// Closes the connection at a place, if there is one.
    pub fn close(&mut self, index: usize) {
        if let Some(connection) = self.connections[index].take() {
            if self.is_kept(index) {
                self.kept = None;
            } else {
                self.shut -= usize::from(connection.is_shut());
            }
            self.free.push(index);
        }
    }

    /// Tells the client at a place that no reply follows, if its last one was
    /// sent.
    pub fn shut(&mut self, index: usize, now: Instant) {
        let is_kept = self.is_kept(index);
        if let Some(connection) = &mut self.connections[index] {
            let before = connection.is_shut();
            connection.shut(now);
            self.shut += usize::from(connection.is_shut() && !before && !is_kept);
        }
    }

    /// Closes the connections that are late; answers how many were idle.
    pub fn close_late(&mut self, now: Instant, idle: Option<Duration>) -> usize {
        let mut count = 0;
        for index in 0..self.connections.len() {
            let idle = idle.filter(|_| !self.is_kept(index));
            let late = self
                .get(index)
                .filter(|connection| connection.is_late(now, idle));
            if let Some(connection) = late {
                count += usize::from(!connection.is_shut());
                self.close(index);
            }
        }
        count
    }

    /// The places whose connections wait until the table can be stored.
    pub fn held(&self) -> Vec<usize> {
        let is_held = |index: &usize| self.get(*index).is_some_and(|one| one.held);
        (0..self.connections.len()).filter(is_held).collect()
    }

    /// Counts the idle time of all from here on.
    pub fn begin_anew(&mut self, now: Instant) {
        for connection in self.connections.iter_mut().flatten() {
            connection.moved = now;
        }
    }
}

//! Notifications to systemd, as sd_notify(3) says: a datagram to the socket that
//! NOTIFY_SOCKET names. Where it names none, nothing is sent.

use std::env;
use std::ffi::OsStr;
use std::io;
use std::os::linux::net::SocketAddrExt;
use std::os::unix::ffi::OsStrExt;
use std::os::unix::net::{SocketAddr, UnixDatagram};

use crate::failure::because;
use crate::log;

/// The server can be called.
pub fn ready() {
    notify("READY=1");
}

/// The server ends.
pub fn stopping() {
    notify("STOPPING=1");
}

fn notify(words: &str) {
    let Some(name) = env::var_os("NOTIFY_SOCKET") else {
        return;
    };
    if let Err(error) = send(&name, words) {
        log::warning(because("can't notify systemd (NOTIFY_SOCKET)", error));
    }
}

/// Sends to a socket in a folder, or behind @ to one without a file.
fn send(name: &OsStr, words: &str) -> io::Result<()> {
    let address = match name.as_bytes().strip_prefix(b"@") {
        Some(name) => SocketAddr::from_abstract_name(name)?,
        None => SocketAddr::from_pathname(name)?,
    };
    let socket = UnixDatagram::unbound()?;
    socket.set_nonblocking(true)?;
    socket.send_to_addr(words.as_bytes(), &address).map(|_| ())
}

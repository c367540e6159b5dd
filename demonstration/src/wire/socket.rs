//! The socket between the two hosts of a pair. It has a name and no file, so nothing is left of it.

use std::io;
use std::os::linux::net::SocketAddrExt;
use std::os::unix::net::{SocketAddr, UnixListener, UnixStream};

/// The hosts are children of one referee, whose number tells runs apart.
fn address(pair: u64) -> io::Result<SocketAddr> {
    SocketAddr::from_abstract_name(format!("speldervacht-{}-{pair}", std::os::unix::process::parent_id()))
}

pub fn listen(pair: u64) -> io::Result<UnixListener> {
    UnixListener::bind_addr(&address(pair)?)
}

pub fn connect(pair: u64) -> io::Result<UnixStream> {
    UnixStream::connect_addr(&address(pair)?)
}

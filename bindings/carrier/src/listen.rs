//! Sockets: a Unix socket, addresses, and what systemd hands over.

use std::fs::{self, DirBuilder, Permissions};
use std::io::{Error, ErrorKind, Result};
use std::os::fd::FromRawFd;
use std::os::unix::fs::{DirBuilderExt, FileTypeExt, PermissionsExt};
use std::os::unix::net::{UnixListener as StdUnixListener, UnixStream as StdUnixStream};
use std::path::Path;
use tokio::io::{AsyncRead, AsyncWrite};
use tokio::net::{TcpListener, UnixListener};

/// What peers connect to.
pub enum Listener {
    Unix(UnixListener),
    Tcp(TcpListener),
}

/// The two directions of a peer that has connected.
pub type Halves = (Box<dyn AsyncRead + Unpin>, Box<dyn AsyncWrite + Unpin>);

impl Listener {
    pub async fn accept(&self) -> Result<Halves> {
        match self {
            Listener::Unix(listener) => {
                let (reader, writer) = listener.accept().await?.0.into_split();
                Ok((Box::new(reader), Box::new(writer)))
            }
            Listener::Tcp(listener) => {
                let stream = listener.accept().await?.0;
                // Answers are whole when they are sent.
                let _ = stream.set_nodelay(true);
                let (reader, writer) = stream.into_split();
                Ok((Box::new(reader), Box::new(writer)))
            }
        }
    }
}

/// Binds a Unix socket, whose file has the mode before anybody can connect: it is bound in a folder that nobody else enters, and
/// then moved to its place. One that nobody listens on any more is replaced.
pub fn bind_unix(path: &Path, mode: u32) -> Result<Listener> {
    if let Ok(found) = fs::symlink_metadata(path) {
        if !found.file_type().is_socket() {
            return Err(Error::new(ErrorKind::AlreadyExists, "it is there and is no socket"));
        }
        if StdUnixStream::connect(path).is_ok() {
            return Err(Error::new(ErrorKind::AddrInUse, "another program listens there"));
        }
    }
    let folder = path.with_extension(format!("{}", std::process::id()));
    DirBuilder::new().mode(0o700).create(&folder)?;
    let bound = bind_in(&folder, path, mode);
    let _ = fs::remove_dir_all(&folder);
    bound
}

fn bind_in(folder: &Path, path: &Path, mode: u32) -> Result<Listener> {
    let inner = folder.join("s");
    let listener = StdUnixListener::bind(&inner)?;
    listener.set_nonblocking(true)?;
    fs::set_permissions(&inner, Permissions::from_mode(mode))?;
    fs::rename(&inner, path)?;
    Ok(Listener::Unix(UnixListener::from_std(listener)?))
}

/// Binds an address: of this machine alone, unless others are wanted.
pub async fn bind_tcp(address: &str, is_beyond_loopback: bool) -> Result<Listener> {
    for found in tokio::net::lookup_host(address).await? {
        if !found.ip().is_loopback() && !is_beyond_loopback {
            return Err(Error::new(ErrorKind::InvalidInput, "others than this machine reach it: give --beyond-loopback"));
        }
    }
    Ok(Listener::Tcp(TcpListener::bind(address).await?))
}

/// The sockets that systemd hands over, by LISTEN_PID and LISTEN_FDS: those from file descriptor 3 on.
pub fn inherited() -> Result<Vec<Listener>> {
    let number = |name: &str| std::env::var(name).ok().and_then(|text| text.parse::<u32>().ok());
    if number("LISTEN_PID") != Some(std::process::id()) {
        return Ok(Vec::new());
    }
    let count = number("LISTEN_FDS").unwrap_or(0);
    (3..3 + count as i32).map(inherit).collect()
}

fn inherit(descriptor: i32) -> Result<Listener> {
    // SAFETY: whoever set LISTEN_PID to this process has given it this descriptor, and nothing else here uses it.
    let socket = unsafe { std::net::TcpListener::from_raw_fd(descriptor) };
    if socket.local_addr().is_ok() {
        socket.set_nonblocking(true)?;
        return Ok(Listener::Tcp(TcpListener::from_std(socket)?));
    }
    // It has no internet address, so it is a Unix socket.
    let socket = StdUnixListener::from(std::os::fd::OwnedFd::from(socket));
    socket.set_nonblocking(true)?;
    Ok(Listener::Unix(UnixListener::from_std(socket)?))
}

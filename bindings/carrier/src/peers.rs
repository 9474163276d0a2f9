//! Connections: what a peer sends goes to the program as frames, and what the program sends goes to the peer.

use crate::arguments::Arguments;
use crate::frames::{Frame, DATA, ENDED, OPENED};
use crate::listen::Halves;
use std::cell::{Cell, RefCell};
use std::collections::HashMap;
use std::pin::pin;
use std::rc::Rc;
use std::time::Duration;
use tokio::io::{AsyncRead, AsyncReadExt, AsyncWrite, AsyncWriteExt};
use tokio::sync::{mpsc, Notify};
use tokio::task::spawn_local;
use tokio::time::{sleep_until, timeout, Instant};

/// How much is read from a peer at once.
const READ: usize = 16384;
/// For how long what a peer still sends is dropped once the program has closed its connection. A socket that is closed with bytes
/// unread would take back what was sent last.
const LINGER: Duration = Duration::from_secs(2);

/// What a frame that waits for a slow peer counts beside its bytes.
const OVERHEAD: usize = 64;

/// What the program told a connection.
enum Told {
    Bytes(Vec<u8>),
    Close,
}

/// A number that is in use: until the peer's end was told to the program, and the program has closed it.
struct Peer {
    told: mpsc::UnboundedSender<Told>,
    shared: Rc<Shared>,
    is_closed: bool,
    is_end_told: bool,
}

/// What both sides of a connection know.
struct Shared {
    pending: Cell<usize>,
    active: Cell<Instant>,
    is_closing: Cell<bool>,
    cut: Notify,
}

/// All connections.
pub struct Peers {
    map: RefCell<HashMap<u32, Peer>>,
    most: usize,
    pending: usize,
    silence: Duration,
    to_program: mpsc::Sender<Frame>,
    /// Told whenever a number has become free.
    pub freed: Notify,
}

impl Peers {
    pub fn new(arguments: &Arguments, to_program: mpsc::Sender<Frame>) -> Rc<Peers> {
        let Arguments { connections: most, pending, silence, .. } = *arguments;
        Rc::new(Peers { map: RefCell::default(), most, pending, silence, to_program, freed: Notify::new() })
    }

    pub fn is_full(&self) -> bool {
        self.map.borrow().len() >= self.most
    }

    pub fn is_empty(&self) -> bool {
        self.map.borrow().is_empty()
    }

    /// The lowest number that isn't in use: a program can keep connections in a table, and refuse those beyond it.
    fn number(&self) -> u32 {
        let map = self.map.borrow();
        (0..).find(|number| !map.contains_key(number)).expect("most are free")
    }

    /// Takes a number for a connection, and carries it to its end.
    pub fn carry(self: Rc<Peers>, halves: Halves) {
        let number = self.number();
        let (told, tellings) = mpsc::unbounded_channel();
        let active = Cell::new(Instant::now());
        let shared = Rc::new(Shared { pending: Cell::new(0), active, is_closing: Cell::new(false), cut: Notify::new() });
        let peer = Peer { told, shared: shared.clone(), is_closed: false, is_end_told: false };
        self.map.borrow_mut().insert(number, peer);
        spawn_local(async move {
            let is_opened = self.to_program.send(Frame::bare(number, OPENED)).await.is_ok();
            if !self.exchange(number, halves, tellings, &shared).await && is_opened {
                let _ = self.to_program.send(Frame::bare(number, ENDED)).await;
            }
            if let Some(peer) = self.map.borrow_mut().get_mut(&number) {
                peer.is_end_told = true;
            }
            self.free(number);
        });
    }

    /// Moves bytes both ways until the connection is over. Returns whether its end was told to the program.
    async fn exchange(&self, number: u32, peer: Halves, tellings: mpsc::UnboundedReceiver<Told>, shared: &Shared) -> bool {
        let mut reading = pin!(self.hear(number, peer.0, shared));
        let mut writing = pin!(tell(peer.1, tellings, shared));
        let mut is_end_told = false;
        loop {
            tokio::select! {
                is_whole = &mut reading, if !is_end_told => {
                    is_end_told = true;
                    let _ = self.to_program.send(Frame::bare(number, ENDED)).await;
                    if !is_whole {
                        return true;
                    }
                }
                () = &mut writing => {
                    if !is_end_told {
                        let _ = timeout(LINGER, &mut reading).await;
                    }
                    return is_end_told;
                }
                () = shared.cut.notified() => return is_end_told,
                () = sleep_until(shared.active.get() + self.silence) => {
                    if shared.active.get() + self.silence <= Instant::now() {
                        return is_end_told;
                    }
                }
            }
        }
    }

    /// Hands what the peer sends to the program. Returns whether the peer ended it; else it is gone.
    async fn hear(&self, number: u32, mut reader: impl AsyncRead + Unpin, shared: &Shared) -> bool {
        let mut buffer = vec![0; READ];
        loop {
            let count = match reader.read(&mut buffer).await {
                Ok(0) => return true,
                Ok(count) => count,
                Err(_) => return false,
            };
            shared.active.set(Instant::now());
            let frame = Frame { connection: number, kind: DATA, bytes: buffer[..count].to_vec() };
            if !shared.is_closing.get() && self.to_program.send(frame).await.is_err() {
                shared.is_closing.set(true);
            }
        }
    }

    /// Does what the program says.
    pub fn obey(&self, frame: Frame) {
        let mut map = self.map.borrow_mut();
        let Some(peer) = map.get_mut(&frame.connection) else { return };
        if frame.kind == ENDED {
            peer.is_closed = true;
            let _ = peer.told.send(Told::Close);
        } else if !peer.is_closed {
            let pending = peer.shared.pending.get() + frame.bytes.len() + OVERHEAD;
            if pending > self.pending {
                peer.shared.cut.notify_one();
            } else {
                peer.shared.pending.set(pending);
                let _ = peer.told.send(Told::Bytes(frame.bytes));
            }
        }
        drop(map);
        self.free(frame.connection);
    }

    /// Closes all connections after what was sent, since the program is gone.
    pub fn close_all(&self) {
        for peer in self.map.borrow_mut().values_mut() {
            peer.is_closed = true;
            peer.shared.is_closing.set(true);
            let _ = peer.told.send(Told::Close);
        }
    }

    /// Frees a number that neither side uses any more.
    fn free(&self, number: u32) {
        let mut map = self.map.borrow_mut();
        if map.get(&number).is_some_and(|peer| peer.is_closed && peer.is_end_told) {
            map.remove(&number);
            self.freed.notify_one();
        }
    }
}

/// Sends what the program sent, up to the end of it.
async fn tell(mut writer: impl AsyncWrite + Unpin, mut tellings: mpsc::UnboundedReceiver<Told>, shared: &Shared) {
    while let Some(Told::Bytes(bytes)) = tellings.recv().await {
        let mut rest = &bytes[..];
        while !rest.is_empty() {
            match writer.write(rest).await {
                Ok(count) if count > 0 => rest = &rest[count..],
                _ => return,
            }
            shared.active.set(Instant::now());
        }
        shared.pending.set(shared.pending.get() - bytes.len() - OVERHEAD);
    }
    shared.is_closing.set(true);
    let _ = writer.shutdown().await;
}

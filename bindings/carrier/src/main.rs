//! Owns sockets for a program that speaks frames over standard input and output.

mod arguments;
mod frames;
mod listen;
mod peers;
mod systemd;

use arguments::Arguments;
use frames::{read_frame, Frame, STOP};
use listen::Listener;
use peers::Peers;
use std::cell::Cell;
use std::os::unix::process::{CommandExt, ExitStatusExt};
use std::process::{ExitCode, Stdio};
use std::rc::Rc;
use std::time::Duration;
use tokio::io::{AsyncWriteExt, BufReader, BufWriter};
use tokio::process::{Child, ChildStdin, Command};
use tokio::signal::unix::{signal, SignalKind};
use tokio::sync::mpsc;
use tokio::task::{spawn_local, LocalSet};
use tokio::time::{sleep, Instant};

/// How many frames may wait for the program. Beyond them peers wait.
const WAITING: usize = 64;
/// For how long what was sent last may still go out once the program has ended.
const GRACE: Duration = Duration::from_secs(5);
/// The status where the carrier itself can't go on.
const FAILED: u8 = 70;

fn main() -> ExitCode {
    let arguments = match arguments::parse(std::env::args_os().skip(1)) {
        Ok(arguments) => arguments,
        Err(message) => {
            eprintln!("wasmhost_carrier: {message}\n{}", arguments::USAGE);
            return ExitCode::from(2);
        }
    };
    let runtime = tokio::runtime::Builder::new_current_thread().enable_all().build();
    match runtime.and_then(|runtime| LocalSet::new().block_on(&runtime, run(&arguments))) {
        Ok(status) => ExitCode::from(status),
        Err(error) => {
            eprintln!("wasmhost_carrier: {error}");
            ExitCode::from(FAILED)
        }
    }
}

/// A socket's file, which goes with the carrier.
struct Placed<'a>(&'a std::path::Path);

impl Drop for Placed<'_> {
    fn drop(&mut self) {
        let _ = std::fs::remove_file(self.0);
    }
}

/// Carries until the program has ended. Returns its status.
async fn run(arguments: &Arguments) -> std::io::Result<u8> {
    let mut signals = [signal(SignalKind::terminate())?, signal(SignalKind::interrupt())?];
    let mut listeners = listen::inherited()?;
    let mut placed = None;
    if let Some(path) = &arguments.socket {
        listeners.push(listen::bind_unix(path, arguments.socket_mode)?);
        placed = Some(Placed(path));
    }
    for address in &arguments.listen {
        listeners.push(listen::bind_tcp(address, arguments.is_beyond_loopback).await?);
    }
    if listeners.is_empty() {
        return Err(std::io::Error::other("no socket: give --socket or --listen, or hand one over by LISTEN_FDS"));
    }
    let mut program = start(arguments)?;
    let (to_program, frames) = mpsc::channel(WAITING);
    let input = program.stdin.take().expect("it is a pipe");
    let mut output = BufReader::with_capacity(1 << 17, program.stdout.take().expect("it is a pipe"));
    let feeding = spawn_local(feed(input, frames));
    let peers = Peers::new(arguments, to_program.clone());
    let mut accepting: Vec<_> = listeners.into_iter().map(|listener| spawn_local(accept(listener, peers.clone()))).collect();
    systemd::notify("READY=1");

    let is_sound = Rc::new(Cell::new(true));
    let (obeying, sound) = (peers.clone(), is_sound.clone());
    let hearing = spawn_local(async move {
        loop {
            match read_frame(&mut output).await {
                Ok(Some(frame)) => obeying.obey(frame),
                Ok(None) => return,
                Err(error) => {
                    eprintln!("wasmhost_carrier: {error}");
                    return sound.set(false);
                }
            }
        }
    });
    let mut hearing = Some(hearing);
    let status = loop {
        let [terminated, interrupted] = &mut signals;
        tokio::select! {
            _ = async { hearing.as_mut().expect("it runs").await }, if hearing.is_some() => {
                hearing = None;
                // Nothing more is told to who says nothing more.
                feeding.abort();
                if !is_sound.get() {
                    let _ = program.start_kill();
                }
            }
            status = program.wait(), if hearing.is_none() => break status?,
            Some(()) = async { tokio::select! { told = terminated.recv() => told, told = interrupted.recv() => told } } => {
                if accepting.is_empty() {
                    let _ = program.start_kill();
                }
                accepting.drain(..).for_each(|task| task.abort());
                placed.take();
                systemd::notify("STOPPING=1");
                let to_program = to_program.clone();
                spawn_local(async move { to_program.send(Frame::bare(0, STOP)).await });
            }
        }
    };
    accepting.drain(..).for_each(|task| task.abort());
    peers.close_all();
    let end = Instant::now() + GRACE;
    while !peers.is_empty() && Instant::now() < end {
        sleep(Duration::from_millis(5)).await;
    }
    // 128 and the signal where the program was killed.
    let code = status.code().or(status.signal().map(|signal| 128 + signal)).filter(|_| is_sound.get());
    Ok(code.map_or(FAILED, |code| code as u8))
}

/// Starts the program, in a process group of its own: who interrupts the carrier from a terminal leaves it to say so.
fn start(arguments: &Arguments) -> std::io::Result<Child> {
    let mut command = std::process::Command::new(&arguments.program[0]);
    command.args(&arguments.program[1..]).stdin(Stdio::piped()).stdout(Stdio::piped()).process_group(0);
    for name in ["NOTIFY_SOCKET", "LISTEN_PID", "LISTEN_FDS", "LISTEN_FDNAMES"] {
        command.env_remove(name);
    }
    Command::from(command).kill_on_drop(true).spawn()
}

/// Writes frames to the program, and makes it see them whenever none waits.
async fn feed(input: ChildStdin, mut frames: mpsc::Receiver<Frame>) -> std::io::Result<()> {
    let mut input = BufWriter::with_capacity(1 << 17, input);
    while let Some(frame) = frames.recv().await {
        let mut next = Some(frame);
        while let Some(frame) = next {
            input.write_all(&frame.head()).await?;
            input.write_all(&frame.bytes).await?;
            next = frames.try_recv().ok();
        }
        input.flush().await?;
    }
    Ok(())
}

/// Accepts connections, as long as there aren't too many.
async fn accept(listener: Listener, peers: Rc<Peers>) {
    loop {
        while peers.is_full() {
            peers.freed.notified().await;
        }
        match listener.accept().await {
            Ok(halves) => peers.clone().carry(halves),
            // There may be no file descriptor left: another connection has to end first.
            Err(_) => sleep(Duration::from_millis(50)).await,
        }
    }
}

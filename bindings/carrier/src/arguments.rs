//! The command line.

use std::ffi::OsString;
use std::path::PathBuf;
use std::time::Duration;

pub const USAGE: &str = "usage: wasmhost_carrier [--socket PATH [--socket-mode OCTAL]] [--listen ADDRESS [--beyond-loopback]]
    [--connections NUMBER] [--pending BYTES] [--silence SECONDS] -- PROGRAM [ARGUMENT..]";

/// What the command line says.
pub struct Arguments {
    pub socket: Option<PathBuf>,
    pub socket_mode: u32,
    pub listen: Vec<String>,
    pub is_beyond_loopback: bool,
    pub connections: usize,
    pub pending: usize,
    pub silence: Duration,
    pub program: Vec<OsString>,
}

fn number(name: &str, value: OsString) -> Result<usize, String> {
    let text = value.to_string_lossy();
    text.parse().ok().filter(|&number| number > 0).ok_or(format!("{name} wants a number above 0, and not {text}"))
}

/// Reads the command line.
pub fn parse(words: impl Iterator<Item = OsString>) -> Result<Arguments, String> {
    let mut words = words;
    let mut found = Arguments {
        socket: None,
        socket_mode: 0o600,
        listen: Vec::new(),
        is_beyond_loopback: false,
        connections: 256,
        pending: 1 << 20,
        silence: Duration::from_secs(75),
        program: Vec::new(),
    };
    while let Some(word) = words.next() {
        let name = word.to_string_lossy().into_owned();
        let mut value = || words.next().ok_or(format!("{name} wants a value"));
        match name.as_str() {
            "--socket" => found.socket = Some(value()?.into()),
            "--socket-mode" => {
                let text = value()?.to_string_lossy().into_owned();
                let mode = u32::from_str_radix(&text, 8).ok().filter(|&mode| mode <= 0o777);
                found.socket_mode = mode.ok_or(format!("--socket-mode wants an octal number up to 777, and not {text}"))?;
            }
            "--listen" => found.listen.push(value()?.to_string_lossy().into_owned()),
            "--beyond-loopback" => found.is_beyond_loopback = true,
            "--connections" => found.connections = number(&name, value()?)?,
            "--pending" => found.pending = number(&name, value()?)?,
            "--silence" => found.silence = Duration::from_secs(number(&name, value()?)? as u64),
            "--" => {
                found.program = words.collect();
                break;
            }
            _ => return Err(format!("{name} is unknown")),
        }
    }
    if found.program.is_empty() {
        return Err("a program is wanted behind --".into());
    }
    Ok(found)
}

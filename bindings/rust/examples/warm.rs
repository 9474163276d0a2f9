//! An instance of examples/library/squares.wasm is warmed up, and copied; each copy has what it has.
use wolqedir::{Error, Host, Instance, Params, Quota, Settings, State, Value};

/// Prints how many frames are in use, and how many pages share them.
fn frames(host: &mut Host, when: &str) -> Result<(), Error> {
    let told = host.report()?;
    println!("{when}: {} frames used, {} shared by {} pages", told.used_frames, told.shared_frames, told.sharers);
    Ok(())
}

/// Takes the square of a number: the call's result.
fn take(host: &mut Host, instance: Instance, at: i64) -> Result<u32, Error> {
    let call = host.invoke(instance, "take", &[at], 1000)?;
    host.run(1_000_000);
    match host.status(instance, call)?.state {
        State::Returned(Some(Value::I32(square))) => Ok(square),
        _ => Err(Error::Unknown),
    }
}

fn main() -> Result<(), Box<dyn std::error::Error>> {
    let path = std::env::args().nth(1).unwrap_or("examples/library/squares.wasm".to_string());
    let mut host = Host::new(Settings::default())?;
    let squares = host.load(&std::fs::read(path)?)?;
    let template = host.admit(squares, Params { shares: 100, min: 8, max: 16, fuel: 0, salt: 0, base: 0, inputs: &[] })?;
    let quota = Quota { shares: 100, min: 2, max: 16 };
    host.invoke(template, "warm", &[], 1_000_000)?;
    if let Err(error) = host.fork(template, quota) {
        println!("too early: {}", wolqedir::code_text(error.code()).unwrap_or_default());
    }
    host.run(1_000_000);
    frames(&mut host, "warm")?;
    let mut square = [0; 4];
    host.read(template, 1072, &mut square)?;
    println!("seen: {}", u32::from_le_bytes(square));
    let mut copies = Vec::new();
    for _ in 0..3 {
        copies.push(host.fork(template, quota)?);
    }
    frames(&mut host, "copied")?;
    print!("taken:");
    for copy in &copies {
        print!(" {}", take(&mut host, *copy, 12)?);
    }
    println!();
    frames(&mut host, "called")?;
    for copy in copies {
        host.release(copy)?;
    }
    Ok(())
}

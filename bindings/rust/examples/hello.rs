//! Two instances of examples/hello.wasm on one host, called, refuelled, scanned, reported and released by the library.
use std::error::Error;
use wolqedir::{Host, Instance, Params, Settings, State, Value};

fn params(inputs: &[u64]) -> Params<'_> {
    Params { shares: 100, min: 2, max: 64, fuel: 100, salt: 0, base: 0, inputs }
}

/// Lets everybody run, and prints how far a call is.
fn run(host: &mut Host, name: &str, instance: Instance, call: u32) -> Result<(), wolqedir::Error> {
    host.run(1_000_000);
    let status = host.status(instance, call)?;
    let end = match status.state {
        State::Returned(Some(Value::I32(value))) => format!(", returned {}", value as i32),
        State::Fuel => ", waits for fuel".to_string(),
        _ => String::new(),
    };
    println!("{name}: {} charges{end}", status.charges);
    Ok(())
}

/// Prints what the host and each instance use.
fn report(host: &mut Host) -> Result<(), wolqedir::Error> {
    let report = host.report()?;
    println!(
        "frames: {} of {} used, {} shared by {} pages; slots: {} of {} used",
        report.used_frames, report.frames, report.shared_frames, report.sharers, report.used_slots, report.slots
    );
    for row in report.instances {
        println!(
            "instance {}: {} of {} frames, {} active; {} pages swapped",
            row.instance.number(),
            row.charged,
            row.max,
            row.active,
            row.swapped
        );
    }
    Ok(())
}

fn release(host: &mut Host, name: &str, instance: Instance) -> Result<(), wolqedir::Error> {
    let output: String = host.release(instance)?.iter().map(|byte| format!("{byte:02x}")).collect();
    println!("{name} put out {output}");
    Ok(())
}

fn main() -> Result<(), Box<dyn Error>> {
    let path = std::env::args().nth(1).unwrap_or("examples/hello.wasm".to_string());
    let mut host = Host::new(Settings::default())?;
    let hello = host.load(&std::fs::read(path)?)?;
    let a = host.admit(hello, params(&[40, 2]))?;
    let b = host.admit(hello, params(&[1, 2]))?;
    let call = host.invoke(a, "run", &[], 1000)?;
    run(&mut host, "a", a, call)?;
    let call = host.invoke(b, "run", &[], 3)?;
    run(&mut host, "b", b, call)?;
    host.refuel(b, 1000)?;
    run(&mut host, "b", b, call)?;
    host.scan()?;
    report(&mut host)?;
    release(&mut host, "a", a)?;
    release(&mut host, "b", b)?;
    match host.release(b) {
        Ok(_) => Err("it was released twice".into()),
        Err(error) => {
            println!("b again: {}", wolqedir::code_text(error.code()).unwrap_or_default());
            Ok(())
        }
    }
}

//! Two hosts of one process: what is of one is refused by the other, which stays as it was; copies, what is seen of an instance,
//! and modules that go.
use std::collections::HashSet;
use wolqedir::{Error, Host, Instance, Module, Params, Quota, Settings, State, Type};

const PARAMS: Params<'_> = Params { shares: 100, min: 2, max: 16, fuel: 100, salt: 0, base: 0, inputs: &[40, 2] };

const QUOTA: Quota = Quota { shares: 7, min: 3, max: 16 };

/// A host with an instance of the module that the examples run.
fn hosted() -> Result<(Host, Module, Instance), Error> {
    let mut host = Host::new(Settings::default())?;
    let module = host.load(include_bytes!("../../../examples/hello.wasm"))?;
    let instance = host.admit(module, PARAMS)?;
    Ok((host, module, instance))
}

#[test]
fn an_instance_of_another_host_is_refused() -> Result<(), Error> {
    let (mut one, _, mine) = hosted()?;
    let (mut other, _, theirs) = hosted()?;
    assert_eq!((mine.number(), theirs.number()), (0, 0));
    assert_ne!(mine, theirs);
    let before = other.report()?;
    assert_eq!(other.invoke(mine, "run", &[], 1000), Err(Error::OtherHost));
    assert_eq!(other.fork(mine, QUOTA), Err(Error::OtherHost));
    assert_eq!(other.invoke_at(mine, 0, &[], 1000), Err(Error::OtherHost));
    assert_eq!(other.status(mine, 0), Err(Error::OtherHost));
    assert_eq!(other.ended(mine, 0), Err(Error::OtherHost));
    assert_eq!(other.output(mine, 0), Err(Error::OtherHost));
    assert_eq!(other.read(mine, 0, &mut []), Err(Error::OtherHost));
    assert_eq!(other.refuel(mine, 1), Err(Error::OtherHost));
    assert_eq!(other.retry(mine), Err(Error::OtherHost));
    assert_eq!(other.cancel(mine), Err(Error::OtherHost));
    assert_eq!(other.release(mine), Err(Error::OtherHost));
    assert_eq!(other.transcript(mine), Err(Error::OtherHost));
    assert_eq!(other.report()?, before);
    let call = other.invoke(theirs, "run", &[], 1000)?;
    other.run(1000);
    assert!(matches!(other.status(theirs, call)?.state, State::Returned(_)));
    // A word of 42, and a line.
    assert_eq!(other.release(theirs)?, [&[42, 0, 0, 0, 0, 0, 0, 0], "hello\n".as_bytes()].concat());
    assert_eq!(other.release(theirs), Err(Error::Ask(1)));
    assert_eq!(one.release(mine)?, []);
    Ok(())
}

#[test]
fn a_module_of_another_host_is_refused() -> Result<(), Error> {
    let (_, module, _) = hosted()?;
    let (mut other, _, _) = hosted()?;
    assert_eq!(other.admit(module, PARAMS), Err(Error::OtherHost));
    assert_eq!(other.exports(module), Err(Error::OtherHost));
    assert_eq!(other.unload(module), Err(Error::OtherHost));
    assert_eq!(other.report()?.instances.len(), 1);
    Ok(())
}

#[test]
fn a_module_goes_behind_its_last_instance() -> Result<(), Error> {
    let (mut host, module, template) = hosted()?;
    host.run(1000);
    let copy = host.fork(template, QUOTA)?;
    host.release(template)?;
    assert_eq!(host.unload(module), Err(Error::InUse));
    host.release(copy)?;
    host.unload(module)?;
    assert_eq!(host.unload(module), Err(Error::Admit(1)));
    assert_eq!(host.admit(module, PARAMS), Err(Error::Admit(1)));
    let next = host.load(include_bytes!("../../../examples/hello.wasm"))?;
    assert_ne!(next, module);
    host.admit(next, PARAMS)?;
    assert_eq!((Error::InUse.code(), Error::InUse.to_string()), (8, "an instance of the module is there (code 0x8)".to_string()));
    Ok(())
}

#[test]
fn a_copy_has_the_calls_and_the_output_of_its_template() -> Result<(), Error> {
    let (mut host, _, template) = hosted()?;
    let call = host.invoke(template, "run", &[], 1000)?;
    assert_eq!(host.fork(template, QUOTA), Err(Error::Fork(1)));
    host.run(1000);
    assert_eq!(host.fork(template, Quota { max: 32, ..QUOTA }), Err(Error::Fork(3)));
    assert_eq!(host.fork(template, Quota { shares: 0, ..QUOTA }), Err(Error::Admit(2)));
    let copy = host.fork(template, QUOTA)?;
    assert_eq!(host.transcript(copy)?, host.transcript(template)?);
    assert_eq!(host.status(copy, call)?, host.status(template, call)?);
    let row = host.report()?.instances[1];
    assert_eq!((row.instance, row.shares, row.min, row.max, row.charged), (copy, 7, 3, 16, 0));
    assert_eq!(host.release(copy)?, host.release(template)?);
    assert_eq!(host.fork(template, QUOTA), Err(Error::Ask(1)));
    assert_eq!(Error::Fork(4).code(), 0x904);
    Ok(())
}

#[test]
fn an_instance_is_seen_while_it_lives() -> Result<(), Error> {
    let (mut host, module, instance) = hosted()?;
    let exports = host.exports(module)?;
    let at = exports.iter().position(|export| export.name == "run").expect("it exports run");
    assert_eq!((exports[at].params.as_slice(), exports[at].result), ([].as_slice(), Some(Type::I32)));
    assert_eq!(host.invoke_at(instance, exports.len(), &[], 1000), Err(Error::Ask(2)));
    let call = host.invoke_at(instance, at, &[], 1000)?;
    assert_eq!((host.ended(instance, 0)?.len(), host.output(instance, 0)?.len()), (0, 0));
    host.run(1000);
    let ended = host.ended(instance, 0)?;
    assert_eq!(ended, [host.status(instance, 0)?, host.status(instance, call)?]);
    assert_eq!((host.ended(instance, 1)?, host.ended(instance, 3)?), (ended[1..].to_vec(), vec![]));
    // A word of 42, and a line.
    let output = [&[42, 0, 0, 0, 0, 0, 0, 0], "hello\n".as_bytes()].concat();
    for from in [0, 8, 14, 99] {
        assert_eq!(host.output(instance, from)?, output[from.min(14)..]);
    }
    let mut room = vec![1; 65536];
    host.read(instance, 0, &mut room)?;
    // The line that it has put out lies in its memory.
    assert!(room.windows(6).any(|bytes| bytes == b"hello\n"));
    let (mut few, all) = ([1; 2], room.clone());
    host.read(instance, 65534, &mut few)?;
    assert_eq!(few, all[65534..]);
    assert_eq!(host.read(instance, 65536, &mut []), Ok(()));
    assert_eq!((host.read(instance, 65535, &mut few), &few[..]), (Err(Error::Outside), &all[65534..]));
    assert_eq!((Error::Outside.code(), Error::Outside.to_string()), (9, "the memory has fewer bytes (code 0x9)".to_string()));
    assert_eq!(host.release(instance)?, output);
    assert_eq!(host.read(instance, 0, &mut few), Err(Error::Ask(1)));
    assert_eq!(host.output(instance, 0), Err(Error::Ask(1)));
    assert_eq!(host.ended(instance, 0), Err(Error::Ask(1)));
    host.unload(module)?;
    assert_eq!(host.exports(module), Err(Error::Unknown));
    Ok(())
}

#[test]
fn a_report_names_instances_of_its_host() -> Result<(), Error> {
    let (mut host, _, instance) = hosted()?;
    let told: Vec<Instance> = host.report()?.instances.iter().map(|row| row.instance).collect();
    assert_eq!(told, [instance]);
    Ok(())
}

#[test]
fn no_host_has_the_serial_of_one_that_is_gone() -> Result<(), Error> {
    let mut seen = HashSet::new();
    for _ in 0..8 {
        let (_, _, instance) = hosted()?;
        assert!(seen.insert(instance), "{instance:?}");
    }
    Ok(())
}

#[test]
fn the_error_says_what_is_wrong() {
    assert_eq!(Error::OtherHost.to_string(), "the instance or the module is of another host");
    assert_eq!(Error::OtherHost.code(), Error::Unknown.code());
}

#[test]
fn a_host_goes_to_another_thread_and_back() -> Result<(), Error> {
    let (mut host, _, instance) = hosted()?;
    let (mut host, call) = std::thread::spawn(move || {
        let call = host.invoke(instance, "run", &[], 1000);
        host.run(1000);
        (host, call)
    })
    .join()
    .expect("the thread ends");
    assert!(matches!(host.status(instance, call?)?.state, State::Returned(_)));
    // A word of 42, and a line.
    assert_eq!(host.release(instance)?, [&[42, 0, 0, 0, 0, 0, 0, 0], "hello\n".as_bytes()].concat());
    Ok(())
}

//! A host of many WebAssembly instances on one memory, each of which gets what it would get alone.
//!
//! Safe words for the library `wolqedir`, whose exports are proved (`docs/guide/library.md`); this crate isn't. Set
//! `WOLQEDIR_LIB` to a folder with `libwolqedir.a` and `liblibc_c.a`; they want Linux and a processor of x86-64-v2.
//!
//! A host has 1024 modules at once; an instance has 65535 calls beside its start, and puts out 65536 bytes at most.
mod error;
mod sys;

pub use error::{code_text, Error};

use error::answer;
use std::marker::PhantomData;
use std::ptr;
use std::sync::atomic::{AtomicU64, Ordering};

/// How many hosts were asked for: the serial of the next one. No two of a process have the same.
static HOSTS: AtomicU64 = AtomicU64::new(0);

/// An instance of one host, as it was admitted. Its number is never given again there.
#[derive(Clone, Copy, Debug, PartialEq, Eq, Hash)]
pub struct Instance {
    host: u64,
    place: u64,
    number: u64,
}

impl Instance {
    /// How many instances were admitted before it.
    pub fn number(self) -> u64 {
        self.number
    }
}

/// A module of one host. Its number is never given again there.
#[derive(Clone, Copy, Debug, PartialEq, Eq, Hash)]
pub struct Module {
    host: u64,
    number: usize,
}

/// What its owner gives an instance.
#[derive(Clone, Copy, Debug)]
pub struct Params<'a> {
    /// Its shares of memory, 1 to 1000000.
    pub shares: u64,
    /// How many frames of 4096 bytes it is promised, from 2.
    pub min: u64,
    /// How many it may have, to 65536.
    pub max: u64,
    /// How many charges its start may take.
    pub fuel: u64,
    /// The value of the host's global `salt`.
    pub salt: u64,
    /// The value of the host's global `base`.
    pub base: u32,
    /// The words of its input.
    pub inputs: &'a [u64],
}

/// How much of a host's memory a copy may have.
#[derive(Clone, Copy, Debug, PartialEq, Eq)]
pub struct Quota {
    /// Its shares of memory, 1 to 1000000.
    pub shares: u64,
    /// How many frames of 4096 bytes it is promised, from 2.
    pub min: u64,
    /// How many it may have, to 65536.
    pub max: u64,
}

/// How many frames and slots a host has, and the tax on frames on which no page was touched.
#[derive(Clone, Copy, Debug)]
pub struct Settings {
    /// Frames of 4096 bytes.
    pub frames: u32,
    /// Pages that may be swapped to memory.
    pub slots: u32,
    /// The numerator and the denominator of the tax.
    pub tax: (u32, u32),
}

impl Default for Settings {
    fn default() -> Settings {
        Settings { frames: 1024, slots: 4096, tax: (3, 4) }
    }
}

/// A result.
#[derive(Clone, Copy, Debug, PartialEq, Eq)]
pub enum Value {
    I32(u32),
    I64(u64),
}

/// How far a call is.
#[derive(Clone, Copy, Debug, PartialEq, Eq)]
pub enum State {
    /// Another call of the instance comes first.
    Waiting,
    /// It goes on by `run`.
    Going,
    /// It has used its fuel.
    Fuel,
    /// Its next step waits for memory, which `run` makes ready.
    Frame,
    /// The swap device has failed, by this code.
    Device(u32),
    /// It has returned, with a result or none.
    Returned(Option<Value>),
    /// It has trapped, by this code; `code_text` has a sentence for it.
    Trapped(u32),
    /// It was cancelled.
    Cancelled,
    /// It did nothing behind a start that failed.
    Dead,
}

/// How far a call is, and what it took.
#[derive(Clone, Copy, Debug, PartialEq, Eq)]
pub struct Status {
    pub state: State,
    pub charges: u64,
}

impl Status {
    /// What the library tells.
    fn read(status: sys::Status) -> Status {
        let state = match status.kind {
            1 => State::Waiting,
            2 => State::Going,
            3 => State::Fuel,
            4 => State::Frame,
            5 => State::Device(status.code),
            6 => State::Returned(match status.bits {
                32 => Some(Value::I32(status.value as u32)),
                64 => Some(Value::I64(status.value)),
                _ => None,
            }),
            7 => State::Trapped(status.code),
            8 => State::Cancelled,
            _ => State::Dead,
        };
        Status { state, charges: status.charges }
    }
}

/// The type of a parameter or a result.
#[derive(Clone, Copy, Debug, PartialEq, Eq)]
pub enum Type {
    I32,
    I64,
}

/// A function that a module exports.
#[derive(Clone, Debug, PartialEq, Eq)]
pub struct Export {
    /// Its name.
    pub name: String,
    /// The types of its parameters, in order.
    pub params: Vec<Type>,
    /// The type of its result, if it has one.
    pub result: Option<Type>,
}

/// What a run came to.
#[derive(Clone, Copy, Debug, PartialEq, Eq)]
pub struct Progress {
    /// How many charges all calls together took.
    pub charges: u64,
    /// Whether a call can go on.
    pub goes_on: bool,
}

/// How the frames, slots and pages of a host are used.
#[derive(Clone, Debug, PartialEq, Eq)]
pub struct Report {
    /// Frames of 4096 bytes.
    pub frames: u32,
    /// How many of these are in use.
    pub used_frames: u32,
    /// Slots for swapped pages.
    pub slots: u32,
    /// How many of these are in use.
    pub used_slots: u32,
    /// On how many frames several pages lie.
    pub shared_frames: u32,
    /// How many pages these are.
    pub sharers: u64,
    /// The numerator and the denominator of the tax.
    pub tax: (u32, u32),
    /// What each instance has of them, by number.
    pub instances: Vec<InstanceReport>,
}

/// What a host has counted since it was made. Each goes from 2^64 - 1 on to 0.
#[derive(Clone, Copy, Debug, PartialEq, Eq)]
pub struct Counts {
    /// Turns of instances of which a call was open.
    pub turns: u64,
    /// Charges that these took.
    pub charges: u64,
    /// Calls that returned in a turn, starts among them.
    pub returned: u64,
    /// Calls that trapped in a turn, starts among them.
    pub trapped: u64,
    /// Calls that were cancelled.
    pub cancelled: u64,
    /// Calls behind a start that trapped or was cancelled.
    pub dead: u64,
    /// Offers of pages for sharing.
    pub offers: u64,
    /// Those by which two pages came to share a frame.
    pub merges: u64,
    /// Pages that shared a frame until they were written.
    pub breaks: u64,
    /// Pages that went to swap.
    pub evictions: u64,
    /// Pages that came back.
    pub fetches: u64,
    /// Faults of the swap device; one in memory has none.
    pub faults: u64,
}

/// What an instance has of a host's memory.
#[derive(Clone, Copy, Debug, PartialEq, Eq)]
pub struct InstanceReport {
    /// Which it is.
    pub instance: Instance,
    /// Its shares of memory.
    pub shares: u32,
    /// How many frames it is promised.
    pub min: u32,
    /// How many it may have.
    pub max: u32,
    /// How many are charged to it: a shared one to the first of its sharers.
    pub charged: u32,
    /// On how many of these a page was touched.
    pub active: u32,
    /// How many of its pages are swapped.
    pub swapped: u32,
}

/// A call of a transcript.
#[derive(Clone, Debug, PartialEq, Eq)]
pub struct Entry {
    /// The index of its function. A start may have none.
    pub function: Option<u32>,
    /// Its arguments, an i32 in the low 32 bits.
    pub args: Vec<u64>,
    /// Its fuel in all.
    pub fuel: u64,
    /// How many pieces of data segments it wrote.
    pub pieces: u64,
    pub charges: u64,
    pub end: End,
}

/// How a call has ended, if it has.
#[derive(Clone, Copy, Debug, PartialEq, Eq)]
pub enum End {
    Open,
    /// With a result, an i32 in the low 32 bits, or none.
    Returned(Option<u64>),
    /// By the trap of this number.
    Trapped(u8),
    Cancelled,
    Dead,
}

impl Entry {
    /// The first call of these words, and the words behind it.
    fn read(words: &[u64]) -> Option<(Entry, &[u64])> {
        let (head, rest) = words.split_first_chunk::<8>()?;
        let [function, fuel, pieces, charges, kind, results, word, count] = *head;
        let count = usize::try_from(count).ok().filter(|count| *count <= rest.len())?;
        let (args, rest) = rest.split_at(count);
        let end = match kind {
            6 => End::Returned((results == 1).then_some(word)),
            7 => End::Trapped(word as u8),
            8 => End::Cancelled,
            9 => End::Dead,
            _ => End::Open,
        };
        let function = u32::try_from(function).ok();
        Some((Entry { function, args: args.to_vec(), fuel, pieces, charges, end }, rest))
    }
}

/// A host. It may go to another thread, and is asked by one at a time.
///
/// What is given an instance or a module of another host answers `OtherHost`, and does nothing.
pub struct Host {
    handle: sys::Handle,
    serial: u64,
}

// SAFETY: what a handle holds is shared with nothing outside of it, so that it may go to another thread: of the library's own
// handle that is proved (`Handle: Send` in crates/wolqedir). It asks that a lock, or a start or a join of a thread, order the
// move, and that one call at a time is made: a value moves between threads of Rust by such alone, and each call takes `&mut self`.
unsafe impl Send for Host {}

impl Host {
    /// A new host.
    ///
    /// # Errors
    /// `Tax`; `Memory`.
    pub fn new(settings: Settings) -> Result<Host, Error> {
        let mut handle = sys::Handle { full: 0, at: ptr::null_mut(), owner: PhantomData };
        let Settings { frames, slots, tax: (num, den) } = settings;
        // SAFETY: all bytes 0 is a handle without a host, and nobody else has it.
        answer(unsafe { sys::wq_host_new(&mut handle, frames, slots, num, den) })?;
        Ok(Host { handle, serial: HOSTS.fetch_add(1, Ordering::Relaxed) })
    }

    /// The instance as the library names it, if it is of this host.
    fn named(&self, instance: Instance) -> Result<sys::Instance, Error> {
        let Instance { host, place, number } = instance;
        if host != self.serial {
            return Err(Error::OtherHost);
        }
        Ok(sys::Instance { place, number })
    }

    /// The instance of this host that the library names so.
    fn owned(&self, instance: sys::Instance) -> Instance {
        Instance { host: self.serial, place: instance.place, number: instance.number }
    }

    /// Keeps a module.
    ///
    /// # Errors
    /// `Decode`, `Valid`, `Link`, `Module`.
    pub fn load(&mut self, bytes: &[u8]) -> Result<Module, Error> {
        let mut number = 0;
        // SAFETY: here and below, the handle is ours alone, slices are as long as they say, and the rest can be read and written.
        answer(unsafe { sys::wq_load(&mut self.handle, bytes.as_ptr(), bytes.len(), &mut number) })?;
        Ok(Module { host: self.serial, number })
    }

    /// Lets a module go that no instance is of: its memory is given back.
    ///
    /// # Errors
    /// `OtherHost`; `Admit(1)` if it is gone; `InUse`.
    pub fn unload(&mut self, module: Module) -> Result<(), Error> {
        if module.host != self.serial {
            return Err(Error::OtherHost);
        }
        // SAFETY: as in `load`.
        answer(unsafe { sys::wq_unload(&mut self.handle, module.number) })
    }

    /// The functions that a module exports, in its order.
    ///
    /// # Errors
    /// `OtherHost`; `Unknown` if it is gone.
    pub fn exports(&mut self, module: Module) -> Result<Vec<Export>, Error> {
        if module.host != self.serial {
            return Err(Error::OtherHost);
        }
        let mut count = 0;
        // SAFETY: as in `load`.
        answer(unsafe { sys::wq_export_count(&mut self.handle, module.number, &mut count) })?;
        (0..count).map(|at| self.export_at(module, at)).collect()
    }

    /// The function at this place of those that a module of this host exports.
    fn export_at(&mut self, module: Module, at: usize) -> Result<Export, Error> {
        let (mut name, mut types, mut found) = (Vec::new(), Vec::new(), sys::Export::default());
        loop {
            let (text, cap, bits, most) = (name.as_mut_ptr(), name.len(), types.as_mut_ptr(), types.len());
            // SAFETY: as in `load`; the rooms are initialised up to their lengths.
            answer(unsafe { sys::wq_export_at(&mut self.handle, module.number, at, &mut found, text, cap, bits, most) })?;
            let wanted = (found.name_len, found.params + found.results);
            if wanted == (cap, most) {
                break;
            }
            (name, types) = (vec![0; wanted.0], vec![0; wanted.1]);
        }
        let mut types: Vec<Type> = types.iter().map(|bits: &u8| if *bits == 64 { Type::I64 } else { Type::I32 }).collect();
        let result = types.split_off(found.params).first().copied();
        Ok(Export { name: String::from_utf8_lossy(&name).into_owned(), params: types, result })
    }

    /// Admits an instance of a module.
    ///
    /// # Errors
    /// `OtherHost`; `Admit`; `Memory`.
    pub fn admit(&mut self, module: Module, params: Params<'_>) -> Result<Instance, Error> {
        let Params { shares, min, max, fuel, salt, base, inputs } = params;
        if module.host != self.serial {
            return Err(Error::OtherHost);
        }
        let given = sys::Params { shares, min, max, fuel, salt, base };
        let (words, n, mut instance) = (inputs.as_ptr(), inputs.len(), sys::Instance::default());
        // SAFETY: as in `load`.
        answer(unsafe { sys::wq_admit(&mut self.handle, module.number, &given, words, n, &mut instance) })?;
        Ok(self.owned(instance))
    }

    /// Copies an instance all of whose calls have ended: the copy begins as that one is, with its memory, globals, table, calls
    /// and output, and has its own quota. They share all frames until one of them writes: no frame is taken, and no byte copied.
    ///
    /// # Errors
    /// `OtherHost`; `Ask`; `Admit`; `Fork`.
    pub fn fork(&mut self, of: Instance, quota: Quota) -> Result<Instance, Error> {
        let Quota { shares, min, max } = quota;
        let (of, given, mut instance) = (self.named(of)?, sys::Quota { shares, min, max }, sys::Instance::default());
        // SAFETY: as in `load`.
        answer(unsafe { sys::wq_fork(&mut self.handle, &of, &given, &mut instance) })?;
        Ok(self.owned(instance))
    }

    /// Asks for a call, and runs nothing: its place among the calls of the instance, of which the start is 0. An argument is a
    /// number in the bits of its type, signed or unsigned.
    ///
    /// # Errors
    /// `OtherHost`; `Ask`; `Memory`.
    pub fn invoke(&mut self, instance: Instance, name: &str, args: &[i64], fuel: u64) -> Result<u32, Error> {
        let (instance, mut call) = (self.named(instance)?, 0);
        // SAFETY: as in `load`.
        answer(unsafe {
            sys::wq_invoke(
                &mut self.handle,
                &instance,
                name.as_ptr(),
                name.len(),
                args.as_ptr(),
                args.len(),
                fuel,
                &mut call,
            )
        })?;
        Ok(call)
    }

    /// Asks for a call as `invoke` does, of the function at this place of those that `exports` tells.
    ///
    /// # Errors
    /// `OtherHost`; `Ask`: `Ask(2)` where there is no such place; `Memory`.
    pub fn invoke_at(&mut self, instance: Instance, at: usize, args: &[i64], fuel: u64) -> Result<u32, Error> {
        let (instance, mut call) = (self.named(instance)?, 0);
        let (words, n) = (args.as_ptr(), args.len());
        // SAFETY: as in `load`.
        answer(unsafe { sys::wq_invoke_at(&mut self.handle, &instance, at, words, n, fuel, &mut call) })?;
        Ok(call)
    }

    /// Lets all calls go on, until none can or they have taken so many charges together. Nothing ends it before: give long runs
    /// in slices of a million, at the beginning of which epochs begin.
    pub fn run(&mut self, charges: u64) -> Progress {
        let mut progress = sys::Progress::default();
        // SAFETY: as in `load`. The code is 0, since the handle holds a host.
        let _ = unsafe { sys::wq_run(&mut self.handle, charges, &mut progress) };
        Progress { charges: progress.charges, goes_on: progress.goes_on != 0 }
    }

    /// How far a call is. `&mut`, since a call of the library takes the host out of its handle and puts it back.
    ///
    /// # Errors
    /// `OtherHost`; `Unknown`.
    pub fn status(&mut self, instance: Instance, call: u32) -> Result<Status, Error> {
        let (instance, mut status) = (self.named(instance)?, sys::Status::default());
        // SAFETY: as in `load`.
        answer(unsafe { sys::wq_status_of(&mut self.handle, &instance, call, &mut status) })?;
        Ok(Status::read(status))
    }

    /// How the calls of an instance have ended, from this place among its calls on, each as `status` tells it.
    ///
    /// # Errors
    /// `OtherHost`; `Ask`.
    pub fn ended(&mut self, instance: Instance, from: usize) -> Result<Vec<Status>, Error> {
        let (instance, mut room) = (self.named(instance)?, Vec::new());
        loop {
            let (cap, mut count) = (room.len(), 0);
            // SAFETY: as in `load`; the room is initialised up to its length.
            answer(unsafe { sys::wq_ended(&mut self.handle, &instance, from, room.as_mut_ptr(), cap, &mut count) })?;
            if count <= cap {
                room.truncate(count);
                return Ok(room.into_iter().map(Status::read).collect());
            }
            room.resize(count, sys::Status::default());
        }
    }

    /// Gives the present call of an instance so much more fuel.
    ///
    /// # Errors
    /// `OtherHost`; `Ask`.
    pub fn refuel(&mut self, instance: Instance, fuel: u64) -> Result<(), Error> {
        let instance = self.named(instance)?;
        // SAFETY: as in `load`.
        answer(unsafe { sys::wq_refuel(&mut self.handle, &instance, fuel) })
    }

    /// Lets the present call try again where the swap device has failed.
    ///
    /// # Errors
    /// `OtherHost`; `Ask`.
    pub fn retry(&mut self, instance: Instance) -> Result<(), Error> {
        let instance = self.named(instance)?;
        // SAFETY: as in `load`.
        answer(unsafe { sys::wq_retry(&mut self.handle, &instance) })
    }

    /// Ends the present call of an instance where it is.
    ///
    /// # Errors
    /// `OtherHost`; `Ask`.
    pub fn cancel(&mut self, instance: Instance) -> Result<(), Error> {
        let instance = self.named(instance)?;
        // SAFETY: as in `load`.
        answer(unsafe { sys::wq_cancel(&mut self.handle, &instance) })
    }

    /// Lets an instance go: the bytes that it had put out.
    ///
    /// # Errors
    /// `OtherHost`; `Ask`.
    pub fn release(&mut self, instance: Instance) -> Result<Vec<u8>, Error> {
        let (instance, mut len) = (self.named(instance)?, 0);
        // SAFETY: as in `load`.
        answer(unsafe { sys::wq_release(&mut self.handle, &instance, &mut len) })?;
        let mut output = vec![0; len];
        // SAFETY: as in `load`.
        answer(unsafe { sys::wq_taken(&mut self.handle, output.as_mut_ptr(), output.len(), &mut len) })?;
        Ok(output)
    }

    /// What an instance has put out so far, from the byte at this place on: what `release` would give now.
    ///
    /// # Errors
    /// `OtherHost`; `Ask`.
    pub fn output(&mut self, instance: Instance, from: usize) -> Result<Vec<u8>, Error> {
        let (instance, mut room) = (self.named(instance)?, Vec::new());
        loop {
            let (cap, mut len) = (room.len(), 0);
            // SAFETY: as in `load`; the room is initialised up to its length.
            answer(unsafe { sys::wq_output_of(&mut self.handle, &instance, from, room.as_mut_ptr(), cap, &mut len) })?;
            let left = len.saturating_sub(from);
            if left <= cap {
                room.truncate(left);
                return Ok(room);
            }
            room.resize(left, 0);
        }
    }

    /// Reads bytes of an instance's memory, from this address on, as it sees them between two of its turns: as many as the room
    /// has. A page in swap stays there.
    ///
    /// # Errors
    /// `OtherHost`; `Ask`; `Outside`. The room is as it was then.
    pub fn read(&mut self, instance: Instance, address: u64, room: &mut [u8]) -> Result<(), Error> {
        let instance = self.named(instance)?;
        // SAFETY: as in `load`.
        answer(unsafe { sys::wq_read(&mut self.handle, &instance, address, room.as_mut_ptr(), room.len()) })
    }

    /// Merges equal pages. No instance sees it.
    ///
    /// # Errors
    /// `Large`.
    pub fn scan(&mut self) -> Result<(), Error> {
        // SAFETY: as in `load`.
        answer(unsafe { sys::wq_scan(&mut self.handle) })
    }

    /// Marks all pages as not touched. `run` does so too, as it begins, where a call can go on: the first time, and then where
    /// runs took a million charges since it last did.
    pub fn epoch(&mut self) {
        // SAFETY: as in `load`. The code is 0, since the handle holds a host.
        let _ = unsafe { sys::wq_epoch(&mut self.handle) };
    }

    /// The calls of an instance in the order of their coming, the first of which is the start.
    ///
    /// # Errors
    /// `OtherHost`; `Ask`; `Memory`.
    pub fn transcript(&mut self, instance: Instance) -> Result<Vec<Entry>, Error> {
        let (instance, mut words) = (self.named(instance)?, Vec::new());
        loop {
            let mut len = 0;
            let cap = words.len();
            // SAFETY: as in `load`; the room is initialised up to its length.
            answer(unsafe { sys::wq_transcript_of(&mut self.handle, &instance, words.as_mut_ptr(), cap, &mut len) })?;
            if len <= cap {
                words.truncate(len);
                break;
            }
            words.resize(len, 0);
        }
        let mut calls = Vec::new();
        let mut rest = words.as_slice();
        while let Some((call, behind)) = Entry::read(rest) {
            calls.push(call);
            rest = behind;
        }
        Ok(calls)
    }

    /// How its frames, slots and pages are used.
    ///
    /// # Errors
    /// `Ask`; `Memory`.
    pub fn report(&mut self) -> Result<Report, Error> {
        let mut raw = sys::Report::default();
        // SAFETY: as in `load`.
        answer(unsafe { sys::wq_report_of(&mut self.handle, &mut raw) })?;
        let mut rows = vec![sys::InstanceReport::default(); raw.instances];
        let (cap, mut len) = (rows.len(), 0);
        // SAFETY: as in `load`; the room is initialised up to its length, which is that of the rows.
        answer(unsafe { sys::wq_instance_reports(&mut self.handle, rows.as_mut_ptr(), cap, &mut len) })?;
        Ok(Report {
            frames: raw.frames,
            used_frames: raw.used_frames,
            slots: raw.slots,
            used_slots: raw.used_slots,
            shared_frames: raw.shared_frames,
            sharers: raw.sharers,
            tax: (raw.tax_num, raw.tax_den),
            instances: rows.into_iter().map(|row| self.shown(row)).collect(),
        })
    }

    /// What an instance has of its memory.
    ///
    /// # Errors
    /// `OtherHost`; `Ask`.
    pub fn report_of(&mut self, instance: Instance) -> Result<InstanceReport, Error> {
        let (instance, mut row) = (self.named(instance)?, sys::InstanceReport::default());
        // SAFETY: as in `load`.
        answer(unsafe { sys::wq_instance_report_of(&mut self.handle, &instance, &mut row) })?;
        Ok(self.shown(row))
    }

    /// What the host has counted since it was made.
    ///
    /// # Errors
    /// `Ask`.
    pub fn counts(&mut self) -> Result<Counts, Error> {
        let mut raw = sys::Counts::default();
        // SAFETY: as in `load`.
        answer(unsafe { sys::wq_counts_of(&mut self.handle, &mut raw) })?;
        let sys::Counts { turns, charges, returned, trapped, cancelled, dead, .. } = raw;
        let sys::Counts { offers, merges, breaks, evictions, fetches, faults, .. } = raw;
        Ok(Counts {
            turns,
            charges,
            returned,
            trapped,
            cancelled,
            dead,
            offers,
            merges,
            breaks,
            evictions,
            fetches,
            faults,
        })
    }

    /// What the library says of an instance.
    fn shown(&self, row: sys::InstanceReport) -> InstanceReport {
        let sys::InstanceReport { instance, shares, min, max, charged, active, swapped } = row;
        InstanceReport { instance: self.owned(instance), shares, min, max, charged, active, swapped }
    }
}

impl Drop for Host {
    fn drop(&mut self) {
        // SAFETY: the handle is ours alone, and isn't used again.
        unsafe { sys::wq_host_free(&mut self.handle) }
    }
}

//! The exports, as `bindings/c/wolqedir.h` declares them.
use std::marker::PhantomData;

/// A host, or none; the library alone writes it.
#[repr(C)]
pub struct Handle {
    pub full: u32,
    pub at: *mut u8,
    pub owner: PhantomData<*mut ()>,
}

#[repr(C)]
#[derive(Clone, Copy, Default)]
pub struct Instance {
    pub place: u64,
    pub number: u64,
}

#[repr(C)]
#[derive(Clone, Copy)]
pub struct Params {
    pub shares: u64,
    pub min: u64,
    pub max: u64,
    pub fuel: u64,
    pub salt: u64,
    pub base: u32,
}

#[repr(C)]
#[derive(Clone, Copy)]
pub struct Quota {
    pub shares: u64,
    pub min: u64,
    pub max: u64,
}

#[repr(C)]
#[derive(Clone, Copy, Default)]
pub struct Progress {
    pub charges: u64,
    pub goes_on: u32,
}

#[repr(C)]
#[derive(Clone, Copy, Default)]
pub struct Status {
    pub kind: u32,
    pub code: u32,
    pub bits: u32,
    pub value: u64,
    pub charges: u64,
}

#[repr(C)]
#[derive(Clone, Copy, Default)]
pub struct Report {
    pub frames: u32,
    pub used_frames: u32,
    pub slots: u32,
    pub used_slots: u32,
    pub shared_frames: u32,
    pub tax_num: u32,
    pub tax_den: u32,
    pub sharers: u64,
    pub instances: usize,
}

#[repr(C)]
#[derive(Clone, Copy, Default)]
pub struct Counts {
    pub turns: u64,
    pub charges: u64,
    pub returned: u64,
    pub trapped: u64,
    pub cancelled: u64,
    pub dead: u64,
    pub offers: u64,
    pub merges: u64,
    pub breaks: u64,
    pub evictions: u64,
    pub fetches: u64,
    pub faults: u64,
}

#[repr(C)]
#[derive(Clone, Copy, Default)]
pub struct InstanceReport {
    pub instance: Instance,
    pub shares: u32,
    pub min: u32,
    pub max: u32,
    pub charged: u32,
    pub active: u32,
    pub swapped: u32,
}

#[repr(C)]
#[derive(Clone, Copy, Default)]
pub struct Export {
    pub name_len: usize,
    pub params: usize,
    pub results: usize,
}

extern "C" {
    pub fn wq_host_new(host: *mut Handle, frames: u32, slots: u32, tax_num: u32, tax_den: u32) -> u32;
    pub fn wq_host_free(host: *mut Handle);
    pub fn wq_load(host: *mut Handle, bytes: *const u8, len: usize, module: *mut usize) -> u32;
    pub fn wq_unload(host: *mut Handle, module: usize) -> u32;
    pub fn wq_export_count(host: *mut Handle, module: usize, count: *mut usize) -> u32;
    pub fn wq_export_at(
        host: *mut Handle,
        module: usize,
        at: usize,
        found: *mut Export,
        name: *mut u8,
        cap: usize,
        types: *mut u8,
        types_cap: usize,
    ) -> u32;
    pub fn wq_admit(
        host: *mut Handle,
        module: usize,
        params: *const Params,
        inputs: *const u64,
        n: usize,
        instance: *mut Instance,
    ) -> u32;
    pub fn wq_fork(
        host: *mut Handle,
        of: *const Instance,
        quota: *const Quota,
        instance: *mut Instance,
    ) -> u32;
    pub fn wq_invoke(
        host: *mut Handle,
        instance: *const Instance,
        name: *const u8,
        len: usize,
        args: *const i64,
        n: usize,
        fuel: u64,
        call: *mut u32,
    ) -> u32;
    pub fn wq_invoke_at(
        host: *mut Handle,
        instance: *const Instance,
        at: usize,
        args: *const i64,
        n: usize,
        fuel: u64,
        call: *mut u32,
    ) -> u32;
    pub fn wq_run(host: *mut Handle, charges: u64, progress: *mut Progress) -> u32;
    pub fn wq_status_of(host: *mut Handle, instance: *const Instance, call: u32, status: *mut Status) -> u32;
    pub fn wq_ended(
        host: *mut Handle,
        instance: *const Instance,
        from: usize,
        room: *mut Status,
        cap: usize,
        count: *mut usize,
    ) -> u32;
    pub fn wq_refuel(host: *mut Handle, instance: *const Instance, fuel: u64) -> u32;
    pub fn wq_retry(host: *mut Handle, instance: *const Instance) -> u32;
    pub fn wq_cancel(host: *mut Handle, instance: *const Instance) -> u32;
    pub fn wq_release(host: *mut Handle, instance: *const Instance, len: *mut usize) -> u32;
    pub fn wq_taken(host: *mut Handle, room: *mut u8, cap: usize, len: *mut usize) -> u32;
    pub fn wq_output_of(
        host: *mut Handle,
        instance: *const Instance,
        from: usize,
        room: *mut u8,
        cap: usize,
        len: *mut usize,
    ) -> u32;
    pub fn wq_read(
        host: *mut Handle,
        instance: *const Instance,
        address: u64,
        room: *mut u8,
        cap: usize,
    ) -> u32;
    pub fn wq_scan(host: *mut Handle) -> u32;
    pub fn wq_epoch(host: *mut Handle) -> u32;
    pub fn wq_report_of(host: *mut Handle, report: *mut Report) -> u32;
    pub fn wq_counts_of(host: *mut Handle, counts: *mut Counts) -> u32;
    pub fn wq_instance_report_of(
        host: *mut Handle,
        instance: *const Instance,
        row: *mut InstanceReport,
    ) -> u32;
    pub fn wq_instance_reports(
        host: *mut Handle,
        room: *mut InstanceReport,
        cap: usize,
        len: *mut usize,
    ) -> u32;
    pub fn wq_transcript_of(
        host: *mut Handle,
        instance: *const Instance,
        room: *mut u64,
        cap: usize,
        len: *mut usize,
    ) -> u32;
    pub fn wq_code_text(code: u32, room: *mut u8, cap: usize, len: *mut usize) -> u32;
}

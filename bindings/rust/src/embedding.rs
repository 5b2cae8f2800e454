//! The C library, and all unsafe code of this crate except that of shared values (`counted.rs`). The declarations are those of tegvurn.h.
//!
//! The requirements of the C library are met as follows:
//!
//! - Pointers and counts are those of slices that live during the call, and no pointer is null.
//! - Host functions live as long as the embedding.
//! - No panic unwinds into C: a closure's panic is caught and kept, and nothing is dropped between C's call and the catch. A closure's own
//!   error is kept, too, and not dropped there.
//! - The borrowed memory is a slice that ends with the closure's call.
//! - One thread uses an embedding at a time, because each of its calls borrows it mutably.
//! - A callback always returns, so nothing needs to be abandoned.
#![allow(unsafe_code)]
#![warn(unsafe_op_in_unsafe_fn)]

use crate::error::{self, Cause, Error, Exhaustion, Place, Refusal, Trap};
use crate::instance::{Export, Import};
use crate::linker::{
    Caller, Config, Definition, Engine, HostError, HostFunction, HostTrap, Linker,
};
use crate::provider::{Kind, Object};
use crate::store::Report;
use crate::types::{ExternType, FuncType, Limits, Val, ValType};
use std::any::Any;
use std::collections::{HashMap, TryReserveError};
use std::ffi::CStr;
use std::mem::{size_of, ManuallyDrop};
use std::os::raw::{c_char, c_void};
use std::panic::{self, AssertUnwindSafe};
use std::ptr::{self, NonNull};
use std::slice;

// The declarations

#[repr(C)]
struct Handle {
    _private: [u8; 0],
}

#[repr(C)]
#[derive(Clone, Copy)]
struct RawText {
    bytes: *const u8,
    size: usize,
}

#[repr(C)]
#[derive(Clone, Copy)]
struct RawValue {
    ty: u32,
    is_null: bool,
    number: RawNumber,
}

#[repr(C)]
#[derive(Clone, Copy)]
union RawNumber {
    i32: u32,
    i64: u64,
    reference: u32,
}

#[repr(C)]
struct RawEnd {
    status: u32,
    number: u32,
    name: *const c_char,
    place: u32,
    at: u64,
    code: u32,
    text: [c_char; 128],
}

#[repr(C)]
struct RawConfig {
    fuel: u64,
    depth: u32,
    pages: u32,
    entries: u32,
}

#[repr(C)]
struct RawHostCall {
    args: *const RawValue,
    arg_count: usize,
    results: *mut RawValue,
    result_count: usize,
    memory: *mut u8,
    memory_size: usize,
    trap: u32,
}

type RawCallback = unsafe extern "C" fn(*mut c_void, *mut RawHostCall) -> bool;

#[repr(C)]
struct RawHost {
    module: RawText,
    name: RawText,
    params: *const u32,
    param_count: usize,
    results: *const u32,
    result_count: usize,
    callback: RawCallback,
    context: *mut c_void,
}

#[repr(C)]
struct RawExport {
    name: RawText,
    kind: u32,
    params: *const u32,
    param_count: usize,
    results: *const u32,
    result_count: usize,
    ty: u32,
    is_mutable: bool,
    minimum: u64,
    has_maximum: bool,
    maximum: u64,
}

#[repr(C)]
struct RawImport {
    module_name: RawText,
    named: RawExport,
}

#[repr(C)]
struct RawProvided {
    name: RawText,
    kind: u32,
    ty: u32,
    minimum: u64,
    has_maximum: bool,
    maximum: u64,
    value: RawValue,
    is_mutable: bool,
}

#[repr(C)]
struct RawFile {
    name: RawText,
    bytes: *const u8,
    size: usize,
}

#[repr(C)]
struct RawReport {
    passed: u64,
    failed: u64,
    skipped: u64,
    failed_lines: *const u64,
}

extern "C" {
    fn tegvurn_new_with_quota(
        config: *const RawConfig,
        quota: u64,
        hosts: *const RawHost,
        host_count: usize,
        embedding: *mut *mut Handle,
        end: *mut RawEnd,
    ) -> u32;
    fn tegvurn_free(embedding: *mut Handle) -> u32;
    fn tegvurn_last(embedding: *const Handle) -> *const RawEnd;
    fn tegvurn_explain(embedding: *mut Handle, text: *mut u8, size: usize) -> usize;
    fn tegvurn_load(embedding: *mut Handle, bytes: *const u8, size: usize, module: *mut u64)
        -> u32;
    fn tegvurn_link(embedding: *mut Handle, module: u64, instance: *mut u64) -> u32;
    fn tegvurn_register(embedding: *mut Handle, instance: u64, name: RawText) -> u32;
    fn tegvurn_call(
        embedding: *mut Handle,
        instance: u64,
        name: RawText,
        args: *const RawValue,
        arg_count: usize,
        results: *mut RawValue,
        room: usize,
        result_count: *mut usize,
    ) -> u32;
    fn tegvurn_get_global(
        embedding: *mut Handle,
        instance: u64,
        name: RawText,
        value: *mut RawValue,
    ) -> u32;
    fn tegvurn_set_fuel(embedding: *mut Handle, fuel: u64) -> u32;
    fn tegvurn_fuel_left(embedding: *mut Handle, fuel: *mut u64) -> u32;
    fn tegvurn_quota_left(embedding: *mut Handle, bytes: *mut u64) -> u32;
    fn tegvurn_exports(
        embedding: *mut Handle,
        instance: u64,
        exports: *mut *mut RawExport,
        count: *mut usize,
    ) -> u32;
    fn tegvurn_find_export(
        embedding: *mut Handle,
        instance: u64,
        name: RawText,
        found: *mut *mut RawExport,
    ) -> u32;
    fn tegvurn_exports_free(exports: *mut RawExport);
    fn tegvurn_module_exports(
        embedding: *mut Handle,
        module: u64,
        exports: *mut *mut RawExport,
        count: *mut usize,
    ) -> u32;
    fn tegvurn_module_imports(
        embedding: *mut Handle,
        module: u64,
        imports: *mut *mut RawImport,
        count: *mut usize,
    ) -> u32;
    fn tegvurn_imports_free(imports: *mut RawImport);
    fn tegvurn_provide(
        embedding: *mut Handle,
        name: RawText,
        hosts: *const RawHost,
        host_count: usize,
        objects: *const RawProvided,
        object_count: usize,
        instance: *mut u64,
    ) -> u32;
    fn tegvurn_window_host() -> RawHost;
    fn tegvurn_window_open(
        embedding: *mut Handle,
        instance: u64,
        memory: RawText,
        window: *mut u64,
    ) -> u32;
    fn tegvurn_window_read(
        embedding: *mut Handle,
        window: u64,
        at: u64,
        bytes: *mut u8,
        size: usize,
    ) -> u32;
    fn tegvurn_window_write(
        embedding: *mut Handle,
        window: u64,
        at: u64,
        bytes: *const u8,
        size: usize,
    ) -> u32;
    fn tegvurn_script(
        embedding: *mut Handle,
        json: *const u8,
        size: usize,
        files: *const RawFile,
        file_count: usize,
        report: *mut RawReport,
    ) -> u32;
}

// The sizes of the C library's structs on 64-bit targets. `ends.c` checks the same sizes.
#[cfg(target_pointer_width = "64")]
const _: () = {
    assert!(size_of::<RawValue>() == 16);
    assert!(size_of::<RawEnd>() == 168);
    assert!(size_of::<RawConfig>() == 24);
    assert!(size_of::<RawHostCall>() == 56);
    assert!(size_of::<RawHost>() == 80);
    assert!(size_of::<RawExport>() == 88);
    assert!(size_of::<RawProvided>() == 72);
    assert!(size_of::<RawFile>() == 32);
    assert!(size_of::<RawReport>() == 32);
};

// The room for an explanation at first. Most fit.
const EXPLANATION: usize = 512;

// How calls end, and kinds of exports. A call with another status is over, and an export of another kind is a global.
// generated by tools/generate from bindings/table.toml: begin statuses
const DONE: u32 = 0;
const REFUSED: u32 = 1;
const TRAP: u32 = 2;
const EXHAUSTED: u32 = 3;
// end statuses
// generated by tools/generate from bindings/table.toml: begin kinds
const KIND_FUNCTION: u32 = 0;
const KIND_TABLE: u32 = 1;
const KIND_MEMORY: u32 = 2;
const KIND_GLOBAL: u32 = 3;
// end kinds

/// The quota of an embedding that has none.
pub(crate) const NO_QUOTA: u64 = u64::MAX;

// The code of the trap of a closure that failed.
const FAILED: u32 = u32::MAX;

// Values and types

fn raw_types(types: &[ValType]) -> Vec<u32> {
    types.iter().copied().map(ValType::number).collect()
}

fn type_of(number: u32) -> ValType {
    ValType::of_number(number).unwrap_or(ValType::ExternRef)
}

fn raw_text(text: &str) -> RawText {
    RawText {
        bytes: text.as_ptr(),
        size: text.len(),
    }
}

fn raw_value(value: Val) -> RawValue {
    let (is_null, i64) = match value {
        Val::I32(number) => (false, u64::from(number as u32)),
        Val::I64(number) => (false, number as u64),
        Val::FuncRef(reference) | Val::ExternRef(reference) => {
            (reference.is_none(), u64::from(reference.unwrap_or(0)))
        }
    };
    let mut number = RawNumber { i64 };
    if !matches!(value, Val::I64(_)) {
        number.i32 = i64 as u32;
    }
    RawValue {
        ty: value.ty().number(),
        is_null,
        number,
    }
}

/// Returns the value that C encodes like this.
///
/// # Safety
/// The member of the union for its type is initialized.
unsafe fn value_of(raw: &RawValue) -> Val {
    let reference = || {
        if raw.is_null {
            None
        } else {
            Some(unsafe { raw.number.reference })
        }
    };
    match type_of(raw.ty) {
        ValType::I32 => Val::I32(unsafe { raw.number.i32 } as i32),
        ValType::I64 => Val::I64(unsafe { raw.number.i64 } as i64),
        ValType::FuncRef => Val::FuncRef(reference()),
        ValType::ExternRef => Val::ExternRef(reference()),
    }
}

fn raw_object(object: &Object) -> RawProvided {
    let (kind, ty, limits, value, is_mutable) = match object.kind {
        Kind::Table(ty, limits) => (KIND_TABLE, ty, limits, Val::I32(0), false),
        Kind::Memory(limits) => (KIND_MEMORY, ValType::I32, limits, Val::I32(0), false),
        Kind::Global(value, is_mutable) => {
            let none = Limits {
                minimum: 0,
                maximum: None,
            };
            (KIND_GLOBAL, value.ty(), none, value, is_mutable)
        }
    };
    RawProvided {
        name: raw_text(&object.name),
        kind,
        ty: ty.number(),
        minimum: limits.minimum,
        has_maximum: limits.maximum.is_some(),
        maximum: limits.maximum.unwrap_or(0),
        value: raw_value(value),
        is_mutable,
    }
}

/// Returns the elements at a pointer as a slice.
///
/// # Safety
/// There are `count` elements at the pointer, for the lifetime of the slice. If `count` is 0, any pointer is valid.
unsafe fn slice_of<'a, E>(at: *const E, count: usize) -> &'a [E] {
    if count == 0 {
        return &[];
    }
    unsafe { slice::from_raw_parts(at, count) }
}

fn owned(text: &str) -> Result<String, TryReserveError> {
    let mut owned = String::new();
    owned.try_reserve_exact(text.len())?;
    owned.push_str(text);
    Ok(owned)
}

/// Returns a copy of a name.
///
/// # Errors
/// Refused with [`Cause::OutOfMemory`] if the allocation fails.
pub(crate) fn kept(name: &str) -> Result<String, Error> {
    owned(name).map_err(|_| out_of_memory())
}

/// Returns a refusal. Its text is empty if there is no memory for it.
pub(crate) fn refused(cause: Cause, place: Option<Place>, text: &str) -> Error {
    Error::Refused(Refusal {
        cause,
        place,
        text: owned(text).unwrap_or_default(),
        explanation: String::new(),
    })
}

fn out_of_memory() -> Error {
    refused(Cause::OutOfMemory, None, error::OUT_OF_MEMORY)
}

// Returns the error for a status other than done, given how the last call ended. For some statuses, such as busy, the C library stores no
// end, so that `last` is the end of an earlier call.
fn error_of_status(status: u32, last: &RawEnd) -> Error {
    if last.status == status {
        error_of(last)
    } else {
        Error::Over
    }
}

fn error_of(end: &RawEnd) -> Error {
    match end.status {
        REFUSED => {
            // SAFETY: the text ends with a zero byte.
            let text = unsafe { CStr::from_ptr(end.text.as_ptr()) }.to_string_lossy();
            match Cause::of_number(end.number) {
                Some(cause) => refused(cause, Place::of_number(end.place, end.at), &text),
                None => Error::Over,
            }
        }
        TRAP => Trap::of_number(end.number, end.code).map_or(Error::Over, Error::Trap),
        EXHAUSTED => Exhaustion::of_number(end.number).map_or(Error::Over, Error::Exhausted),
        _ => Error::Over,
    }
}

// Host functions

// How a closure failed: by a panic, which continues after the store's call, or by an error, which that call returns.
enum Failure {
    Panic(Box<dyn Any + Send>),
    Error(HostError),
}

// What closures share: the data, and the first failure of a closure in the running call.
struct Shared<T> {
    data: T,
    failure: Option<Failure>,
}

// A host function. Each call of it gets this as its context.
struct Host<T> {
    function: HostFunction<T>,
    results: Vec<ValType>,
    shared: NonNull<Shared<T>>,
}

/// Runs a host function: the callback that the C library calls.
///
/// # Safety
/// The context is a `Host<T>`, and nothing else uses it, or what it shares, during the call.
unsafe extern "C" fn call_host<T>(context: *mut c_void, call: *mut RawHostCall) -> bool {
    let (host, call) = unsafe { (&mut *context.cast::<Host<T>>(), &mut *call) };
    let shared = unsafe { &mut *host.shared.as_ptr() };
    if shared.failure.is_some() {
        call.trap = FAILED;
        return false;
    }
    let data = &mut shared.data;
    let (function, results) = (&mut host.function, &host.results);
    let answer = panic::catch_unwind(AssertUnwindSafe(|| unsafe {
        call_closure(function, results, data, call)
    }));
    let failure = match answer {
        Ok(Ok(())) => return true,
        Ok(Err(error)) => match error.downcast::<HostTrap>() {
            Ok(trap) => {
                call.trap = trap.0;
                return false;
            }
            Err(error) => Failure::Error(error),
        },
        Err(panic) => Failure::Panic(panic),
    };
    shared.failure = Some(failure);
    call.trap = FAILED;
    false
}

/// Calls a closure with the arguments and the memory of a call, and writes its results.
///
/// # Safety
/// The C library made the call, of a host function with these result types.
unsafe fn call_closure<T>(
    function: &mut HostFunction<T>,
    result_types: &[ValType],
    data: &mut T,
    call: &mut RawHostCall,
) -> Result<(), HostError> {
    let args: Vec<Val> = unsafe { slice_of(call.args, call.arg_count) }
        .iter()
        .map(|raw| unsafe { value_of(raw) })
        .collect();
    let mut results: Vec<Val> = result_types.iter().copied().map(Val::default_of).collect();
    let memory: &mut [u8] = if call.memory_size == 0 {
        &mut []
    } else {
        unsafe { slice::from_raw_parts_mut(call.memory, call.memory_size) }
    };
    function(Caller { data, memory }, &args, &mut results)?;
    for (index, result) in results.into_iter().enumerate() {
        unsafe { call.results.add(index).write(raw_value(result)) };
    }
    Ok(())
}

// The host functions of an embedding, and what they share. Both are freed on drop.
struct Hosts<T> {
    shared: NonNull<Shared<T>>,
    list: Vec<NonNull<Host<T>>>,
    signatures: Vec<Signature>,
}

// The names and the type of a host function, as the C library gets them.
struct Signature {
    module: String,
    name: String,
    params: Vec<u32>,
    results: Vec<u32>,
}

// Returns a host function as the C library gets it.
fn raw_host<T>(signature: &Signature, host: NonNull<Host<T>>) -> RawHost {
    RawHost {
        module: raw_text(&signature.module),
        name: raw_text(&signature.name),
        params: signature.params.as_ptr(),
        param_count: signature.params.len(),
        results: signature.results.as_ptr(),
        result_count: signature.results.len(),
        callback: call_host::<T>,
        context: host.as_ptr().cast(),
    }
}

fn boxed<E>(value: E) -> NonNull<E> {
    NonNull::from(Box::leak(Box::new(value)))
}

impl<T: 'static> Hosts<T> {
    fn new(definitions: Vec<Definition<T>>, data: T) -> Hosts<T> {
        let shared = boxed(Shared {
            data,
            failure: None,
        });
        let mut hosts = Hosts {
            shared,
            list: Vec::new(),
            signatures: Vec::new(),
        };
        for Definition {
            module,
            name,
            ty,
            function,
        } in definitions
        {
            hosts.signatures.push(Signature {
                module,
                name,
                params: raw_types(ty.params()),
                results: raw_types(ty.results()),
            });
            hosts.list.push(boxed(Host {
                function,
                results: ty.results().to_vec(),
                shared,
            }));
        }
        hosts
    }

    // Returns the host functions as the C library gets them, or only those of a module name.
    fn raw(&self, module: Option<&str>) -> Vec<RawHost> {
        self.signatures
            .iter()
            .zip(&self.list)
            .filter(|(signature, _)| module.map_or(true, |name| name == signature.module))
            .map(|(signature, host)| raw_host(signature, *host))
            .collect()
    }

    // Makes an embedding with a quota, with these host functions, and with that of windows or without it.
    fn begin(
        &self,
        engine: &Engine,
        quota: u64,
        has_windows: bool,
    ) -> Result<NonNull<Handle>, Error> {
        let mut raw_hosts = self.raw(None);
        raw_hosts.extend(has_windows.then(|| unsafe { tegvurn_window_host() }));
        let Config {
            fuel,
            depth,
            pages,
            entries,
        } = *engine.config();
        let raw_config = RawConfig {
            fuel,
            depth,
            pages,
            entries,
        };
        let mut end = RawEnd {
            status: 0,
            number: 0,
            name: ptr::null(),
            place: 0,
            at: 0,
            code: 0,
            text: [0; 128],
        };
        let mut handle = ptr::null_mut();
        unsafe {
            tegvurn_new_with_quota(
                &raw_config,
                quota,
                raw_hosts.as_ptr(),
                raw_hosts.len(),
                &mut handle,
                &mut end,
            )
        };
        NonNull::new(handle).ok_or_else(|| error_of(&end))
    }
}

impl<T> Drop for Hosts<T> {
    fn drop(&mut self) {
        for host in self.list.drain(..) {
            drop(unsafe { Box::from_raw(host.as_ptr()) });
        }
        drop(unsafe { Box::from_raw(self.shared.as_ptr()) });
    }
}

/// An embedding, its host functions and their data.
pub(crate) struct Embedding<T> {
    handle: NonNull<Handle>,
    hosts: ManuallyDrop<Hosts<T>>,
}

// SAFETY: any thread may call the C library's embedding and free it, one at a time. Closures, kept failures and the data are `Send`.
unsafe impl<T: Send> Send for Embedding<T> {}

impl<T: 'static> Embedding<T> {
    pub(crate) fn new(linker: Linker<T>, data: T, quota: u64) -> Result<Embedding<T>, Error> {
        let hosts = Hosts::new(linker.definitions, data);
        let handle = hosts.begin(&linker.engine, quota, linker.has_windows)?;
        Ok(Embedding {
            handle,
            hosts: ManuallyDrop::new(hosts),
        })
    }

    pub(crate) fn data(&self) -> &T {
        unsafe { &self.hosts.shared.as_ref().data }
    }

    pub(crate) fn data_mut(&mut self) -> &mut T {
        unsafe { &mut self.hosts.shared.as_mut().data }
    }

    // Returns how a call ended. If a closure panicked, its panic continues here.
    fn done(&mut self, status: u32) -> Result<(), Error> {
        match unsafe { self.hosts.shared.as_mut() }.failure.take() {
            Some(Failure::Panic(panic)) => panic::resume_unwind(panic),
            Some(Failure::Error(error)) => return Err(Error::Host(error)),
            None => {}
        }
        if status == DONE {
            return Ok(());
        }
        let mut error = error_of_status(status, unsafe { &*tegvurn_last(self.handle.as_ptr()) });
        if let Error::Refused(refusal) = &mut error {
            refusal.explanation = self.explanation().unwrap_or_default();
        }
        Err(error)
    }

    // Returns why the last call was refused.
    fn explanation(&mut self) -> Result<String, TryReserveError> {
        let mut text = Vec::new();
        let mut size = EXPLANATION;
        loop {
            text.try_reserve_exact(size - text.len())?;
            text.resize(size, 0);
            let handle = self.handle.as_ptr();
            let length = unsafe { tegvurn_explain(handle, text.as_mut_ptr(), size) };
            if length < size {
                text.truncate(length);
                return Ok(String::from_utf8(text).unwrap_or_default());
            }
            size = length + 1;
        }
    }

    pub(crate) fn load(&mut self, bytes: &[u8]) -> Result<u64, Error> {
        let mut module = 0;
        let status = unsafe {
            tegvurn_load(
                self.handle.as_ptr(),
                bytes.as_ptr(),
                bytes.len(),
                &mut module,
            )
        };
        self.done(status).map(|()| module)
    }

    pub(crate) fn link(&mut self, module: u64) -> Result<u64, Error> {
        let mut instance = 0;
        let status = unsafe { tegvurn_link(self.handle.as_ptr(), module, &mut instance) };
        match self.done(status) {
            Ok(()) => Ok(instance),
            Err(Error::Trap(trap)) => Err(Error::LinkTrap(trap)),
            Err(Error::Exhausted(what)) => Err(Error::LinkExhausted(what)),
            Err(other) => Err(other),
        }
    }

    pub(crate) fn register(&mut self, instance: u64, name: &str) -> Result<(), Error> {
        let status = unsafe { tegvurn_register(self.handle.as_ptr(), instance, raw_text(name)) };
        self.done(status)
    }

    /// Calls a function. The number of its results must be that of the places in `results`.
    pub(crate) fn call(
        &mut self,
        instance: u64,
        name: &str,
        args: &[Val],
        results: &mut [Val],
    ) -> Result<(), Error> {
        let raw_args: Vec<RawValue> = args.iter().copied().map(raw_value).collect();
        let mut raw_results = vec![raw_value(Val::I64(0)); results.len()];
        let mut count = 0;
        let status = unsafe {
            tegvurn_call(
                self.handle.as_ptr(),
                instance,
                raw_text(name),
                raw_args.as_ptr(),
                raw_args.len(),
                raw_results.as_mut_ptr(),
                raw_results.len(),
                &mut count,
            )
        };
        self.done(status)?;
        for (result, raw) in results.iter_mut().zip(&raw_results) {
            *result = unsafe { value_of(raw) };
        }
        Ok(())
    }

    pub(crate) fn get_global(&mut self, instance: u64, name: &str) -> Result<Val, Error> {
        let mut raw = raw_value(Val::I64(0));
        let status =
            unsafe { tegvurn_get_global(self.handle.as_ptr(), instance, raw_text(name), &mut raw) };
        self.done(status).map(|()| unsafe { value_of(&raw) })
    }

    pub(crate) fn set_fuel(&mut self, fuel: u64) -> Result<(), Error> {
        let status = unsafe { tegvurn_set_fuel(self.handle.as_ptr(), fuel) };
        self.done(status)
    }

    pub(crate) fn fuel_left(&mut self) -> Result<u64, Error> {
        let mut fuel = 0;
        let status = unsafe { tegvurn_fuel_left(self.handle.as_ptr(), &mut fuel) };
        self.done(status).map(|()| fuel)
    }

    pub(crate) fn quota_left(&mut self) -> Result<u64, Error> {
        let mut bytes = 0;
        let status = unsafe { tegvurn_quota_left(self.handle.as_ptr(), &mut bytes) };
        self.done(status).map(|()| bytes)
    }

    pub(crate) fn exports(&mut self, instance: u64) -> Result<Vec<Export>, Error> {
        let (mut exports, mut count) = (ptr::null_mut(), 0);
        let status =
            unsafe { tegvurn_exports(self.handle.as_ptr(), instance, &mut exports, &mut count) };
        self.done(status)?;
        let list = unsafe { exports_of(slice_of(exports, count)) };
        unsafe { tegvurn_exports_free(exports) };
        list.map_err(|_| out_of_memory())
    }

    pub(crate) fn module_exports(&mut self, module: u64) -> Result<Vec<Export>, Error> {
        let (mut exports, mut count) = (ptr::null_mut(), 0);
        let status = unsafe {
            tegvurn_module_exports(self.handle.as_ptr(), module, &mut exports, &mut count)
        };
        self.done(status)?;
        let list = unsafe { exports_of(slice_of(exports, count)) };
        unsafe { tegvurn_exports_free(exports) };
        list.map_err(|_| out_of_memory())
    }

    pub(crate) fn module_imports(&mut self, module: u64) -> Result<Vec<Import>, Error> {
        let (mut imports, mut count) = (ptr::null_mut(), 0);
        let status = unsafe {
            tegvurn_module_imports(self.handle.as_ptr(), module, &mut imports, &mut count)
        };
        self.done(status)?;
        let list = unsafe { imports_of(slice_of(imports, count)) };
        unsafe { tegvurn_imports_free(imports) };
        list.map_err(|_| out_of_memory())
    }

    /// Returns the type of one export.
    pub(crate) fn find_export(&mut self, instance: u64, name: &str) -> Result<ExternType, Error> {
        let mut found = ptr::null_mut();
        let status = unsafe {
            tegvurn_find_export(self.handle.as_ptr(), instance, raw_text(name), &mut found)
        };
        self.done(status)?;
        let ty = unsafe { extern_type_of(&*found, &mut Known::new()) };
        unsafe { tegvurn_exports_free(found) };
        ty.map_err(|_| out_of_memory())
    }

    /// Links and registers a provider of these objects, and of the host functions of a module name, if there is one.
    pub(crate) fn provide(
        &mut self,
        name: &str,
        functions_of: Option<&str>,
        objects: &[Object],
    ) -> Result<u64, Error> {
        let raw_hosts = functions_of.map_or(Vec::new(), |module| self.hosts.raw(Some(module)));
        let raw_objects: Vec<RawProvided> = objects.iter().map(raw_object).collect();
        let mut instance = 0;
        let status = unsafe {
            tegvurn_provide(
                self.handle.as_ptr(),
                raw_text(name),
                raw_hosts.as_ptr(),
                raw_hosts.len(),
                raw_objects.as_ptr(),
                raw_objects.len(),
                &mut instance,
            )
        };
        self.done(status).map(|()| instance)
    }

    pub(crate) fn open_window(&mut self, instance: u64, memory: &str) -> Result<u64, Error> {
        let mut window = 0;
        let status = unsafe {
            tegvurn_window_open(
                self.handle.as_ptr(),
                instance,
                raw_text(memory),
                &mut window,
            )
        };
        self.done(status).map(|()| window)
    }

    pub(crate) fn read_window(
        &mut self,
        window: u64,
        at: u64,
        bytes: &mut [u8],
    ) -> Result<(), Error> {
        let (to, size) = (bytes.as_mut_ptr(), bytes.len());
        let status = unsafe { tegvurn_window_read(self.handle.as_ptr(), window, at, to, size) };
        self.done(status)
    }

    pub(crate) fn write_window(&mut self, window: u64, at: u64, bytes: &[u8]) -> Result<(), Error> {
        let (from, size) = (bytes.as_ptr(), bytes.len());
        let status = unsafe { tegvurn_window_write(self.handle.as_ptr(), window, at, from, size) };
        self.done(status)
    }

    pub(crate) fn script(&mut self, json: &[u8], files: &[(&str, &[u8])]) -> Result<Report, Error> {
        let raw_files: Vec<RawFile> = files
            .iter()
            .map(|(name, bytes)| RawFile {
                name: raw_text(name),
                bytes: bytes.as_ptr(),
                size: bytes.len(),
            })
            .collect();
        let mut raw = RawReport {
            passed: 0,
            failed: 0,
            skipped: 0,
            failed_lines: ptr::null(),
        };
        let status = unsafe {
            tegvurn_script(
                self.handle.as_ptr(),
                json.as_ptr(),
                json.len(),
                raw_files.as_ptr(),
                raw_files.len(),
                &mut raw,
            )
        };
        self.done(status)?;
        let failed_lines = unsafe { slice_of(raw.failed_lines, raw.failed as usize) }.to_vec();
        Ok(Report {
            passed: raw.passed,
            skipped: raw.skipped,
            failed_lines,
        })
    }
}

// Exports. The module decides their number and size, so a failed allocation is an error here.

// The function types made so far, by their arrays in the C library. Exports with the same arrays share a type.
type Known = HashMap<(*const u32, usize, *const u32, usize), FuncType>;

/// Copies a list of exports.
///
/// # Safety
/// The exports are those of one list of the C library.
unsafe fn exports_of(raw: &[RawExport]) -> Result<Vec<Export>, TryReserveError> {
    let (mut list, mut known) = (Vec::new(), Known::new());
    list.try_reserve_exact(raw.len())?;
    for export in raw {
        list.push(Export {
            name: unsafe { name_of(&export.name) }?,
            ty: unsafe { extern_type_of(export, &mut known) }?,
        });
    }
    Ok(list)
}

/// Copies a list of imports.
///
/// # Safety
/// The imports are those of one list of the C library.
unsafe fn imports_of(raw: &[RawImport]) -> Result<Vec<Import>, TryReserveError> {
    let (mut list, mut known) = (Vec::new(), Known::new());
    list.try_reserve_exact(raw.len())?;
    for import in raw {
        list.push(Import {
            module: unsafe { name_of(&import.module_name) }?,
            name: unsafe { name_of(&import.named.name) }?,
            ty: unsafe { extern_type_of(&import.named, &mut known) }?,
        });
    }
    Ok(list)
}

/// Copies a name.
///
/// # Safety
/// The text is one of the C library.
unsafe fn name_of(raw: &RawText) -> Result<String, TryReserveError> {
    owned(&String::from_utf8_lossy(unsafe {
        slice_of(raw.bytes, raw.size)
    }))
}

/// Returns the type of an exported function, and adds it to `known`.
///
/// # Safety
/// The export is a function in the list of the C library that `known` belongs to.
unsafe fn func_type_of(raw: &RawExport, known: &mut Known) -> Result<FuncType, TryReserveError> {
    let arrays = (raw.params, raw.param_count, raw.results, raw.result_count);
    if let Some(ty) = known.get(&arrays) {
        return Ok(ty.clone());
    }
    known.try_reserve(1)?;
    let (params, results) = unsafe {
        (
            slice_of(raw.params, raw.param_count),
            slice_of(raw.results, raw.result_count),
        )
    };
    let mut types = Vec::new();
    types.try_reserve_exact(params.len() + results.len())?;
    types.extend(params.iter().chain(results).copied().map(type_of));
    let ty = FuncType::try_new(types, params.len())?;
    known.insert(arrays, ty.clone());
    Ok(ty)
}

/// Returns the type of an export.
///
/// # Safety
/// The export is in the list of the C library that `known` belongs to.
unsafe fn extern_type_of(
    raw: &RawExport,
    known: &mut Known,
) -> Result<ExternType, TryReserveError> {
    let limits = Limits {
        minimum: raw.minimum,
        maximum: raw.has_maximum.then_some(raw.maximum),
    };
    Ok(match raw.kind {
        KIND_FUNCTION => ExternType::Func(unsafe { func_type_of(raw, known) }?),
        KIND_TABLE => ExternType::Table(type_of(raw.ty), limits),
        KIND_MEMORY => ExternType::Memory(limits),
        _ => ExternType::Global {
            ty: type_of(raw.ty),
            is_mutable: raw.is_mutable,
        },
    })
}

impl<T> Drop for Embedding<T> {
    fn drop(&mut self) {
        // Safe code cannot drop an embedding during a call, because the call borrows it mutably. If it is busy all the same, the C library
        // keeps it and still calls the host functions, so they are leaked.
        if unsafe { tegvurn_free(self.handle.as_ptr()) } == DONE {
            unsafe { ManuallyDrop::drop(&mut self.hosts) };
        }
    }
}

#[cfg(test)]
mod tests {
    use super::*;
    use std::sync::atomic::{AtomicPtr, Ordering};
    use std::sync::Arc;

    /// `(module (import "host" "ask" (func $ask)) (export "f" (func $ask)))`
    const MODULE: &[u8] =
        b"\0asm\x01\0\0\0\x01\x04\x01\x60\0\0\x02\x0c\x01\x04host\x03ask\0\0\x07\x05\x01\x01f\0\0";

    /// Returns an embedding whose host function does this.
    fn embedding_of(ask: impl FnMut() + Send + 'static) -> Embedding<()> {
        let mut linker = Linker::<()>::new(&Engine::new(Config::default()));
        linker.func_wrap("host", "ask", ask);
        let mut embedding = Embedding::new(linker, (), NO_QUOTA).expect("an embedding");
        let module = embedding.load(MODULE).expect("a module");
        embedding.link(module).expect("an instance");
        embedding
    }

    // No safe code can do this, so the closure makes a copy of its own embedding.
    #[test]
    fn a_busy_embedding_keeps_its_host_functions_when_it_is_dropped() {
        let own = Arc::new(AtomicPtr::<Embedding<()>>::new(ptr::null_mut()));
        let kept = Arc::clone(&own);
        let mut embedding = Box::new(embedding_of(move || {
            drop(unsafe { ptr::read(kept.load(Ordering::Relaxed)) });
            assert_eq!(Arc::strong_count(&kept), 2);
        }));
        own.store(&mut *embedding, Ordering::Relaxed);
        assert_eq!(embedding.call(0, "f", &[], &mut []), Ok(()));
        assert_eq!(embedding.call(0, "f", &[], &mut []), Ok(()));
        assert_eq!(Arc::strong_count(&own), 2);
        drop(embedding);
        assert_eq!(Arc::strong_count(&own), 1);
    }

    fn end_of(status: u32, number: u32) -> RawEnd {
        RawEnd {
            status,
            number,
            name: ptr::null(),
            place: 0,
            at: 0,
            code: 7,
            text: [0; 128],
        }
    }

    #[test]
    fn each_status_is_an_error_of_its_own_end_or_none() {
        let refused = |cause| {
            Error::Refused(Refusal {
                cause,
                place: None,
                text: String::new(),
                explanation: String::new(),
            })
        };
        let (busy, over, bad_pointer) = (6, 7, 8);
        let rows = [
            (REFUSED, REFUSED, 3, refused(Cause::Limit)),
            (REFUSED, REFUSED, 19, Error::Over),
            (TRAP, TRAP, 9, Error::Trap(Trap::Host(7))),
            (EXHAUSTED, EXHAUSTED, 1, Error::Exhausted(Exhaustion::Fuel)),
            (EXHAUSTED, EXHAUSTED, 4, Error::Over),
            (over, over, 0, Error::Over),
            (bad_pointer, bad_pointer, 0, Error::Over),
            (busy, DONE, 0, Error::Over),
            (busy, REFUSED, 3, Error::Over),
            (bad_pointer, TRAP, 9, Error::Over),
        ];
        for (status, last, number, wanted) in rows {
            let error = error_of_status(status, &end_of(last, number));
            assert_eq!(error, wanted, "status {status} after {last} {number}");
        }
    }
}

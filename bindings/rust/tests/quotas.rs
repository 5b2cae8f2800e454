//! Tests of stores with a quota: modules that would take much run out of memory at once, and what is left is exact.

use std::time::{Duration, Instant};
use tegvurn::{
    Cause, Config, Engine, Error, Exhaustion, Instance, Linker, Module, Refusal, Store, Window,
};

const QUOTA: u64 = 16 << 20;

/// `(module (memory (export "memory") 1))`
const PAGE: &[u8] = b"\0asm\x01\0\0\0\x05\x03\x01\0\x01\x07\x0a\x01\x06memory\x02\0";

/// `(module (memory 1024))`
const PAGES: &[u8] = b"\0asm\x01\0\0\0\x05\x04\x01\0\x80\x08";

/// `(module (func $f (export "f") (local i64 ..) call $f))`, with 50,000 locals
const DEEP: &[u8] = b"\0asm\x01\0\0\0\x01\x04\x01\x60\0\0\x03\x02\x01\0\x07\x05\x01\x01f\0\0\
    \x0a\x0a\x01\x08\x01\xd0\x86\x03\x7e\x10\0\x0b";

// What a byte of a module, an instance, a function, a memory and a page of it count.
const BYTE: u64 = 64;
const INSTANCE: u64 = 512;
const FUNCTION: u64 = 48;
const MEMORY: u64 = 192;
const PAGE_BYTES: u64 = 65_536;

/// Returns the module `(module (table 1000000 funcref) (table 1000000 funcref) ..)` with that many tables, fewer than 3,277.
fn tables(count: usize) -> Vec<u8> {
    let leb = |number: usize| [(number % 128) as u8 | 0x80, (number / 128) as u8];
    let mut bytes = b"\0asm\x01\0\0\0\x04".to_vec();
    bytes.extend(leb(2 + 5 * count));
    bytes.extend(leb(count));
    bytes.extend(b"\x70\0\xc0\x84\x3d".repeat(count));
    bytes
}

fn linker(depth: u32) -> Linker<()> {
    let config = Config {
        depth,
        ..Config::default()
    };
    Linker::new(&Engine::new(config))
}

fn store_with(quota: u64) -> Store<()> {
    Store::with_quota(linker(1_000), (), quota).expect("a store")
}

fn cause_of<R: std::fmt::Debug>(result: Result<R, Error>) -> Cause {
    match result {
        Err(Error::Refused(Refusal { cause, .. })) => cause,
        other => panic!("expected a refusal, found {other:?}"),
    }
}

/// Checks that a test has taken less than five seconds.
fn check_time(start: Instant) {
    let seconds = start.elapsed();
    assert!(seconds < Duration::from_secs(5), "{seconds:?}");
}

#[test]
fn modules_that_would_take_much_run_out_of_memory() {
    let start = Instant::now();
    for bytes in [tables(100), tables(200), PAGES.to_vec()] {
        let mut store = store_with(QUOTA);
        let module = Module::new(&mut store, &bytes).expect("a module");
        let left = QUOTA - BYTE * bytes.len() as u64;
        assert_eq!(store.quota_left(), Ok(left));
        assert_eq!(
            cause_of(Instance::new(&mut store, &module)),
            Cause::OutOfMemory
        );
        assert_eq!(store.quota_left(), Ok(left));
    }
    check_time(start);
}

#[test]
fn a_deep_call_of_many_locals_runs_out_of_memory() {
    let start = Instant::now();
    let mut store = store_with(QUOTA);
    let module = Module::new(&mut store, DEEP).expect("a module");
    let instance = Instance::new(&mut store, &module).expect("an instance");
    let left = QUOTA - BYTE * DEEP.len() as u64 - INSTANCE - FUNCTION;
    let function = instance
        .get_typed_func::<(), ()>(&mut store, "f")
        .expect("a function");
    for _ in 0..3 {
        let end = function.call(&mut store, ());
        assert_eq!(end, Err(Error::Exhausted(Exhaustion::Memory)));
        assert_eq!(store.quota_left(), Ok(left));
    }
    check_time(start);
}

#[test]
fn links_stop_at_the_quota() {
    let start = Instant::now();
    let mut store = store_with(QUOTA);
    let module = Module::new(&mut store, PAGE).expect("a module");
    let (all, each) = (
        QUOTA - BYTE * PAGE.len() as u64,
        INSTANCE + MEMORY + PAGE_BYTES,
    );
    for number in 0..6_000 {
        let linked = Instance::new(&mut store, &module);
        if number < all / each {
            assert!(linked.is_ok(), "the link {number}");
        } else {
            assert_eq!(cause_of(linked), Cause::OutOfMemory, "the link {number}");
        }
    }
    assert_eq!(store.quota_left(), Ok(all % each));
    check_time(start);
}

#[test]
fn a_quota_that_is_enough_does_not_disturb() {
    let counted = BYTE * PAGE.len() as u64 + INSTANCE + MEMORY + PAGE_BYTES;
    let mut store = store_with(counted);
    let module = Module::new(&mut store, PAGE).expect("a module");
    Instance::new(&mut store, &module).expect("an instance");
    assert_eq!(store.quota_left(), Ok(0));
    assert_eq!(cause_of(Module::new(&mut store, PAGE)), Cause::OutOfMemory);

    let mut store = Store::new(linker(1), ()).expect("a store");
    let module = Module::new(&mut store, PAGE).expect("a module");
    Instance::new(&mut store, &module).expect("an instance");
    assert_eq!(store.quota_left(), Ok(u64::MAX - counted));
    let module = Module::new(&mut store_with(0), PAGE);
    assert_eq!(cause_of(module), Cause::OutOfMemory);
}

#[test]
fn a_window_counts_as_the_modules_that_it_adds() {
    let mut linker = linker(1_000);
    linker.allow_windows();
    let mut store = Store::with_quota(linker, (), QUOTA).expect("a store");
    let module = Module::new(&mut store, PAGE).expect("a module");
    let instance = Instance::new(&mut store, &module).expect("an instance");
    let before = store.quota_left().expect("the quota");
    let window = Window::new(&mut store, instance, "memory").expect("a window");
    let after = store.quota_left().expect("the quota");
    assert!(after + 2 * INSTANCE + 2 * FUNCTION < before && before < after + 20_000);
    window.write(&mut store, 7, b"a").expect("a write");
    let mut byte = [0];
    window.read(&mut store, 7, &mut byte).expect("a read");
    assert_eq!((byte, store.quota_left()), (*b"a", Ok(after)));
}

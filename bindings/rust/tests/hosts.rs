//! Tests of host functions that panic, return errors, borrow memory or own values, of stores that are confused with one another, of failed
//! allocations and their number, and of the examples.

#![warn(unsafe_op_in_unsafe_fn)]

use std::alloc::{GlobalAlloc, Layout, System};
use std::cell::Cell;
use std::fmt::{self, Display, Formatter};
use std::panic::{self, AssertUnwindSafe};
use std::process::Command;
use std::sync::{Arc, Mutex};
use std::thread::{self, ThreadId};
use tegvurn::{
    Caller, Cause, Config, Engine, Error, Exhaustion, ExternType, FuncType, HostError, HostTrap,
    Instance, Linker, Module, Place, Store, Trap, Val, ValType,
};

/// The module
///
/// ```wat
/// (module (import "host" "ask" (func $ask (param i32) (result i32))) (memory 1) (data (i32.const 8) "hello")
///   (func (export "ask") (param i32) (result i32) local.get 0 call $ask)
///   (func (export "byte") (param i32) (result i32) local.get 0 i32.load8_u))
/// ```
const MODULE: &[u8] = &[
    0x00, 0x61, 0x73, 0x6d, 0x01, 0x00, 0x00, 0x00, 0x01, 0x06, 0x01, 0x60, 0x01, 0x7f, 0x01, 0x7f,
    0x02, 0x0c, 0x01, 0x04, 0x68, 0x6f, 0x73, 0x74, 0x03, 0x61, 0x73, 0x6b, 0x00, 0x00, 0x03, 0x03,
    0x02, 0x00, 0x00, 0x05, 0x03, 0x01, 0x00, 0x01, 0x07, 0x0e, 0x02, 0x03, 0x61, 0x73, 0x6b, 0x00,
    0x01, 0x04, 0x62, 0x79, 0x74, 0x65, 0x00, 0x02, 0x0a, 0x10, 0x02, 0x06, 0x00, 0x20, 0x00, 0x10,
    0x00, 0x0b, 0x07, 0x00, 0x20, 0x00, 0x2d, 0x00, 0x00, 0x0b, 0x0b, 0x0b, 0x01, 0x00, 0x41, 0x08,
    0x0b, 0x05, 0x68, 0x65, 0x6c, 0x6c, 0x6f,
];

const BOUNDS: Config = Config {
    fuel: 1_000,
    depth: 100,
    pages: 16,
    entries: 100,
};

/// Returns a store whose host function `ask` is this closure, and the instance of the module.
fn store_of(
    ask: impl FnMut(&mut u32, &mut [u8], i32) -> Result<Val, HostError> + Send + 'static,
) -> (Store<u32>, Instance) {
    let engine = Engine::new(BOUNDS);
    let (mut linker, mut ask) = (Linker::<u32>::new(&engine), ask);
    linker.func_new(
        "host",
        "ask",
        FuncType::new([ValType::I32], [ValType::I32]),
        move |caller, args, results| {
            results[0] = ask(caller.data, caller.memory, args[0].i32().expect("an i32"))?;
            Ok(())
        },
    );
    let mut store = Store::new(linker, 0).expect("a store");
    let module = Module::new(&mut store, MODULE).expect("a module");
    let instance = Instance::new(&mut store, &module).expect("an instance");
    (store, instance)
}

fn call(store: &mut Store<u32>, instance: Instance, name: &str, arg: i32) -> Result<Val, Error> {
    let mut results = [Val::I32(0)];
    instance
        .get_func(store, name)?
        .call(store, &[Val::I32(arg)], &mut results)?;
    Ok(results[0])
}

#[test]
fn a_panic_goes_on_behind_the_call() {
    let (mut store, instance) = store_of(|calls, _memory, number| {
        *calls += 1;
        if number == 13 {
            panic::panic_any("thirteen");
        }
        Ok(Val::I32(number + 1))
    });
    assert_eq!(call(&mut store, instance, "ask", 1), Ok(Val::I32(2)));
    let panic = panic::catch_unwind(AssertUnwindSafe(|| call(&mut store, instance, "ask", 13)))
        .expect_err("a panic");
    assert_eq!(panic.downcast_ref(), Some(&"thirteen"));
    assert_eq!(call(&mut store, instance, "ask", 2), Ok(Val::I32(3)));
    assert_eq!(*store.data(), 3);
}

/// Returns a command of a script that calls `ask` with this number.
fn ask_command(number: i32) -> String {
    format!(
        r#"{{"type":"action","line":1,"action":{{"type":"invoke","field":"ask","args":[{{"type":"i32","value":"{}"}}]}}}}"#,
        number as u32
    )
}

/// Runs a script that links the module and calls `ask` with each number.
fn script(store: &mut Store<u32>, numbers: &[i32]) -> Result<tegvurn::Report, Error> {
    let commands: Vec<String> = numbers.iter().copied().map(ask_command).collect();
    let json = format!(
        r#"{{"commands":[{{"type":"module","line":1,"filename":"a"}},{}]}}"#,
        commands.join(",")
    );
    store.run_script(json.as_bytes(), &[("a", MODULE)])
}

/// The payload of a panic. Dropping it panics too.
struct Bomb(i32);

impl Drop for Bomb {
    fn drop(&mut self) {
        panic!("the bomb {} goes off", self.0);
    }
}

#[test]
fn the_first_panic_of_a_script_continues_and_no_closure_is_called_after_it() {
    let (mut store, _) = store_of(|calls, _memory, number| {
        *calls += 1;
        if number > 1 {
            panic::panic_any(Bomb(number));
        }
        Ok(Val::I32(number))
    });
    let panic = panic::catch_unwind(AssertUnwindSafe(|| script(&mut store, &[1, 2, 3, 4])))
        .expect_err("a panic");
    let bomb = panic.downcast::<Bomb>().expect("a bomb");
    assert_eq!((bomb.0, *store.data()), (2, 2));
    std::mem::forget(*bomb);
    let report = script(&mut store, &[1, 1]).expect("a report");
    assert_eq!((report.passed, *store.data()), (3, 4));
}

#[test]
fn the_memory_of_the_caller_is_read_and_written() {
    let (mut store, instance) = store_of(|_, memory, at| {
        assert_eq!(memory.len(), 65_536);
        assert_eq!(&memory[8..13], b"hello");
        memory[at as usize] = b'J';
        Ok(Val::I32(0))
    });
    assert_eq!(call(&mut store, instance, "ask", 8), Ok(Val::I32(0)));
    assert_eq!(
        call(&mut store, instance, "byte", 8),
        Ok(Val::I32(i32::from(b'J')))
    );
    assert_eq!(
        call(&mut store, instance, "byte", 9),
        Ok(Val::I32(i32::from(b'e')))
    );
}

#[test]
fn traps_and_wrong_results_have_their_codes() {
    let (mut store, instance) = store_of(|_, _, number| {
        if number == 0 {
            Ok(Val::I64(0))
        } else {
            Err(HostTrap(number as u32).into())
        }
    });
    assert_eq!(
        call(&mut store, instance, "ask", 0),
        Err(Error::Trap(Trap::Host(u32::MAX)))
    );
    assert_eq!(
        call(&mut store, instance, "ask", 7),
        Err(Error::Trap(Trap::Host(7)))
    );
    assert_eq!(
        call(&mut store, instance, "ask", -1),
        Err(Error::Trap(Trap::Host(u32::MAX)))
    );
    assert_eq!(
        call(&mut store, instance, "byte", 65_536),
        Err(Error::Trap(Trap::MemoryBounds))
    );
    store.set_fuel(0).expect("fuel");
    assert_eq!(
        call(&mut store, instance, "byte", 0),
        Err(Error::Exhausted(Exhaustion::Fuel))
    );
}

/// `(module (memory 1) (data (i32.const 65536) "a"))`
const DATA_AFTER_END: &[u8] =
    b"\0asm\x01\0\0\0\x05\x03\x01\0\x01\x0b\x09\x01\0\x41\x80\x80\x04\x0b\x01a";
/// `(module (func $start call $start) (start $start))`
const STARTS_RECURSION: &[u8] =
    b"\0asm\x01\0\0\0\x01\x04\x01\x60\0\0\x03\x02\x01\0\x08\x01\0\x0a\x06\x01\x04\0\x10\0\x0b";

#[test]
fn the_end_of_a_link_says_what_can_have_ended_so() {
    let rows = [
        (
            STARTS,
            1_000,
            Error::LinkTrap(Trap::Host(7)),
            "host trap with code 7 in the start function",
        ),
        (
            DATA_AFTER_END,
            1_000,
            Error::LinkTrap(Trap::MemoryBounds),
            "out of bounds memory access in the start function or a segment",
        ),
        (
            DATA_AFTER_END,
            0,
            Error::LinkExhausted(Exhaustion::Fuel),
            "out of fuel in the start function or a segment",
        ),
        (
            STARTS_RECURSION,
            1_000,
            Error::LinkExhausted(Exhaustion::Depth),
            "out of depth in the start function",
        ),
    ];
    let mut linker = Linker::<()>::new(&Engine::new(BOUNDS));
    linker.func_wrap("host", "start", || -> Result<(), HostTrap> {
        Err(HostTrap(7))
    });
    let mut store = Store::new(linker, ()).expect("a store");
    for (bytes, fuel, wanted, text) in rows {
        let module = Module::new(&mut store, bytes).expect("a module");
        store.set_fuel(fuel).expect("fuel");
        let error = Instance::new(&mut store, &module).expect_err(text);
        assert_eq!((error.to_string().as_str(), error), (text, wanted));
    }
    assert_eq!(
        Trap::Host(u32::MAX).to_string(),
        "host trap with code 4294967295"
    );
    assert_eq!(HostTrap(0).to_string(), "host trap with code 0");
    assert_eq!(Trap::Unreachable.to_string(), "unreachable");
}

#[test]
fn a_closure_may_call_another_store() {
    let (mut inner, inner_instance) = store_of(|_, _, number| Ok(Val::I32(number * 2)));
    let (mut outer, instance) =
        store_of(move |_, _, number| Ok(call(&mut inner, inner_instance, "ask", number)?));
    assert_eq!(call(&mut outer, instance, "ask", 21), Ok(Val::I32(42)));
}

/// An error of a host function, with a source.
#[derive(Debug, PartialEq, Eq)]
struct Lost(i32, Option<HostTrap>);

impl Display for Lost {
    fn fmt(&self, f: &mut Formatter<'_>) -> fmt::Result {
        write!(f, "{} is lost", self.0)
    }
}

impl std::error::Error for Lost {
    fn source(&self) -> Option<&(dyn std::error::Error + 'static)> {
        self.1.as_ref().map(|trap| trap as _)
    }
}

/// Returns a store whose host function counts its calls, and returns an error if its argument is negative.
fn losing_store() -> (Store<u32>, Instance) {
    store_of(|calls, _memory, number| {
        *calls += 1;
        if number < 0 {
            return Err(Lost(number, Some(HostTrap(7))).into());
        }
        Ok(Val::I32(number))
    })
}

#[test]
fn the_error_of_a_host_function_comes_back_from_the_call() {
    let (mut store, instance) = losing_store();
    assert_eq!(call(&mut store, instance, "ask", 1), Ok(Val::I32(1)));
    let error = call(&mut store, instance, "ask", -5).expect_err("an error");
    assert_eq!(error.to_string(), "-5 is lost");
    assert_eq!(error.downcast_ref(), Some(&Lost(-5, Some(HostTrap(7)))));
    assert_eq!(error.downcast_ref::<HostTrap>(), None);
    let source = std::error::Error::source(&error).expect("a source");
    assert_eq!(source.downcast_ref(), Some(&HostTrap(7)));
    let again = call(&mut store, instance, "ask", -5).expect_err("an error");
    assert_ne!(error, again);
    let error = error.downcast::<HostTrap>().expect_err("another error");
    assert_eq!(error.downcast(), Ok(Lost(-5, Some(HostTrap(7)))));
    assert_eq!(call(&mut store, instance, "ask", 2), Ok(Val::I32(2)));
    assert_eq!(*store.data(), 4);
}

#[test]
fn any_error_that_is_no_trap_comes_back() {
    let (mut store, instance) = store_of(|_, _, number| match number {
        0 => Err("a text".into()),
        1 => Ok("x".parse::<i32>().map(Val::I32)?),
        _ => Err(Box::new(Error::OtherStore)),
    });
    let texts: Vec<String> = (0..3)
        .map(|number| call(&mut store, instance, "ask", number).expect_err("an error"))
        .map(|error| match error {
            Error::Host(own) => own.to_string(),
            other => panic!("{other:?}"),
        })
        .collect();
    assert_eq!(texts[0], "a text");
    assert_eq!(
        texts[1],
        "x".parse::<i32>().expect_err("an error").to_string()
    );
    assert_eq!(texts[2], "it belongs to another store");
    let trap = Error::Trap(Trap::Unreachable);
    assert!(trap.downcast_ref::<Lost>().is_none());
    assert_eq!(trap.downcast::<Lost>(), Err(Error::Trap(Trap::Unreachable)));
}

#[test]
fn the_first_error_of_a_script_comes_back_and_no_closure_is_called_after_it() {
    let (mut store, _) = losing_store();
    let error = script(&mut store, &[1, -2, -3, 4]).expect_err("an error");
    assert_eq!(error.downcast(), Ok(Lost(-2, Some(HostTrap(7)))));
    assert_eq!(*store.data(), 2);
    let report = script(&mut store, &[1, 1]).expect("a report");
    assert_eq!((report.passed, *store.data()), (3, 4));
}

/// `(module (import "host" "start" (func $start)) (start $start))`
const STARTS: &[u8] =
    b"\0asm\x01\0\0\0\x01\x04\x01\x60\0\0\x02\x0e\x01\x04host\x05start\0\0\x08\x01\0";

#[test]
fn the_error_of_a_start_function_comes_back_from_the_link() {
    let mut linker = Linker::<u32>::new(&Engine::new(BOUNDS));
    linker.func_new("host", "start", FuncType::new([], []), |caller, _, _| {
        *caller.data += 1;
        Err(Lost(*caller.data as i32, None).into())
    });
    let mut store = Store::new(linker, 0).expect("a store");
    let module = Module::new(&mut store, STARTS).expect("a module");
    for number in 1..3 {
        let error = Instance::new(&mut store, &module).expect_err("an error");
        assert_eq!(error.downcast(), Ok(Lost(number, None)));
    }
}

#[test]
fn what_closures_keep_is_dropped_with_the_store() {
    let kept = Arc::new(Mutex::new(0));
    let own = Arc::clone(&kept);
    let (mut store, instance) = store_of(move |_, _, number| {
        *own.lock().expect("a lock") += number;
        Ok(Val::I32(0))
    });
    call(&mut store, instance, "ask", 5).expect("a result");
    assert_eq!(*kept.lock().expect("a lock"), 5);
    assert_eq!(Arc::strong_count(&kept), 2);
    drop(store);
    assert_eq!(Arc::strong_count(&kept), 1);
}

#[test]
fn what_closures_keep_is_dropped_where_there_is_no_store() {
    let kept = Arc::new(());
    let own = Arc::clone(&kept);
    let mut linker = Linker::<()>::new(&Engine::new(Config { depth: 0, ..BOUNDS }));
    linker.func_new("host", "ask", FuncType::new([], []), move |_, _, _| {
        let _ = &own;
        Ok(())
    });
    match Store::new(linker, ()) {
        Err(Error::Refused(refusal)) => assert_eq!(refusal.cause, Cause::BadSetup),
        _ => panic!("a store without frames"),
    }
    assert_eq!(Arc::strong_count(&kept), 1);
}

/// Returns a store whose data are the threads that its host function ran on, and the instance of the module.
fn threads_store() -> (Store<Vec<ThreadId>>, Instance) {
    let mut linker = Linker::<Vec<ThreadId>>::new(&Engine::new(BOUNDS));
    linker.func_wrap("host", "ask", |caller: Caller<Vec<ThreadId>>, at: u32| {
        caller.data.push(thread::current().id());
        caller.memory[at as usize] += 1;
        u32::from(caller.memory[at as usize])
    });
    let mut store = Store::new(linker, Vec::new()).expect("a store");
    let module = Module::new(&mut store, MODULE).expect("a module");
    let instance = Instance::new(&mut store, &module).expect("an instance");
    (store, instance)
}

#[test]
fn a_store_moves_between_threads() {
    let (mut store, instance) = thread::spawn(threads_store).join().expect("a store");
    let mut wanted = Vec::new();
    for number in 1..10 {
        let handle = thread::spawn(move || {
            let ask = instance.get_typed_func::<u32, u32>(&mut store, "ask");
            let result = ask.expect("a function").call(&mut store, 0);
            (store, result, thread::current().id())
        });
        let (moved, result, id) = handle.join().expect("a result");
        store = moved;
        wanted.push(id);
        assert_eq!(result, Ok(number));
        assert_eq!(store.data(), &wanted);
    }
    thread::spawn(move || drop(store)).join().expect("no panic");
}

#[test]
fn a_panic_and_an_error_leave_the_thread_that_called() {
    let (mut store, instance) = store_of(|_, _, number| match number {
        0 => panic::panic_any("zero"),
        _ => Err(Lost(number, None).into()),
    });
    let panic = thread::scope(|scope| {
        let calling = scope.spawn(|| call(&mut store, instance, "ask", 0));
        calling.join().expect_err("a panic")
    });
    assert_eq!(panic.downcast_ref(), Some(&"zero"));
    let (store, error) = thread::spawn(move || {
        let error = call(&mut store, instance, "ask", 5).expect_err("an error");
        (store, error)
    })
    .join()
    .expect("an error");
    assert_eq!(error.downcast(), Ok(Lost(5, None)));
    drop(store);
}

/// Two traits of this name apply to what is shared between threads, so that `of` is then ambiguous.
trait NotShared<Way> {
    fn of() {}
}
impl<S: ?Sized> NotShared<()> for S {}
impl<S: ?Sized + Sync> NotShared<u8> for S {}

#[test]
fn a_store_is_sent_and_not_shared() {
    fn is_sent<S: Send>() {}
    is_sent::<Store<u32>>();
    is_sent::<Linker<u32>>();
    is_sent::<Error>();
    <Store<u32> as NotShared<_>>::of();
}

#[test]
fn the_defaults_are_those_of_the_specification() {
    let Config {
        fuel,
        depth,
        pages,
        entries,
    } = Config::default();
    assert_eq!(
        (fuel, depth, pages, entries),
        (1_000_000_000, 1_024, 1_024, 1_000_000)
    );
    let engine = Engine::new(Config::default());
    let mut store = Store::new(Linker::<()>::new(&engine), ()).expect("a store");
    assert_eq!(store.get_fuel(), Ok(fuel));
}

#[test]
fn stores_are_not_mixed() {
    let (mut one, instance) = store_of(|_, _, number| Ok(Val::I32(number)));
    let (mut other, _) = store_of(|_, _, number| Ok(Val::I32(number)));
    let function = instance.get_func(&mut one, "ask").expect("a function");
    let mut results = [Val::I32(0)];
    assert_eq!(
        function.call(&mut other, &[Val::I32(1)], &mut results),
        Err(Error::OtherStore)
    );
    assert_eq!(instance.exports(&mut other), Err(Error::OtherStore));
    assert_eq!(instance.register(&mut other, "m"), Err(Error::OtherStore));
    let module = Module::new(&mut one, MODULE).expect("a module");
    assert_eq!(Instance::new(&mut other, &module), Err(Error::OtherStore));
}

#[test]
fn places_for_results_are_counted_before_the_call() {
    let (mut store, instance) = store_of(|calls, _, number| {
        *calls += 1;
        Ok(Val::I32(number))
    });
    let function = instance.get_func(&mut store, "ask").expect("a function");
    assert_eq!(
        function.call(&mut store, &[Val::I32(1)], &mut []),
        Err(Error::ResultCount {
            wanted: 1,
            given: 0
        })
    );
    assert_eq!(*store.data(), 0);
}

#[test]
fn refusals_say_where() {
    let mut store = Store::new(Linker::<()>::new(&Engine::new(BOUNDS)), ()).expect("a store");
    match Module::new(&mut store, &MODULE[..7]) {
        Err(Error::Refused(refusal)) => {
            assert_eq!(
                (refusal.cause, refusal.place),
                (Cause::Malformed, Some(Place::Byte(7)))
            );
            assert_eq!(refusal.text, "malformed module at byte 7");
            let explanation = "malformed module: the version is not 1, at offset 0x7";
            assert_eq!(refusal.explanation, explanation);
            assert_eq!(Error::Refused(refusal).to_string(), explanation);
        }
        other => panic!("{other:?}"),
    }
    let module = Module::new(&mut store, MODULE).expect("a module");
    match Instance::new(&mut store, &module) {
        Err(Error::Refused(refusal)) => assert_eq!(
            (refusal.cause, refusal.place),
            (Cause::UnknownImport, Some(Place::Import(0)))
        ),
        other => panic!("{other:?}"),
    }
}

/// An allocator that counts the allocations of each thread, and can refuse them.
struct Refusing;

#[derive(Clone, Copy)]
enum Refused {
    None,
    /// The allocation after that many others, and also all later ones if the flag is set.
    After(usize, bool),
}

/// The bytes that a thread holds, the most bytes that it held at any time, and the number of its allocations.
#[derive(Clone, Copy)]
struct Counts {
    held: isize,
    most: isize,
    made: usize,
}

thread_local! {
    static REFUSED: Cell<Refused> = const { Cell::new(Refused::None) };
    static COUNTS: Cell<Counts> = const { Cell::new(Counts { held: 0, most: 0, made: 0 }) };
}

fn count(size: isize) {
    COUNTS.with(|counts| {
        let Counts { held, most, made } = counts.get();
        counts.set(Counts {
            held: held + size,
            most: most.max(held + size),
            made: made + usize::from(size > 0),
        });
    });
}

/// Runs a closure. Returns its result, the most bytes that it held in addition at any time, and the number of its allocations.
fn counted<R>(run: impl FnOnce() -> R) -> (R, isize, usize) {
    let before = COUNTS.with(|counts| {
        let held = counts.get().held;
        counts.set(Counts {
            most: held,
            ..counts.get()
        });
        counts.get()
    });
    let result = run();
    let after = COUNTS.with(Cell::get);
    (result, after.most - before.held, after.made - before.made)
}

unsafe impl GlobalAlloc for Refusing {
    unsafe fn alloc(&self, layout: Layout) -> *mut u8 {
        match REFUSED.with(Cell::get) {
            Refused::After(0, more) => {
                if !more {
                    REFUSED.with(|refused| refused.set(Refused::None));
                }
                return std::ptr::null_mut();
            }
            Refused::After(allowed, more) => {
                REFUSED.with(|refused| refused.set(Refused::After(allowed - 1, more)));
            }
            Refused::None => {}
        }
        count(layout.size() as isize);
        unsafe { System.alloc(layout) }
    }

    unsafe fn dealloc(&self, at: *mut u8, layout: Layout) {
        count(-(layout.size() as isize));
        unsafe { System.dealloc(at, layout) }
    }
}

#[global_allocator]
static ALLOCATOR: Refusing = Refusing;

fn with_refused<R>(refused: Refused, run: impl FnOnce() -> R) -> R {
    REFUSED.with(|own| own.set(refused));
    let result = run();
    REFUSED.with(|own| own.set(Refused::None));
    result
}

/// Runs a closure with each of its allocations refused in turn, alone and together with all later ones. Returns how many there are.
fn refuse_each<R: PartialEq + std::fmt::Debug>(mut run: impl FnMut() -> Result<R, Error>) -> usize {
    let wanted = run().expect("a result");
    let mut refusals = 0;
    for more in [false, true] {
        for allowed in 0.. {
            match with_refused(Refused::After(allowed, more), &mut run) {
                Ok(found) => {
                    assert_eq!(found, wanted);
                    break;
                }
                Err(Error::Refused(refusal)) => {
                    assert_eq!((refusal.cause, refusal.place), (Cause::OutOfMemory, None));
                    assert_eq!(refusal.text, if more { "" } else { "out of memory" });
                    refusals += 1;
                }
                Err(other) => panic!("{other:?}"),
            }
        }
    }
    refusals / 2
}

#[test]
fn exports_are_refused_when_an_allocation_fails() {
    let (mut store, instance) = store_of(|_, _, number| Ok(Val::I32(number)));
    // The list, two names, and the type that both functions have, which is kept in a table while the list is made.
    assert_eq!(refuse_each(|| instance.exports(&mut store)), 1 + 2 + 3);
    // The name and the type.
    assert_eq!(refuse_each(|| instance.get_func(&mut store, "ask")), 1 + 3);
    let unknown = with_refused(Refused::After(0, true), || {
        instance.get_func(&mut store, "asks")
    });
    match unknown {
        Err(Error::Refused(refusal)) => assert_eq!(
            (refusal.cause, refusal.text.as_str()),
            (Cause::UnknownExport, "")
        ),
        other => panic!("{other:?}"),
    }
}

/// Returns how many allocations a call of `ask` makes over this linker, and how many a typed one makes.
fn allocations_of_calls(linker: Linker<u32>) -> (usize, usize) {
    let mut store = Store::new(linker, 0).expect("a store");
    let module = Module::new(&mut store, MODULE).expect("a module");
    let instance = Instance::new(&mut store, &module).expect("an instance");
    let function = instance.get_func(&mut store, "ask").expect("a function");
    let typed = instance
        .get_typed_func::<i32, i32>(&mut store, "ask")
        .expect("a function");
    let mut results = [Val::I32(0)];
    let (_, _, made) = counted(|| function.call(&mut store, &[Val::I32(5)], &mut results));
    let (result, _, made_typed) = counted(|| typed.call(&mut store, 5));
    assert_eq!((result, results), (Ok(6), [Val::I32(6)]));
    (made, made_typed)
}

#[test]
fn typed_calls_and_host_functions_allocate_no_more_than_others() {
    let engine = Engine::new(BOUNDS);
    let mut plain = Linker::<u32>::new(&engine);
    let mut typed = Linker::<u32>::new(&engine);
    let ty = FuncType::new([ValType::I32], [ValType::I32]);
    plain.func_new("host", "ask", ty, |_, args, results| {
        results[0] = Val::I32(args[0].i32().expect("an i32") + 1);
        Ok(())
    });
    typed.func_wrap("host", "ask", |number: i32| number + 1);
    let (most, typed_call) = allocations_of_calls(plain);
    let (typed_host, both_typed) = allocations_of_calls(typed);
    assert!(typed_call <= most && typed_host <= most && both_typed <= most);
}

/// Encodes a number in four bytes, as the binary format has it.
fn four_bytes(number: usize) -> [u8; 4] {
    let digit = |shift: u32| (number >> shift) as u8 & 0x7f;
    [
        digit(0) | 0x80,
        digit(7) | 0x80,
        digit(14) | 0x80,
        digit(21),
    ]
}

/// Encodes a section, or another part whose size precedes its content.
fn sized(head: &[u8], content: &[u8]) -> Vec<u8> {
    [head, &four_bytes(content.len()), content].concat()
}

/// Encodes `(module (func $f (param i32 ..) (result i32 ..) unreachable) (export "000" (func $f)) (export "001" (func $f)) ..)`. `types` is
/// the number of parameters, and of results.
fn exports_module(exports: usize, types: usize) -> Vec<u8> {
    let i32s = sized(&[], &vec![0x7f; types]);
    let mut entries = four_bytes(exports).to_vec();
    for number in 0..exports {
        entries.push(3);
        entries.extend(export_name(number).as_bytes());
        entries.extend([0, 0]);
    }
    [
        b"\0asm\x01\0\0\0".to_vec(),
        sized(&[1], &[&[1, 0x60], i32s.as_slice(), &i32s].concat()),
        vec![3, 2, 1, 0],
        sized(&[7], &entries),
        vec![10, 5, 1, 3, 0, 0, 11],
    ]
    .concat()
}

/// Returns the name of an export: three digits in base 36.
fn export_name(number: usize) -> String {
    let digit = |number: usize| char::from_digit(number as u32 % 36, 36).expect("a digit");
    [digit(number / 1296), digit(number / 36), digit(number)]
        .into_iter()
        .collect()
}

#[test]
fn many_exports_share_a_type_and_one_is_found_alone() {
    const EXPORTS: usize = 29_300;
    const TYPES: usize = 1_000;
    let bytes = exports_module(EXPORTS, TYPES);
    let mut store = Store::new(Linker::<()>::new(&Engine::new(BOUNDS)), ()).expect("a store");
    let module = Module::new(&mut store, &bytes).expect("a module");
    let instance = Instance::new(&mut store, &module).expect("an instance");
    let (exports, listed, _) = counted(|| instance.exports(&mut store).expect("exports"));
    let last = export_name(EXPORTS - 1);
    let (found, held, made) = counted(|| instance.get_func(&mut store, &last).expect("a function"));
    assert!(listed < 20 << 20, "{listed} bytes for the list");
    assert!(held < 10_000, "{held} bytes for one export");
    assert!(made < 10, "{made} allocations for one export");
    let types = |index: usize| match &exports[index].ty {
        ExternType::Func(ty) => ty,
        other => panic!("{other:?}"),
    };
    assert_eq!((exports.len(), types(0).params().len()), (EXPORTS, TYPES));
    for (index, export) in exports.iter().enumerate() {
        assert_eq!(export.name, export_name(index));
        assert_eq!(types(index).params().as_ptr(), types(0).params().as_ptr());
    }
    assert_eq!(found.ty(), types(0));
}

/// Runs an example with these arguments, and returns what it prints.
fn printed_by(example: &str, args: &[&str]) -> String {
    let output = Command::new(env!("CARGO"))
        .args(["run", "--quiet", "--offline", "--example", example, "--"])
        .args(args)
        .current_dir(env!("CARGO_MANIFEST_DIR"))
        .output()
        .expect("cargo runs");
    let errors = String::from_utf8_lossy(&output.stderr);
    assert!(output.status.success(), "{errors}");
    String::from_utf8_lossy(&output.stdout).into_owned()
}

#[test]
fn the_examples_print_what_they_have_to() {
    let plugin = "../../crates/plugin_host/data/plugin.wasm";
    assert_eq!(
        printed_by("plugin_host", &[plugin]),
        include_str!("../examples/plugin_host.out")
    );
    assert_eq!(
        printed_by("texts", &[]),
        include_str!("../examples/texts.out")
    );
}

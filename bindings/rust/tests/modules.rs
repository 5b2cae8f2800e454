//! Tests of windows and of providers.

use tegvurn::{
    Caller, Cause, Config, Engine, Error, ExternType, Instance, Limits, Linker, Module, Place,
    Provider, Store, Trap, TypedFunc, Val, ValType, Window,
};

/// `(module (memory (export "memory") 0 2) (global (export "global") i32 (i32.const 7))
///   (func (export "grow") (result i32) i32.const 1 memory.grow)
///   (func (export "byte") (param i32) (result i32) local.get 0 i32.load8_u))`
const MEMORY: &[u8] = b"\0asm\x01\0\0\0\x01\x0a\x02\x60\0\x01\x7f\x60\x01\x7f\x01\x7f\x03\x03\x02\0\x01\x05\x04\x01\x01\0\x02\
    \x06\x06\x01\x7f\0\x41\x07\x0b\x07\x21\x04\x06memory\x02\0\x06global\x03\0\x04grow\0\0\x04byte\0\x01\
    \x0a\x10\x02\x06\0\x41\x01\x40\0\x0b\x07\0\x20\0\x2d\0\0\x0b";

const PAGE: usize = 65_536;
const OUTSIDE: Result<(), Error> = Err(Error::Trap(Trap::MemoryBounds));

/// Returns a store that allows windows or not, and the instance of the module.
fn memory_store(allows_windows: bool) -> (Store<()>, Instance) {
    let mut linker = Linker::<()>::new(&Engine::new(Config::default()));
    if allows_windows {
        linker.allow_windows();
    }
    let mut store = Store::new(linker, ()).expect("a store");
    let module = Module::new(&mut store, MEMORY).expect("a module");
    let instance = Instance::new(&mut store, &module).expect("an instance");
    (store, instance)
}

fn grow(store: &mut Store<()>, instance: Instance) {
    let grow: TypedFunc<(), i32> = instance.get_typed_func(store, "grow").expect("grow");
    assert_ne!(grow.call(store, ()), Ok(-1));
}

#[test]
fn a_window_reads_and_writes_memory_between_calls() {
    let (mut store, instance) = memory_store(true);
    grow(&mut store, instance);
    let window = Window::new(&mut store, instance, "memory").expect("a window");
    let byte: TypedFunc<u32, u32> = instance.get_typed_func(&mut store, "byte").expect("byte");
    assert_eq!(window.write(&mut store, 8, b"hello"), Ok(()));
    assert_eq!(byte.call(&mut store, 9), Ok(u32::from(b'e')));
    let mut bytes = [b'?'; 6];
    assert_eq!(window.read(&mut store, 7, &mut bytes), Ok(()));
    assert_eq!(&bytes, b"\0hello");
    let other = Window::new(&mut store, instance, "memory").expect("a window");
    assert_eq!(other.write(&mut store, 8, b"J"), Ok(()));
    assert_eq!(window.read(&mut store, 8, &mut bytes[..2]), Ok(()));
    assert_eq!(&bytes, b"Jeello");
}

#[test]
fn a_window_reaches_only_the_memory_and_sees_it_grow() {
    let (mut store, instance) = memory_store(true);
    let window = Window::new(&mut store, instance, "memory").expect("a window");
    assert_eq!(window.read(&mut store, 0, &mut []), Ok(()));
    for size in [0, PAGE, 2 * PAGE] {
        let mut bytes = vec![1; size + 1];
        assert_eq!(window.read(&mut store, 0, &mut bytes), OUTSIDE);
        assert_eq!(window.write(&mut store, size, b"a"), OUTSIDE);
        assert_eq!(window.write(&mut store, size + 1, b""), OUTSIDE);
        assert_eq!(window.write(&mut store, usize::MAX, b"a"), OUTSIDE);
        assert!(bytes.iter().all(|byte| *byte == 1));
        assert_eq!(window.read(&mut store, 0, &mut bytes[..size]), Ok(()));
        assert!(bytes[..size].iter().all(|byte| *byte == 0));
        assert_eq!(window.write(&mut store, size, b""), Ok(()));
        if size < 2 * PAGE {
            grow(&mut store, instance);
        }
    }
}

#[test]
fn windows_spend_no_fuel() {
    let (mut store, instance) = memory_store(true);
    grow(&mut store, instance);
    for fuel in [0, 1, 1_000, u64::MAX] {
        store.set_fuel(fuel).expect("fuel");
        let window = Window::new(&mut store, instance, "memory").expect("a window");
        assert_eq!(window.write(&mut store, 8, b"a"), Ok(()));
        assert_eq!(window.read(&mut store, 8, &mut [0]), Ok(()));
        assert_eq!(store.get_fuel(), Ok(fuel));
    }
}

/// Returns the cause and the place of a refusal.
fn refusal_of<R: std::fmt::Debug>(result: Result<R, Error>) -> (Cause, Option<Place>) {
    match result {
        Err(Error::Refused(refusal)) => (refusal.cause, refusal.place),
        other => panic!("{other:?}"),
    }
}

/// `(module (import "tegvurn.window" "memory" (memory 0)))`
const STRANGER: &[u8] = b"\0asm\x01\0\0\0\x02\x1a\x01\x0etegvurn.window\x06memory\x02\0\0";

#[test]
fn windows_are_refused() {
    let (mut store, instance) = memory_store(true);
    let found = refusal_of(Window::new(&mut store, instance, "nosuch"));
    assert_eq!(found, (Cause::UnknownExport, None));
    let found = refusal_of(Window::new(&mut store, instance, "global"));
    assert_eq!(found, (Cause::WrongKind, None));
    let window = Window::new(&mut store, instance, "memory").expect("a window");
    let stranger = Module::new(&mut store, STRANGER).expect("a module");
    let found = refusal_of(Instance::new(&mut store, &stranger));
    assert_eq!(found, (Cause::UnknownImport, Some(Place::Import(0))));
    let (mut other, _) = memory_store(true);
    let found = Window::new(&mut other, instance, "memory").err();
    assert_eq!(found, Some(Error::OtherStore));
    assert_eq!(window.write(&mut other, 0, b""), Err(Error::OtherStore));
    let found = window.read(&mut other, 0, &mut []);
    assert_eq!(found, Err(Error::OtherStore));
    let (mut without, instance) = memory_store(false);
    let found = refusal_of(Window::new(&mut without, instance, "memory"));
    assert_eq!(found, (Cause::UnknownImport, Some(Place::Import(1))));
    let stranger = Module::new(&mut without, STRANGER).expect("a module");
    let found = refusal_of(Instance::new(&mut without, &stranger));
    assert_eq!(found, (Cause::UnknownImport, Some(Place::Import(0))));
}

/// A guest that imports a memory, a table, globals and a function from `env`:
///
/// ```wat
/// (module
///   (import "env" "memory" (memory 1))
///   (import "env" "table" (table 2 funcref))
///   (import "env" "counter" (global $counter (mut i32)))
///   (import "env" "limit" (global $limit i64))
///   (import "env" "ask" (func $ask (param i32) (result i32)))
///   (func (export "run") (param i32) (result i32)
///     (global.set $counter (i32.add (global.get $counter) (i32.const 1)))
///     (call $ask (local.get 0)))
///   (func (export "entries") (result i32) table.size 0)
///   (export "counter" (global $counter))
///   (export "limit" (global $limit)))
/// ```
#[rustfmt::skip]
const GUEST: &[u8] = &[
    0x00, 0x61, 0x73, 0x6d, 0x01, 0x00, 0x00, 0x00, 0x01, 0x0a, 0x02, 0x60, 0x01, 0x7f, 0x01, 0x7f,
    0x60, 0x00, 0x01, 0x7f, 0x02, 0x43, 0x05, 0x03, 0x65, 0x6e, 0x76, 0x06, 0x6d, 0x65, 0x6d, 0x6f,
    0x72, 0x79, 0x02, 0x00, 0x01, 0x03, 0x65, 0x6e, 0x76, 0x05, 0x74, 0x61, 0x62, 0x6c, 0x65, 0x01,
    0x70, 0x00, 0x02, 0x03, 0x65, 0x6e, 0x76, 0x07, 0x63, 0x6f, 0x75, 0x6e, 0x74, 0x65, 0x72, 0x03,
    0x7f, 0x01, 0x03, 0x65, 0x6e, 0x76, 0x05, 0x6c, 0x69, 0x6d, 0x69, 0x74, 0x03, 0x7e, 0x00, 0x03,
    0x65, 0x6e, 0x76, 0x03, 0x61, 0x73, 0x6b, 0x00, 0x00, 0x03, 0x03, 0x02, 0x00, 0x01, 0x07, 0x23,
    0x04, 0x03, 0x72, 0x75, 0x6e, 0x00, 0x01, 0x07, 0x65, 0x6e, 0x74, 0x72, 0x69, 0x65, 0x73, 0x00,
    0x02, 0x07, 0x63, 0x6f, 0x75, 0x6e, 0x74, 0x65, 0x72, 0x03, 0x00, 0x05, 0x6c, 0x69, 0x6d, 0x69,
    0x74, 0x03, 0x01, 0x0a, 0x15, 0x02, 0x0d, 0x00, 0x23, 0x00, 0x41, 0x01, 0x6a, 0x24, 0x00, 0x20,
    0x00, 0x10, 0x00, 0x0b, 0x05, 0x00, 0xfc, 0x10, 0x00, 0x0b,
];

/// Returns a store with host functions of `host`, of which `ask` writes its argument into the first byte of memory, and of `other`.
fn host_store() -> Store<u32> {
    let mut linker = Linker::<u32>::new(&Engine::new(Config::default()));
    linker.func_wrap("host", "ask", |caller: Caller<u32>, byte: u32| -> u32 {
        *caller.data += 1;
        caller.memory[0] = byte as u8;
        caller.memory.len() as u32
    });
    linker.func_wrap("other", "ask", |number: u64| number);
    linker.func_wrap("host", "next", |number: i64| number + 1);
    linker.allow_windows();
    Store::new(linker, 0).expect("a store")
}

#[test]
fn a_guest_imports_objects_and_functions_from_a_provider() {
    let mut store = host_store();
    let provider = Provider::new("env")
        .functions_of("host")
        .memory("memory", 2, None)
        .table("table", ValType::FuncRef, 3, None)
        .global("counter", Val::I32(41), true)
        .global("limit", Val::I64(-5), false)
        .link(&mut store)
        .expect("a provider");
    let module = Module::new(&mut store, GUEST).expect("a module");
    let guest = Instance::new(&mut store, &module).expect("an instance");
    let run: TypedFunc<u32, u32> = guest.get_typed_func(&mut store, "run").expect("run");
    assert_eq!(run.call(&mut store, 9), Ok(2 * PAGE as u32));
    assert_eq!(*store.data(), 1);
    let window = Window::new(&mut store, provider, "memory").expect("a window");
    let mut byte = [0];
    assert_eq!(window.read(&mut store, 0, &mut byte), Ok(()));
    assert_eq!(byte, [9]);
    let entries: TypedFunc<(), u32> = guest
        .get_typed_func(&mut store, "entries")
        .expect("entries");
    assert_eq!(entries.call(&mut store, ()), Ok(3));
    let counter = provider
        .get_global(&mut store, "counter")
        .expect("a global");
    assert_eq!(counter.get(&mut store), Ok(Val::I32(42)));
    let limit = guest.get_global(&mut store, "limit").expect("a global");
    assert_eq!(limit.get(&mut store), Ok(Val::I64(-5)));
}

#[test]
fn a_provider_exports_what_it_was_given() {
    let mut store = host_store();
    let limits = |minimum, maximum| Limits { minimum, maximum };
    let provider = Provider::new("env")
        .functions_of("host")
        .global("least", Val::I64(i64::MIN), true)
        .memory("memory", 1, Some(200))
        .table("table", ValType::ExternRef, 20, Some(300))
        .global("null", Val::ExternRef(None), false)
        .link(&mut store)
        .expect("a provider");
    let exports = provider.exports(&mut store).expect("exports");
    let names: Vec<&str> = exports.iter().map(|export| export.name.as_str()).collect();
    assert_eq!(names, ["ask", "next", "least", "memory", "table", "null"]);
    let types: Vec<&ExternType> = exports.iter().map(|export| &export.ty).collect();
    assert_eq!(
        types[2..],
        [
            &ExternType::Global {
                ty: ValType::I64,
                is_mutable: true
            },
            &ExternType::Memory(limits(1, Some(200))),
            &ExternType::Table(ValType::ExternRef, limits(20, Some(300))),
            &ExternType::Global {
                ty: ValType::ExternRef,
                is_mutable: false
            },
        ]
    );
    for (name, value) in [
        ("least", Val::I64(i64::MIN)),
        ("null", Val::ExternRef(None)),
    ] {
        let global = provider.get_global(&mut store, name).expect("a global");
        assert_eq!(global.get(&mut store), Ok(value));
    }
    let next: TypedFunc<i64, i64> = provider.get_typed_func(&mut store, "next").expect("next");
    assert_eq!(next.call(&mut store, -1), Ok(0));
    let empty = Provider::new("other_name")
        .link(&mut store)
        .expect("a provider");
    assert_eq!(empty.exports(&mut store), Ok(Vec::new()));
}

#[test]
fn providers_are_refused() {
    let mut store = host_store();
    let twice = Provider::new("env").memory("m", 1, None);
    let rows = [
        (Provider::new("host"), Cause::NameTaken, None),
        (
            twice.global("m", Val::I32(0), true),
            Cause::Invalid,
            Some(Place::Section(7)),
        ),
        (
            Provider::new("env").memory("memory", 1_025, None),
            Cause::Limit,
            None,
        ),
        (
            Provider::new("env").global("g", Val::ExternRef(Some(1)), true),
            Cause::BadArguments,
            None,
        ),
    ];
    for (provider, cause, place) in rows {
        assert_eq!(refusal_of(provider.link(&mut store)), (cause, place));
    }
}

//! A plug-in host: it calls the exports of a plug-in, each with a limit of fuel, and provides two host functions.
//! Usage: `cargo run --example plugin_host plugin.wasm`.

use std::error::Error;
use tegvurn::{Caller, Config, Engine, HostTrap, Instance, Linker, Module, Store, Val};

/// The state of the host functions.
#[derive(Default)]
struct Host {
    calls: i32,
    text: Vec<u8>,
}

/// Returns `length` bytes of a memory from `start` on, or `None` if they are not all in the memory.
fn bytes_at(memory: &[u8], start: u32, length: u32) -> Option<&[u8]> {
    let start = start as usize;
    memory.get(start..start.checked_add(length as usize)?)
}

/// Returns the host functions:
///
/// - `count () -> i32` returns how often it has been called, including this call.
/// - `write (start: i32, length: i32)` appends bytes of the plug-in's memory to a text. It traps with the code 1 if they are not all in the
///   memory.
fn host_functions(engine: &Engine) -> Linker<Host> {
    let mut linker = Linker::<Host>::new(engine);
    linker.func_wrap("host", "count", |caller: Caller<Host>| -> i32 {
        caller.data.calls += 1;
        caller.data.calls
    });
    linker.func_wrap(
        "host",
        "write",
        |caller: Caller<Host>, start: u32, length: u32| -> Result<(), HostTrap> {
            let bytes = bytes_at(caller.memory, start, length).ok_or(HostTrap(1))?;
            caller.data.text.extend(bytes);
            Ok(())
        },
    );
    linker
}

/// Calls an export with its own limit of fuel. Returns how the call ended.
fn call_export(
    store: &mut Store<Host>,
    plugin: Instance,
    name: &str,
    args: &[Val],
) -> Result<Vec<Val>, tegvurn::Error> {
    store.set_fuel(1_000)?;
    let function = plugin.get_func(store, name)?;
    let mut results: Vec<Val> = function
        .ty()
        .results()
        .iter()
        .copied()
        .map(Val::default_of)
        .collect();
    function.call(store, args, &mut results)?;
    Ok(results)
}

fn main() -> Result<(), Box<dyn Error>> {
    let path = std::env::args()
        .nth(1)
        .ok_or("usage: plugin_host plugin.wasm")?;
    let engine = Engine::new(Config {
        fuel: 1_000,
        depth: 100,
        pages: 16,
        entries: 100,
    });
    let mut store = Store::new(host_functions(&engine), Host::default())?;
    let module = Module::new(&mut store, &std::fs::read(path)?)?;
    let plugin = Instance::new(&mut store, &module)?;
    let calls: [(&str, &[Val]); 6] = [
        ("greet", &[]),
        ("greet", &[]),
        ("divide", &[Val::I32(1), Val::I32(0)]),
        ("write_outside", &[]),
        ("spin", &[]),
        ("nosuch", &[]),
    ];
    for (name, args) in calls {
        match call_export(&mut store, plugin, name, args) {
            Ok(results) => println!("{name}: {results:?}"),
            Err(error) => println!("{name}: {error}"),
        }
    }
    println!("it wrote: {}", String::from_utf8_lossy(&store.data().text));
    Ok(())
}

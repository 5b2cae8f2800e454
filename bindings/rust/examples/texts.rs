//! Passes texts to an export of a plug-in and back, through a window on the plug-in's memory. Usage: `cargo run --example texts`.

use std::error::Error;
use tegvurn::{Config, Engine, Instance, Linker, Module, Store, TypedFunc, Window};

/// The plug-in. `upper` replaces the small letters of a text by capital ones.
///
/// ```wat
/// (module
///   (memory (export "memory") 1)
///   (global $next (mut i32) (i32.const 1024))
///   (func (export "allocate") (param $size i32) (result i32)
///     (global.get $next)
///     (global.set $next (i32.add (global.get $next) (local.get $size))))
///   (func (export "upper") (param $at i32) (param $size i32)
///     (local $end i32)
///     (local.set $end (i32.add (local.get $at) (local.get $size)))
///     (block $done
///       (loop $more
///         (br_if $done (i32.ge_u (local.get $at) (local.get $end)))
///         (i32.store8 (local.get $at)
///           (i32.sub (i32.load8_u (local.get $at))
///             (i32.shl (i32.lt_u (i32.sub (i32.load8_u (local.get $at)) (i32.const 97)) (i32.const 26)) (i32.const 5))))
///         (local.set $at (i32.add (local.get $at) (i32.const 1)))
///         (br $more)))))
/// ```
#[rustfmt::skip]
const PLUGIN: &[u8] = &[
    0x00, 0x61, 0x73, 0x6d, 0x01, 0x00, 0x00, 0x00, 0x01, 0x0b, 0x02, 0x60, 0x01, 0x7f, 0x01, 0x7f,
    0x60, 0x02, 0x7f, 0x7f, 0x00, 0x03, 0x03, 0x02, 0x00, 0x01, 0x05, 0x03, 0x01, 0x00, 0x01, 0x06,
    0x07, 0x01, 0x7f, 0x01, 0x41, 0x80, 0x08, 0x0b, 0x07, 0x1d, 0x03, 0x06, 0x6d, 0x65, 0x6d, 0x6f,
    0x72, 0x79, 0x02, 0x00, 0x08, 0x61, 0x6c, 0x6c, 0x6f, 0x63, 0x61, 0x74, 0x65, 0x00, 0x00, 0x05,
    0x75, 0x70, 0x70, 0x65, 0x72, 0x00, 0x01, 0x0a, 0x49, 0x02, 0x0b, 0x00, 0x23, 0x00, 0x23, 0x00,
    0x20, 0x00, 0x6a, 0x24, 0x00, 0x0b, 0x3b, 0x01, 0x01, 0x7f, 0x20, 0x00, 0x20, 0x01, 0x6a, 0x21,
    0x02, 0x02, 0x40, 0x03, 0x40, 0x20, 0x00, 0x20, 0x02, 0x4f, 0x0d, 0x01, 0x20, 0x00, 0x20, 0x00,
    0x2d, 0x00, 0x00, 0x20, 0x00, 0x2d, 0x00, 0x00, 0x41, 0xe1, 0x00, 0x6b, 0x41, 0x1a, 0x49, 0x41,
    0x05, 0x74, 0x6b, 0x3a, 0x00, 0x00, 0x20, 0x00, 0x41, 0x01, 0x6a, 0x21, 0x00, 0x0c, 0x00, 0x0b,
    0x0b, 0x0b,
];

/// A plug-in with a window on its memory.
struct Plugin {
    store: Store<()>,
    window: Window,
    allocate: TypedFunc<u32, u32>,
    upper: TypedFunc<(u32, u32), ()>,
}

impl Plugin {
    /// Links the plug-in and opens the window.
    fn new() -> Result<Plugin, tegvurn::Error> {
        let mut linker = Linker::<()>::new(&Engine::new(Config::default()));
        linker.allow_windows();
        let mut store = Store::new(linker, ())?;
        let module = Module::new(&mut store, PLUGIN)?;
        let plugin = Instance::new(&mut store, &module)?;
        Ok(Plugin {
            window: Window::new(&mut store, plugin, "memory")?,
            allocate: plugin.get_typed_func(&mut store, "allocate")?,
            upper: plugin.get_typed_func(&mut store, "upper")?,
            store,
        })
    }

    /// Returns a text with capital letters.
    fn upper(&mut self, text: &str) -> Result<String, Box<dyn Error>> {
        let (store, mut bytes) = (&mut self.store, text.as_bytes().to_vec());
        let at = self.allocate.call(store, bytes.len() as u32)?;
        self.window.write(store, at as usize, &bytes)?;
        self.upper.call(store, (at, bytes.len() as u32))?;
        self.window.read(store, at as usize, &mut bytes)?;
        Ok(String::from_utf8(bytes)?)
    }
}

fn main() -> Result<(), Box<dyn Error>> {
    let mut plugin = Plugin::new()?;
    for text in ["a text by pointer", "", "größer"] {
        println!("{}", plugin.upper(text)?);
    }
    Ok(())
}

//! Loads, links and calls WebAssembly modules within a limit of fuel, on a proved engine. This crate is a safe interface to the C library
//! of `bindings/c`.
//!
//! Host functions are closures, which a [`Linker`] stores by their names. A [`Store`] is made with them. [`Module::new`] loads a module
//! into the store, [`Instance::new`] links it, and [`TypedFunc::call`] calls what an instance exports. Links and calls spend the store's
//! fuel. [`Func::call`] and [`Linker::func_new`] are for types that are known only at run time.
//!
//! ```no_run
//! use tegvurn::{Caller, Config, Engine, Instance, Linker, Module, Store};
//!
//! # fn main() -> Result<(), tegvurn::Error> {
//! # let bytes = [];
//! let engine = Engine::new(Config { fuel: 1_000, ..Config::default() });
//! let mut linker = Linker::<i32>::new(&engine);
//! linker.func_wrap("host", "count", |caller: Caller<i32>| -> i32 {
//!     *caller.data += 1;
//!     *caller.data
//! });
//! let mut store = Store::new(linker, 0)?;
//! let module = Module::new(&mut store, &bytes)?;
//! let plugin = Instance::new(&mut store, &module)?;
//! let greet = plugin.get_typed_func::<(), i32>(&mut store, "greet")?;
//! let count = greet.call(&mut store, ())?;
//! # Ok(())
//! # }
//! ```

#![deny(unsafe_code)]
#![warn(missing_docs)]

mod counted;
mod embedding;
mod error;
mod instance;
mod linker;
mod provider;
mod store;
mod typed;
mod types;
mod window;

pub use error::{Cause, Error, Exhaustion, Place, Refusal, Trap};
pub use instance::{Export, Func, Global, Import, Instance, Module};
pub use linker::{Caller, Config, Engine, HostError, HostTrap, Linker};
pub use provider::Provider;
pub use store::{Report, Store};
pub use typed::{IntoFunc, TypedFunc, WasmRet, WasmTy, WasmTyList};
pub use types::{ExternType, FuncType, Limits, Val, ValType};
pub use window::Window;

//! Windows: ways into the memory of an instance between calls.

use crate::error::Error;
use crate::instance::Instance;
use crate::store::Store;

/// A way into a memory that an instance exports, between calls: for example to a text that an export takes or returns by pointer.
///
/// A small module imports the memory and calls a host function, which borrows it. [`Linker::allow_windows`](crate::Linker::allow_windows)
/// defines that host function. Reading and writing spend no fuel of the store.
///
/// ```no_run
/// # use tegvurn::{Error, Instance, Store, Window};
/// # fn call_with(store: &mut Store<()>, plugin: Instance, text: &[u8]) -> Result<Vec<u8>, Error> {
/// let window = Window::new(store, plugin, "memory")?;
/// let allocate = plugin.get_typed_func::<u32, u32>(store, "allocate")?;
/// let at = allocate.call(store, text.len() as u32)?;
/// window.write(store, at as usize, text)?;
/// # let mut answer = vec![0; text.len()];
/// # window.read(store, at as usize, &mut answer)?;
/// # Ok(answer)
/// # }
/// ```
#[derive(Clone, Copy, Debug, PartialEq, Eq, Hash)]
pub struct Window {
    store: u64,
    number: u64,
}

impl Window {
    /// Opens a window on the memory that an instance exports under a name. That adds up to two modules and two instances to the store.
    ///
    /// # Errors
    /// The call is refused with [`Cause::UnknownExport`](crate::Cause::UnknownExport), [`Cause::WrongKind`](crate::Cause::WrongKind) or
    /// [`Cause::OutOfMemory`](crate::Cause::OutOfMemory), or with [`Cause::UnknownImport`](crate::Cause::UnknownImport) if the store was
    /// made by a linker that does not allow windows.
    pub fn new<T>(store: &mut Store<T>, instance: Instance, memory: &str) -> Result<Window, Error> {
        store.own(instance.store)?;
        Ok(Window {
            store: store.id,
            number: store.embedding.open_window(instance.number, memory)?,
        })
    }

    /// Reads bytes of the memory, from `at` on.
    ///
    /// # Errors
    /// Returns [`Trap::MemoryBounds`](crate::Trap::MemoryBounds) if they are not all in the memory; `bytes` is then unchanged.
    pub fn read<T>(self, store: &mut Store<T>, at: usize, bytes: &mut [u8]) -> Result<(), Error> {
        store.own(self.store)?;
        store.embedding.read_window(self.number, at as u64, bytes)
    }

    /// Writes bytes into the memory, from `at` on.
    ///
    /// # Errors
    /// Returns [`Trap::MemoryBounds`](crate::Trap::MemoryBounds) if they do not all fit; the memory is then unchanged.
    pub fn write<T>(self, store: &mut Store<T>, at: usize, bytes: &[u8]) -> Result<(), Error> {
        store.own(self.store)?;
        store.embedding.write_window(self.number, at as u64, bytes)
    }
}

//! Providers: instances that offer modules a host's memory, table and globals, together with its host functions.

use crate::error::Error;
use crate::instance::Instance;
use crate::store::Store;
use crate::types::{Limits, Val, ValType};

/// What modules import from the host under one name: a memory, a table and globals, and host functions of another module name.
///
/// A small module makes these objects, and exports them together with the host functions.
///
/// ```no_run
/// # use tegvurn::{Error, Provider, Store, Val};
/// # fn provide(store: &mut Store<()>) -> Result<(), Error> {
/// let env = Provider::new("env")
///     .functions_of("host")
///     .memory("memory", 2, None)
///     .global("__stack_pointer", Val::I32(65_536), true);
/// env.link(store)?;
/// # Ok(())
/// # }
/// ```
#[derive(Clone, Debug)]
pub struct Provider {
    name: String,
    functions_of: Option<String>,
    objects: Vec<Object>,
}

/// An object that a provider makes, and the name of its export.
#[derive(Clone, Debug)]
pub(crate) struct Object {
    pub(crate) name: String,
    pub(crate) kind: Kind,
}

#[derive(Clone, Copy, Debug)]
pub(crate) enum Kind {
    Table(ValType, Limits),
    Memory(Limits),
    Global(Val, bool),
}

impl Provider {
    /// Returns a provider without exports, which modules import from by this name.
    pub fn new(name: &str) -> Provider {
        Provider {
            name: name.to_owned(),
            functions_of: None,
            objects: Vec::new(),
        }
    }

    /// Exports the host functions that the linker defined under this module name, which must be another than that of the provider.
    pub fn functions_of(mut self, module: &str) -> Provider {
        self.functions_of = Some(module.to_owned());
        self
    }

    /// Exports a new memory of so many pages.
    pub fn memory(self, name: &str, minimum: u64, maximum: Option<u64>) -> Provider {
        self.object(name, Kind::Memory(Limits { minimum, maximum }))
    }

    /// Exports a new table of so many null references of a type.
    pub fn table(
        self,
        name: &str,
        references: ValType,
        minimum: u64,
        maximum: Option<u64>,
    ) -> Provider {
        self.object(name, Kind::Table(references, Limits { minimum, maximum }))
    }

    /// Exports a new global with this value: an integer, or a null reference.
    pub fn global(self, name: &str, value: Val, is_mutable: bool) -> Provider {
        self.object(name, Kind::Global(value, is_mutable))
    }

    fn object(mut self, name: &str, kind: Kind) -> Provider {
        let name = name.to_owned();
        self.objects.push(Object { name, kind });
        self
    }

    /// Links the provider and registers it under its name. A [`Window`](crate::Window) on the instance reaches its memory.
    ///
    /// # Errors
    /// The call is refused with one of these causes. It may then have added a module and an instance.
    ///
    /// - [`Cause::NameTaken`](crate::Cause::NameTaken) if a host function has the provider's name as its module name
    /// - [`Cause::Invalid`](crate::Cause::Invalid) if two exports have one name
    /// - [`Cause::Limit`](crate::Cause::Limit) if a memory or a table is larger than the store allows
    /// - [`Cause::BadArguments`](crate::Cause::BadArguments) if a global is a reference that is not null
    /// - [`Cause::OutOfMemory`](crate::Cause::OutOfMemory)
    pub fn link<T>(&self, store: &mut Store<T>) -> Result<Instance, Error> {
        let functions_of = self.functions_of.as_deref();
        Ok(Instance {
            store: store.id,
            number: store
                .embedding
                .provide(&self.name, functions_of, &self.objects)?,
        })
    }
}

//! Modules, instances, and what they import and export.

use crate::embedding::{kept, refused};
use crate::error::{self, Cause, Error};
use crate::store::Store;
use crate::typed::{TypedFunc, WasmTyList};
use crate::types::{ExternType, FuncType, Val};

/// A module of a store.
#[derive(Clone, Copy, Debug, PartialEq, Eq, Hash)]
pub struct Module {
    store: u64,
    number: u64,
}

/// An instance of a store.
#[derive(Clone, Copy, Debug, PartialEq, Eq, Hash)]
pub struct Instance {
    pub(crate) store: u64,
    pub(crate) number: u64,
}

/// A function that an instance exports.
#[derive(Clone, Debug, PartialEq, Eq)]
pub struct Func {
    instance: Instance,
    name: String,
    ty: FuncType,
}

/// A global that an instance exports.
#[derive(Clone, Debug, PartialEq, Eq)]
pub struct Global {
    instance: Instance,
    name: String,
}

/// What a module imports under the name of a module and a name in it.
#[derive(Clone, Debug, PartialEq, Eq)]
pub struct Import {
    /// The name of the module that is imported from.
    pub module: String,
    /// The name in that module.
    pub name: String,
    /// The type that is required.
    pub ty: ExternType,
}

/// What an instance or a module exports under a name.
#[derive(Clone, Debug, PartialEq, Eq)]
pub struct Export {
    /// The name of the export.
    pub name: String,
    /// The type of the export.
    pub ty: ExternType,
}

impl Module {
    /// Decodes and validates a module, and loads it into the store.
    ///
    /// # Errors
    /// The call is refused if the bytes are not a valid module that the engine supports, if a limit is exceeded, or if memory runs out.
    pub fn new<T>(store: &mut Store<T>, bytes: &[u8]) -> Result<Module, Error> {
        Ok(Module {
            store: store.id,
            number: store.embedding.load(bytes)?,
        })
    }

    /// Returns what the module imports, in its order. It need not be linked. Functions of one index of types share one type in the list.
    ///
    /// # Errors
    /// The call is refused with [`Cause::OutOfMemory`] if an allocation for the list fails.
    pub fn imports<T>(self, store: &mut Store<T>) -> Result<Vec<Import>, Error> {
        store.own(self.store)?;
        store.embedding.module_imports(self.number)
    }

    /// Returns what the module exports, in its order. It need not be linked. The minimum of a table or a memory is the declared one.
    ///
    /// # Errors
    /// The call is refused with [`Cause::OutOfMemory`] if an allocation for the list fails.
    pub fn exports<T>(self, store: &mut Store<T>) -> Result<Vec<Export>, Error> {
        store.own(self.store)?;
        store.embedding.module_exports(self.number)
    }

    /// Returns its number in the store, from 0.
    pub fn number(self) -> u64 {
        self.number
    }
}

fn wrong_kind() -> Error {
    refused(Cause::WrongKind, None, error::WRONG_KIND)
}

impl Instance {
    /// Links a module to the store's host functions and registered instances, and runs its start function.
    ///
    /// # Errors
    /// The call is refused, the start function or a segment of the module [traps](Error::LinkTrap) or [runs out of
    /// something](Error::LinkExhausted), a host function [fails](Error::Host), or the module belongs to [another store](Error::OtherStore).
    pub fn new<T>(store: &mut Store<T>, module: &Module) -> Result<Instance, Error> {
        store.own(module.store)?;
        Ok(Instance {
            store: store.id,
            number: store.embedding.link(module.number)?,
        })
    }

    /// Returns its number in the store, from 0.
    pub fn number(self) -> u64 {
        self.number
    }

    /// Registers the instance under a name. Modules that are linked later import from it by this name.
    ///
    /// # Errors
    /// The call is refused with [`Cause::NameTaken`] if it is the module name of a host function, or with [`Cause::OutOfMemory`].
    pub fn register<T>(self, store: &mut Store<T>, name: &str) -> Result<(), Error> {
        store.own(self.store)?;
        store.embedding.register(self.number, name)
    }

    /// Returns what the instance exports. Functions that are declared at one place share one type in the list.
    ///
    /// # Errors
    /// The call is refused with [`Cause::OutOfMemory`] if an allocation for the list fails.
    pub fn exports<T>(self, store: &mut Store<T>) -> Result<Vec<Export>, Error> {
        store.own(self.store)?;
        store.embedding.exports(self.number)
    }

    // Returns the type of what the instance exports under a name.
    fn export_type<T>(self, store: &mut Store<T>, name: &str) -> Result<ExternType, Error> {
        store.own(self.store)?;
        store.embedding.find_export(self.number, name)
    }

    /// Returns the function that the instance exports under a name. The cost hardly depends on the number of other exports.
    ///
    /// # Errors
    /// The call is refused with [`Cause::UnknownExport`], with [`Cause::WrongKind`], or with [`Cause::OutOfMemory`] if an allocation for
    /// the function's type and name fails.
    pub fn get_func<T>(self, store: &mut Store<T>, name: &str) -> Result<Func, Error> {
        match self.export_type(store, name)? {
            ExternType::Func(ty) => Ok(Func {
                instance: self,
                name: kept(name)?,
                ty,
            }),
            _ => Err(wrong_kind()),
        }
    }

    /// Returns the function that the instance exports under a name, with these parameters and results. Each is `()`, one integer, or a
    /// tuple: `instance.get_typed_func::<(i32, i32), i32>(&mut store, "add")`.
    ///
    /// # Errors
    /// As for [`Instance::get_func`], or [`Error::OtherType`] if the function has another type.
    pub fn get_typed_func<Params: WasmTyList, Results: WasmTyList>(
        self,
        store: &mut Store<impl Sized>,
        name: &str,
    ) -> Result<TypedFunc<Params, Results>, Error> {
        TypedFunc::new(self.get_func(store, name)?)
    }

    /// Returns the global that the instance exports under a name. The cost hardly depends on the number of other exports.
    ///
    /// # Errors
    /// As for [`Instance::get_func`].
    pub fn get_global<T>(self, store: &mut Store<T>, name: &str) -> Result<Global, Error> {
        match self.export_type(store, name)? {
            ExternType::Global { .. } => Ok(Global {
                instance: self,
                name: kept(name)?,
            }),
            _ => Err(wrong_kind()),
        }
    }
}

impl Func {
    /// Returns the type of the function.
    pub fn ty(&self) -> &FuncType {
        &self.ty
    }

    /// Calls the function with these arguments, and replaces `results` by its results.
    ///
    /// # Errors
    /// Returns [`Error::ResultCount`], without calling the function, if the length of `results` is not the number of its results. Otherwise
    /// the call may be refused, trap, or exhaust something; `results` is then unchanged.
    ///
    /// # Panics
    /// If a host function panics, its panic continues here.
    pub fn call<T>(
        &self,
        store: &mut Store<T>,
        args: &[Val],
        results: &mut [Val],
    ) -> Result<(), Error> {
        store.own(self.instance.store)?;
        let (wanted, given) = (self.ty.results().len(), results.len());
        if wanted != given {
            return Err(Error::ResultCount { wanted, given });
        }
        store
            .embedding
            .call(self.instance.number, &self.name, args, results)
    }
}

impl Global {
    /// Returns the value of the global.
    pub fn get<T>(&self, store: &mut Store<T>) -> Result<Val, Error> {
        store.own(self.instance.store)?;
        store.embedding.get_global(self.instance.number, &self.name)
    }
}

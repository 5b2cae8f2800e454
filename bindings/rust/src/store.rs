//! Stores, into which modules are loaded and in which they are linked.

use crate::embedding::{Embedding, NO_QUOTA};
use crate::error::{Cause, Error};
use crate::instance::Instance;
use crate::linker::Linker;
use std::sync::atomic::{AtomicU64, Ordering};

/// A store: modules and instances, host functions with their data, and fuel. It is `Send` if its data is, and moves between threads. It is
/// not `Sync`: each call borrows it mutably, so one thread uses it at a time.
pub struct Store<T: 'static> {
    pub(crate) embedding: Embedding<T>,
    pub(crate) id: u64,
}

/// The outcome of the commands of a script.
#[derive(Clone, Debug, PartialEq, Eq)]
pub struct Report {
    /// The number of commands that passed.
    pub passed: u64,
    /// The number of commands that were skipped.
    pub skipped: u64,
    /// The line of each command that failed.
    pub failed_lines: Vec<u64>,
}

impl<T: 'static> Store<T> {
    /// Makes a store with the bounds and the host functions of the linker.
    ///
    /// # Errors
    /// The call is refused with one of these causes:
    ///
    /// - [`Cause::BadSetup`] if a bound is out of range
    /// - [`Cause::NameTaken`] if two host functions have the same names
    /// - [`Cause::HostFuncRef`] if a host function has a funcref result
    /// - [`Cause::OutOfMemory`]
    pub fn new(linker: Linker<T>, data: T) -> Result<Store<T>, Error> {
        Store::with_quota(linker, data, NO_QUOTA)
    }

    /// Makes a store with a quota: the most bytes that its modules and instances and a running call may hold together, by the sizes of
    /// docs/SPECIFICATION.md. What would pass the quota ends as if memory had run out, and nothing is allocated for it. [`u64::MAX`] is no
    /// quota.
    ///
    /// ```no_run
    /// # use tegvurn::{Config, Engine, Error, Linker, Store};
    /// # fn make() -> Result<Store<()>, Error> {
    /// let linker = Linker::new(&Engine::new(Config::default()));
    /// Store::with_quota(linker, (), 16 << 20)
    /// # }
    /// ```
    ///
    /// # Errors
    /// Those of [`Store::new`].
    pub fn with_quota(linker: Linker<T>, data: T, quota: u64) -> Result<Store<T>, Error> {
        static NEXT: AtomicU64 = AtomicU64::new(0);
        Ok(Store {
            embedding: Embedding::new(linker, data, quota)?,
            id: NEXT.fetch_add(1, Ordering::Relaxed),
        })
    }

    /// Borrows the data of the host functions.
    pub fn data(&self) -> &T {
        self.embedding.data()
    }

    /// Borrows the data of the host functions mutably.
    pub fn data_mut(&mut self) -> &mut T {
        self.embedding.data_mut()
    }

    /// Sets the fuel.
    pub fn set_fuel(&mut self, fuel: u64) -> Result<(), Error> {
        self.embedding.set_fuel(fuel)
    }

    /// Returns the fuel that is left.
    pub fn get_fuel(&mut self) -> Result<u64, Error> {
        self.embedding.fuel_left()
    }

    /// Returns how many bytes of the quota are left. Without a quota, they are those left of [`u64::MAX`].
    pub fn quota_left(&mut self) -> Result<u64, Error> {
        self.embedding.quota_left()
    }

    /// Runs a script, a command file as wast2json writes it, with the files that it names: each has a name and its bytes.
    ///
    /// # Errors
    /// The script may be refused after some of its commands have run.
    pub fn run_script(&mut self, json: &[u8], files: &[(&str, &[u8])]) -> Result<Report, Error> {
        self.embedding.script(json, files)
    }

    /// Returns the instance of a number, from 0. It may be one that a script linked.
    ///
    /// # Errors
    /// The call is refused with [`Cause::UnknownInstance`] if there is no such instance.
    pub fn instance(&mut self, number: u64) -> Result<Instance, Error> {
        // If there is such an instance, only the empty name can be refused here.
        match self.embedding.get_global(number, "") {
            Err(Error::Refused(refusal)) if refusal.cause == Cause::UnknownInstance => {
                Err(Error::Refused(refusal))
            }
            Err(Error::Over) => Err(Error::Over),
            _ => Ok(Instance {
                store: self.id,
                number,
            }),
        }
    }

    pub(crate) fn own(&self, id: u64) -> Result<(), Error> {
        if self.id == id {
            Ok(())
        } else {
            Err(Error::OtherStore)
        }
    }
}

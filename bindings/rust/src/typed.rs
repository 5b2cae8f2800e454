//! Typed functions: calls of exports, and host functions, whose parameters and results are integers of Rust.
//!
//! `i32` and `u32` are the type i32, and `i64` and `u64` are i64. A list of parameters or results is `()`, one integer, or a tuple of up to
//! eight. Macros implement the traits for all of these. A function's type is compared once: when it is looked up, or when a module that
//! imports it is linked.

use crate::error::Error;
use crate::instance::Func;
use crate::linker::{Caller, HostError, HostFunction, HostTrap};
use crate::store::Store;
use crate::types::{FuncType, Val, ValType};
use std::marker::PhantomData;

mod sealed {
    pub trait Sealed {}
}

/// An integer of Rust that is a value of WebAssembly.
pub trait WasmTy: Copy + Into<Val> + sealed::Sealed {
    /// The type of the value.
    const TYPE: ValType;

    /// Returns the integer of a value, if the value has this type.
    #[doc(hidden)]
    fn of_value(value: Val) -> Option<Self>;
}

/// A list of parameters or results: `()`, one integer, or a tuple of up to eight.
pub trait WasmTyList: Sized + sealed::Sealed {
    /// The types of the list.
    const TYPES: &'static [ValType];

    /// The values of a list.
    #[doc(hidden)]
    type Values: AsRef<[Val]> + AsMut<[Val]>;

    /// Returns the values of some list.
    #[doc(hidden)]
    fn any_values() -> Self::Values;

    /// Returns the values of the list.
    #[doc(hidden)]
    fn values(self) -> Self::Values;

    /// Returns the list of these values, if they have its types.
    #[doc(hidden)]
    fn of_values(values: &[Val]) -> Option<Self>;
}

/// What a host function returns: a list of results, or a `Result` of one with any error that can become a [`HostError`].
pub trait WasmRet {
    /// The list of results.
    type Results: WasmTyList;

    /// Returns the results or the error.
    #[doc(hidden)]
    fn result(self) -> Result<Self::Results, HostError>;
}

impl<L: WasmTyList> WasmRet for L {
    type Results = L;

    fn result(self) -> Result<L, HostError> {
        Ok(self)
    }
}

impl<L: WasmTyList, E: Into<HostError>> WasmRet for Result<L, E> {
    type Results = L;

    fn result(self) -> Result<L, HostError> {
        self.map_err(Into::into)
    }
}

/// A closure that can be a host function: it has up to eight integers as parameters, and before them a [`Caller`] or not, and returns what
/// [`WasmRet`] describes. The type of each parameter must be written out.
pub trait IntoFunc<T, Params, Results>: Send + 'static {
    /// Returns the type of the host function, and the host function.
    #[doc(hidden)]
    fn into_func(self) -> (FuncType, HostFunction<T>);
}

/// Returns the host function that calls a closure with a list of parameters, and its type.
fn func_of<T, P: WasmTyList, R: WasmRet>(
    closure: impl FnMut(Caller<'_, T>, P) -> R + Send + 'static,
) -> (FuncType, HostFunction<T>) {
    let mut closure = closure;
    let function =
        move |caller: Caller<'_, T>, args: &[Val], results: &mut [Val]| -> Result<(), HostError> {
            let params = P::of_values(args).ok_or(HostTrap(u32::MAX))?;
            results.copy_from_slice(closure(caller, params).result()?.values().as_ref());
            Ok(())
        };
    (func_type::<P, R::Results>(), Box::new(function))
}

fn func_type<P: WasmTyList, R: WasmTyList>() -> FuncType {
    FuncType::new(P::TYPES.iter().copied(), R::TYPES.iter().copied())
}

/// Implements the traits for an integer, which is a value of the type with this name.
macro_rules! integer {
    ($integer:ty, $name:ident) => {
        impl sealed::Sealed for $integer {}

        impl WasmTy for $integer {
            const TYPE: ValType = ValType::$name;

            fn of_value(value: Val) -> Option<$integer> {
                match value {
                    Val::$name(number) => Some(number as $integer),
                    _ => None,
                }
            }
        }

        impl WasmTyList for $integer {
            const TYPES: &'static [ValType] = &[ValType::$name];
            type Values = [Val; 1];

            fn any_values() -> [Val; 1] {
                [Val::$name(0)]
            }

            fn values(self) -> [Val; 1] {
                [self.into()]
            }

            fn of_values(values: &[Val]) -> Option<$integer> {
                match values {
                    [value] => <$integer>::of_value(*value),
                    _ => None,
                }
            }
        }
    };
}

integer!(i32, I32);
integer!(u32, I32);
integer!(i64, I64);
integer!(u64, I64);

/// Implements the traits for tuples with this many members of these types, and for closures with these parameters.
macro_rules! tuple {
    ($count:literal $($ty:ident)*) => {
        impl<$($ty: WasmTy),*> sealed::Sealed for ($($ty,)*) {}

        #[allow(non_snake_case)]
        impl<$($ty: WasmTy),*> WasmTyList for ($($ty,)*) {
            const TYPES: &'static [ValType] = &[$($ty::TYPE),*];
            type Values = [Val; $count];

            fn any_values() -> [Val; $count] {
                [Val::I32(0); $count]
            }

            fn values(self) -> [Val; $count] {
                let ($($ty,)*) = self;
                [$($ty.into()),*]
            }

            fn of_values(values: &[Val]) -> Option<($($ty,)*)> {
                match values {
                    [$($ty),*] => Some(($($ty::of_value(*$ty)?,)*)),
                    _ => None,
                }
            }
        }

        #[allow(non_snake_case)]
        impl<T: 'static, F, R, $($ty),*> IntoFunc<T, ($($ty,)*), R> for F
        where
            F: FnMut($($ty),*) -> R + Send + 'static,
            R: WasmRet,
            $($ty: WasmTy,)*
        {
            fn into_func(mut self) -> (FuncType, HostFunction<T>) {
                func_of(move |_caller, ($($ty,)*): ($($ty,)*)| self($($ty),*))
            }
        }

        #[allow(non_snake_case)]
        impl<T: 'static, F, R, $($ty),*> IntoFunc<T, (Caller<'static, T>, $($ty,)*), R> for F
        where
            F: FnMut(Caller<'_, T>, $($ty),*) -> R + Send + 'static,
            R: WasmRet,
            $($ty: WasmTy,)*
        {
            fn into_func(mut self) -> (FuncType, HostFunction<T>) {
                func_of(move |caller: Caller<'_, T>, ($($ty,)*): ($($ty,)*)| self(caller, $($ty),*))
            }
        }
    };
}

tuple!(0);
tuple!(1 A);
tuple!(2 A B);
tuple!(3 A B C);
tuple!(4 A B C D);
tuple!(5 A B C D E);
tuple!(6 A B C D E G);
tuple!(7 A B C D E G H);
tuple!(8 A B C D E G H I);

/// A function that an instance exports, with these parameters and results.
#[derive(Clone, Debug)]
pub struct TypedFunc<Params, Results> {
    func: Func,
    types: PhantomData<fn(Params) -> Results>,
}

impl<Params: WasmTyList, Results: WasmTyList> TypedFunc<Params, Results> {
    // Compares the function's type with the parameters and results.
    pub(crate) fn new(func: Func) -> Result<TypedFunc<Params, Results>, Error> {
        if (func.ty().params(), func.ty().results()) != (Params::TYPES, Results::TYPES) {
            return Err(Error::OtherType {
                wanted: func_type::<Params, Results>(),
                found: func.ty().clone(),
            });
        }
        Ok(TypedFunc {
            func,
            types: PhantomData,
        })
    }

    /// Returns the function without these types.
    pub fn func(&self) -> &Func {
        &self.func
    }

    /// Calls the function.
    ///
    /// # Errors
    /// As for [`Func::call`].
    ///
    /// # Panics
    /// If a host function panics, its panic continues here.
    pub fn call<T>(&self, store: &mut Store<T>, params: Params) -> Result<Results, Error> {
        let mut results = Results::any_values();
        self.func
            .call(store, params.values().as_ref(), results.as_mut())?;
        Results::of_values(results.as_ref()).ok_or(Error::Over)
    }
}

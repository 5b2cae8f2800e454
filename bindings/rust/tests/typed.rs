//! Tests of typed calls and typed host functions: each list of parameters and results, errors, memory and other types.

use tegvurn::{
    Caller, Cause, Config, Engine, Error, FuncType, HostTrap, Instance, IntoFunc, Linker, Module,
    Store, Trap, ValType,
};
use ValType::{I32, I64};

/// Encodes a list of types.
fn list_of(types: &[ValType]) -> Vec<u8> {
    let mut list = vec![types.len() as u8];
    list.extend(types.iter().map(|ty| *ty as u8));
    list
}

/// Encodes a section.
fn section(id: u8, content: &[u8]) -> Vec<u8> {
    [&[id, content.len() as u8], content].concat()
}

/// Encodes this module:
///
/// ```wat
/// (module (type $f (func (param ..) (result ..)))
///   (import "host" "f" (func $f (type $f))) (memory 1) (data (i32.const 8) "hello") (export "f" (func $f)) (export "memory" (memory 0)))
/// ```
fn module_of(params: &[ValType], results: &[ValType]) -> Vec<u8> {
    [
        b"\0asm\x01\0\0\0".to_vec(),
        section(
            1,
            &[vec![1, 0x60], list_of(params), list_of(results)].concat(),
        ),
        section(2, b"\x01\x04host\x01f\0\0"),
        section(5, &[1, 0, 1]),
        section(7, b"\x02\x01f\0\0\x06memory\x02\0"),
        section(11, b"\x01\0A\x08\x0b\x05hello"),
    ]
    .concat()
}

/// Links the module whose import has this type to a host function.
fn linked<Params, Results>(
    params: &[ValType],
    results: &[ValType],
    function: impl IntoFunc<u32, Params, Results>,
) -> Result<(Store<u32>, Instance), Error> {
    let engine = Engine::new(Config::default());
    let mut linker = Linker::<u32>::new(&engine);
    linker.func_wrap("host", "f", function);
    let mut store = Store::new(linker, 0)?;
    let module = Module::new(&mut store, &module_of(params, results))?;
    let instance = Instance::new(&mut store, &module)?;
    Ok((store, instance))
}

/// Checks that the host function has this type: only a module that imports it with this type is linked. Returns the store and the instance.
macro_rules! host {
    ($params:expr, $results:expr, $function:expr) => {{
        let (params, results): (&[ValType], &[ValType]) = (&$params, &$results);
        let more = [params, &[I32]].concat();
        for (params, results) in [(more.as_slice(), results), (params, &[I64, I64, I64][..])] {
            match linked(params, results, $function) {
                Err(Error::Refused(refusal)) => {
                    assert_eq!(refusal.cause, Cause::IncompatibleImport)
                }
                _ => panic!("another type"),
            }
        }
        linked(params, results, $function).expect("an instance")
    }};
}

#[test]
fn integers_are_passed_and_returned() {
    let (mut store, instance) = host!([I32, I32], [I32], |a: i32, b: i32| a.wrapping_add(b));
    let add = instance
        .get_typed_func::<(i32, i32), i32>(&mut store, "f")
        .expect("add");
    assert_eq!(add.call(&mut store, (1, 2)), Ok(3));
    assert_eq!(add.call(&mut store, (i32::MAX, 1)), Ok(i32::MIN));
    let add = instance
        .get_typed_func::<(u32, u32), (u32,)>(&mut store, "f")
        .expect("add");
    assert_eq!(add.call(&mut store, (u32::MAX, 3)), Ok((2,)));
    let (mut store, instance) = host!([I64], [I64], |a: u64| a / 2);
    let half = instance
        .get_typed_func::<i64, u64>(&mut store, "f")
        .expect("half");
    assert_eq!(half.call(&mut store, -2), Ok(u64::MAX / 2));
}

#[test]
fn nothing_is_passed_and_returned() {
    let (mut store, instance) = host!([], [], || {});
    let nothing = instance
        .get_typed_func::<(), ()>(&mut store, "f")
        .expect("nothing");
    assert_eq!(nothing.call(&mut store, ()), Ok(()));
    let (mut store, instance) = host!([], [], |caller: Caller<u32>| *caller.data += 1);
    let count = instance
        .get_typed_func::<(), ()>(&mut store, "f")
        .expect("count");
    for _ in 0..3 {
        assert_eq!(count.call(&mut store, ()), Ok(()));
    }
    assert_eq!(*store.data(), 3);
}

#[test]
fn tuples_are_passed_and_returned_in_order() {
    let swap = |a: u32, b: i64| (b, a);
    let (mut store, instance) = host!([I32, I64], [I64, I32], swap);
    let swap = instance
        .get_typed_func::<(i32, u64), (u64, i32)>(&mut store, "f")
        .expect("swap");
    assert_eq!(swap.call(&mut store, (-1, 7)), Ok((7, -1)));
    assert_eq!(swap.call(&mut store, (5, u64::MAX)), Ok((u64::MAX, 5)));
    let last = |_caller: Caller<u32>, _: u32, _: u32, third: u64| (third, 4u32, -5i32, 6u64);
    let (mut store, instance) = host!([I32, I32, I64], [I64, I32, I32, I64], last);
    let last = instance
        .get_typed_func::<(u32, u32, i64), (i64, u32, u32, i64)>(&mut store, "f")
        .expect("last");
    assert_eq!(
        last.call(&mut store, (1, 2, -3)),
        Ok((-3, 4, u32::MAX - 4, 6))
    );
}

type Eight = (i32, i64, u32, u64, i32, i64, u32, u64);

#[test]
fn eight_integers_are_passed_and_returned() {
    let types = [I32, I64, I32, I64, I32, I64, I32, I64];
    let (mut store, instance) = host!(types, types, |a: i32,
                                                     b: i64,
                                                     c: u32,
                                                     d: u64,
                                                     e: i32,
                                                     f: i64,
                                                     g: u32,
                                                     h: u64|
     -> Eight {
        (a + 1, b + 1, c + 1, d + 1, e + 1, f + 1, g + 1, h + 1)
    });
    let next = instance
        .get_typed_func::<Eight, Eight>(&mut store, "f")
        .expect("next");
    let next = next.call(&mut store, (1, 2, 3, 4, -5, -6, 7, 8));
    assert_eq!(next, Ok((2, 3, 4, 5, -4, -5, 8, 9)));
    let (mut store, instance) = host!(types, [I64], |caller: Caller<u32>,
                                                     a: u32,
                                                     b: u64,
                                                     c: u32,
                                                     d: u64,
                                                     e: u32,
                                                     f: u64,
                                                     g: u32,
                                                     h: u64|
     -> u64 {
        *caller.data += a + c + e + g;
        b + d + f + h
    });
    let sum = instance
        .get_typed_func::<Eight, i64>(&mut store, "f")
        .expect("sum");
    assert_eq!(sum.call(&mut store, (1, 2, 3, 4, 5, 6, 7, 8)), Ok(20));
    assert_eq!(*store.data(), 16);
}

fn double(number: u32) -> u32 {
    number * 2
}

#[test]
fn functions_and_closures_with_state_are_host_functions() {
    let (mut store, instance) = host!([I32], [I32], double);
    let twice = instance
        .get_typed_func::<u32, u32>(&mut store, "f")
        .expect("twice");
    assert_eq!(twice.call(&mut store, 21), Ok(42));
    let mut calls = 0i32;
    let count = move || {
        calls += 1;
        calls
    };
    let (mut store, instance) = linked(&[], &[I32], count).expect("an instance");
    let count = instance
        .get_typed_func::<(), i32>(&mut store, "f")
        .expect("count");
    for number in 1..4 {
        assert_eq!(count.call(&mut store, ()), Ok(number));
    }
}

#[test]
fn a_result_is_returned_or_its_error() {
    let (mut store, instance) = host!([I32], [I32, I64], |number: i32| match number {
        7 => Err(HostTrap(7)),
        _ => Ok((number, 1u64)),
    });
    let function = instance
        .get_typed_func::<i32, (i32, u64)>(&mut store, "f")
        .expect("a function");
    assert_eq!(function.call(&mut store, 6), Ok((6, 1)));
    let trap = Err(Error::Trap(Trap::Host(7)));
    assert_eq!(function.call(&mut store, 7), trap);
    let (mut store, instance) = host!([I32], [], |number: i32| -> Result<(), String> {
        if number < 0 {
            return Err(format!("{number} is negative"));
        }
        Ok(())
    });
    let function = instance
        .get_typed_func::<i32, ()>(&mut store, "f")
        .expect("a function");
    assert_eq!(function.call(&mut store, 0), Ok(()));
    let error = function.call(&mut store, -1).expect_err("an error");
    assert!(matches!(error, Error::Host(_)), "{error:?}");
    assert_eq!(error.to_string(), "-1 is negative");
}

/// `(module (import "host" "f" (func $f (param i32) (result i32))) (memory 1) (data (i32.const 8) "hello")
///   (func (export "g") (param i32) (result i32) local.get 0 call $f))`
const CALLS: &[u8] = b"\0asm\x01\0\0\0\x01\x06\x01\x60\x01\x7f\x01\x7f\x02\x0a\x01\x04host\x01f\0\0\x03\x02\x01\0\
    \x05\x03\x01\0\x01\x07\x05\x01\x01g\0\x01\x0a\x08\x01\x06\0\x20\0\x10\0\x0b\x0b\x0b\x01\0\x41\x08\x0b\x05hello";

#[test]
fn a_host_function_borrows_the_memory_of_its_caller() {
    let engine = Engine::new(Config::default());
    let mut linker = Linker::<u32>::new(&engine);
    linker.func_wrap("host", "f", |caller: Caller<u32>, at: u32| -> u32 {
        *caller.data = caller.memory.len() as u32;
        caller.memory[at as usize] -= 32;
        u32::from(caller.memory[at as usize])
    });
    let mut store = Store::new(linker, 0).expect("a store");
    let module = Module::new(&mut store, CALLS).expect("a module");
    let instance = Instance::new(&mut store, &module).expect("an instance");
    let function = instance
        .get_typed_func::<u32, u32>(&mut store, "g")
        .expect("a function");
    assert_eq!(function.call(&mut store, 8), Ok(u32::from(b'H')));
    assert_eq!(function.call(&mut store, 8), Ok(u32::from(b'(')));
    assert_eq!(*store.data(), 65_536);
}

#[test]
fn a_function_of_another_type_is_not_found() {
    let (mut store, instance) = host!([I32], [I64], |number: u32| u64::from(number));
    let other = |wanted: FuncType| {
        Some(Error::OtherType {
            wanted,
            found: FuncType::new([I32], [I64]),
        })
    };
    let found = instance.get_typed_func::<i32, i32>(&mut store, "f").err();
    assert_eq!(found, other(FuncType::new([I32], [I32])));
    let found = instance.get_typed_func::<(), i64>(&mut store, "f").err();
    assert_eq!(found, other(FuncType::new([], [I64])));
    let found = instance
        .get_typed_func::<(u32, i64), ()>(&mut store, "f")
        .err();
    assert_eq!(found, other(FuncType::new([I32, I64], [])));
    assert_eq!(
        found.expect("an error").to_string(),
        "expected a function (i32, i64) -> (), found (i32) -> (i64)"
    );
    let found = instance
        .get_typed_func::<(i32,), (u64,)>(&mut store, "f")
        .expect("a function");
    assert_eq!(found.func().ty(), &FuncType::new([I32], [I64]));
    for (name, cause) in [("g", Cause::UnknownExport), ("memory", Cause::WrongKind)] {
        match instance.get_typed_func::<(), ()>(&mut store, name) {
            Err(Error::Refused(refusal)) => assert_eq!(refusal.cause, cause, "{name}"),
            other => panic!("{other:?}"),
        }
    }
}

#[test]
fn a_typed_function_belongs_to_its_store() {
    let (mut store, instance) = host!([], [], || {});
    let (mut other, _) = host!([], [], || {});
    let function = instance
        .get_typed_func::<(), ()>(&mut store, "f")
        .expect("a function");
    assert_eq!(function.call(&mut other, ()), Err(Error::OtherStore));
    assert_eq!(function.clone().call(&mut store, ()), Ok(()));
}

//! Runs each row of `bindings/rows.txt`, which all libraries share. The head of that file describes the format of rows.

use std::cell::RefCell;
use std::collections::HashMap;
use std::fmt::Write;
use tegvurn::{
    Caller, Cause, Config, Engine, Error, Export, ExternType, Func, FuncType, HostError, HostTrap,
    Import, Instance, Limits, Linker, Module, Place, Refusal, Store, Val, ValType,
};

const ROWS: &str = include_str!("../../rows.txt");

// The text of results

fn type_name(ty: ValType) -> &'static str {
    match ty {
        ValType::I32 => "i32",
        ValType::I64 => "i64",
        ValType::FuncRef => "funcref",
        ValType::ExternRef => "externref",
    }
}

fn say_value(value: Val) -> String {
    let name = type_name(value.ty());
    match value {
        Val::I32(number) => format!("{name}:{}", number as u32),
        Val::I64(number) => format!("{name}:{}", number as u64),
        Val::FuncRef(None) | Val::ExternRef(None) => format!("{name}:null"),
        Val::FuncRef(Some(number)) | Val::ExternRef(Some(number)) => format!("{name}:{number}"),
    }
}

fn say_list(items: impl Iterator<Item = String>) -> String {
    let list: Vec<String> = items.collect();
    if list.is_empty() {
        "nothing".to_owned()
    } else {
        list.join(" ")
    }
}

fn say_types(types: &[ValType]) -> String {
    let names: Vec<&str> = types.iter().copied().map(type_name).collect();
    format!("({})", names.join(","))
}

fn say_limits(limits: Limits) -> String {
    match limits.maximum {
        Some(maximum) => format!("{},{maximum}", limits.minimum),
        None => format!("{},none", limits.minimum),
    }
}

fn say_extern_type(ty: ExternType) -> String {
    match ty {
        ExternType::Func(ty) => {
            format!("func{}{}", say_types(ty.params()), say_types(ty.results()))
        }
        ExternType::Table(ty, limits) => format!("table({},{})", type_name(ty), say_limits(limits)),
        ExternType::Memory(limits) => format!("memory({})", say_limits(limits)),
        ExternType::Global { ty, is_mutable } => format!(
            "global({},{})",
            type_name(ty),
            if is_mutable { "var" } else { "const" }
        ),
    }
}

fn say_export(export: Export) -> String {
    format!("{}:{}", export.name, say_extern_type(export.ty))
}

fn say_import(import: Import) -> String {
    let ty = say_extern_type(import.ty);
    format!("{}.{}:{ty}", import.module, import.name)
}

fn say_refusal(refusal: Refusal) -> String {
    let (place, which) = match refusal.place {
        None => (0, 0),
        Some(Place::Byte(which)) => (1, which),
        Some(Place::Import(which)) => (2, which),
        Some(Place::Section(which)) => (3, which),
        Some(Place::Function(which)) => (4, which),
        Some(Place::Command(which)) => (5, which),
        Some(_) => panic!("an unknown place"),
    };
    assert!(!refusal.text.is_empty());
    format!("refused {} {place} {which}", refusal.cause.number())
}

thread_local! {
    // Why the last row that was refused was.
    static EXPLAINED: RefCell<String> = const { RefCell::new(String::new()) };
}

fn say_error(error: Error) -> String {
    EXPLAINED.with(|text| text.replace(error.to_string()));
    match error {
        Error::Refused(refusal) => say_refusal(refusal),
        Error::Trap(trap) | Error::LinkTrap(trap) => {
            let code = if let tegvurn::Trap::Host(code) = trap {
                code
            } else {
                0
            };
            format!("trap {} {code}", trap.number())
        }
        Error::Exhausted(what) | Error::LinkExhausted(what) => {
            format!("exhausted {}", what.number())
        }
        other => other.to_string(),
    }
}

fn say<T>(answer: Result<T, Error>, text: impl FnOnce(T) -> String) -> String {
    answer.map_or_else(say_error, text)
}

// The words of rows

fn read_type(name: &str) -> ValType {
    let types = [
        ValType::I32,
        ValType::I64,
        ValType::FuncRef,
        ValType::ExternRef,
    ];
    *types
        .iter()
        .find(|ty| type_name(**ty) == name)
        .unwrap_or_else(|| panic!("no type: {name}"))
}

fn read_types(list: &str) -> Vec<ValType> {
    list.split(',')
        .filter(|name| !name.is_empty())
        .map(read_type)
        .collect()
}

fn read_func_type(word: &str) -> FuncType {
    let inside = word
        .strip_prefix("func(")
        .and_then(|word| word.strip_suffix(')'))
        .expect("func(..)(..)");
    let (params, results) = inside.split_once(")(").expect("func(..)(..)");
    FuncType::new(read_types(params), read_types(results))
}

fn read_value(word: &str) -> Val {
    let (ty, number) = word.split_once(':').expect("a value");
    let reference = || (number != "null").then(|| number.parse().expect("a reference"));
    match read_type(ty) {
        ValType::I32 => number.parse::<u32>().expect("an i32").into(),
        ValType::I64 => number.parse::<u64>().expect("an i64").into(),
        ValType::FuncRef => Val::FuncRef(reference()),
        ValType::ExternRef => Val::ExternRef(reference()),
    }
}

fn read_digits(digits: &str) -> Vec<u8> {
    assert_eq!(digits.len() % 2, 0, "{digits}");
    (0..digits.len())
        .step_by(2)
        .map(|at| u8::from_str_radix(&digits[at..at + 2], 16).expect("two digits"))
        .collect()
}

fn number(word: &str) -> u64 {
    word.parse().expect("a number")
}

// The standard host functions

#[derive(Default)]
struct State {
    calls: i32,
    log: Vec<u8>,
}

fn range(args: &[Val]) -> std::ops::Range<usize> {
    let word = |index: usize| args[index].i32().expect("an i32") as u32 as usize;
    word(0)..word(0) + word(1)
}

fn log(caller: Caller<'_, State>, args: &[Val], _results: &mut [Val]) -> Result<(), HostError> {
    let bytes = caller.memory.get(range(args)).ok_or(HostTrap(7))?;
    caller.data.log.extend(bytes);
    Ok(())
}

fn fill(caller: Caller<'_, State>, args: &[Val], _results: &mut [Val]) -> Result<(), HostError> {
    let bytes = caller.memory.get_mut(range(args)).ok_or(HostTrap(8))?;
    bytes.fill(args[2].i32().expect("an i32") as u8);
    Ok(())
}

fn standard_hosts(engine: &Engine) -> Linker<State> {
    use ValType::{ExternRef, I32, I64};
    let mut linker = Linker::<State>::new(engine);
    linker.func_new(
        "env",
        "count",
        FuncType::new([], [I32]),
        |caller, _, results| {
            caller.data.calls += 1;
            results[0] = Val::I32(caller.data.calls);
            Ok(())
        },
    );
    linker.func_new(
        "env",
        "add",
        FuncType::new([I32, I32], [I32]),
        |_, args, results| {
            results[0] = Val::I32(
                args[0]
                    .i32()
                    .expect("an i32")
                    .wrapping_add(args[1].i32().expect("an i32")),
            );
            Ok(())
        },
    );
    linker.func_new(
        "env",
        "swap",
        FuncType::new([I64, I32], [I32, I64]),
        |_, args, results| {
            results.copy_from_slice(&[args[1], args[0]]);
            Ok(())
        },
    );
    linker.func_new("env", "log", FuncType::new([I32, I32], []), log);
    linker.func_new("env", "fill", FuncType::new([I32, I32, I32], []), fill);
    linker.func_new("env", "fail", FuncType::new([I32], []), |_, args, _| {
        Err(HostTrap(args[0].i32().expect("an i32") as u32).into())
    });
    linker.func_new("env", "wrong", FuncType::new([], [I32]), |_, _, results| {
        results[0] = Val::I64(0);
        Ok(())
    });
    linker.func_new(
        "env",
        "echo",
        FuncType::new([ExternRef], [ExternRef]),
        |_, args, results| {
            results[0] = args[0];
            Ok(())
        },
    );
    linker
}

// The rows

/// The state of the rows: the modules of the file by name, the store, and the modules of the store by number. A row may name a number
/// without a module, for which this crate has no handle. The result of such a row is made here ([`unknown_module`]).
#[derive(Default)]
struct Rows {
    bytes: HashMap<String, Vec<u8>>,
    store: Option<Store<State>>,
    modules: Vec<Module>,
}

fn unknown_module() -> Error {
    Error::Refused(Refusal {
        cause: Cause::UnknownModule,
        place: None,
        text: "there is no handle".to_owned(),
        explanation: String::new(),
    })
}

fn call(store: &mut Store<State>, function: Func, args: &[Val]) -> Result<Vec<Val>, Error> {
    let mut results: Vec<Val> = function
        .ty()
        .results()
        .iter()
        .copied()
        .map(Val::default_of)
        .collect();
    function.call(store, args, &mut results)?;
    Ok(results)
}

// Checks that an export is found by its name as it is listed.
fn find(store: &mut Store<State>, instance: Instance, export: &Export) {
    let func = instance.get_func(store, &export.name);
    let global = instance.get_global(store, &export.name);
    let is_global = matches!(export.ty, ExternType::Global { .. });
    match &export.ty {
        ExternType::Func(ty) => assert_eq!(func.expect("a function").ty(), ty, "{}", export.name),
        _ => assert!(func.is_err(), "{}", export.name),
    }
    assert_eq!(global.is_ok(), is_global, "{}", export.name);
}

impl Rows {
    fn store(&mut self) -> &mut Store<State> {
        self.store.as_mut().expect("a store")
    }

    fn instance(&mut self, word: &str) -> Result<Instance, Error> {
        self.store().instance(number(word))
    }

    // Makes a store of these words of a setup, with a quota unless there is none.
    fn new_store(&mut self, quota: Option<&str>, words: &[&str]) -> String {
        let word = |index: usize| words[index].parse().expect("a number");
        let engine = Engine::new(Config {
            fuel: number(words[0]),
            depth: word(1),
            pages: word(2),
            entries: word(3),
        });
        let mut linker = standard_hosts(&engine);
        if let [module, name, ty] = words[4..] {
            linker.func_new(module, name, read_func_type(ty), |_, _, _| {
                panic!("it is never called")
            });
        }
        (self.modules, self.store) = (Vec::new(), None);
        let made = match quota {
            Some(bytes) => Store::with_quota(linker, State::default(), number(bytes)),
            None => Store::new(linker, State::default()),
        };
        say(made, |store| {
            self.store = Some(store);
            "done".to_owned()
        })
    }

    fn load(&mut self, name: &str) -> String {
        let bytes = self.bytes[name].clone();
        let loaded = Module::new(self.store(), &bytes);
        say(loaded, |module| {
            self.modules.push(module);
            module.number().to_string()
        })
    }

    fn module(&self, word: &str) -> Result<Module, Error> {
        let number = number(word) as usize;
        self.modules.get(number).copied().ok_or_else(unknown_module)
    }

    fn module_imports(&mut self, word: &str) -> String {
        let found = self
            .module(word)
            .and_then(|module| module.imports(self.store()));
        say(found, |imports| {
            say_list(imports.into_iter().map(say_import))
        })
    }

    fn module_exports(&mut self, word: &str) -> String {
        let found = self
            .module(word)
            .and_then(|module| module.exports(self.store()));
        say(found, |exports| {
            say_list(exports.into_iter().map(say_export))
        })
    }

    fn link(&mut self, word: &str) -> String {
        let found = self.module(word);
        let linked = found.and_then(|module| Instance::new(self.store(), &module));
        say(linked, |instance| instance.number().to_string())
    }

    fn call(&mut self, words: &[&str]) -> String {
        let args: Vec<Val> = words[3..].iter().copied().map(read_value).collect();
        let found = self
            .instance(words[1])
            .and_then(|instance| instance.get_func(self.store(), words[2]));
        say(
            found.and_then(|function| call(self.store(), function, &args)),
            |results| say_list(results.into_iter().map(say_value)),
        )
    }

    fn exports(&mut self, word: &str) -> String {
        let instance = match self.instance(word) {
            Ok(instance) => instance,
            Err(error) => return say_error(error),
        };
        let exports = instance.exports(self.store());
        for export in exports.iter().flatten() {
            find(self.store(), instance, export);
        }
        say(exports, |exports| {
            say_list(exports.into_iter().map(say_export))
        })
    }

    fn script(&mut self, words: &[&str]) -> String {
        let named: Vec<(&str, Vec<u8>)> = words[2..]
            .iter()
            .map(|word| word.split_once('=').expect("a file"))
            .map(|(file, name)| (file, self.bytes[name].clone()))
            .collect();
        let files: Vec<(&str, &[u8])> = named
            .iter()
            .map(|(file, bytes)| (*file, bytes.as_slice()))
            .collect();
        let report = self.store().run_script(&read_digits(words[1]), &files);
        say(report, |report| {
            let mut text = format!(
                "report {} {} {}",
                report.passed,
                report.failed_lines.len(),
                report.skipped
            );
            report
                .failed_lines
                .iter()
                .for_each(|line| write!(text, " {line}").expect("a text"));
            text
        })
    }

    fn logged(&mut self) -> String {
        let log = &self.store().data().log;
        if log.is_empty() {
            return "nothing".to_owned();
        }
        log.iter().map(|byte| format!("{byte:02x}")).collect()
    }

    fn answer(&mut self, words: &[&str]) -> String {
        let done = |()| "done".to_owned();
        match words[0] {
            "new" => self.new_store(None, &words[1..]),
            "new_with_quota" => self.new_store(Some(words[1]), &words[2..]),
            "load" => self.load(words[1]),
            "link" => self.link(words[1]),
            "register" => {
                let found = self.instance(words[1]);
                say(
                    found.and_then(|instance| instance.register(self.store(), words[2])),
                    done,
                )
            }
            "call" => self.call(words),
            "get" => {
                let found = self
                    .instance(words[1])
                    .and_then(|instance| instance.get_global(self.store(), words[2]));
                say(found.and_then(|global| global.get(self.store())), say_value)
            }
            "fuel" => say(self.store().set_fuel(number(words[1])), done),
            "left" => say(self.store().get_fuel(), |fuel| fuel.to_string()),
            "explain" => EXPLAINED.with(|text| text.borrow().clone()),
            "quota_left" => say(self.store().quota_left(), |bytes| bytes.to_string()),
            "exports" => self.exports(words[1]),
            "module_imports" => self.module_imports(words[1]),
            "module_exports" => self.module_exports(words[1]),
            "script" => self.script(words),
            "logged" => self.logged(),
            other => panic!("no command: {other}"),
        }
    }
}

#[test]
fn each_row_has_its_answer() {
    let (mut rows, mut passed, mut failures) = (Rows::default(), 0, Vec::new());
    for (index, line) in ROWS.lines().enumerate() {
        if line.is_empty() || line.starts_with('#') {
            continue;
        }
        if let Some(module) = line.strip_prefix("module ") {
            let (name, digits) = module.split_once(' ').unwrap_or((module, ""));
            rows.bytes.insert(name.to_owned(), read_digits(digits));
            continue;
        }
        let (row, wanted) = line.split_once(" -> ").expect("a row");
        let words: Vec<&str> = row.split(' ').collect();
        let got = rows.answer(&words);
        if got == wanted {
            passed += 1;
        } else {
            failures.push(format!(
                "line {}: {row:.100}: wanted {wanted}, got {got}",
                index + 1
            ));
        }
    }
    assert!(
        failures.is_empty(),
        "{passed} passed, {} failed:\n{}",
        failures.len(),
        failures.join("\n")
    );
    assert!(passed >= 50);
}

//! The compiler's MIR, in which a crate is proved, as `rt lib` leaves it beside a library, in JSON: each
//! function with its name, the bounds that it has, the impls that it names, and its body.

use crate::harness::body::{Division, Instance};
use crate::harness::calls;
use crate::harness::json::Value;
use crate::harness::repository::{place, read};
use crate::harness::tools::run;
use std::collections::{BTreeMap, BTreeSet};
use std::path::{Path, PathBuf};
use std::process::{self, Command};
use std::{env, fs};

/// The kit's libraries that the crates may call, under their names.
const OF_THE_KIT: [&str; 2] = ["core", "std"];

/// Whether a function is of one of them.
pub fn is_of_the_kit(function: &str) -> bool {
    let krate = function.split("::").next();
    krate.is_some_and(|name| OF_THE_KIT.contains(&name))
}

/// The functions of a program, each as the JSON has it. A function is looked at where it is reached, for
/// the kit's hold forms that nothing here runs.
#[derive(Debug)]
pub struct Program(BTreeMap<String, Value>);

impl Program {
    /// A function and all that it calls, through others and through bounds too, each with its divisions. A
    /// function that is not there could divide, so it may not be called.
    pub fn reached(&self, from: &str) -> BTreeMap<String, Vec<Division>> {
        let reached = calls::reached(Instance::of(from), |instance| {
            let name = &instance.function;
            let code = self.0.get(name);
            let code =
                code.unwrap_or_else(|| panic!("{from} reaches {name}, whose code is not there"));
            instance.look(code)
        });
        // Whatever answers for its bounds, a function divides at the same places, but not always by the same
        // number: a const parameter's is the caller's, so what each instance divides by is kept.
        let mut functions: BTreeMap<String, Vec<Division>> = BTreeMap::new();
        for (instance, divisions) in reached {
            let known = functions.entry(instance.function).or_default();
            let new: Vec<_> = divisions
                .into_iter()
                .filter(|it| !known.contains(it))
                .collect();
            known.extend(new);
        }
        functions
    }

    /// The divisions of a function and of all that it calls, each with the function that it is in.
    pub fn divisions(&self, from: &str) -> Vec<(String, Division)> {
        let reached = self.reached(from).into_iter();
        reached
            .flat_map(|(name, divisions)| divisions.into_iter().map(move |it| (name.clone(), it)))
            .collect()
    }
}

/// The MIR of a crate, of all that it imports and of the kit's libraries.
pub fn of_crate(name: &str) -> Program {
    let list = read("crates.txt");
    let (kind, imports) = listed(&list, name);
    let is_static = kind == "staticlib";
    let mut libraries = imports.clone();
    if !is_static {
        libraries.insert(0, name);
    }
    build(&list, &libraries);
    let kit = kit();
    let of_the_kit = OF_THE_KIT.map(|it| kit.join(format!("rlibs/{it}.rlib")));
    let folders = libraries
        .iter()
        .map(|it| folder(it).join(format!("out/rlib/{it}.rlib")));
    let mut texts: Vec<String> = of_the_kit
        .into_iter()
        .chain(folders)
        .map(|it| of_built(&it))
        .collect();
    if is_static {
        texts.push(of_static_library(name, &imports, &kit));
    }
    program(&texts)
}

/// A crate's kind and its imports, as they are listed.
fn listed<'a>(list: &'a str, name: &str) -> (&'a str, Vec<&'a str>) {
    let line = list.lines().find_map(|line| {
        let (told, imports) = line.split_once(':')?;
        let kind = told.strip_prefix(name)?.trim_start();
        matches!(kind, "" | "staticlib").then_some((kind, imports))
    });
    let (kind, imports) = line.unwrap_or_else(|| panic!("crates.txt has no {name}"));
    (kind, imports.split_whitespace().collect())
}

/// Builds libraries anew where something of them has changed. What one imports is built with it.
fn build(list: &str, libraries: &[&str]) {
    let mut built = BTreeSet::new();
    for library in libraries {
        if built.insert(*library) {
            run(Command::new("rt").arg("lib").current_dir(folder(library)));
            built.extend(listed(list, library).1);
        }
    }
}

fn folder(name: &str) -> PathBuf {
    place(&format!("crates/{name}"))
}

/// The kit's folder.
fn kit() -> PathBuf {
    let guide = run(Command::new("rt").arg("doc"));
    let kit = Path::new(guide.trim()).parent();
    kit.expect("the guide is in the kit's folder").to_owned()
}

/// The MIR of a library that is built.
fn of_built(library: &Path) -> String {
    let text = fs::read_to_string(library.join("toolchain/mir.json"));
    text.unwrap_or_else(|error| panic!("the MIR of {}: {error}", library.display()))
}

/// The MIR of a static library, of which `rt lib` keeps none: it is built as a plain one over what the
/// check of the static one kept, outside the checkout, where `rt ci` would refuse the built files.
fn of_static_library(name: &str, imports: &[&str], kit: &Path) -> String {
    let built = env::temp_dir().join(format!("{name}-{}.rlib", process::id()));
    let kit = kit.display();
    let mut build = Command::new(format!("{kit}/bin/rattle"));
    build.current_dir(folder(name));
    build.args(["build", "src/lib.rt", "--crate-name", name]);
    build.arg(format!("--extern=std={kit}/rlibs/std.rlib"));
    build.arg(format!("-Ldependency={kit}/rlibs"));
    for import in imports {
        let folder = format!("../{import}/out/rlib");
        build.arg(format!("--extern={import}={folder}/{import}.rlib"));
        build.arg(format!("-Ldependency={folder}"));
    }
    build.arg(format!(
        "--antt-project={kit}/rattle/logic/antt-project.json"
    ));
    build.arg(format!("--logic-built={kit}/logic_built"));
    build.arg("--incremental=out/incremental");
    run(build.arg("-o").arg(&built));
    let text = of_built(&built);
    fs::remove_dir_all(&built).expect("what was built can be removed");
    text
}

/// The functions of some libraries.
fn program(libraries: &[String]) -> Program {
    let mut found = BTreeMap::new();
    for library in libraries {
        for item in Value::of(library).into_list() {
            let parts: Result<[Value; 2], _> = item.into_list().try_into();
            let [name, code] = parts.expect("a function has a name and its code");
            let name = name.text().to_owned();
            assert!(
                !found.contains_key(&name),
                "two functions have the name {name}"
            );
            found.insert(name, code);
        }
    }
    Program(found)
}

#[cfg(test)]
mod tests {
    use super::{program, Division};

    /// A function with bounds of these traits, and with these impls and terms, in MIR's JSON.
    fn function(name: &str, bounds: &[&str], impls: &str, terms: &str) -> String {
        let bounds: Vec<_> = bounds
            .iter()
            .map(|of| format!(r#"{{"of":"{of}"}}"#))
            .collect();
        let bounds = bounds.join(",");
        let generics = format!(r#"{{"bounds":[{bounds}],"impls":[{impls}]}}"#);
        format!(r#"["{name}",{{"generics":{generics},"body":[{terms}]}}]"#)
    }

    /// A library of these functions.
    fn library(functions: &[String]) -> String {
        format!("[{}]\n", functions.join(","))
    }

    /// An impl of a trait, among those that a function names.
    fn an_impl(name: &str, of: &str, methods: &str) -> String {
        format!(r#"{{"name":"{name}","of":{{"of":"{of}"}},"methods":[{methods}]}}"#)
    }

    /// A call that passes these dictionaries.
    fn call(form: &str, named: &str, dictionaries: &str) -> String {
        let arguments = format!(r#"{{"types":["Leap"],"dicts":[{dictionaries}]}}"#);
        format!(r#"{{"Call":[{{"{form}":[{named},{arguments}]}},[],{PLACE}]}}"#)
    }

    /// A remainder by a constant.
    fn remainder(by: u64) -> String {
        let by = format!(r#"{{"Int":{{"width":32,"value":{by}}}}}"#);
        format!(r#"{{"Assign":[{PLACE},{{"Op2":[{{"Rem":"Signed"}},{{"Copy":{PLACE}}},{by}]}}]}}"#)
    }

    const PLACE: &str = r#"{"local":2,"steps":[]}"#;

    /// The look at one function alone, with these terms.
    fn look(terms: &str) {
        program(&[library(&[function("f", &[], "", terms)])]).reached("f");
    }

    #[test]
    fn calls_and_divisions_are_found() {
        let divide = format!(
            r#"{{"Op2":[{{"Div":"Unsigned"}},{{"Int":{{"width":32,"value":7}}}},{{"Copy":{PLACE}}}]}}"#
        );
        let assign = format!(r#"{{"Assign":[{PLACE},{divide}]}}"#);
        let f = ["\"Seq\"", &assign, "\"Loop\"", &call("Fn", "\"g\"", "")].join(",");
        let f = function("f", &[], "", &f);
        let g = function("g", &[], "", &remainder(512));
        let aside = function("aside", &[], "", &remainder(3));
        let program = program(&[library(&[f, aside]), library(&[g])]);
        let names: Vec<_> = program.reached("f").into_keys().collect();
        assert_eq!(names, ["f", "g"]);
        let division = |operation: &str, by| Division {
            operation: operation.into(),
            by,
        };
        let divisions = [
            ("f".into(), division("div", None)),
            ("g".into(), division("rem", Some(512))),
        ];
        assert_eq!(program.divisions("f"), divisions);
    }

    /// `f` lends `g` an impl for the second of its bounds, and `g` lends that to an impl.
    #[test]
    fn a_call_through_a_bound_is_of_the_method_that_a_caller_resolves() {
        let impls = [
            an_impl("A", "Odd", r#""a0""#),
            an_impl("B", "Even", r#""b0","b1""#),
        ];
        let named = r#"{"Impl":["A",[],[]]},{"Impl":["B",[],[]]}"#;
        let f = function("f", &[], &impls.join(","), &call("Fn", "\"g\"", named));
        let over = an_impl("C", "Over", r#""c0","c1""#);
        let named = r#"{"Impl":["C",[],[{"Given":1}]]},1"#;
        let g = call("Method", named, r#"{"Given":0}"#);
        let g = function("g", &["Odd", "Even"], &over, &g);
        let c = [call("Method", r#"{"Given":0},1"#, ""), remainder(8)].join(",");
        let c = function("c1", &["Even", "Odd"], "", &c);
        let others = ["a0", "b0", "b1", "c0"].map(|name| function(name, &[], "", &remainder(3)));
        let program = program(&[library(&[f, g, c]), library(&others)]);
        let reached: Vec<_> = program.reached("f").into_keys().collect();
        assert_eq!(reached, ["b1", "c1", "f", "g"]);
        let divisors = program.divisions("f").into_iter();
        let divisors: Vec<_> = divisors.map(|(name, it)| (name, it.by)).collect();
        assert_eq!(divisors, [("b1".into(), Some(3)), ("c1".into(), Some(8))]);
    }

    /// One function with two closures: both run.
    #[test]
    fn a_function_is_looked_at_for_each_of_its_callers() {
        let twice = ["A", "B"].map(|name| {
            let named = format!(r#"{{"Impl":["{name}",[],[]]}}"#);
            call("Fn", "\"g\"", &named)
        });
        let impls = [
            an_impl("A", "FnOnce", r#""a""#),
            an_impl("B", "FnOnce", r#""b""#),
        ];
        let f = function("f", &[], &impls.join(","), &twice.join(","));
        let g = call("Method", r#"{"Given":0},0"#, "");
        let g = function("g", &["FnOnce"], "", &[g, remainder(2)].join(","));
        let others = [("a", 4), ("b", 5)].map(|(name, by)| function(name, &[], "", &remainder(by)));
        let found = program(&[library(&[f, g]), library(&others)]).divisions("f");
        let found: Vec<_> = found
            .iter()
            .map(|(name, it)| (name.as_str(), it.by))
            .collect();
        assert_eq!(found, [("a", Some(4)), ("b", Some(5)), ("g", Some(2))]);
    }

    #[test]
    #[should_panic(expected = "the bounds of g")]
    fn a_bound_that_no_caller_resolves_is_refused() {
        let g = function("g", &["Even"], "", &call("Method", r#"{"Given":0},0"#, ""));
        program(&[library(&[g])]).reached("g");
    }

    #[test]
    #[should_panic(expected = "the bounds of g")]
    fn a_dictionary_of_another_trait_is_refused() {
        let f = call("Fn", "\"g\"", r#"{"Impl":["A",[],[]]}"#);
        let f = function("f", &[], &an_impl("A", "Odd", ""), &f);
        let g = function("g", &["Even"], "", "");
        program(&[library(&[f, g])]).reached("f");
    }

    #[test]
    #[should_panic(expected = "f has no bound Number(0)")]
    fn a_bound_that_is_not_there_is_refused() {
        look(&call("Method", r#"{"Given":0},0"#, ""));
    }

    #[test]
    #[should_panic(expected = "f has no impl")]
    fn an_impl_that_is_not_there_is_refused() {
        look(&call("Method", r#"{"Impl":["A",[],[]]},0"#, ""));
    }

    #[test]
    #[should_panic(expected = "an impl of Odd has no method Number(1)")]
    fn a_method_that_is_not_there_is_refused() {
        let f = call("Method", r#"{"Impl":["A",[],[]]},1"#, "");
        let f = function("f", &[], &an_impl("A", "Odd", r#""f""#), &f);
        program(&[library(&[f])]).reached("f");
    }

    #[test]
    #[should_panic(expected = "f reaches g, whose code is not there")]
    fn code_that_is_not_there_is_refused() {
        look(&call("Fn", "\"g\"", ""));
    }

    #[test]
    #[should_panic(expected = "two functions have the name f")]
    fn twins_are_refused() {
        let library = library(&[function("f", &[], "", "")]);
        program(&[library.clone(), library]);
    }

    #[test]
    fn types_and_constants_hold_no_code() {
        let of_type = r#"{"local":0,"steps":[{"Deref":{"Leap":1}}]}"#;
        let constant =
            r#"{"Parts":[{"Int":{"width":32,"value":1}},{"Ints":{"width":8,"values":[1,2]}}]}"#;
        let lent = format!(r#"{{"LendStatic":[{of_type},{{"Leap":1}},{constant}]}}"#);
        look(&format!(
            r#"{lent},{{"Opd":{{"SizeOf":{{"Leap":1}}}}}},"Unreachable""#
        ));
    }

    /// `f` passes 4 to `g`, which divides by its own number; alone it has none.
    #[test]
    fn the_number_of_a_const_parameter_is_the_callers() {
        let number = r#"{"NumOf":[64,{"Param":1}]}"#;
        let divide = format!(r#"{{"Op2":[{{"Div":"Unsigned"}},{{"Copy":{PLACE}}},{number}]}}"#);
        let g = format!(r#"{{"Assign":[{PLACE},{divide}]}}"#);
        let types = r#"{"types":[{"Int":8},{"Const":4}],"dicts":[]}"#;
        let f = format!(r#"{{"Call":[{{"Fn":["g",{types}]}},[],{PLACE}]}}"#);
        let functions = [function("f", &[], "", &f), function("g", &[], "", &g)];
        let found = program(&[library(&functions)]);
        let by = |from: &str| found.divisions(from)[0].1.by;
        assert_eq!((by("f"), by("g")), (Some(4), None));
    }

    /// `f` calls `g` with 3, with 4 and with a number that is its own: all three are told.
    #[test]
    fn a_function_divides_by_the_number_of_each_of_its_callers() {
        let number = r#"{"NumOf":[64,{"Param":0}]}"#;
        let divide = format!(r#"{{"Op2":[{{"Rem":"Unsigned"}},{{"Copy":{PLACE}}},{number}]}}"#);
        let g = format!(r#"{{"Assign":[{PLACE},{divide}]}}"#);
        let call = |ty: &str| {
            let types = format!(r#"{{"types":[{ty}],"dicts":[]}}"#);
            format!(r#"{{"Call":[{{"Fn":["g",{types}]}},[],{PLACE}]}}"#)
        };
        let calls = [r#"{"Const":3}"#, r#"{"Const":4}"#, r#"{"Param":0}"#].map(call);
        let f = function("f", &[], "", &calls.join(","));
        let found = program(&[library(&[f, function("g", &[], "", &g)])]).divisions("f");
        let found: Vec<_> = found.iter().map(|(_, it)| it.by).collect();
        assert_eq!(found, [None, Some(3), Some(4)]);
    }

    #[test]
    #[should_panic(expected = "not a known form of MIR: Leap")]
    fn an_unknown_constant_is_refused() {
        look(&format!(
            r#"{{"LendStatic":[{PLACE},"Unit",{{"Parts":[{{"Leap":1}}]}}]}}"#
        ));
    }

    #[test]
    #[should_panic(expected = "not a known operation of MIR")]
    fn an_unknown_operation_is_refused() {
        look(r#"{"Assign":[{"local":0,"steps":[]},{"Op2":["FloatDiv",1,2]}]}"#);
    }

    #[test]
    #[should_panic(expected = "not a known form of MIR")]
    fn an_unknown_form_is_refused() {
        look(r#"{"Leap":{"Fn":["g",{"types":[],"dicts":[]}]}}"#);
    }

    #[test]
    #[should_panic(expected = "not a known form of MIR: FnAddr")]
    fn the_address_of_a_function_is_refused() {
        look(r#"{"Opd":{"FnAddr":[{"Fn":["g",{"types":[],"dicts":[]}]},{}]}}"#);
    }

    #[test]
    #[should_panic(expected = "not a known word of MIR")]
    fn an_unknown_word_is_refused() {
        look(r#""Seq","Leap""#);
    }

    #[test]
    #[should_panic(expected = "no JSON")]
    fn a_text_that_is_cut_is_refused() {
        program(&["[[\"f\",{\"params\":0".into()]);
    }
}

//! `include/seamwillow.h`: C and C++ take it without a warning, and what it declares is the library's.

use crate::common::Scratch;
use seamwillow_tests::harness::tools::{archive, c_compiler, has, root, run, STRICT_C};
use std::collections::BTreeSet;
use std::fs;
use std::process::Command;

fn read(file: &str) -> String {
    fs::read_to_string(root().join(file)).unwrap_or_else(|error| panic!("{file}: {error}"))
}

/// The header without comments and without the preprocessor's lines.
fn declarations() -> String {
    let header = read("include/seamwillow.h");
    let outside = |piece: &str| match piece.split_once("*/") {
        Some((_, code)) => code.to_string(),
        None => piece.to_string(),
    };
    let code: String = header.split("/*").map(outside).collect();
    let lines = code.lines().filter(|line| !line.starts_with('#'));
    lines.map(|line| format!("{line}\n")).collect()
}

/// The words of a text that begin in a certain way.
fn words_with<'a>(text: &'a str, prefix: &str) -> BTreeSet<&'a str> {
    let words = text.split(|it: char| !it.is_ascii_alphanumeric() && it != '_');
    words.filter(|word| word.starts_with(prefix)).collect()
}

/// The prototypes of the header, one line each.
fn prototypes(declarations: &str) -> Vec<String> {
    let flat = declarations
        .split_whitespace()
        .collect::<Vec<_>>()
        .join(" ");
    let parts = flat.split(['{', '}', ';']).map(str::trim);
    let is_function = |part: &&str| part.contains("sw_") && part.ends_with(')');
    parts.filter(is_function).map(str::to_string).collect()
}

/// A file that includes the header twice and uses each of its names.
fn every_name() -> String {
    let (header, code) = (read("include/seamwillow.h"), declarations());
    let constants = words_with(&header, "SW_").into_iter();
    let constants = constants.map(|name| format!("    (unsigned long){name},\n"));
    let functions = prototypes(&code);
    let functions = functions.iter().flat_map(|it| words_with(it, "sw_"));
    let functions = functions.map(|name| format!("    (void (*)(void)){name},\n"));
    let include = "#include \"seamwillow.h\"\n#include \"seamwillow.h\"\n";
    format!(
        "{include}unsigned long constants[] = {{\n{}}};\nvoid (*functions[])(void) = {{\n{}}};\n",
        constants.collect::<String>(),
        functions.collect::<String>()
    )
}

#[test]
fn c_and_cpp_take_the_header_without_a_warning() {
    let scratch = Scratch::new("c-header");
    let include = format!("-I{}", root().join("include").display());
    let (c, cpp) = (scratch.path("every.c"), scratch.path("every.cpp"));
    fs::write(&c, every_name()).expect("the C file is written");
    fs::write(&cpp, every_name()).expect("the C++ file is written");
    run(c_compiler()
        .args(STRICT_C)
        .args([&include, "-fsyntax-only"])
        .arg(c));
    if has("c++", "seamwillow.h as C++") {
        let strict = STRICT_C.map(|flag| flag.replace("c99", "c++11"));
        let mut compiler = Command::new("c++");
        run(compiler
            .args(strict)
            .args([&include, "-fsyntax-only"])
            .arg(cpp));
    }
}

#[test]
fn the_library_answers_the_numbers_of_the_header() {
    let scratch = Scratch::new("answers");
    let source = root().join("rust/command/tests/command/answers.c");
    let program = scratch.path("answers");
    let include = format!("-I{}", root().join("include").display());
    let mut compiler = c_compiler();
    compiler
        .args(STRICT_C)
        .arg(include)
        .arg(source)
        .arg(archive());
    run(compiler.arg("-o").arg(&program));
    assert_eq!(run(&mut Command::new(program)), "all as declared\n");
}

#[test]
fn no_number_of_the_header_is_left_out() {
    let (header, answers) = (
        read("include/seamwillow.h"),
        read("rust/command/tests/command/answers.c"),
    );
    assert_eq!(words_with(&header, "SW_"), words_with(&answers, "SW_"));
}

#[test]
fn header_and_archive_have_the_same_functions() {
    let listed = run(Command::new("nm")
        .arg("-g")
        .arg("--defined-only")
        .arg(archive()));
    let code = declarations();
    let declared = prototypes(&code);
    let declared: BTreeSet<&str> = declared
        .iter()
        .flat_map(|it| words_with(it, "sw_"))
        .collect();
    assert_eq!(words_with(&listed, "sw_"), declared);
}

/// A C type as Rust names it.
fn rust_type(c: &str) -> &'static str {
    match c {
        "void" => "()",
        "uint32_t" => "u32",
        "size_t" => "usize",
        "uint8_t *" => "*mut u8",
        "uint32_t *" => "*mut u32",
        "uint64_t *" => "*mut u64",
        "const uint8_t *" => "*const u8",
        other => panic!("a type that no prototype had: {other}"),
    }
}

/// A declarator's name and its type.
fn named(declarator: &str) -> (&str, &'static str) {
    let is_name = |it: char| it.is_ascii_alphanumeric() || it == '_';
    let type_of = declarator.trim_end_matches(is_name);
    (&declarator[type_of.len()..], rust_type(type_of.trim()))
}

/// A prototype of C as Rust would declare it.
fn as_rust(prototype: &str) -> String {
    let (head, parameters) = prototype
        .split_once('(')
        .expect("a function has parameters");
    let parameters = parameters
        .trim_end_matches(')')
        .split(", ")
        .map(|parameter| {
            let (name, type_of) = named(parameter);
            format!("{name}: {type_of}")
        });
    let (name, result) = named(head);
    let parameters = parameters.collect::<Vec<_>>().join(", ");
    match result {
        "()" => format!("fn {name}({parameters})"),
        _ => format!("fn {name}({parameters}) -> {result}"),
    }
}

#[test]
fn rust_and_c_declare_the_same_functions() {
    let library = read("rust/library/src/lib.rs");
    let (_, rest) = library
        .split_once("extern \"C\" {")
        .expect("the library is linked");
    let block = rest.split("\n}").next().unwrap_or_default();
    let flat = block.split_whitespace().collect::<Vec<_>>().join(" ");
    let flat = flat.replace("( ", "(").replace(", )", ")");
    let of_rust: BTreeSet<String> = flat
        .split_terminator(';')
        .map(|it| it.trim().into())
        .collect();
    let of_c: BTreeSet<String> = prototypes(&declarations())
        .iter()
        .map(|it| as_rust(it))
        .collect();
    assert_eq!(of_c, of_rust);
}

//! `make install`: every file comes to its place, and what is installed can be used from C and from Python.

use crate::common::Scratch;
use seamwillow_tests::harness::tools::{archive, c_compiler, has, ran, root, run, STRICT_C};
use std::fs;
use std::os::unix::fs::PermissionsExt;
use std::path::{Path, PathBuf};
use std::process::Command;

/// What stands below PREFIX after an install.
const INSTALLED: [&str; 7] = [
    "bin/seamwillow",
    "include/seamwillow.h",
    "lib/libseamwillow.a",
    "lib/libseamwillow.so",
    "lib/libseamwillow.so.0",
    "lib/pkgconfig/seamwillow.pc",
    "share/man/man1/seamwillow.1",
];

/// A C program that asks the library two things.
const PROGRAM: &str = r#"#include <seamwillow.h>
#include <stdio.h>
int main(void) {
    uint32_t idcode, frame_words, frames;
    uint64_t memory_len;
    uint32_t code = sw_part(2, &idcode, &frame_words, &frames, &memory_len);
    printf("%u %08X %u %u %lu\n", code, idcode, frame_words, frames, (unsigned long)memory_len);
    printf("%04X\n", sw_crc(0, 0, 0x80000000u));
    return 0;
}
"#;

/// The same in Python.
const SCRIPT: &str = "
import ctypes, sys
library = ctypes.CDLL(sys.argv[1])
idcode, frame_words, frames = (ctypes.c_uint32() for _ in range(3))
memory_len = ctypes.c_uint64()
code = library.sw_part(2, *map(ctypes.byref, (idcode, frame_words, frames, memory_len)))
print(code, '%08X' % idcode.value, frame_words.value, frames.value, memory_len.value)
print('%04X' % library.sw_crc(0, 0, ctypes.c_uint32(0x80000000)))
";

/// The XC3S400 as 01 has it, then 01's example of the CRC.
const ANSWERS: &str = "0 0141C093 69 767 211692\n80C3\n";

/// `make` on what is already built; `rt` and `cargo` would fail, so nothing is built again.
fn make(scratch: &Scratch, target: &str) -> Command {
    let mut make = Command::new("make");
    for variable in ["MAKEFLAGS", "MFLAGS", "MAKELEVEL", "DESTDIR", "LDFLAGS"] {
        make.env_remove(variable);
    }
    make.current_dir(root())
        .args([target, "RT=false", "CARGO=false"]);
    make.arg(format!("BUILD={}", scratch.path("build").display()));
    make.arg(format!("ARCHIVE={}", archive().display()));
    make.arg(concat!("COMMAND=", env!("CARGO_BIN_EXE_seamwillow")));
    make
}

/// The files below a folder by their paths in it, sorted.
fn files_below(folder: &Path) -> Vec<String> {
    let list = run(Command::new("find")
        .args([".", "!", "-type", "d"])
        .current_dir(folder));
    let mut files: Vec<String> = list.lines().map(|line| line[2..].to_string()).collect();
    files.sort();
    files
}

#[test]
fn install_brings_every_file_to_its_place_and_uninstall_takes_it_away() {
    let scratch = Scratch::new("place");
    // A blank shows what the Makefile forgot to quote.
    let stage = scratch.path("the stage");
    let destination = format!("DESTDIR={}", stage.display());
    let with = |target| {
        let mut make = make(&scratch, target);
        run(make.args(["PREFIX=/opt/school", &destination]))
    };
    with("install");
    let below = stage.join("opt/school");
    assert_eq!(files_below(&below), INSTALLED);
    assert_eq!(files_below(&stage).len(), INSTALLED.len());
    let mode =
        |name: &str| fs::metadata(below.join(name)).map(|it| it.permissions().mode() & 0o777);
    assert_eq!(mode("bin/seamwillow").ok(), Some(0o755));
    assert_eq!(mode("include/seamwillow.h").ok(), Some(0o644));
    let link = fs::read_link(below.join("lib/libseamwillow.so")).expect("the library has a link");
    assert_eq!(link, Path::new("libseamwillow.so.0"));
    let version = run(Command::new(below.join("bin/seamwillow")).arg("--version"));
    assert_eq!(
        version,
        concat!("seamwillow ", env!("CARGO_PKG_VERSION"), "\n")
    );
    let second = with("install");
    assert!(!second.contains("-shared"), "built again:\n{second}");
    let links = run(Command::new("find")
        .args(["build", "-type", "l"])
        .current_dir(scratch.path("")));
    assert_eq!(links, "", "`rt ci` refuses links in the checkout");
    with("uninstall");
    assert_eq!(files_below(&stage), [""; 0]);
}

#[test]
fn the_manual_and_the_header_are_installed_as_they_are() {
    let (_scratch, prefix) = installed("as-they-are");
    for (file, place) in [
        ("man/seamwillow.1", "share/man/man1/seamwillow.1"),
        ("include/seamwillow.h", "include/seamwillow.h"),
    ] {
        let (ours, theirs) = (fs::read(root().join(file)), fs::read(prefix.join(place)));
        assert!(
            ours.is_ok_and(|ours| theirs.is_ok_and(|it| it == ours)),
            "{file}"
        );
    }
}

/// A folder of the user's own with everything installed.
fn installed(name: &str) -> (Scratch, PathBuf) {
    let scratch = Scratch::new(name);
    let prefix = scratch.path("prefix");
    run(make(&scratch, "install").arg(format!("PREFIX={}", prefix.display())));
    (scratch, prefix)
}

/// What `pkg-config --cflags --libs` says, or what the file says where there is no such tool.
fn flags(prefix: &Path) -> Vec<String> {
    let folder = prefix.join("lib/pkgconfig");
    let text = match has("pkg-config", "the tool, and its file is read by hand") {
        true => run(Command::new("pkg-config")
            .args(["--cflags", "--libs", "seamwillow"])
            .env("PKG_CONFIG_PATH", folder)),
        false => expanded(
            &fs::read_to_string(folder.join("seamwillow.pc")).expect("the file is installed"),
        ),
    };
    text.split_whitespace().map(str::to_string).collect()
}

/// The compiler's and the linker's words of a pkg-config file.
fn expanded(file: &str) -> String {
    let mut text = file.to_string();
    // The last first: a value may name a variable that stands before it.
    let variables: Vec<_> = file
        .lines()
        .filter_map(|line| line.split_once('='))
        .collect();
    for (name, value) in variables.into_iter().rev() {
        text = text.replace(&format!("${{{name}}}"), value);
    }
    let of = |field: &str| {
        text.lines()
            .find_map(|line| line.strip_prefix(field))
            .unwrap_or_default()
    };
    format!("{} {}", of("Cflags: "), of("Libs: "))
}

#[test]
fn c_finds_the_installed_library_static_and_shared() {
    let (scratch, prefix) = installed("from-c");
    let (source, flags) = (scratch.path("program.c"), flags(&prefix));
    fs::write(&source, PROGRAM).expect("the program is written");
    for (kind, is_shared) in [("-Wl,-Bstatic", false), ("-Wl,-Bdynamic", true)] {
        let program = scratch.path("program");
        let mut compiler = c_compiler();
        compiler.args(STRICT_C).arg(&source).arg(kind).args(&flags);
        run(compiler.args(["-Wl,-Bdynamic", "-o"]).arg(&program));
        let bytes = fs::read(&program).expect("there is a program");
        let soname = b"libseamwillow.so.0";
        let asks_for_it = bytes.windows(soname.len()).any(|window| window == soname);
        assert_eq!(asks_for_it, is_shared, "{kind}");
        let mut program = Command::new(program);
        if is_shared {
            program.env("LD_LIBRARY_PATH", prefix.join("lib"));
        }
        assert_eq!(run(&mut program), ANSWERS, "{kind}");
    }
}

#[test]
fn python_calls_the_installed_library() {
    if !has("python3", "the shared library from Python") {
        return;
    }
    let (_scratch, prefix) = installed("from-python");
    let library = prefix.join("lib/libseamwillow.so");
    let answers = run(Command::new("python3").args(["-c", SCRIPT]).arg(library));
    assert_eq!(answers, ANSWERS);
}

#[test]
fn the_pkg_config_file_reads_the_same_without_the_tool() {
    let (_scratch, prefix) = installed("pkg-config");
    let file = fs::read_to_string(prefix.join("lib/pkgconfig/seamwillow.pc"))
        .expect("the file is installed");
    let (include, lib) = (prefix.join("include"), prefix.join("lib"));
    let wanted = format!("-I{} -L{} -lseamwillow", include.display(), lib.display());
    assert_eq!(expanded(&file), wanted);
    assert_eq!(flags(&prefix).join(" "), wanted);
}

#[test]
fn what_is_newer_is_proved_and_compiled_again() {
    let scratch = Scratch::new("newer");
    let dry_run = |newer: &str| {
        let mut make = Command::new("make");
        make.env_remove("MAKEFLAGS").current_dir(root());
        let build = format!("BUILD={}", scratch.path("build").display());
        run(make.args(["--dry-run", "--what-if", newer, "all", &build]))
    };
    let (prove, compile) = (
        "cd crates/seamwillow && rt lib\n",
        "cargo build --release --offline --locked",
    );
    for newer in ["crates.txt", "crates/parts/src/lib.rt"] {
        let text = dry_run(newer);
        let places = (text.find(prove), text.find(compile));
        assert!(
            places.0.is_some() && places.0 < places.1,
            "{newer}:\n{text}"
        );
    }
    let text = dry_run("rust/command/src/main.rs");
    assert!(text.contains(compile), "{text}");
}

/// The options that a help text names, without their first dash: `q`, `-quiet`.
fn options(help: &str) -> Vec<&str> {
    let words = help.split(|it: char| !it.is_ascii_alphanumeric() && it != '-');
    let options = words.filter_map(|word| word.strip_prefix('-'));
    options.filter(|it| !it.is_empty()).collect()
}

#[test]
fn the_manual_has_every_command_and_every_option() {
    let manual = fs::read_to_string(root().join("man/seamwillow.1")).expect("there is a manual");
    let manual = manual.replace('\n', " ");
    let help = |words: &[&str]| run(Command::new(env!("CARGO_BIN_EXE_seamwillow")).args(words));
    let usage = help(&["--help"]);
    let commands = usage.lines().filter_map(|line| line.strip_prefix("  "));
    let commands: Vec<&str> = commands.filter_map(|line| line.split(' ').next()).collect();
    assert!(commands.len() >= 9, "{usage}");
    for command in commands {
        assert!(manual.contains(&format!(" .It Cm {command} ")), "{command}");
        for option in options(&help(&[command, "--help"])) {
            // A long spelling may follow a short one.
            let spellings = [format!(" .It Fl {option} "), format!(" , {option} ")];
            let is_told = spellings.iter().any(|it| manual.contains(it));
            assert!(is_told, "{command}: -{option}");
        }
    }
}

#[test]
fn the_manual_is_well_formed() {
    if has("mandoc", "the manual's form") {
        let mut lint = Command::new("mandoc");
        let lint = ran(lint
            .args(["-T", "lint", "man/seamwillow.1"])
            .current_dir(root()));
        assert_eq!(String::from_utf8_lossy(&lint.stdout), "");
    }
}

//! Where an output goes: a file whole or not at all, through links, to devices and pipes, and never
//! over an input; and standard input, which is read once.

use super::{scratch, BUILD};
use crate::common::streams::{multiple, partial};
use crate::common::{Scratch, Told};
use std::fs::{self, File, Permissions};
use std::os::unix::fs::{symlink, PermissionsExt};

/// A file that may not grow is a disk that fills up within a write.
#[test]
fn what_cannot_be_written_whole_is_not_written() {
    let scratch = scratch("limit");
    scratch.write("old.bit", b"old");
    let before = scratch.names();
    for target in ["old.bit", "new.bit"] {
        let line =
            format!("trap '' XFSZ; ulimit -f 1; exec \"$0\" {BUILD} good.layout -o {target}");
        let told = Told::of(scratch.shell(&line));
        told.assert_told(2, &format!("{target}: File too large"));
        assert_eq!(scratch.names(), before, "{target}");
        assert_eq!(scratch.read("old.bit"), b"old");
    }
}

#[test]
fn a_refused_build_leaves_the_target_as_it_is() {
    let scratch = scratch("refused");
    scratch.write("old.bit", b"old");
    let before = scratch.names();
    for target in ["old.bit", "new.bit"] {
        let told = scratch.run(&format!("{BUILD} bad.layout -o {target}"));
        assert_eq!(told.status, 1, "{told:?}");
        let told = scratch.run(&format!("{BUILD} missing.layout -o {target}"));
        assert_eq!(told.status, 2, "{told:?}");
        assert_eq!(scratch.names(), before, "{target}");
        assert_eq!(scratch.read("old.bit"), b"old");
    }
}

#[test]
fn a_target_is_replaced_whole() {
    let scratch = scratch("target");
    let run = |target: &str| {
        let told = scratch.run(&format!("{BUILD} good.layout -o {target}"));
        assert_eq!((told.status, told.err.as_str()), (0, ""), "{target}");
        assert_eq!(scratch.read(target), partial(0), "{target}");
    };
    scratch.write("old.bit", &[9; 5000]);
    let path = scratch.path("old.bit");
    fs::set_permissions(&path, Permissions::from_mode(0o640)).expect("it is ours");
    run("old.bit");
    let mode = fs::metadata(&path)
        .expect("it is there")
        .permissions()
        .mode();
    assert_eq!(mode & 0o777, 0o640);
    symlink("old.bit", scratch.path("link.bit")).expect("a link can be made");
    scratch.write("old.bit", b"old");
    run("link.bit");
    assert!(scratch.path("link.bit").is_symlink(), "the link is kept");
    assert_eq!(scratch.read("old.bit"), partial(0));
    let names = scratch.names();
    assert!(!names.iter().any(|name| name.contains("part")), "{names:?}");
}

/// A run that was killed can leave its file, and a later run can have the same number.
#[test]
fn what_an_earlier_run_left_is_passed_over() {
    let scratch = scratch("stale");
    let left = "echo left >.seamwillow-$$.part; echo left >.seamwillow-$$-0.part";
    let line = format!("{left}; exec \"$0\" {BUILD} -q good.layout -o made.bit");
    let told = Told::of(scratch.shell(&line));
    assert_eq!((told.status, told.err.as_str()), (0, ""));
    assert_eq!(scratch.read("made.bit"), partial(0));
    let names = scratch.names();
    let is_left = |name: &&String| name.ends_with(".part");
    let left: Vec<&String> = names.iter().filter(is_left).collect();
    assert_eq!(left.len(), 2, "{names:?}");
    assert!(left.iter().all(|name| scratch.read(name) == b"left\n"));
    // Names are not tried without end.
    let left = "for n in $(seq 0 99); do echo left >.seamwillow-$$-$n.part; done";
    let line = format!("{left}; exec \"$0\" {BUILD} -q good.layout -o other.bit");
    Told::of(scratch.shell(&line)).assert_told(2, "other.bit: File exists");
    assert!(!scratch.names().contains(&"other.bit".to_string()));
}

#[test]
fn a_link_to_nothing_is_kept() {
    let scratch = scratch("dangling");
    let told = scratch.run(&format!("{BUILD} good.layout -o nowhere/made.bit"));
    told.assert_told(2, "nowhere/made.bit: No such file or directory");
    symlink("made.bit", scratch.path("link.bit")).expect("a link can be made");
    let told = scratch.run(&format!("{BUILD} good.layout -o link.bit"));
    assert_eq!((told.status, told.err.as_str()), (0, ""));
    assert!(scratch.path("link.bit").is_symlink(), "the link is kept");
    assert_eq!(scratch.read("made.bit"), partial(0));
}

#[test]
fn links_that_lead_nowhere_are_kept() {
    let scratch = scratch("ring");
    let link = |to: &str, name: &str| {
        symlink(to, scratch.path(name)).expect("a link can be made");
    };
    link("itself.bit", "itself.bit");
    link("there.bit", "back.bit");
    link("back.bit", "there.bit");
    // A chain that the system would follow, to a file that is not there.
    link("made.bit", "0");
    (1..20).for_each(|number| link(&(number - 1).to_string(), &number.to_string()));
    let before = scratch.names();
    for (target, words) in [
        ("itself.bit", "Too many levels of symbolic links"),
        ("back.bit", "Too many levels of symbolic links"),
        ("19", "too many links one after the other"),
    ] {
        let told = scratch.run(&format!("{BUILD} good.layout -o {target}"));
        told.assert_told(2, &format!("{target}: {words}"));
        assert!(scratch.path(target).is_symlink(), "{target}");
        assert_eq!(scratch.names(), before, "{target}");
    }
}

/// Runs that would write over what they read; the file that is named twice comes last.
const OVER_INPUTS: [&str; 17] = [
    "build --part 0 --frames 0:368 good.layout -o good.layout",
    "build --part 0 --frames 0:368 good.layout -o ./good.layout",
    "build --part 0 --frames 0:368 good.layout -o hard",
    "build --part 0 --frames 0:368 good.layout -o soft",
    "build --part 0 --frames 0:368 soft -o good.layout",
    "build --desk good.desk --seat left good.layout -o good.desk",
    "build --desk - --seat left good.layout -o good.desk",
    "load good.bit -o good.bit",
    "load full.bit good.bit -o good.bit",
    "load --desk good.desk good.bit -o good.desk",
    "load --image good.bit good.bit -o good.bit",
    "map good.bit --svg good.bit",
    "map good.bit --html good.bit",
    "map --desk good.desk --seat left good.bit --svg good.desk",
    "map --image zeros.img --svg zeros.img",
    "map --image zeros.img --html zeros.img",
    "map --image - --html good.desk",
];

/// A folder with a desk, a memory and links to the layout too.
fn with_links(name: &str) -> Scratch {
    let scratch = scratch(name);
    scratch.write("good.desk", b"part XC3S50\nseat left 3:2\n");
    scratch.write("zeros.img", &vec![0; 54_464]);
    fs::hard_link(scratch.path("good.layout"), scratch.path("hard")).expect("one disk");
    symlink("good.layout", scratch.path("soft")).expect("a link can be made");
    scratch
}

/// Every file with its bytes.
fn files(scratch: &Scratch) -> Vec<(String, Vec<u8>)> {
    let read = |name: String| (name.clone(), scratch.read(&name));
    scratch.names().into_iter().map(read).collect()
}

#[test]
fn an_output_is_no_input() {
    let scratch = with_links("over");
    let before = files(&scratch);
    for line in OVER_INPUTS {
        let told = Told::of(scratch.shell(&format!("exec \"$0\" {line} <good.desk")));
        let output = line.split(' ').next_back().unwrap_or_default();
        told.assert_told(2, &format!("the output {output} is also the input "));
        assert!(told.out.is_empty() && files(&scratch) == before, "{line}");
    }
    let line = format!("exec \"$0\" {BUILD} good.layout -o - >>good.layout");
    let words = "the output standard output is also the input good.layout; see";
    Told::of(scratch.shell(&line)).assert_told(2, words);
    assert!(files(&scratch) == before);
}

#[test]
fn two_outputs_are_two_files() {
    let scratch = with_links("two");
    let before = files(&scratch);
    for targets in [
        "--svg made --html made",
        "--svg made --html ./made",
        "--svg hard --html soft",
    ] {
        let told = scratch.run(&format!("map good.bit {targets}"));
        told.assert_told(2, "--svg and --html cannot both go to ");
        assert!(
            told.out.is_empty() && files(&scratch) == before,
            "{targets}"
        );
    }
    let told = scratch.run("map good.bit --svg - --html /dev/stdout");
    told.assert_told(2, "--svg and --html cannot both go to standard output");
    let told = scratch.run("map good.bit --svg one --html two");
    assert_eq!((told.status, told.err.as_str()), (0, ""));
}

/// What is read whole, and what is no file, can be the output as well.
#[test]
fn an_output_that_may_be_an_input() {
    let scratch = scratch("carried");
    scratch.write("memory.img", &vec![0xFF; 54_464]);
    let told = scratch.run("load --image memory.img good.bit -o after.img");
    assert_eq!(told.status, 0, "{told:?}");
    let told = scratch.run("load --image memory.img good.bit -o memory.img");
    assert_eq!((told.status, told.err.as_str()), (0, ""));
    assert!(scratch.read("memory.img") == scratch.read("after.img"));
    let told = scratch.run("map good.bit --svg /dev/null --html /dev/null");
    assert_eq!((told.status, told.err.as_str()), (0, ""));
    let told = scratch.run("load /dev/null --part 0 -o /dev/null");
    told.assert_told(1, "/dev/null: no sync word");
}

#[test]
fn standard_input_is_read_once() {
    let scratch = scratch("once");
    scratch.write("good.desk", b"part XC3S50\nseat left 3:2\n");
    let words = "standard input can be read once";
    for line in [
        "check - -",
        "check - good.bit -",
        "check --desk - --seat left -",
        "explain --desk - -",
        "load --image - - -o made.img",
        "load - - -o made.img",
        "map --desk - --image -",
        "build --desk - --seat left - -o made.bit",
        "layout --desk - -",
    ] {
        let told = Told::of(scratch.shell(&format!("exec \"$0\" {line} <good.bit")));
        told.assert_told(2, words);
        assert!(told.out.is_empty(), "{line}");
    }
    let told = Told::of(scratch.shell("cat good.bit | \"$0\" check - /dev/stdin"));
    told.assert_told(2, words);
    // A file has its own name beside that of standard input.
    let told = Told::of(scratch.shell("exec \"$0\" check - good.bit <good.bit"));
    assert_eq!((told.status, told.err.as_str()), (0, ""));
    assert!(!scratch.names().iter().any(|name| name.starts_with("made")));
}

/// Every name of standard output is `-`: nothing else is told there.
fn assert_standard(line: &str) {
    let scratch = scratch("standard");
    let standard = scratch.run(&format!("{line} -"));
    assert_eq!((standard.status, standard.err.as_str()), (0, ""), "{line}");
    for rest in [
        "/dev/stdout | cat",
        "/dev/fd/1 | cat",
        "/proc/self/fd/1 | cat",
        "/dev/stdout >made; cat made",
        "made >made; cat made",
    ] {
        let told = Told::of(scratch.shell(&format!("\"$0\" {line} {rest}")));
        assert_eq!(told, standard, "{line} {rest}");
    }
}

#[test]
fn standard_output_by_another_name() {
    assert_standard(&format!("{BUILD} good.layout -o"));
    assert_standard("load good.bit -o");
    assert_standard("map good.bit --svg");
    assert_standard("map good.bit --html");
}

/// Pipes and devices by their names are written as they are.
#[test]
fn a_target_that_is_no_file() {
    let scratch = scratch("devices");
    let told = scratch.run(&format!("{BUILD} good.layout -o /dev/null"));
    assert_eq!((told.status, told.err.as_str()), (0, ""));
    let told = scratch.run(&format!("{BUILD} good.layout -o ."));
    told.assert_told(2, ".: Is a directory");
    let line = format!("\"$0\" {BUILD} good.layout -o /dev/fd/3 3>&1 >told | cat");
    let told = Told::of(scratch.shell(&line));
    assert_eq!((told.out, told.err.as_str()), (partial(0), ""));
    let words = b"/dev/fd/3: 520 bytes for the XC3S50, frames 0 to 367\n";
    assert_eq!(scratch.read("told"), words);
}

/// A load whose words cannot be told still writes all of the memory or nothing.
#[test]
fn a_load_that_cannot_be_told_keeps_no_half() {
    let scratch = scratch("half");
    scratch.write("first.bit", &multiple(0));
    let told = scratch.run("load first.bit good.bit -o whole.img");
    assert_eq!(told.status, 0);
    let mut command = scratch.command("load first.bit good.bit -o made.img".split(' '));
    let full = File::options().write(true).open("/dev/full");
    command.stdout(full.expect("/dev/full can be opened"));
    Told::of(command).assert_told(2, "standard output: No space left on device");
    if scratch.names().contains(&"made.img".to_string()) {
        assert!(scratch.read("made.img") == scratch.read("whole.img"));
    }
}

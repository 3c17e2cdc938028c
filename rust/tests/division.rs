//! No division where the board has none (02, W5). The compiler's MIR is looked at for `/` and `%`, and
//! the machine code for divide instructions: a compiler may turn subtractions into a division.

use seamwillow_tests::harness::body::Division;
use seamwillow_tests::harness::machine_code;
use seamwillow_tests::harness::mir::{self, Program};
use seamwillow_tests::harness::tools::has;
use std::sync::LazyLock;

/// The lookups alone: a crate's MIR is there once it is proved, so that a division in `parts` is named
/// before the proofs of the crates above are mended.
static LOOKUPS: LazyLock<Program> = LazyLock::new(|| mir::of_crate("parts"));

/// The library with all that it imports.
static LIBRARY: LazyLock<Program> = LazyLock::new(|| mir::of_crate("seamwillow"));

const ADDRESS: &str = "parts::frame::frame_address";
const NUMBER: &str = "parts::frame::frame_number";

/// A division in a line of a list.
fn line((function, division): &(String, Division)) -> String {
    let by = division.by.map(|number| number.to_string());
    let by = by.unwrap_or("what is no constant".into());
    format!("{function}: {} by {by}\n", division.operation)
}

/// A shift or a mask in machine code.
fn is_by_power_of_two(division: &Division) -> bool {
    division.by.is_some_and(u64::is_power_of_two)
}

#[test]
fn the_address_of_a_frame_number_needs_no_division() {
    assert_eq!(LOOKUPS.divisions(ADDRESS), []);
    // What was looked at of the crates here; with it all that they call of the kit's libraries.
    let reached = LOOKUPS.reached(ADDRESS).into_keys();
    let reached: Vec<_> = reached.filter(|name| !mir::is_of_the_kit(name)).collect();
    let all = [
        "answers::RefusedFromRefusal::from",
        "parts::Destruct++none::drop",
        "parts::frame::Run::leap",
        "parts::frame::Run::search",
        "parts::frame::address_of",
        ADDRESS,
        "parts::frame::run_of",
        "parts::table::TablePart::address",
        "parts::table::TablePart::run",
        "parts::table::part_of",
        "parts::table::table_part",
    ];
    assert_eq!(reached, all);
}

/// The compiler asks `address_at` for an address, a program in C `sw_frame_address`.
#[test]
fn what_hands_the_address_on_needs_no_division_either() {
    let asked = [
        (&LOOKUPS, "parts::frame::address_at"),
        (&LIBRARY, "seamwillow::sw_frame_address"),
    ];
    for (functions, name) in asked {
        assert!(functions.reached(name).contains_key(ADDRESS));
        assert_eq!(functions.divisions(name), [], "{name}");
    }
}

/// The negative control: the same look at the other direction finds every `/` and `%` that is there.
#[test]
fn the_divisions_of_the_other_direction_are_seen() {
    let found: String = LOOKUPS.divisions(NUMBER).iter().map(line).collect();
    let fields = "\
parts::frame::address_fields: div by 33554432
parts::frame::address_fields: rem by 4
parts::frame::address_fields: div by 131072
parts::frame::address_fields: rem by 256
parts::frame::address_fields: div by 512
parts::frame::address_fields: rem by 256
";
    assert_eq!(found, fields);
}

#[test]
fn what_the_board_runs_divides_by_powers_of_two_alone() {
    let compile = "seamwillow::sw_compile";
    assert!(LIBRARY.reached(compile).contains_key(ADDRESS));
    let found = LIBRARY.divisions(compile);
    print!("{}", found.iter().map(line).collect::<String>());
    let others: String = found
        .iter()
        .filter(|(_, it)| !is_by_power_of_two(it))
        .map(line)
        .collect();
    assert_eq!(others, "");
    // The negative control: a load takes a remainder by the part's frame length.
    let load = LIBRARY.divisions("seamwillow::sw_load");
    assert!(load.iter().any(|(_, division)| division.by.is_none()));
}

#[test]
fn the_machine_code_that_the_board_runs_has_no_divide_instruction() {
    if !has("objdump", "divide instructions in the static library") {
        return;
    }
    let library = machine_code::of_library();
    for entry in ["sw_compile", "sw_frame_address"] {
        assert_eq!(library.divisions(entry), [], "{entry}");
    }
    // The negative control: the remainders of a load are instructions, in functions that it calls.
    let load = library.divisions("sw_load");
    assert!(load.iter().any(|&(name, _)| name != "sw_load"));
}

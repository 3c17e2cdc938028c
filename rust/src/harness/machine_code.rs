//! The machine code of the static library, as objdump prints it with its relocations.

use crate::harness::calls::{Function, Functions};
use crate::harness::tools::{archive, run};
use std::collections::BTreeMap;
use std::process::Command;

/// What compiled code calls of the C library: it copies and fills bytes.
const C_LIBRARY: [&str; 2] = ["memcpy", "memset"];

/// What relocations name that is no function: sections of constants and labels in them.
const CONSTANTS: [&str; 2] = [".rodata", ".L"];

/// The functions of the static library, each with its divide instructions.
pub fn of_library() -> Functions<String> {
    let mut command = Command::new("objdump");
    command.args(["--disassemble", "--reloc", "--no-show-raw-insn"]);
    functions(&run(command.arg(archive())))
}

/// The functions of a listing.
fn functions(listing: &str) -> Functions<String> {
    let c_library = C_LIBRARY.map(|name| (name.to_owned(), Function::empty()));
    let mut found = BTreeMap::from(c_library);
    let mut last = None;
    for line in listing.lines() {
        if let Some(name) = heading(line) {
            let twin = found.insert(name.to_owned(), Function::empty());
            assert!(twin.is_none(), "two functions have the name {name}");
            last = found.get_mut(name);
        } else if let (Some(function), Some(text)) = (&mut last, entry(line)) {
            note(text, function);
        }
    }
    Functions(found)
}

/// The function whose code begins after a line.
fn heading(line: &str) -> Option<&str> {
    let (address, name) = line.strip_suffix(">:")?.split_once(" <")?;
    let is_address = address.bytes().all(|byte| byte.is_ascii_hexdigit());
    is_address.then_some(name)
}

/// The instruction or the relocation of a line, which stands after its address.
fn entry(line: &str) -> Option<&str> {
    let (address, text) = line.split_once(':')?;
    let is_indented = address.starts_with([' ', '\t']);
    is_indented.then(|| text.trim_start())
}

/// Notes what an instruction or a relocation calls, and whether it divides. Every function that one
/// of them names counts as called.
fn note(text: &str, function: &mut Function<String>) {
    if let Some((_, symbol)) = text.strip_prefix("R_").and_then(|it| it.split_once('\t')) {
        let symbol = without_offset(symbol);
        if !CONSTANTS.iter().any(|&it| symbol.starts_with(it)) {
            let name = symbol.strip_prefix(".text.").unwrap_or(symbol);
            function.calls.insert(name.to_owned());
        }
        return;
    }
    let (instruction, symbol) = text.split_once('<').unwrap_or((text, ""));
    let mut words = instruction.split_whitespace();
    if words.clone().any(|word| word.contains("div")) {
        function.divisions.push(text.to_owned());
    }
    let is_call = words.any(|word| word.starts_with("call"));
    assert!(
        !(is_call && instruction.contains('*')),
        "an indirect call: {text}"
    );
    if let Some((symbol, _)) = symbol.split_once('>') {
        function.calls.insert(without_offset(symbol).to_owned());
    }
}

fn without_offset(symbol: &str) -> &str {
    let end = symbol.rfind("+0x").or(symbol.rfind("-0x"));
    &symbol[..end.unwrap_or(symbol.len())]
}

#[cfg(test)]
mod tests {
    use super::functions;

    /// One function a section, as the library has them, and two that share one.
    const LISTING: &str = "
seamwillow.o:     file format elf64-x86-64


Disassembly of section .text.parts::first:

0000000000000000 <parts::first>:
   0:\tlea    0x0(%rip),%rax        # 7 <parts::first+0x7>
\t\t\t3: R_X86_64_PC32\t.rodata..Ltable-0x4
   7:\tcall   c <parts::first+0xc>
\t\t\t8: R_X86_64_PLT32\tparts::second-0x4
   c:\tjmp    11 <parts::first+0x11>
\t\t\td: R_X86_64_PLT32\tmemcpy-0x4

Disassembly of section .text.parts::divided:

0000000000000000 <parts::second>:
   0:\tjmp    8 <parts::divided>

0000000000000008 <parts::divided>:
   8:\txor    %edx,%edx
   a:\tdiv    %ecx
   c:\tvdivss %xmm1,%xmm0,%xmm0
";

    #[test]
    fn calls_and_divisions_are_found() {
        let found = functions(LISTING);
        let reached: Vec<_> = found.reached("parts::first").into_keys().collect();
        let all = ["memcpy", "parts::divided", "parts::first", "parts::second"];
        assert_eq!(reached, all);
        let divisions = found.divisions("parts::first").into_iter();
        let divisions: Vec<_> = divisions.map(|(name, it)| (name, it.as_str())).collect();
        let both = [
            ("parts::divided", "div    %ecx"),
            ("parts::divided", "vdivss %xmm1,%xmm0,%xmm0"),
        ];
        assert_eq!(divisions, both);
    }

    #[test]
    #[should_panic(expected = "parts::first reaches __udivti3, whose code is not there")]
    fn a_function_that_divides_elsewhere_is_refused() {
        functions(&LISTING.replace("memcpy", "__udivti3")).reached("parts::first");
    }

    #[test]
    #[should_panic(expected = "an indirect call")]
    fn an_indirect_call_is_refused() {
        functions(&LISTING.replace("xor    %edx,%edx", "call   *%rax"));
    }
}

//! The rule on sources that break it and on sources that keep it.

use super::forbidden::{in_source, A_LETTER, BYTES};
use super::{found, is_length, wrong, DRAWING};

/// Sources that break the rule, and what of them is told.
const BAD: [(&str, &str); 74] = [
    ("let register = header >> 13;", ">>"),
    ("let register = header\n    >> shift;", ">>"),
    ("let register = header>>9;", ">>"),
    ("let header = kind << 1;", "<<"),
    ("let header = kind<<1;", "<<"),
    ("crc >>= 1;", ">>="),
    ("let minor = address & mask;", "&"),
    ("let minor = address&mask;", "&"),
    ("let header = kind | register;", "|"),
    ("let header = kind | 3;", "|"),
    ("let header = kind|register;", "|"),
    ("let header = (kind) | (register);", "|"),
    ("let header = kind(1) | Register(2);", "|"),
    ("let header = KIND | REGISTER;", "|"),
    ("let header = |kind| kind | REGISTER;", "|"),
    ("flags |= word;", "|="),
    ("let crc = crc ^ word;", "^"),
    ("let filled = left % words;", "%"),
    ("let major = address / 512;", "/"),
    ("let major = address / 512;", "512"),
    ("let major = address / 131072 * 256;", "131072"),
    ("let minor = address / 2 / 16 / 16;", "/"),
    ("let minor = address/2;", "/"),
    ("let word = word * 16;", "*"),
    ("let word = (word)*16;", "*"),
    ("word *= 16;", "*="),
    ("word /= 16;", "/="),
    ("let frames = 16 * 16 + 16 * 7;", "*"),
    ("let word = bytes.fold(0, |w, &b| w * 16 * 16 + b);", "fold"),
    ("let word = bytes.try_fold(0, taken);", "try_fold"),
    ("let major = address.wrapping_shr(10 + 15);", "wrapping_shr"),
    ("let major = address.unbounded_shr(9);", "unbounded_shr"),
    ("let major = address.shr(9);", "shr"),
    ("let header = kind.checked_shl(9);", "checked_shl"),
    ("let crc = crc.bitxor(word);", "bitxor"),
    ("let minor = address.bitand(mask);", "bitand"),
    ("let header = kind.bitor(register);", "bitor"),
    ("use std::ops::BitXor;", "ops"),
    ("let mask = mask.not();", "not"),
    ("let filled = left.rem(words);", "rem"),
    ("let filled = left.checked_rem(words);", "checked_rem"),
    ("let filled = left.rem_euclid(words);", "rem_euclid"),
    ("let word = word.wrapping_mul(16);", "wrapping_mul"),
    ("let mask = two.checked_pow(9);", "checked_pow"),
    ("let strips = frames.div_ceil(minors);", "div_ceil"),
    (
        "let length = length.next_multiple_of(4);",
        "next_multiple_of",
    ),
    ("let bits = word.ilog2();", "ilog2"),
    ("let bits = word.checked_ilog(2);", "checked_ilog"),
    ("let bits: u32 = figures.iter().product();", "product"),
    ("let word = u32::from_be(word);", "from_be"),
    ("let digit = letter.to_digit(16);", "to_digit"),
    ("let frames = 368;", "368"),
    ("let frames = 3_68;", "3_68"),
    ("let words = 37u32;", "37u32"),
    ("let sync = [170, 1];", "170"),
    ("let idcode = 0x0140_D093;", "0x0140_D093"),
    ("let idcode = 21000000 + 24915;", "21000000"),
    ("let idcode = 21000000 + 24915;", "24915"),
    ("let two = 0b10;", "0b10"),
    ("let sync = [b'U', b'f'];", A_LETTER),
    ("let words = u32::from(b'%');", A_LETTER),
    ("let words = '%' as u32;", A_LETTER),
    ("let sync = b\"\\xAA\\x99Uf\";", BYTES),
    ("let words = br\"%\";", BYTES),
    ("let idcode = \"0140d093\";", "0140d093"),
    (
        "let idcode = u32::from_str_radix(code, 16);",
        "from_str_radix",
    ),
    ("let words = \"it has 1945 frames\";", "it has 1945 frames"),
    ("let frames = concat!(\"3\", \"68\");", "concat"),
    ("let table = include_bytes!(\"table\");", "include_bytes"),
    ("#[path = \"../elsewhere.rs\"]\nmod elsewhere;", "path"),
    ("let word = word.swap_bytes();", "swap_bytes"),
    ("unsafe { work() }", "unsafe"),
    ("extern \"C\" {}", "extern"),
    (
        "use seamwillow_tests::independent::loader;",
        "seamwillow_tests",
    ),
];

/// Sources that keep the rule.
const GOOD: [&str; 15] = [
    "let lists: Vec<Vec<u8>> = Vec::new();",
    "fn borrow<'a>(text: &'a str) -> &'a str { text }",
    "let sum = |a: u32, b: u32| a + b;",
    "let sum = |(a, b)| a + b;",
    "let none = || 0;",
    "for byte in bytes {} *byte = *other; let last = &mut *list;",
    "match register { register::FDRI | register::LOUT => 1, _ => 2 }",
    "match text { Some(\"-h\" | \"--help\") => 1, _ => 2 }",
    "match pair { (First, _) | (_, None) => 1, _ => 2 }",
    "if is_one && is_two || is_three {}",
    "// header >> 13 & 0x1F, 368 frames",
    "/* unsafe /* 368 */ 615 */",
    "let shown = \"XC3S50 has > 16 frames >> here\";",
    "let ten = 1_0 + 16;",
    "let path = path; let not_text = is_multiple;",
];

#[test]
fn the_rule_can_be_broken() {
    for (source, token) in BAD {
        let told: Vec<String> = in_source(source).into_iter().map(|it| it.1).collect();
        assert!(told.iter().any(|it| it == token), "{source}: {told:?}");
    }
}

#[test]
fn the_rule_can_be_kept() {
    for source in GOOD {
        assert_eq!(in_source(source), [], "{source}");
    }
}

/// What is allowed in a file leaves no room for one more.
#[test]
fn the_rule_can_be_broken_in_every_file() {
    let sources = found();
    let planted = sources
        .iter()
        .flat_map(|source| BAD.map(|bad| (source, bad)));
    for ((file, found), (source, token)) in planted {
        let found = [found.clone(), in_source(source)].concat();
        let is_drawn = file.starts_with(DRAWING) && is_length(token);
        assert!(
            is_drawn || !wrong(file, &found).is_empty(),
            "{file}: {source}"
        );
    }
}

#[test]
fn figures_are_no_lengths() {
    for figure in ["37", "368", "512", "2049", "54464", "21000000", "0x20"] {
        assert!(!is_length(figure), "{figure}");
    }
    assert!(is_length("1290"));
}

/// A literal ends where it ends, whatever stands in it.
#[test]
fn what_follows_a_literal_is_read() {
    for source in [
        "let text = r#\"\"#; let frames = 615;",
        "let quote = '\"'; let escape = '\\''; let frames = 615;",
    ] {
        let last = in_source(source).pop().map(|it| it.1);
        assert_eq!(last.as_deref(), Some("615"), "{source}");
    }
}

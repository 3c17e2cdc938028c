//! The two layout readers with their machines, and what tells their answers apart.

use crate::harness::ffi;
use crate::harness::sides::hex;
use crate::independent::layout::{self, answer, Desk, Refusal};

type Check = fn(Desk, &[u8]) -> (u32, u64);
type Apply = fn(Desk, &[u8], &mut [u8]) -> (u32, u64);

/// One of the two, as the C interface has it.
pub struct LayoutSide {
    pub name: &'static str,
    pub check: Check,
    pub apply: Apply,
}

pub const INDEPENDENT: LayoutSide = LayoutSide {
    name: "the independent reader",
    check: |desk, layout| answer(layout::check(desk, layout)),
    apply: |desk, layout, memory| answer(layout::apply(desk, layout, memory)),
};

pub const PROVED: LayoutSide = LayoutSide {
    name: "the proved library",
    check: ffi::check,
    apply: ffi::apply,
};

/// The memories of both sides, kept from case to case, as new ones cost more than the cases.
#[derive(Default)]
pub struct Comparer {
    expected: Vec<u8>,
    after: Vec<u8>,
}

impl Comparer {
    /// Puts a layout to both sides and asserts the same answers and memories; tells the
    /// independent one's answer, with the cause of a refusal.
    pub fn compare(
        &mut self,
        desk: Desk,
        layout: &[u8],
        memory: &[u8],
        case: &str,
    ) -> Result<u64, Refusal> {
        let Self { expected, after } = self;
        memory.clone_into(expected);
        memory.clone_into(after);
        let tell = |what| format!("{case}, {what}, {desk:?}\nlayout {}", hex(layout));
        let wanted = answer(layout::check(desk, layout));
        let checked = (PROVED.check)(desk, layout);
        assert_eq!(checked, wanted, "{}", tell("sw_check"));
        let result = layout::apply(desk, layout, expected);
        let applied = (PROVED.apply)(desk, layout, after);
        assert_eq!(applied, answer(result), "{}", tell("sw_apply"));
        assert!(after == expected, "{}", tell("memory after sw_apply"));
        if result.is_err() {
            assert!(after == memory, "{}", tell("memory after a refusal"));
        }
        result
    }
}

//! A layout's numbers: groups of seven bits, low group first, the top bit set on all but the last.

/// The top bit, which says that another group follows.
const MORE: u8 = 0x80;
/// The bytes of the longest number.
const MOST_BYTES: usize = 5;

/// Why there is no number; 02 tells the first of these apart from the others.
#[derive(Clone, Copy, PartialEq, Eq, PartialOrd, Ord, Debug)]
pub enum BadForm {
    CutShort,
    TooLarge,
    NotShortest,
}

impl BadForm {
    pub const ALL: [Self; 3] = [Self::CutShort, Self::TooLarge, Self::NotShortest];
}

/// The number that the bytes begin with, and how many of them it has.
pub fn read(bytes: &[u8]) -> Result<(u32, usize), BadForm> {
    let longest = &bytes[..bytes.len().min(MOST_BYTES)];
    let Some(last) = longest.iter().position(|byte| byte & MORE == 0) else {
        // A sixth byte would make it too large, whatever that is.
        return Err(if longest.len() == MOST_BYTES {
            BadForm::TooLarge
        } else {
            BadForm::CutShort
        });
    };
    let high_first = longest[..=last].iter().rev();
    let wide = high_first.fold(0, |high, byte| (high << 7) | u64::from(byte & !MORE));
    let value = u32::try_from(wide).map_err(|_| BadForm::TooLarge)?;
    if last > 0 && longest[last] == 0 {
        return Err(BadForm::NotShortest);
    }
    Ok((value, last + 1))
}

/// The shortest form, also of a number that is too large.
pub fn coded(value: u64) -> Vec<u8> {
    ended(unended(value))
}

/// The form that is longer by some groups of zeros.
pub fn coded_longer(value: u64, groups: usize) -> Vec<u8> {
    let mut bytes = unended(value);
    bytes.resize(bytes.len() + groups, MORE);
    ended(bytes)
}

/// The shortest form, but that its last byte asks for one more.
pub fn unended(value: u64) -> Vec<u8> {
    let groups = value.max(1).ilog2() / 7 + 1;
    (0..groups)
        .map(|group| (value >> (7 * group)) as u8 | MORE)
        .collect()
}

fn ended(mut bytes: Vec<u8>) -> Vec<u8> {
    *bytes.last_mut().expect("a number has bytes") &= !MORE;
    bytes
}

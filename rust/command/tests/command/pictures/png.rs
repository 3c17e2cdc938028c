//! Pixels of a PNG file, as browsers write screenshots: eight bits a sample, not interlaced.

/// A picture's pixels, red, green and blue.
pub struct Picture {
    pub width: usize,
    pub height: usize,
    pub pixels: Vec<[u8; 3]>,
}

/// Length codes 257 to 285: the shortest length and the extra bits.
const LENGTHS: [(usize, u32); 29] = [
    (3, 0),
    (4, 0),
    (5, 0),
    (6, 0),
    (7, 0),
    (8, 0),
    (9, 0),
    (10, 0),
    (11, 1),
    (13, 1),
    (15, 1),
    (17, 1),
    (19, 2),
    (23, 2),
    (27, 2),
    (31, 2),
    (35, 3),
    (43, 3),
    (51, 3),
    (59, 3),
    (67, 4),
    (83, 4),
    (99, 4),
    (115, 4),
    (131, 5),
    (163, 5),
    (195, 5),
    (227, 5),
    (258, 0),
];

/// The order in which the lengths of code lengths stand.
const ORDER: [usize; 19] = [
    16, 17, 18, 0, 8, 7, 9, 6, 10, 5, 11, 4, 12, 3, 13, 2, 14, 1, 15,
];

pub fn read(file: &[u8]) -> Picture {
    let word =
        |at: usize| u32::from_be_bytes(file[at..at + 4].try_into().expect("four bytes")) as usize;
    let (width, height) = (word(16), word(20));
    let samples = match (file[24], file[25], file[28]) {
        (8, 2, 0) => 3,
        (8, 6, 0) => 4,
        other => panic!("a PNG of another kind: {other:?}"),
    };
    let mut data = Vec::new();
    let mut at = 8;
    while at + 8 <= file.len() {
        let length = word(at);
        if &file[at + 4..at + 8] == b"IDAT" {
            data.extend(&file[at + 8..at + 8 + length]);
        }
        at += length + 12;
    }
    let rows = unfiltered(&inflated(&data[2..]), width * samples, samples);
    let pixels = rows.chunks(samples).map(|it| [it[0], it[1], it[2]]);
    Picture {
        width,
        height,
        pixels: pixels.collect(),
    }
}

/// The samples of all rows, each row's filter undone.
fn unfiltered(bytes: &[u8], length: usize, samples: usize) -> Vec<u8> {
    let mut rows: Vec<u8> = Vec::new();
    let mut above = vec![0; length];
    for row in bytes.chunks_exact(length + 1) {
        let mut line: Vec<u8> = Vec::with_capacity(length);
        for (place, &byte) in row[1..].iter().enumerate() {
            let before = |line: &[u8]| place.checked_sub(samples).map_or(0, |place| line[place]);
            let (left, up, corner) = (before(&line), above[place], before(&above));
            let guess = match row[0] {
                0 => 0,
                1 => left,
                2 => up,
                3 => ((u16::from(left) + u16::from(up)) / 2) as u8,
                _ => nearest(left, up, corner),
            };
            line.push(byte.wrapping_add(guess));
        }
        rows.extend(&line);
        above = line;
    }
    rows
}

fn nearest(left: u8, up: u8, corner: u8) -> u8 {
    let sum = i16::from(left) + i16::from(up) - i16::from(corner);
    let distance = |it: &u8| (sum - i16::from(*it)).abs();
    *[left, up, corner]
        .iter()
        .min_by_key(|it| distance(it))
        .expect("three of them")
}

/// Bits of a deflate stream, the lowest of each byte first.
struct Bits<'a> {
    bytes: &'a [u8],
    place: usize,
}

impl Bits<'_> {
    fn take(&mut self, count: u32) -> usize {
        (0..count).fold(0, |all, bit| {
            let one = (self.bytes[self.place / 8] >> (self.place % 8)) & 1;
            self.place += 1;
            all | (usize::from(one) << bit)
        })
    }

    /// The symbol of the next code.
    fn symbol(&mut self, code: &Code) -> usize {
        let (mut value, mut first, mut index) = (0, 0, 0);
        for &count in &code.counts[1..] {
            value |= self.take(1);
            if value < first + count {
                return code.symbols[index + value - first];
            }
            index += count;
            first = (first + count) << 1;
            value <<= 1;
        }
        panic!("no such code")
    }
}

/// A canonical Huffman code: how many codes have each length, and the symbols in order.
struct Code {
    counts: [usize; 16],
    symbols: Vec<usize>,
}

impl Code {
    fn of(lengths: &[usize]) -> Self {
        let mut counts = [0; 16];
        for &length in lengths.iter().filter(|&&length| length > 0) {
            counts[length] += 1;
        }
        let mut symbols: Vec<usize> = (0..lengths.len()).filter(|&it| lengths[it] > 0).collect();
        symbols.sort_by_key(|&symbol| (lengths[symbol], symbol));
        Self { counts, symbols }
    }
}

fn inflated(bytes: &[u8]) -> Vec<u8> {
    let mut bits = Bits { bytes, place: 0 };
    let mut out = Vec::new();
    loop {
        let is_last = bits.take(1) == 1;
        match bits.take(2) {
            0 => stored(&mut bits, &mut out),
            1 => {
                let literals: Vec<usize> = (0..288).map(fixed_length).collect();
                packed(
                    &mut bits,
                    &mut out,
                    &Code::of(&literals),
                    &Code::of(&[5; 30]),
                );
            }
            _ => {
                let (literals, distances) = codes(&mut bits);
                packed(&mut bits, &mut out, &literals, &distances);
            }
        }
        if is_last {
            return out;
        }
    }
}

fn fixed_length(symbol: usize) -> usize {
    match symbol {
        0..144 => 8,
        144..256 => 9,
        256..280 => 7,
        _ => 8,
    }
}

fn stored(bits: &mut Bits, out: &mut Vec<u8>) {
    bits.place = bits.place.next_multiple_of(8);
    let length = bits.take(16);
    bits.take(16);
    let start = bits.place / 8;
    out.extend(&bits.bytes[start..start + length]);
    bits.place += 8 * length;
}

/// The two codes that a block brings with it.
fn codes(bits: &mut Bits) -> (Code, Code) {
    let literals = bits.take(5) + 257;
    let distances = bits.take(5) + 1;
    let given = bits.take(4) + 4;
    let mut lengths = [0; 19];
    for &place in &ORDER[..given] {
        lengths[place] = bits.take(3);
    }
    let code = Code::of(&lengths);
    let mut lengths: Vec<usize> = Vec::new();
    while lengths.len() < literals + distances {
        let (length, times) = match bits.symbol(&code) {
            16 => (*lengths.last().expect("a length before"), 3 + bits.take(2)),
            17 => (0, 3 + bits.take(3)),
            18 => (0, 11 + bits.take(7)),
            length => (length, 1),
        };
        lengths.extend(vec![length; times]);
    }
    (
        Code::of(&lengths[..literals]),
        Code::of(&lengths[literals..]),
    )
}

fn packed(bits: &mut Bits, out: &mut Vec<u8>, literals: &Code, distances: &Code) {
    loop {
        match bits.symbol(literals) {
            256 => return,
            byte @ 0..256 => out.push(byte as u8),
            symbol => {
                let (shortest, extra) = LENGTHS[symbol - 257];
                let length = shortest + bits.take(extra);
                let code = bits.symbol(distances);
                // Two codes for each number of extra bits, from the fifth on.
                let extra = (code / 2).saturating_sub(1) as u32;
                let shortest = if code < 4 {
                    code + 1
                } else {
                    ((2 + code % 2) << extra) + 1
                };
                let distance = shortest + bits.take(extra);
                for _ in 0..length {
                    out.push(out[out.len() - distance]);
                }
            }
        }
    }
}

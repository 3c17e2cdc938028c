//! The proved library's C interface, as `include/seamwillow.h` declares it, behind safe wrappers.
//! The command and the tests reach the library through this crate alone.

pub mod record;

pub use record::Record;

extern "C" {
    fn sw_crc(crc: u32, reg: u32, word: u32) -> u32;
    fn sw_part(
        device: u32,
        idcode: *mut u32,
        frame_words: *mut u32,
        frames: *mut u32,
        memory_len: *mut u64,
    ) -> u32;
    fn sw_address_fields(address: u32, block: *mut u32, major: *mut u32, minor: *mut u32);
    fn sw_frame_address(device: u32, number: u32, address: *mut u32) -> u32;
    fn sw_frame_number(device: u32, address: u32, number: *mut u32) -> u32;
    fn sw_power_on(
        device: u32,
        record: *mut u8,
        record_len: usize,
        memory: *mut u8,
        memory_len: usize,
    ) -> u32;
    fn sw_load(
        record: *mut u8,
        record_len: usize,
        memory: *mut u8,
        memory_len: usize,
        stream: *const u8,
        stream_len: usize,
        taken: *mut u64,
    ) -> u32;
    fn sw_check(
        device: u32,
        first: u32,
        count: u32,
        layout: *const u8,
        layout_len: usize,
        value: *mut u64,
    ) -> u32;
    fn sw_read_number(
        layout: *const u8,
        layout_len: usize,
        at: usize,
        value: *mut u32,
        next: *mut u64,
    ) -> u32;
    fn sw_read_step(
        device: u32,
        first: u32,
        count: u32,
        layout: *const u8,
        layout_len: usize,
        at: usize,
        value: *mut u64,
    ) -> u32;
    fn sw_apply(
        device: u32,
        first: u32,
        count: u32,
        layout: *const u8,
        layout_len: usize,
        memory: *mut u8,
        memory_len: usize,
        value: *mut u64,
    ) -> u32;
    fn sw_compile(
        device: u32,
        first: u32,
        count: u32,
        layout: *const u8,
        layout_len: usize,
        out: *mut u8,
        out_len: usize,
        value: *mut u64,
    ) -> u32;
    fn sw_reconfigure(
        record: *mut u8,
        record_len: usize,
        memory: *mut u8,
        memory_len: usize,
        first: u32,
        count: u32,
        layout: *const u8,
        layout_len: usize,
        out: *mut u8,
        out_len: usize,
        value: *mut u64,
    ) -> u32;
}

/// Neither a frame address nor a frame number, so an answer that was never written shows.
const JUNK: u32 = 0xDEAD_BEEF;
/// More bytes than any piece, layout or stream has.
const JUNK_BYTES: u64 = 0xDEAD_BEEF_DEAD_BEEF;

/// The frames that a desk names, 01's seat: `count` from `first` on.
#[derive(Clone, Copy, PartialEq, Eq, Debug)]
pub struct FrameRange {
    pub first: u32,
    pub count: u32,
}

/// The figures of a part.
#[derive(Clone, Copy, PartialEq, Eq, Debug)]
pub struct Figures {
    pub idcode: u32,
    pub frame_words: u32,
    pub frames: u32,
    pub memory_bytes: u64,
}

/// The fields of a frame address.
#[derive(Clone, Copy, PartialEq, Eq, Debug)]
pub struct AddressFields {
    pub block: u32,
    pub major: u32,
    pub minor: u32,
}

/// The CRC register after `word` is fed for the register address `reg`.
// Inlined, so that the benchmark times the library's call and no second one.
#[inline]
pub fn crc(crc: u32, reg: u32, word: u32) -> u32 {
    // SAFETY: the function takes and returns plain numbers.
    unsafe { sw_crc(crc, reg, word) }
}

/// The code and the part's figures.
pub fn part(device: u32) -> (u32, Figures) {
    let mut figures = Figures {
        idcode: JUNK,
        frame_words: JUNK,
        frames: JUNK,
        memory_bytes: JUNK_BYTES,
    };
    // SAFETY: the function writes four numbers, to places that are ours for the call.
    let code = unsafe {
        sw_part(
            device,
            &mut figures.idcode,
            &mut figures.frame_words,
            &mut figures.frames,
            &mut figures.memory_bytes,
        )
    };
    (code, figures)
}

/// The fields of any frame address.
pub fn address_fields(address: u32) -> AddressFields {
    let (mut block, mut major, mut minor) = (JUNK, JUNK, JUNK);
    // SAFETY: the function writes three numbers, to places that are ours for the call.
    unsafe { sw_address_fields(address, &mut block, &mut major, &mut minor) };
    AddressFields {
        block,
        major,
        minor,
    }
}

/// The code and the frame address.
pub fn frame_address(device: u32, number: u32) -> (u32, u32) {
    let mut address = JUNK;
    // SAFETY: the function writes one number, to a place that is ours for the call.
    let code = unsafe { sw_frame_address(device, number, &mut address) };
    (code, address)
}

/// The code and the frame number.
pub fn frame_number(device: u32, address: u32) -> (u32, u32) {
    let mut number = JUNK;
    // SAFETY: the function writes one number, to a place that is ours for the call.
    let code = unsafe { sw_frame_number(device, address, &mut number) };
    (code, number)
}

/// Powers a part on into a record's image and its memory; the code.
pub fn power_on(device: u32, record: &mut [u8], memory: &mut [u8]) -> u32 {
    // SAFETY: the function reads and writes within the two slices, which are ours for the call.
    unsafe {
        sw_power_on(
            device,
            record.as_mut_ptr(),
            record.len(),
            memory.as_mut_ptr(),
            memory.len(),
        )
    }
}

/// Loads a piece of a stream; the code and the bytes taken.
pub fn load(record: &mut [u8], memory: &mut [u8], stream: &[u8]) -> (u32, u64) {
    let mut taken = JUNK_BYTES;
    // SAFETY: the function reads the stream, and writes within the two slices and to one number,
    // all ours for the call.
    let code = unsafe {
        sw_load(
            record.as_mut_ptr(),
            record.len(),
            memory.as_mut_ptr(),
            memory.len(),
            stream.as_ptr(),
            stream.len(),
            &mut taken,
        )
    };
    (code, taken)
}

/// Judges a layout; the code and its value.
pub fn check(device: u32, range: FrameRange, layout: &[u8]) -> (u32, u64) {
    let mut value = JUNK_BYTES;
    // SAFETY: the function reads the layout and writes one number, both ours for the call.
    let code = unsafe {
        sw_check(
            device,
            range.first,
            range.count,
            layout.as_ptr(),
            layout.len(),
            &mut value,
        )
    };
    (code, value)
}

/// The number at an offset of a layout; the code, the number and the offset after it.
pub fn read_number(layout: &[u8], at: usize) -> (u32, u32, u64) {
    let (mut value, mut next) = (JUNK, JUNK_BYTES);
    // SAFETY: the function reads the layout and writes two numbers, all ours for the call.
    let code = unsafe { sw_read_number(layout.as_ptr(), layout.len(), at, &mut value, &mut next) };
    (code, value, next)
}

/// Judges the step at an offset of a layout; the code, and the offset after the step or of its
/// refusal.
pub fn read_step(device: u32, range: FrameRange, layout: &[u8], at: usize) -> (u32, u64) {
    let mut value = JUNK_BYTES;
    // SAFETY: the function reads the layout and writes one number, both ours for the call.
    let code = unsafe {
        sw_read_step(
            device,
            range.first,
            range.count,
            layout.as_ptr(),
            layout.len(),
            at,
            &mut value,
        )
    };
    (code, value)
}

/// Does a layout's steps on a memory; the code and its value.
pub fn apply(device: u32, range: FrameRange, layout: &[u8], memory: &mut [u8]) -> (u32, u64) {
    let mut value = JUNK_BYTES;
    // SAFETY: the function reads the layout, and writes within the memory and to one number,
    // all ours for the call.
    let code = unsafe {
        sw_apply(
            device,
            range.first,
            range.count,
            layout.as_ptr(),
            layout.len(),
            memory.as_mut_ptr(),
            memory.len(),
            &mut value,
        )
    };
    (code, value)
}

/// Writes a layout's stream to the output's first bytes; the code and its value.
pub fn compile(device: u32, range: FrameRange, layout: &[u8], output: &mut [u8]) -> (u32, u64) {
    let mut value = JUNK_BYTES;
    // SAFETY: the function reads the layout, and writes within the output and to one number,
    // all ours for the call.
    let code = unsafe {
        sw_compile(
            device,
            range.first,
            range.count,
            layout.as_ptr(),
            layout.len(),
            output.as_mut_ptr(),
            output.len(),
            &mut value,
        )
    };
    (code, value)
}

/// Compiles a layout for the record's own device and loads the stream; the code and its value.
pub fn reconfigure(
    record: &mut [u8],
    memory: &mut [u8],
    range: FrameRange,
    layout: &[u8],
    output: &mut [u8],
) -> (u32, u64) {
    let mut value = JUNK_BYTES;
    // SAFETY: the function reads the layout, and writes within the three slices and to one number,
    // all ours for the call.
    let code = unsafe {
        sw_reconfigure(
            record.as_mut_ptr(),
            record.len(),
            memory.as_mut_ptr(),
            memory.len(),
            range.first,
            range.count,
            layout.as_ptr(),
            layout.len(),
            output.as_mut_ptr(),
            output.len(),
            &mut value,
        )
    };
    (code, value)
}

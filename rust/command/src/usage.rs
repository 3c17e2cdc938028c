//! The help texts.

pub const VERSION: &str = concat!("seamwillow ", env!("CARGO_PKG_VERSION"), "\n");

pub const SEAMWILLOW: &str = "\
usage: seamwillow COMMAND [OPTION..] [FILE..]

What will a configuration stream do to a Spartan-3 part, and may it be loaded?

  check STREAM..            one verdict a file, PASS or FAIL, for a part and a range of frames
  explain STREAM            a stream packet by packet
  map STREAM                which frames a stream writes, as a picture
  load STREAM.. -o IMAGE    load on the model of a part and keep its memory
  build LAYOUT -o STREAM    compile a layout for the frames that the desk names
  layout LAYOUT             a layout's steps in words
  parts                     the eight parts
  frame PART N              a frame by its number or its address
  numbers [N]               what a stop or refusal number means

seamwillow COMMAND --help tells more, seamwillow --version the version.
Exit status: 0 well; 1 the answer is no; 2 usage, or a file that cannot be read or written.
";

/// What a command can be told of a place; each takes what those before it take.
#[derive(Clone, Copy, PartialEq, Eq, PartialOrd, Ord)]
pub enum Place {
    Nothing,
    Part,
    /// Frames of the part too.
    Range,
}

/// What `seamwillow COMMAND --help` prints.
pub struct Help {
    pub head: &'static str,
    /// Lines on the options that are the command's own.
    pub options: &'static str,
    pub place: Place,
}

const PART: &str = "  --part PART           XC3S50 to XC3S5000, or 0 to 7
  --desk FILE           the desk's own file: lines `part NAME` and `seat NAME FIRST:COUNT`
";

const RANGE: &str = "  --seat NAME           the frames of a seat of the desk
  --frames FIRST:COUNT  COUNT frames from frame FIRST on
";

const COMMON: &str = "  -q, --quiet           nothing on standard output, the exit status alone
  -h, --help            this text
  -V, --version         the version
";

const FILES: &str = "A file named - is standard input or standard output.
";

impl Help {
    pub fn text(&self) -> String {
        let Self { head, options, .. } = self;
        let (place, files) = match self.place {
            Place::Nothing => (String::new(), ""),
            Place::Part => (PART.to_string(), FILES),
            Place::Range => (format!("{PART}{RANGE}"), FILES),
        };
        format!("usage: seamwillow {head}\n{place}{options}{COMMON}{files}")
    }
}

pub const CHECK: Help = Help {
    head: "check [OPTION..] STREAM..

One verdict a file, PASS or FAIL, on what a part just powered on would do with the stream: a sync
word is met, the part is the desk's, nothing stops, the stream is whole, and a CRC check passes
after the last stored frame. With a range, every stored frame is in it and nothing acts on the
whole part (commands other than NULL, RCRC, WCFG, MFWR, RCFG, DESYNC; words to CTL, MASK, COR, LOUT).
What passes so far is loaded a second time and has to do the same.
Without --part and --desk the part is the one whose IDCODE the stream has. A desk needs a seat or
frames; without any, every frame is taken, and the verdict says so.
",
    options: "  --json                for programs: a list with one object a file
",
    place: Place::Range,
};

pub const EXPLAIN: Help = Help {
    head: "explain [OPTION..] STREAM

The stream packet by packet: where it stands, how many words it has, what it does, which frames
it stores, and which word would have passed a failed CRC check. With a range, frames outside it
are pointed out. Exit status 1 where the stream stops the part or has no sync word.
",
    options: "  --all                 frame data too, word by word
",
    place: Place::Range,
};

pub const MAP: Help = Help {
    head: "map [OPTION..] STREAM
       seamwillow map [OPTION..] --image IMAGE

Which frames a stream writes, or which frames of a memory image are not blank, column by column:
# in the range, ! outside it, o in the range and kept, . other. A desk needs a seat or frames, and
the exit status is the verdict's, as for check.
",
    options: "  --image IMAGE         a memory image in place of a stream
  --svg FILE            the picture as SVG
  --html FILE           one page with the picture, the verdict and a note for each frame
",
    place: Place::Range,
};

pub const LOAD: Help = Help {
    head: "load [OPTION..] STREAM.. -o IMAGE

Loads streams, in turn, on the model of a part that was just powered on, and writes its frame
memory to IMAGE. A stop ends the load; the frames stored before it stay, and IMAGE has them.
Without --part and --desk the part is that of the memory, or else of the first stream with an IDCODE.
",
    options: "  --image IN            begin with this memory, not with zeros
  -o, --output IMAGE    where the memory goes
",
    place: Place::Part,
};

pub const BUILD: Help = Help {
    head: "build [OPTION..] LAYOUT -o STREAM

Compiles a layout with the proved compiler. The part and the frames are the desk's to name, with
--desk and --seat or with --part and --frames. A refused layout writes nothing, and its refusal is
told as by layout.
",
    options: "  -o, --output STREAM   where the stream goes
",
    place: Place::Range,
};

pub const LAYOUT: Help = Help {
    head: "layout [OPTION..] LAYOUT

A layout's steps in words, or its refusal: in which step, what is expected there and what stands
there. Without --part and --desk the part is the one that the layout names; without a range any
frame of it is taken.
",
    options: "",
    place: Place::Range,
};

pub const PARTS: Help = Help {
    head: "parts [--json]

The eight parts: device number, name, IDCODE, words a frame, frames, bytes of frame memory.
",
    options: "  --json                for programs
",
    place: Place::Nothing,
};

pub const FRAME: Help = Help {
    head: "frame [--json] PART NUMBER
       seamwillow frame [--json] PART ADDRESS

A frame of a part by its number (decimal) or by its address (0x and up to eight hexadecimal
digits, or eight digits).
",
    options: "  --json                for programs
",
    place: Place::Nothing,
};

pub const NUMBERS: Help = Help {
    head: "numbers [N]

What the numbers of stops and refusals mean, all of them or N.
",
    options: "",
    place: Place::Nothing,
};

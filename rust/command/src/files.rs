//! Names that are one file: what is read is not written over, and standard input is read once.

use crate::arguments::{Arguments, Flag};
use crate::failure::Failure;
use crate::input::STANDARD_INPUT;
use crate::output::STANDARD_OUTPUT;
use crate::words::seen;
use std::ffi::{OsStr, OsString};
use std::fs::{self, File, Metadata};
use std::io;
use std::os::fd::AsFd;
use std::os::unix::fs::{FileTypeExt, MetadataExt};
use std::path::PathBuf;

/// More links than this one after the other are not followed.
const MOST_LINKS: usize = 16;

/// Refuses to write over what is read, to write one file twice and to read standard input twice.
pub fn judge(arguments: &Arguments) -> Result<(), Failure> {
    let value = |flag| arguments.value(flag);
    let (desk, image) = (value(Flag::Desk), value(Flag::Image));
    let operands = arguments.operands.iter().map(OsString::as_os_str);
    let but_image = operands.chain(desk);
    let inputs = but_image.clone().chain(image);
    let standard = inputs.clone().filter(|path| is_standard_input(path));
    if standard.count() > 1 {
        return Err(Failure::usage("standard input can be read once"));
    }
    // A memory may go back to the file that it came from.
    is_apart(value(Flag::Output), but_image)?;
    let (svg, html) = (value(Flag::Svg), value(Flag::Html));
    is_apart(svg, inputs.clone())?;
    is_apart(html, inputs)?;
    let outputs = svg.zip(html);
    outputs.map_or(Ok(()), |(svg, html)| are_two(svg, html))
}

/// The outputs are not one file.
fn are_two(svg: &OsStr, html: &OsStr) -> Result<(), Failure> {
    let target = Identity::of_output(svg);
    match target.is_some() && target == Identity::of_output(html) {
        true => {
            let name = shown(svg, STANDARD_OUTPUT);
            let words = format!("--svg and --html cannot both go to {name}");
            Err(Failure::usage(words))
        }
        false => Ok(()),
    }
}

/// The output is none of the inputs.
fn is_apart<'a>(
    output: Option<&OsStr>,
    mut inputs: impl Iterator<Item = &'a OsStr>,
) -> Result<(), Failure> {
    let (Some(output), Some(target)) = (output, output.and_then(Identity::of_output)) else {
        return Ok(());
    };
    let is_target = |input: &&OsStr| Identity::of_input(input).as_ref() == Some(&target);
    let Some(input) = inputs.find(is_target) else {
        return Ok(());
    };
    let (output, input) = (shown(output, STANDARD_OUTPUT), shown(input, STANDARD_INPUT));
    let words = format!("the output {output} is also the input {input}");
    Err(Failure::usage(words))
}

fn shown(path: &OsStr, standard: &str) -> String {
    match path == "-" {
        true => standard.to_string(),
        false => seen(&path.to_string_lossy()).to_string(),
    }
}

/// What two names of one file have in common.
#[derive(PartialEq, Eq)]
struct Identity {
    device: u64,
    number: u64,
    /// The name of a file that is not there yet; the numbers are then its folder's.
    name: Option<OsString>,
}

impl Identity {
    fn of_input(path: &OsStr) -> Option<Self> {
        Self::of(path, io::stdin())
    }

    fn of_output(path: &OsStr) -> Option<Self> {
        Self::of(path, io::stdout())
    }

    fn of(path: &OsStr, standard: impl AsFd) -> Option<Self> {
        match path == "-" {
            true => Self::of_file(opened(standard).ok()?),
            false => match fs::metadata(path) {
                Ok(found) => Self::of_file(found),
                Err(_) => Self::to_be(path),
            },
        }
    }

    /// None for a device or a pipe: nothing in it is written over.
    fn of_file(found: Metadata) -> Option<Self> {
        let (device, number) = numbers(&found);
        found.is_file().then_some(Self {
            device,
            number,
            name: None,
        })
    }

    fn to_be(path: &OsStr) -> Option<Self> {
        let target = followed(path).ok()?;
        let folder = fs::metadata(target.with_file_name(".")).ok()?;
        let (device, number) = numbers(&folder);
        let name = Some(target.file_name()?.to_os_string());
        Some(Self {
            device,
            number,
            name,
        })
    }
}

fn numbers(found: &Metadata) -> (u64, u64) {
    (found.dev(), found.ino())
}

fn opened(standard: impl AsFd) -> io::Result<Metadata> {
    File::from(standard.as_fd().try_clone_to_owned()?).metadata()
}

/// Whether a path names what is open as a standard file.
pub fn is_opened_as(path: &OsStr, standard: impl AsFd) -> bool {
    match (fs::metadata(path), opened(standard)) {
        (Ok(named), Ok(opened)) => numbers(&named) == numbers(&opened),
        _ => false,
    }
}

/// Whether a path is `-` or another name of a pipe that is standard input; a file can be read
/// again under its own name.
fn is_standard_input(path: &OsStr) -> bool {
    let is_pipe = || fs::metadata(path).is_ok_and(|it| it.file_type().is_fifo());
    path == "-" || (is_pipe() && is_opened_as(path, io::stdin()))
}

/// The file that a link to nothing leads to; a path that is no link is that file itself.
pub fn followed(path: &OsStr) -> io::Result<PathBuf> {
    let mut target = PathBuf::from(path);
    for _ in 0..MOST_LINKS {
        match fs::read_link(&target) {
            Ok(next) => target = target.with_file_name(next),
            Err(_) => return Ok(target),
        }
    }
    Err(io::Error::other("too many links one after the other"))
}

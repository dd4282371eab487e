//! Files of cases: images, each with a request, and what each case must give. A case is the image's length, the image,
//! then call, id, a, b, c, d; its answer is 0 for sound or 1, the report's numbers, and the image after. Every number
//! but the image's own bytes takes four bytes, low byte first.

mod due;
mod maker;
mod tables;

use crate::image;
use crate::image::layout::word;
use crate::sound;
use crate::table::{Report, Request, REPORT_NUMBERS, REQUEST_NUMBERS};
pub(crate) use due::Due;
pub use maker::Maker;
use std::fmt;
use std::io::{self, BufRead, Read, Write};
pub(crate) use tables::Tables;

pub const NUMBER_BYTES: usize = 4;
pub const REQUEST_BYTES: usize = NUMBER_BYTES * REQUEST_NUMBERS;
/// Of an answer without its image.
pub const ANSWER_BYTES: usize = NUMBER_BYTES * (1 + REPORT_NUMBERS);

/// How many cases there were.
#[derive(Clone, Copy, PartialEq, Eq, Debug, Default)]
pub struct Summary {
    pub cases: u64,
    pub sound: u64,
    pub unsound: u64,
}

impl Summary {
    fn count(&mut self, sound: bool) {
        self.cases += 1;
        if sound {
            self.sound += 1;
        } else {
            self.unsound += 1;
        }
    }
}

impl fmt::Display for Summary {
    fn fmt(&self, formatter: &mut fmt::Formatter<'_>) -> fmt::Result {
        write!(
            formatter,
            "{} cases: {} sound, {} unsound",
            self.cases, self.sound, self.unsound
        )
    }
}

/// A file of cases of images with rows, the same for the same seed.
pub fn cases(seed: u64, count: u32, output: &mut dyn Write) -> io::Result<Summary> {
    let mut maker = Maker::new(seed);
    write_cases(count, || maker.case(), sound::is_sound, output)
}

/// The answers to such a file.
pub fn answers(input: &mut dyn BufRead, output: &mut dyn Write) -> io::Result<Summary> {
    write_answers(input, sound::is_sound, image::call, output)
}

/// A file of cases in one layout.
pub fn write_cases(
    count: u32,
    mut make: impl FnMut() -> (Vec<u8>, Request),
    is_sound: fn(&[u8]) -> bool,
    output: &mut dyn Write,
) -> io::Result<Summary> {
    let mut summary = Summary::default();
    for _ in 0..count {
        let (image, request) = make();
        summary.count(is_sound(&image));
        write_case(output, &image, &request)?;
    }
    Ok(summary)
}

/// The answers to a file of cases, which is read as it goes. A file that isn't one is an error that says where.
pub fn write_answers(
    input: &mut dyn BufRead,
    is_sound: fn(&[u8]) -> bool,
    call: fn(&mut [u8], &Request) -> Report,
    output: &mut dyn Write,
) -> io::Result<Summary> {
    let mut file = File {
        input,
        case: 0,
        offset: 0,
    };
    let mut summary = Summary::default();
    while let Some(length) = file.next_case()? {
        let mut image = file.part("image", length)?;
        let request = file.request()?;
        let sound = is_sound(&image);
        let report = call(&mut image, &request);
        write_answer(output, sound, &report, &image)?;
        summary.count(sound);
    }
    Ok(summary)
}

pub fn write_case(output: &mut dyn Write, image: &[u8], request: &Request) -> io::Result<()> {
    write_number(output, image.len() as u32)?;
    output.write_all(image)?;
    for number in request.numbers() {
        write_number(output, number)?;
    }
    Ok(())
}

fn write_answer(output: &mut dyn Write, sound: bool, report: &Report, after: &[u8]) -> io::Result<()> {
    write_number(output, if sound { 0 } else { 1 })?;
    for number in report.numbers() {
        write_number(output, number)?;
    }
    output.write_all(after)
}

fn write_number(output: &mut dyn Write, number: u32) -> io::Result<()> {
    output.write_all(&number.to_le_bytes())
}

/// A file of cases being read: the number of the case, from 1, and the bytes read so far.
struct File<'a> {
    input: &'a mut dyn BufRead,
    case: u64,
    offset: u64,
}

impl File<'_> {
    /// The length of the next case's image; None at the end of the file.
    fn next_case(&mut self) -> io::Result<Option<u32>> {
        if self.input.fill_buf()?.is_empty() {
            return Ok(None);
        }
        self.case += 1;
        self.part("length", NUMBER_BYTES as u32)
            .map(|bytes| Some(word(&bytes, 0)))
    }

    fn request(&mut self) -> io::Result<Request> {
        let bytes = self.part("request", REQUEST_BYTES as u32)?;
        let mut numbers = [0; REQUEST_NUMBERS];
        for (place, number) in numbers.iter_mut().enumerate() {
            *number = word(&bytes, NUMBER_BYTES * place);
        }
        Ok(Request::of_numbers(numbers))
    }

    /// So many bytes of the case, or an error that names the part in which the file ends. No more memory is taken
    /// than the file has bytes, whatever length it claims.
    fn part(&mut self, name: &str, length: u32) -> io::Result<Vec<u8>> {
        let mut bytes = Vec::new();
        self.input.take(u64::from(length)).read_to_end(&mut bytes)?;
        self.offset += bytes.len() as u64;
        if bytes.len() == length as usize {
            return Ok(bytes);
        }
        let message = format!(
            "not a file of cases: it ends at byte {} within the {} of case {}",
            self.offset, name, self.case
        );
        Err(io::Error::new(io::ErrorKind::InvalidData, message))
    }
}

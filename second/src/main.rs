//! The command line: which tool runs, over which file, and what a failure says. Nothing here knows a rule of the
//! kernel. Status 0 is done; 1 a file that can't be read or written, or a coverage with gaps; 2 a command line that
//! isn't understood.

use second::cases::Summary;
use second::table::Table;
use second::{cases, coverage, generate, image, links, replay, sound};
use std::env;
use std::ffi::OsString;
use std::fs::File;
use std::io::{self, BufRead, BufReader, BufWriter, Read, Write};
use std::path::Path;
use std::process::ExitCode;
use std::str::FromStr;

const HELP: &str = "\
second: a plain kernel table, to compare another kernel with

  second replay [FILE]                                 one line per record: answer, chosen, clock, wake-ups
  second generate --seed S --records N --profile P     a replay file, to standard output
  second profiles                                      the names of the profiles, one a line
  second coverage                                      how often each call gives each answer over the fixed seeds
  second image fresh                                   the image of a fresh table, with rows, to standard output
  second image check FILE                              `sound`, or the broken clauses, one a line
  second image after FILE                              the image after the replay file FILE
  second image cases --seed S --count N                a file of cases: images, each with a request
  second image answers FILE                            what each case of such a file must give
  second links fresh                                   the same five for images with links
  second links check FILE
  second links after FILE
  second links cases --seed S --count N
  second links answers FILE

Without FILE, replay reads standard input.

Examples

  second generate --seed 1 --records 1000 --profile mixed > calls.replay
  second replay calls.replay
  second image after calls.replay > table.image
  second image check table.image
  second image cases --seed 7 --count 500 > cases.bin
  second image answers cases.bin > answers.bin
  second links cases --seed 7 --count 500 > links.bin
";

enum Failure {
    Usage(String),
    File(String),
    Incomplete,
    Output(io::Error),
}

type Done = Result<(), Failure>;

fn main() -> ExitCode {
    let arguments: Vec<OsString> = env::args_os().skip(1).collect();
    let mut output = BufWriter::new(io::stdout().lock());
    let done = run(&arguments, &mut output);
    let flushed = output.flush().map_err(Failure::Output);
    match done.and(flushed) {
        Ok(()) => ExitCode::SUCCESS,
        Err(Failure::Usage(message)) => {
            eprintln!("second: {}\nsecond --help tells how it is used", message);
            ExitCode::from(2)
        }
        Err(Failure::File(message)) => {
            eprintln!("second: {}", message);
            ExitCode::from(1)
        }
        Err(Failure::Incomplete) => {
            eprintln!("second: the coverage has gaps, which its last lines name");
            ExitCode::from(1)
        }
        Err(Failure::Output(error)) if error.kind() == io::ErrorKind::BrokenPipe => ExitCode::SUCCESS,
        Err(Failure::Output(error)) => {
            eprintln!("second: cannot write to standard output: {}", error);
            ExitCode::from(1)
        }
    }
}

fn run(arguments: &[OsString], output: &mut dyn Write) -> Done {
    let wants_help = arguments
        .iter()
        .any(|argument| argument == "--help" || argument == "-h");
    if arguments.is_empty() || wants_help {
        return help(output);
    }
    let rest = &arguments[1..];
    match arguments[0].to_string_lossy().as_ref() {
        "replay" => replay_command(rest, output),
        "generate" => generate_command(rest, output),
        "profiles" => profiles_command(rest, output),
        "coverage" => coverage_command(rest, output),
        "image" => WITH_ROWS.command(rest, output),
        "links" => WITH_LINKS.command(rest, output),
        other => usage(format!("unknown command `{}`", other)),
    }
}

fn help(output: &mut dyn Write) -> Done {
    output.write_all(HELP.as_bytes()).map_err(Failure::Output)
}

fn usage(message: String) -> Done {
    Err(Failure::Usage(message))
}

fn replay_command(arguments: &[OsString], output: &mut dyn Write) -> Done {
    if arguments.is_empty() {
        return replay_from(&mut io::stdin().lock(), "standard input", output).map(drop);
    }
    let path = only_file("replay", arguments)?;
    replay_from(&mut open(path)?, &path.display().to_string(), output).map(drop)
}

fn generate_command(arguments: &[OsString], output: &mut dyn Write) -> Done {
    let values = options("generate", ["--seed", "--records", "--profile"], arguments)?;
    let seed: u64 = number("--seed", &values[0])?;
    let records: u32 = number("--records", &values[1])?;
    match generate::Profile::from_name(&values[2]) {
        Some(profile) => output
            .write_all(&generate::file(profile, seed, records))
            .map_err(Failure::Output),
        None => usage(format!("unknown profile `{}`", values[2])),
    }
}

fn profiles_command(arguments: &[OsString], output: &mut dyn Write) -> Done {
    nothing_more("profiles", arguments)?;
    for profile in &generate::Profile::ALL {
        writeln!(output, "{}", profile.name()).map_err(Failure::Output)?;
    }
    Ok(())
}

fn coverage_command(arguments: &[OsString], output: &mut dyn Write) -> Done {
    nothing_more("coverage", arguments)?;
    let coverage = coverage::run();
    coverage.write(output).map_err(Failure::Output)?;
    if coverage.complete() {
        Ok(())
    } else {
        Err(Failure::Incomplete)
    }
}

/// The commands on the images of one layout.
struct Layout {
    word: &'static str,
    write: fn(&Table) -> Vec<u8>,
    broken: fn(&[u8]) -> Vec<&'static str>,
    cases: fn(u64, u32, &mut dyn Write) -> io::Result<Summary>,
    answers: fn(&mut dyn BufRead, &mut dyn Write) -> io::Result<Summary>,
}

const WITH_ROWS: Layout = Layout {
    word: "image",
    write: |table| image::write(table).to_vec(),
    broken: |bytes| sound::broken(bytes).iter().map(|clause| clause.name()).collect(),
    cases: cases::cases,
    answers: cases::answers,
};

const WITH_LINKS: Layout = Layout {
    word: "links",
    write: |table| links::write(table).to_vec(),
    broken: |bytes| links::sound::broken(bytes).iter().map(|clause| clause.name()).collect(),
    cases: links::cases::cases,
    answers: links::cases::answers,
};

impl Layout {
    fn command(&self, arguments: &[OsString], output: &mut dyn Write) -> Done {
        let rest = arguments.get(1..).unwrap_or(&[]);
        let word = match arguments.first() {
            Some(word) => word.to_string_lossy(),
            None => {
                return usage(format!(
                    "`{}` needs one of fresh, check, after, cases, answers",
                    self.word
                ))
            }
        };
        let command = format!("{} {}", self.word, word);
        match word.as_ref() {
            "fresh" => {
                nothing_more(&command, rest)?;
                self.write_image(&Table::fresh(), output)
            }
            "check" => self.check(only_file(&command, rest)?, output),
            "after" => {
                let path = only_file(&command, rest)?;
                let table = replay_from(&mut open(path)?, &path.display().to_string(), &mut io::sink())?;
                self.write_image(&table, output)
            }
            "cases" => self.make_cases(&command, rest, output),
            "answers" => self.answer_cases(only_file(&command, rest)?, output),
            _ => usage(format!("unknown command `{}`", command)),
        }
    }

    fn write_image(&self, table: &Table, output: &mut dyn Write) -> Done {
        output.write_all(&(self.write)(table)).map_err(Failure::Output)
    }

    fn check(&self, path: &Path, output: &mut dyn Write) -> Done {
        let mut image = Vec::new();
        open(path)?
            .read_to_end(&mut image)
            .map_err(|error| cannot_read(path, error))?;
        let broken = (self.broken)(&image);
        if broken.is_empty() {
            writeln!(output, "sound").map_err(Failure::Output)?;
        }
        for name in broken {
            writeln!(output, "{}", name).map_err(Failure::Output)?;
        }
        Ok(())
    }

    /// The summary goes to standard error: the output is the file itself.
    fn make_cases(&self, command: &str, arguments: &[OsString], output: &mut dyn Write) -> Done {
        let values = options(command, ["--seed", "--count"], arguments)?;
        let seed: u64 = number("--seed", &values[0])?;
        let count: u32 = number("--count", &values[1])?;
        let summary = (self.cases)(seed, count, output).map_err(Failure::Output)?;
        eprintln!("{}", summary);
        Ok(())
    }

    fn answer_cases(&self, path: &Path, output: &mut dyn Write) -> Done {
        let summary = (self.answers)(&mut open(path)?, output)
            .map_err(|error| of_input_or_output("answering", &path.display().to_string(), error))?;
        eprintln!("{}", summary);
        Ok(())
    }
}

fn replay_from(input: &mut dyn BufRead, name: &str, output: &mut dyn Write) -> Result<Table, Failure> {
    replay::replay(input, output).map_err(|error| of_input_or_output("replaying", name, error))
}

/// A file to read. The first bytes are asked for at once, since a directory opens and fails only then.
fn open(path: &Path) -> Result<BufReader<File>, Failure> {
    let file = File::open(path).map_err(|error| cannot_read(path, error))?;
    let mut input = BufReader::new(file);
    input.fill_buf().map_err(|error| cannot_read(path, error))?;
    Ok(input)
}

fn cannot_read(path: &Path, error: io::Error) -> Failure {
    Failure::File(format!("cannot read {}: {}", path.display(), error))
}

/// An error in the midst of copying from a file to the output: only a closed pipe is surely the output's.
fn of_input_or_output(doing: &str, name: &str, error: io::Error) -> Failure {
    if error.kind() == io::ErrorKind::BrokenPipe {
        Failure::Output(error)
    } else {
        Failure::File(format!("{} {}: {}", doing, name, error))
    }
}

fn only_file<'a>(command: &str, arguments: &'a [OsString]) -> Result<&'a Path, Failure> {
    let first = arguments
        .first()
        .ok_or_else(|| Failure::Usage(format!("`{}` needs a file", command)))?;
    if first.to_string_lossy().starts_with('-') {
        return Err(Failure::Usage(format!(
            "`{}` knows no option `{}`",
            command,
            first.to_string_lossy()
        )));
    }
    nothing_more(command, &arguments[1..])?;
    Ok(Path::new(first))
}

fn nothing_more(command: &str, arguments: &[OsString]) -> Done {
    match arguments.first() {
        None => Ok(()),
        Some(extra) => usage(format!(
            "`{}` takes no further argument `{}`",
            command,
            extra.to_string_lossy()
        )),
    }
}

/// The values of a command's options, each of which must be given exactly once, in the order of `names`.
fn options<const N: usize>(command: &str, names: [&str; N], arguments: &[OsString]) -> Result<[String; N], Failure> {
    let mut values: [Option<String>; N] = [(); N].map(|()| None);
    let mut words = arguments.iter().map(|argument| argument.to_string_lossy().into_owned());
    while let Some(name) = words.next() {
        let known = names.iter().position(|known| *known == name);
        let place = known.ok_or_else(|| Failure::Usage(format!("`{}` knows no argument `{}`", command, name)))?;
        let value = words
            .next()
            .ok_or_else(|| Failure::Usage(format!("`{}` needs a value", name)))?;
        if values[place].replace(value).is_some() {
            return Err(Failure::Usage(format!("`{}` is given twice", name)));
        }
    }
    if let Some(missing) = values.iter().position(Option::is_none) {
        return Err(Failure::Usage(format!("`{}` needs `{}`", command, names[missing])));
    }
    Ok(values.map(Option::unwrap_or_default))
}

fn number<T: FromStr>(name: &str, value: &str) -> Result<T, Failure> {
    value
        .parse()
        .map_err(|_| Failure::Usage(format!("`{}` needs a number that fits, not `{}`", name, value)))
}

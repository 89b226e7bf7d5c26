//! The command line: what is wished for.

mod help;
mod options;

use std::ffi::OsString;
use std::path::{Path, PathBuf};

use card::{Form, Kind, State};

use crate::body::Part;
use crate::file_path::FilePath;
use crate::rule::Written;
use crate::Failure;

pub use help::HELP;
use options::Options;

/// What can be done.
const VERBS: &str = "run, show, read, write, export, new or rule";
/// The name that means standard input, or standard output.
pub const STREAM: &str = "-";

const CARD: &[&str] = &["--version", "--slots", "--total", "--rule"];
const STATE: &[&str] = &["--messaging", "--external", "--user", "--channels"];

/// A fresh card that is wished for.
#[derive(Debug, PartialEq, Eq)]
pub struct Fresh {
    pub kind: Kind,
    pub slots: usize,
    pub total: u32,
    pub rule: Written,
}

impl Fresh {
    /// The card in a few words.
    pub fn describe(&self) -> String {
        let Fresh { kind, slots, total, rule } = self;
        let closed = match rule.rule().form {
            Form::Compact | Form::Expanded => "",
            Form::Referred => {
                " (allows nothing: no file is there to keep it, and none can be made)"
            }
        };
        let (version, rule) = (kind.version, rule.row());
        format!(
            "fresh card of version {version}, {slots} slots, root total {total}, root rule \
             {rule}{closed}"
        )
    }

    /// The options that ask for it.
    pub fn options(&self) -> String {
        let Fresh { kind, slots, total, rule } = self;
        let (version, rule) = (kind.version, rule.row());
        format!("--version {version} --slots {slots} --total {total} --rule {rule}")
    }
}

/// Where what was read goes.
#[derive(Debug, PartialEq, Eq)]
pub enum Output {
    /// To standard output, for people.
    People,
    /// To standard output as it is.
    Stream,
    /// Into a file, in the place of one that is there if that is told.
    File { name: PathBuf, replace: bool },
}

/// What the command line asks for.
#[derive(Debug, PartialEq, Eq)]
pub enum Wish {
    Help,
    Run { script: PathBuf, image: Option<PathBuf>, fresh: Fresh, state: State },
    Show { image: PathBuf },
    Read { image: PathBuf, path: FilePath, part: Part, output: Output, state: State },
    Write { image: PathBuf, path: FilePath, part: Part, input: PathBuf, state: State },
    Export { image: PathBuf },
    New { image: PathBuf, fresh: Fresh, replace: bool },
    Rule { rule: Vec<u8> },
}

/// Reads the arguments, the program's name not among them.
pub fn read(arguments: &[OsString]) -> Result<Wish, Failure> {
    wish(arguments).map_err(Failure::Usage)
}

fn wish(arguments: &[OsString]) -> Result<Wish, String> {
    let is_help = |word: &OsString| word == "--help" || word == "-h";
    let Some((verb, rest)) = arguments.split_first() else {
        return Err(format!("say what to do: {VERBS}"));
    };
    if arguments.iter().take_while(|word| *word != "--").any(is_help) || verb == "help" {
        return Ok(Wish::Help);
    }
    match verb.to_str() {
        Some("run") => run(rest),
        Some("show") => Ok(Wish::Show { image: only_image(rest)? }),
        Some("read") => read_body(rest),
        Some("write") => write_body(rest),
        Some("export") => Ok(Wish::Export { image: only_image(rest)? }),
        Some("new") => {
            let mut options = Options::read(rest, &[CARD, &["--force"]])?;
            let [name] = options.files(["an IMAGE"])?;
            Ok(Wish::New { image: image(name)?, fresh: options.fresh()?, replace: options.force })
        }
        Some("rule") => Ok(Wish::Rule { rule: Options::read(rest, &[])?.all_hex()? }),
        _ => Err(format!("{} is nothing to do: {VERBS}", verb.to_string_lossy())),
    }
}

fn run(words: &[OsString]) -> Result<Wish, String> {
    let mut options = Options::read(words, &[&["--image"], CARD, STATE])?;
    let [script] = options.files(["a SCRIPT"])?;
    let image = options.take("--image").map(|name| image(name.into())).transpose()?;
    if let (Some(_), Some(name)) = (&image, options.first_of(CARD)) {
        return Err(format!("{name} is for a fresh card: leave it or --image out"));
    }
    Ok(Wish::Run { script, image, fresh: options.fresh()?, state: options.state()? })
}

fn read_body(words: &[OsString]) -> Result<Wish, String> {
    let own = ["--from", "--count", "--record", "--output", "--force"];
    let mut options = Options::read(words, &[&own, STATE])?;
    let [name, path] = options.files(["an IMAGE", "the PATH of a file"])?;
    let output = match options.take("--output").map(PathBuf::from) {
        Some(name) if name == Path::new(STREAM) => Output::Stream,
        Some(name) => Output::File { name, replace: options.force },
        None => Output::People,
    };
    if options.force && !matches!(output, Output::File { .. }) {
        return Err("--force is for the file of --output".to_string());
    }
    let (image, path) = (image(name)?, FilePath::read(&path.to_string_lossy())?);
    Ok(Wish::Read { image, path, part: part(&mut options)?, output, state: options.state()? })
}

fn write_body(words: &[OsString]) -> Result<Wish, String> {
    let mut options = Options::read(words, &[&["--from", "--record"], STATE])?;
    let what = ["an IMAGE", "the PATH of a file", "the FILE with the bytes"];
    let [name, path, input] = options.files(what)?;
    let (image, path) = (image(name)?, FilePath::read(&path.to_string_lossy())?);
    Ok(Wish::Write { image, path, part: part(&mut options)?, input, state: options.state()? })
}

/// The part of a body that is meant.
fn part(options: &mut Options) -> Result<Part, String> {
    let number = |text: &str| text.parse().ok();
    let from = options.given("--from", "the number of a byte", number)?;
    let many = |text: &str| text.parse().ok().filter(|many| *many > 0);
    let count = options.given("--count", "a number of bytes, at least 1", many)?;
    let record = |text: &str| text.parse().ok();
    match options.given("--record", "the number of a record, at most 255", record)? {
        Some(_) if from.is_some() || count.is_some() => {
            Err("--record is for a whole record: leave it, or --from and --count, out".to_string())
        }
        Some(record) => Ok(Part::Record(record)),
        None if from.is_none() && count.is_none() => Ok(Part::Whole),
        None => Ok(Part::Bytes { from: from.unwrap_or(0), count }),
    }
}

/// The image that a command line has, and nothing else.
fn only_image(words: &[OsString]) -> Result<PathBuf, String> {
    let [name] = Options::read(words, &[])?.files(["an IMAGE"])?;
    image(name)
}

/// An image is kept in a file, and a stream is none.
fn image(name: PathBuf) -> Result<PathBuf, String> {
    if name == Path::new(STREAM) {
        return Err("- is standard input, and an IMAGE is a file: ./- is the file -".to_string());
    }
    Ok(name)
}

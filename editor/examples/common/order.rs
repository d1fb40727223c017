//! What is to be done, by the words behind the program's name.

use std::{
    ffi::OsString,
    path::{Path, PathBuf},
};

use rrufthim::{
    Comments, Options, Widths,
    limits::{MAX_LINE_WIDTH, MIN_LINE_WIDTH},
    settings::{Settings, SettingsError},
};

use super::shown::shown;

/// A program as its users know it.
pub struct Program {
    pub name: &'static str,
    /// What its last line counts, one of them.
    pub counted: &'static str,
    /// What it looks for in folders.
    pub sought: Sought,
    pub usage: &'static str,
    /// What `--help` says besides.
    pub manual: &'static str,
    /// The options that it takes, besides `--help`.
    pub takes: &'static [&'static str],
    /// What is wrong with its paths, if anything is.
    pub fault_in: fn(&[PathBuf]) -> Option<String>,
}

/// The files that a program looks for in folders.
pub struct Sought {
    /// How their names end.
    pub extension: &'static str,
    /// What one of them is called.
    pub name: &'static str,
    /// Whether a file that is named may have any name.
    pub any_named: bool,
}

impl Sought {
    pub const FRAMES: Sought = Sought {
        extension: "frame",
        name: "frame",
        any_named: false,
    };
}

impl Program {
    pub fn help(&self) -> String {
        format!("{}\n\n{}", self.usage, self.manual)
    }

    /// What is said of words that aren't understood.
    pub fn fault(&self, why: &str) -> String {
        let (name, usage) = (self.name, self.usage);
        format!("{name}: {why}\n{usage}\n{name} --help says more")
    }
}

/// What is to be done.
#[derive(Debug, Default)]
pub struct Order {
    pub check: bool,
    /// With a check alone.
    pub diff: bool,
    pub force: bool,
    /// Whether files of settings are passed over.
    pub alone: bool,
    /// What the words choose, which goes before all settings.
    pub chosen: Settings,
    pub form: Form,
    pub paths: Vec<PathBuf>,
}

/// What the report writes.
#[derive(Clone, Copy, Debug, Default, PartialEq, Eq)]
pub enum Form {
    #[default]
    Table,
    Csv,
    /// What the program `report` reads.
    Feed,
}

/// Why nothing is to be done.
#[derive(Debug)]
pub enum Stop {
    Help,
    Fault(String),
}

impl Order {
    pub fn read(
        program: &Program,
        mut words: impl Iterator<Item = OsString>,
    ) -> Result<Self, Stop> {
        let mut order = Order::default();
        while let Some(word) = words.next() {
            if word == "--" {
                order.paths.extend(words.by_ref().map(PathBuf::from));
            } else if word.as_encoded_bytes().starts_with(b"-") {
                order.choose(program, &word, &mut words)?;
            } else {
                order.paths.push(word.into());
            }
        }
        match (program.fault_in)(&order.paths) {
            Some(why) => Err(Stop::Fault(why)),
            None => Ok(order),
        }
    }

    /// What a file is formatted by: what the words choose, else what the
    /// settings of its folder say, else the default.
    pub fn options(&self, file: &Path) -> Result<Options, SettingsError> {
        let found = match self.alone {
            true => Settings::default(),
            false => Settings::for_file(file)?,
        };
        Ok(self.chosen.clone().over(found).options())
    }

    fn choose(
        &mut self,
        program: &Program,
        option: &OsString,
        words: &mut impl Iterator<Item = OsString>,
    ) -> Result<(), Stop> {
        let taken =
            |word: &&str| *word == "--help" || program.takes.contains(word);
        match option.to_str().filter(taken) {
            Some("--check") => self.check = true,
            Some("--diff") => (self.check, self.diff) = (true, true),
            Some("--force") => self.force = true,
            Some("--no-settings") => self.alone = true,
            Some("--as-roto") => {
                self.chosen.comments = Some(Comments::AsRoto)
            }
            Some("--width") => self.chosen.width = Some(width(words.next())?),
            Some("--unicode") => {
                self.chosen.widths = Some(edition(words.next())?);
            }
            Some("--csv") => self.form = Form::Csv,
            Some("--feed") => self.form = Form::Feed,
            Some("--help") => return Err(Stop::Help),
            _ => {
                let option = shown(option.as_ref());
                let why = format!("{option} is no option");
                return Err(Stop::Fault(why));
            }
        }
        Ok(())
    }
}

fn width(word: Option<OsString>) -> Result<usize, Stop> {
    let widths = MIN_LINE_WIDTH..=MAX_LINE_WIDTH;
    let number = word.as_ref().and_then(|word| word.to_str()?.parse().ok());
    number
        .filter(|width| widths.contains(width))
        .ok_or_else(|| {
            let (least, most) = (widths.start(), widths.end());
            let taken =
                format!("--width takes a number from {least} to {most}");
            other(&taken, word)
        })
}

fn edition(word: Option<OsString>) -> Result<Widths, Stop> {
    match word.as_ref().and_then(|word| word.to_str()) {
        Some("15.1") => Ok(Widths::Unicode15_1),
        Some("16.0") => Ok(Widths::Unicode16_0),
        _ => Err(other("--unicode takes an edition, 15.1 or 16.0", word)),
    }
}

/// Another word than those that an option takes.
fn other(taken: &str, word: Option<OsString>) -> Stop {
    let given = match word {
        Some(word) => format!("not {}", shown(word.as_ref())),
        None => "and none follows".into(),
    };
    Stop::Fault(format!("{taken}, {given}"))
}

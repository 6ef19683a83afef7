//! Arguments.

use crate::help;
use std::ffi::OsString;

#[derive(Clone, Copy, PartialEq, Debug)]
pub enum Command {
    Show,
    Judge,
    Rows,
    Mask,
    Clean,
    Edit,
    Build,
}

impl Command {
    fn named(word: &str) -> Option<Command> {
        ALL.into_iter().find(|c| c.name() == word)
    }

    pub fn name(self) -> &'static str {
        match self {
            Command::Show => "show",
            Command::Judge => "judge",
            Command::Rows => "rows",
            Command::Mask => "mask",
            Command::Clean => "clean",
            Command::Edit => "edit",
            Command::Build => "build",
        }
    }

    /// Whether it lists messages, any number of them.
    pub fn lists(self) -> bool {
        matches!(self, Command::Show | Command::Judge | Command::Rows)
    }

    /// Whether it writes copies.
    pub fn copies(self) -> bool {
        matches!(self, Command::Mask | Command::Clean)
    }

    /// What is done to a message that has a copy.
    pub fn done(self) -> &'static str {
        match self {
            Command::Clean => "cleaned",
            Command::Mask => "masked",
            Command::Edit => "edited",
            Command::Build => "built",
            Command::Judge | Command::Show | Command::Rows => "shown",
        }
    }
}

const ALL: [Command; 7] = [Command::Show, Command::Judge, Command::Rows, Command::Mask, Command::Clean, Command::Edit, Command::Build];

#[derive(Clone, Copy, PartialEq, Debug)]
pub enum Form {
    Page,
    Json,
    Csv,
}

#[derive(Debug)]
pub struct Args {
    pub command: Command,
    pub kind: u32,
    pub kind_name: &'static str,
    pub files: Vec<OsString>,
    pub right: bool,
    pub form: Form,
    pub hex: bool,
    pub out: Option<OsString>,
    pub port: u16,
    pub message: Option<usize>,
    /// values whole, however long
    pub long: bool,
}

/// What is to be done instead.
pub enum Instead {
    Say(String),
    Refuse(String),
}

fn refuse<T>(why: impl Into<String>) -> Result<T, Instead> {
    Err(Instead::Refuse(why.into()))
}

/// An interface's number and name.
pub fn kind_of(word: &str) -> Option<(u32, &'static str)> {
    match word.to_ascii_uppercase().as_str() {
        "S11" => Some((1, "S11")),
        "S4" => Some((2, "S4")),
        "S5/S8" | "S5S8" | "S5" | "S8" => Some((3, "S5/S8")),
        "S10" => Some((4, "S10")),
        _ => None,
    }
}

fn help_on(command: Command) -> &'static str {
    match command {
        Command::Show => help::SHOW,
        Command::Judge => help::JUDGE,
        Command::Rows => help::ROWS,
        Command::Mask => help::MASK,
        Command::Clean => help::CLEAN,
        Command::Edit => help::EDIT,
        Command::Build => help::BUILD,
    }
}

/// The edition that the rule book says it is.
fn edition() -> &'static str {
    include_str!("../../docs/RULES.md").lines().find(|l| l.starts_with("Edition ")).unwrap_or("Edition unknown")
}

pub fn version() -> String {
    format!(
        "wok {}\nrules: docs/RULES.md of Wokshimmer, after 3GPP TS 29.274 (GTPv2-C); verdicts, tables, counts of rows, copies, what is built and pages are proved\n{}\n",
        env!("CARGO_PKG_VERSION"),
        edition()
    )
}

pub fn parse(words: Vec<OsString>) -> Result<Args, Instead> {
    let mut words = words.into_iter();
    let first = words.next().unwrap_or_default();
    let command = match (first.to_str().unwrap_or(""), first.to_str().and_then(Command::named)) {
        (_, Some(command)) => command,
        ("-h" | "--help" | "help", _) => return Err(Instead::Say(help::ALL.into())),
        ("--version", _) => return Err(Instead::Say(version())),
        ("", _) => return refuse("no command"),
        (other, _) => return refuse(format!("no command '{other}'")),
    };
    let mut args = Args {
        command,
        kind: 0,
        kind_name: "",
        files: vec![],
        right: false,
        form: Form::Page,
        hex: false,
        out: None,
        port: 2123,
        message: None,
        long: false,
    };
    let (mut plain, mut operands) = (false, vec![]);
    while let Some(word) = words.next() {
        let text = word.to_str().unwrap_or("").to_owned();
        if plain || text == "-" || !text.starts_with('-') && !word.as_encoded_bytes().starts_with(b"-") {
            operands.push(word);
        } else if text == "--" {
            plain = true;
        } else if text == "--help" || text == "-h" {
            return Err(Instead::Say(help_on(command).into()));
        } else {
            option(&mut args, &text, &mut words)?;
        }
    }
    operated(args, operands)
}

/// Takes an option, and its value if it has one.
fn option(args: &mut Args, text: &str, words: &mut dyn Iterator<Item = OsString>) -> Result<(), Instead> {
    let (name, given) = match text.split_once('=') {
        Some((name, value)) => (name, Some(OsString::from(value))),
        None => (text, None),
    };
    let takes = ["-o", "--port", "--message"].contains(&name);
    if given.is_some() && !takes {
        return refuse(format!("{name} takes no value"));
    }
    let mut value = || given.clone().or_else(|| words.next()).ok_or(Instead::Refuse(format!("{name} wants a value")));
    match (args.command, name) {
        (Command::Show | Command::Edit, "--subscriber") => args.right = true,
        (Command::Show, "--long") => args.long = true,
        (Command::Show, "--json") => args.form = Form::Json,
        (Command::Show, "--csv") => args.form = Form::Csv,
        (Command::Mask | Command::Clean | Command::Build, "--hex") => args.hex = true,
        (Command::Mask | Command::Clean | Command::Edit | Command::Build, "-o") => args.out = Some(value()?),
        (Command::Build, _) => return refuse(format!("no option '{name}' here")),
        (_, "--port") => args.port = number(name, value()?)?,
        (_, "--message") => args.message = Some(number(name, value()?)?),
        _ => return refuse(format!("no option '{name}' here")),
    }
    Ok(())
}

fn number<T: std::str::FromStr + PartialEq + From<u8>>(name: &str, value: OsString) -> Result<T, Instead> {
    match value.to_str().and_then(|v| v.parse().ok()) {
        Some(n) if n != T::from(0) => Ok(n),
        _ => refuse(format!("{name} wants a number from 1 on")),
    }
}

fn operated(mut args: Args, operands: Vec<OsString>) -> Result<Args, Instead> {
    let mut operands = operands.into_iter();
    // what is built says its kind itself
    if args.command != Command::Build {
        let Some(kind) = operands.next() else { return refuse("no KIND: S11, S4, S5/S8 or S10") };
        let Some((number, name)) = kind.to_str().and_then(kind_of) else {
            return refuse(format!("no kind '{}': S11, S4, S5/S8 or S10", kind.to_string_lossy()));
        };
        (args.kind, args.kind_name) = (number, name);
    }
    args.files = operands.collect();
    if args.files.is_empty() {
        return refuse("no FILE");
    }
    if args.files.iter().filter(|f| *f == "-").count() > 1 {
        return refuse("- more than once");
    }
    match (args.command, args.files.len()) {
        (Command::Mask | Command::Clean, 2..) if !args.hex => refuse(format!("{} takes one FILE, or several with --hex", args.command.name())),
        (Command::Edit | Command::Build, 2..) => refuse(format!("{} takes one FILE", args.command.name())),
        _ => Ok(args),
    }
}

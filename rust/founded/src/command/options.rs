//! The command line.

use std::ffi::{OsStr, OsString};

/// What the program is asked for.
#[derive(Debug, PartialEq, Eq)]
pub enum Asked {
    Check(Options),
    Help,
    Version,
}

/// In which form the answer is printed.
#[derive(Clone, Copy, Debug, Default, PartialEq, Eq)]
pub enum Form {
    #[default]
    Text,
    Json,
    Dot,
}

#[derive(Debug, Default, PartialEq, Eq)]
pub struct Options {
    pub files: Vec<OsString>,
    pub cuts: Vec<String>,
    pub form: Form,
    pub svg: Option<OsString>,
    pub words: Option<OsString>,
    pub unproduced: bool,
}

pub const HELP: &str = "\
founded check [OPTIONS] [FILE..]

Reads rule files, or standard input, and tells which states are missing: those that only hold each other up.
Several files are read together, as one. aspif, which gringo --output=intermediate writes, is read too. docs/RULES.md has the rules' grammar.

    --cut NAME        rules out a state, an #external or a `not x`; may be given several times
    --cut FILE:LINE   rules out the bodies of the rules on that line
    --unproduced      names the states that nothing produces too, on a loop or not
    --json            prints JSON
    --dot             prints the missing states and their rules for graphviz
    --svg FILE        draws them into FILE
    --words FILE      writes graph and masks into FILE, as the proved program founded_support reads them
    --help            prints this
    --version         prints the version

It ends with 0 if nothing is missing (with --unproduced: and nothing unproduced), with 1 if something is, and with 2 if what it was given is no rule file or is refused.
";

/// The value of an option: what stands behind its `=`, or the next argument.
fn value(
    option: &str,
    inline: Option<&str>,
    rest: &mut impl Iterator<Item = OsString>,
) -> Result<OsString, String> {
    match inline {
        Some(value) => Ok(value.into()),
        None => rest
            .next()
            .ok_or_else(|| format!("`{option}` needs a value behind it")),
    }
}

fn set_form(options: &mut Options, form: Form) -> Result<(), String> {
    if options.form != Form::Text && options.form != form {
        return Err("`--json` and `--dot` exclude each other".to_owned());
    }
    options.form = form;
    Ok(())
}

fn check(mut rest: impl Iterator<Item = OsString>) -> Result<Asked, String> {
    let mut options = Options::default();
    while let Some(argument) = rest.next() {
        let text = argument.to_str().unwrap_or_default();
        let (option, inline) = match text.split_once('=') {
            Some((option, value)) if option.starts_with("--") => (option, Some(value)),
            _ => (text, None),
        };
        match (option, inline) {
            ("--", None) => options.files.extend(rest.by_ref()),
            ("--help" | "-h", None) => return Ok(Asked::Help),
            ("--version", None) => return Ok(Asked::Version),
            ("--json", None) => set_form(&mut options, Form::Json)?,
            ("--unproduced", None) => options.unproduced = true,
            ("--dot", None) => set_form(&mut options, Form::Dot)?,
            ("--cut", _) => {
                let cut = value(option, inline, &mut rest)?;
                options.cuts.push(cut.to_string_lossy().into_owned());
            }
            ("--svg", _) => options.svg = Some(value(option, inline, &mut rest)?),
            ("--words", _) => options.words = Some(value(option, inline, &mut rest)?),
            _ if text.len() > 1 && text.starts_with('-') => {
                return Err(format!("there is no option `{text}`"));
            }
            _ => options.files.push(argument),
        }
    }
    Ok(Asked::Check(options))
}

/// What the arguments ask for.
///
/// # Errors
/// What is wrong with them.
pub fn asked(arguments: impl IntoIterator<Item = OsString>) -> Result<Asked, String> {
    let mut arguments = arguments.into_iter();
    let first = arguments.next();
    match first.as_deref().map(OsStr::to_string_lossy).as_deref() {
        Some("check") => check(arguments),
        Some("--help" | "-h" | "help") => Ok(Asked::Help),
        Some("--version" | "-V") => Ok(Asked::Version),
        Some(other) => Err(format!("there is no `{other}` here, only `check`")),
        None => Err("something to do is asked for".to_owned()),
    }
}

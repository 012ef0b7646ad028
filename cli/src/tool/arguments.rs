//! The flags and operands of a command.

use std::collections::BTreeMap;
use std::ffi::{OsStr, OsString};
use std::ops::RangeInclusive;
use std::os::unix::ffi::OsStrExt;
use std::path::{Path, PathBuf};

use super::failure::Failure;
use super::text::{grouped, shown};

/// What a command understands.
pub struct Syntax {
    pub command: &'static str,
    /// Flags that are followed by a value.
    pub valued: &'static [&'static str],
    /// Flags that stand alone.
    pub switches: &'static [&'static str],
    /// How many operands there may be.
    pub operands: usize,
}

/// What a command was given.
pub struct Arguments {
    command: &'static str,
    values: BTreeMap<&'static str, OsString>,
    switches: Vec<&'static str>,
    operands: Vec<PathBuf>,
}

pub fn is_help(argument: &OsString) -> bool {
    argument == "--help" || argument == "-h"
}

pub fn is_version(argument: &OsString) -> bool {
    argument == "--version" || argument == "-V"
}

/// Whether help is asked for before the flags end.
pub fn ask_for_help(arguments: &[OsString]) -> bool {
    let mut flags = arguments.iter().take_while(|argument| *argument != "--");
    flags.any(is_help)
}

impl Syntax {
    /// Sorts the arguments. What stands behind `--` is no flag.
    pub fn read(&self, arguments: &[OsString]) -> Result<Arguments, Failure> {
        let mut read = Arguments {
            command: self.command,
            values: BTreeMap::new(),
            switches: Vec::new(),
            operands: Vec::new(),
        };
        let mut rest = arguments.iter();
        let mut flags_end = false;
        while let Some(argument) = rest.next() {
            if !flags_end && argument == "--" {
                flags_end = true;
            } else if !flags_end && is_flag(argument) {
                self.read_flag(&mut read, argument, &mut rest)?;
            } else {
                self.read_operand(&mut read, argument)?;
            }
        }
        Ok(read)
    }

    /// Takes `--flag value`, `--flag=value` or a switch.
    fn read_flag<'a>(
        &self,
        read: &mut Arguments,
        argument: &OsStr,
        rest: &mut impl Iterator<Item = &'a OsString>,
    ) -> Result<(), Failure> {
        let (name, attached) = split(argument);
        if let Some(switch) = known(self.switches, name).filter(|_| attached.is_none()) {
            read.switches.push(switch);
            return Ok(());
        }
        let Some(name) = known(self.valued, name) else {
            return Err(self.wrong(format!("unknown flag '{}'", shown(argument))));
        };
        let value = match attached {
            Some(value) => Some(OsString::from(value)),
            None => rest.next().filter(|next| !is_flag(next)).cloned(),
        };
        let Some(value) = value.filter(|value| !value.is_empty()) else {
            return Err(self.wrong(format!("{name} needs a value")));
        };
        match read.values.insert(name, value) {
            Some(_) => Err(self.wrong(format!("{name} is given twice"))),
            None => Ok(()),
        }
    }

    fn read_operand(&self, read: &mut Arguments, argument: &OsStr) -> Result<(), Failure> {
        if argument.is_empty() {
            return Err(self.wrong("an argument is empty".to_string()));
        }
        if read.operands.len() == self.operands {
            return Err(self.wrong(format!("'{}' is too much", shown(argument))));
        }
        read.operands.push(PathBuf::from(argument));
        Ok(())
    }

    fn wrong(&self, message: String) -> Failure {
        Failure::usage(Some(self.command), message)
    }
}

/// A flag's name and the value behind its `=`, which need not be UTF-8.
fn split(argument: &OsStr) -> (&str, Option<&OsStr>) {
    let bytes = argument.as_bytes();
    let sign = bytes.iter().position(|byte| *byte == b'=');
    let name = &bytes[..sign.unwrap_or(bytes.len())];
    let value = sign.map(|sign| OsStr::from_bytes(&bytes[sign + 1..]));
    (std::str::from_utf8(name).unwrap_or_default(), value)
}

/// A dash before a digit is the sign of a number: the error about it then says
/// which numbers are wanted.
fn is_flag(argument: impl AsRef<OsStr>) -> bool {
    match argument.as_ref().as_bytes() {
        [b'-', second, ..] => !second.is_ascii_digit(),
        _ => false,
    }
}

fn known(names: &[&'static str], name: &str) -> Option<&'static str> {
    names.iter().find(|known| **known == name).copied()
}

/// A number of digits alone, with no sign, or as the tool prints it, with commas.
fn decimal(text: &str) -> Option<u32> {
    let digits = text.replace(',', "");
    let number: u32 = digits.parse().ok()?;
    let is_plain = text.bytes().all(|byte| byte.is_ascii_digit());
    (is_plain || text == grouped(number.into())).then_some(number)
}

impl Arguments {
    pub fn has(&self, switch: &str) -> bool {
        self.switches.contains(&switch)
    }

    pub fn operand(&self) -> Option<&Path> {
        self.operands.first().map(PathBuf::as_path)
    }

    pub fn path(&self, flag: &str) -> Option<&Path> {
        self.values.get(flag).map(Path::new)
    }

    pub fn required_path(&self, flag: &str) -> Result<&Path, Failure> {
        self.required(flag).map(Path::new)
    }

    /// The flag's decimal number, if it is in the range.
    pub fn required_number(&self, flag: &str, range: RangeInclusive<u32>) -> Result<u32, Failure> {
        self.number(flag, self.required(flag)?, &range, &range)
    }

    /// The flag's decimal number up to this one, which a proved call judges. An
    /// error about what is none names the range that the call takes.
    pub fn judged_number(
        &self,
        flag: &str,
        most: u32,
        wanted: &RangeInclusive<u32>,
    ) -> Result<u32, Failure> {
        self.number(flag, self.required(flag)?, &(0..=most), wanted)
    }

    /// The decimal number of a flag that may be left out, if it is in the range.
    pub fn optional_number(
        &self,
        flag: &str,
        range: RangeInclusive<u32>,
    ) -> Result<Option<u32>, Failure> {
        let value = self.values.get(flag);
        value
            .map(|value| self.number(flag, value, &range, &range))
            .transpose()
    }

    /// The operands' decimal numbers, which a proved call judges. An error calls
    /// one by this name.
    pub fn judged_numbers(
        &self,
        name: &str,
        wanted: &RangeInclusive<u32>,
    ) -> Result<Vec<u32>, Failure> {
        let operands = self.operands.iter();
        operands
            .map(|operand| self.number(name, operand.as_os_str(), &(0..=u32::MAX), wanted))
            .collect()
    }

    fn number(
        &self,
        name: &str,
        value: &OsStr,
        read: &RangeInclusive<u32>,
        wanted: &RangeInclusive<u32>,
    ) -> Result<u32, Failure> {
        let number = value.to_str().and_then(decimal);
        number
            .filter(|number| read.contains(number))
            .ok_or_else(|| {
                let ends = [wanted.start(), wanted.end()];
                let [low, high] = ends.map(|end| grouped((*end).into()));
                self.unlike(name, &format!("a number from {low} to {high}"), value)
            })
    }

    pub fn required(&self, flag: &str) -> Result<&OsStr, Failure> {
        let value = self.values.get(flag).map(OsString::as_os_str);
        value.ok_or_else(|| self.wrong(format!("{flag} is missing")))
    }

    /// That the value given for the flag is not what it wants.
    pub fn unwanted(&self, flag: &str, wanted: &str) -> Failure {
        match self.required(flag) {
            Ok(value) => self.unlike(flag, wanted, value),
            Err(missing) => missing,
        }
    }

    fn unlike(&self, name: &str, wanted: &str, value: &OsStr) -> Failure {
        self.wrong(format!("{name} wants {wanted}, not '{}'", shown(value)))
    }

    pub fn wrong(&self, message: String) -> Failure {
        Failure::usage(Some(self.command), message)
    }
}

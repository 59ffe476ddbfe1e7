//! The names of devices, from a file of `device<TAB>name` lines.

use crate::shown;
use crate::trouble::Trouble;
use crate::words::grouped;

/// The devices that there are.
pub const DEVICES: usize = 32;
/// The most bytes of a file of names.
pub const MOST_BYTES: usize = 65_536;

const UNIX: &str = "save the file with Unix newlines (LF)";

/// The devices' names, as far as they have any.
#[derive(Clone, Debug, Default, PartialEq, Eq)]
pub struct Names {
    names: [Option<String>; DEVICES],
}

impl Names {
    /// Reads the names. Empty lines and those that begin with `#` are passed over; whatever else is not a device, a tab
    /// and a name of its own is trouble, and the line is told.
    pub fn read(file: &str, bytes: &[u8]) -> Result<Names, Trouble> {
        let trouble = |words: String| Trouble(format!("{file}: {words}"));
        if bytes.len() > MOST_BYTES {
            let most = grouped(MOST_BYTES);
            return Err(trouble(format!("a file of names has at most {most} bytes")));
        }
        if let Some(words) = wrong_text(bytes) {
            return Err(trouble(format!("line 1: {words}")));
        }
        let mut names = Names::default();
        for (at, line) in bytes.split(|&byte| byte == b'\n').enumerate() {
            if !line.is_empty() && !line.starts_with(b"#") {
                let added = names.add(line);
                added.map_err(|words| trouble(format!("line {}: {words}", at + 1)))?;
            }
        }
        Ok(names)
    }

    /// Adds the name in a line, or says in words why not.
    fn add(&mut self, line: &[u8]) -> Result<(), String> {
        let line = std::str::from_utf8(line).map_err(|_| "is not UTF-8".to_string())?;
        let Some((number, name)) = line.split_once('\t') else {
            if line.contains('\r') {
                return Err(format!("has a carriage return: {UNIX}"));
            }
            return Err("a device, a tab and a name are needed".to_string());
        };
        let device = device(number)?;
        if let Some(wrong) = wrong_name(name) {
            return Err(format!("the name of device {device} {wrong}"));
        }
        if let Some(other) = self.device(name) {
            if other != device {
                return Err(format!("devices {other} and {device} have the same name, {name}"));
            }
        }
        if self.names[usize::from(device)].is_some() {
            return Err(format!("device {device} has a name already"));
        }
        self.names[usize::from(device)] = Some(name.to_string());
        Ok(())
    }

    /// The name of a device.
    pub fn name(&self, device: u8) -> Option<&str> {
        self.names.get(usize::from(device))?.as_deref()
    }

    /// The device with a name.
    pub fn device(&self, name: &str) -> Option<u8> {
        (0..DEVICES as u8).find(|&device| self.name(device) == Some(name))
    }

    /// Whether no device has a name.
    pub fn is_empty(&self) -> bool {
        self.names.iter().all(Option::is_none)
    }

    /// The number and the name: `3 (pump)`, or `3` alone.
    pub fn number(&self, device: u8) -> String {
        match self.name(device) {
            Some(name) => format!("{device} ({name})"),
            None => device.to_string(),
        }
    }

    /// A device in words: `device 3 (pump)`, or `device 3`.
    pub fn words(&self, device: u8) -> String {
        format!("device {}", self.number(device))
    }
}

/// The device that a number stands for.
fn device(number: &str) -> Result<u8, String> {
    match whole(number) {
        Some(device) if device < DEVICES as u32 => Ok(device as u8),
        Some(device) => Err(format!("there is no device {device}: the highest is 31")),
        None => Err(format!("'{}' is no device's number", shown::words(number))),
    }
}

/// What is wrong with a text as a whole, if anything: another kind of text, or a mark in front.
fn wrong_text(bytes: &[u8]) -> Option<&'static str> {
    if bytes.starts_with("\u{feff}".as_bytes()) {
        return Some("begins with a byte order mark: save the file without it");
    }
    let is_wide = bytes.starts_with(b"\xff\xfe") || bytes.starts_with(b"\xfe\xff");
    is_wide.then_some("begins as a text in UTF-16 does: save the file as UTF-8")
}

/// Whether this is a number as plans have it: digits alone, and no nought in front.
pub fn is_whole(number: &str) -> bool {
    let is_plain = !number.is_empty() && number.bytes().all(|byte| byte.is_ascii_digit());
    is_plain && (number.len() == 1 || !number.starts_with('0'))
}

/// The number that stands there, as plans have it.
fn whole(number: &str) -> Option<u32> {
    Some(number).filter(|number| is_whole(number))?.parse().ok()
}

/// What is wrong with a name, if anything.
fn wrong_name(name: &str) -> Option<&'static str> {
    // A carriage return is told before all: without it the name may be right.
    if name.trim().is_empty() && !name.contains('\r') {
        return Some("is empty");
    }
    if name.ends_with('\r') {
        return Some("ends with a carriage return: save the file with Unix newlines (LF)");
    }
    if name.contains('\r') {
        return Some("has a carriage return: save the file with Unix newlines (LF)");
    }
    if name.contains(shown::is_hidden) {
        return Some("has a control character");
    }
    (name.trim() != name).then_some("begins or ends with a space")
}

#[cfg(test)]
mod tests {
    use super::*;

    fn trouble(text: &str) -> String {
        Names::read("n", text.as_bytes()).expect_err("the names are wrong").0
    }

    #[test]
    fn names_are_read() {
        let names =
            Names::read("n", "# of the house\n3\tpump\n\n31\tGewächshaus 2\n0\ta".as_bytes());
        let names = names.expect("nothing is wrong");
        assert_eq!((names.name(3), names.name(4)), (Some("pump"), None));
        assert_eq!(
            (names.words(31), names.words(1)),
            ("device 31 (Gewächshaus 2)".into(), "device 1".into())
        );
        assert_eq!((names.device("a"), names.device("b")), (Some(0), None));
        assert!(!names.is_empty() && Names::read("n", b"").unwrap().is_empty());
    }

    #[test]
    fn what_is_wrong_is_told_with_its_line() {
        assert_eq!(
            trouble("3\tpump\n32\ttank\n"),
            "n: line 2: there is no device 32: the highest is 31"
        );
        assert_eq!(trouble("3\tpump\n#\n3\ttank\n"), "n: line 3: device 3 has a name already");
        assert_eq!(trouble("3\tpump\n3\tpump\n"), "n: line 2: device 3 has a name already");
        assert_eq!(
            trouble("3\tpump\n4\tpump\n"),
            "n: line 2: devices 3 and 4 have the same name, pump"
        );
        assert_eq!(trouble("3\t\n"), "n: line 1: the name of device 3 is empty");
        assert_eq!(trouble("3\t \n"), "n: line 1: the name of device 3 is empty");
        assert_eq!(trouble("3\ta\tb\n"), "n: line 1: the name of device 3 has a control character");
        assert_eq!(
            trouble("3\ta\u{202e}b\n"),
            "n: line 1: the name of device 3 has a control character"
        );
        assert!(trouble("3\tpump\r\n").contains("carriage return"));
        assert!(trouble("3\tpump \n").ends_with("begins or ends with a space"));
        assert_eq!(trouble("3 pump\n"), "n: line 1: a device, a tab and a name are needed");
        assert_eq!(trouble("03\tpump\n"), "n: line 1: '03' is no device's number");
        assert_eq!(trouble("-1\tpump\n"), "n: line 1: '-1' is no device's number");
        assert!(trouble("3\tpump\n\r\n").starts_with("n: line 2: has a carriage return: save"));
        assert!(trouble("3\tpump\r4\ttank\r")
            .ends_with("carriage return: save the file with Unix newlines (LF)"));
        for marked in ["\u{feff}3\tpump\n", "\u{feff}# names\n", "\u{feff}"] {
            assert!(trouble(marked).starts_with("n: line 1: begins with a byte order mark"));
        }
        let wide = Names::read("n", b"\xff\xfe3\0\t\0").unwrap_err().0;
        assert_eq!(wide, "n: line 1: begins as a text in UTF-16 does: save the file as UTF-8");
        let bytes = [&b"3\t"[..], b"\xff\n"].concat();
        assert_eq!(Names::read("n", &bytes).unwrap_err().0, "n: line 1: is not UTF-8");
        assert!(Names::read("n", &[b'\n'; MOST_BYTES + 1]).is_err());
    }
}

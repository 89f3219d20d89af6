//! Text in messages, so that a message is one line.

use std::fmt::{self, Display, Formatter, Write};

/// A key of the settings as messages show it: unchanged, or if it has a control character, with those and the backslashes escaped as in TOML. The
/// program `pool` shows keys in the same way.
pub(crate) struct Escaped<'a>(pub(crate) &'a str);

impl Display for Escaped<'_> {
    fn fmt(&self, f: &mut Formatter<'_>) -> fmt::Result {
        if !self.0.chars().any(char::is_control) {
            return f.write_str(self.0);
        }
        self.0.chars().try_for_each(|character| match character {
            '\u{8}' => f.write_str("\\b"),
            '\t' => f.write_str("\\t"),
            '\n' => f.write_str("\\n"),
            '\u{c}' => f.write_str("\\f"),
            '\r' => f.write_str("\\r"),
            '\\' => f.write_str("\\\\"),
            control if control.is_control() => write!(f, "\\u{:04X}", u32::from(control)),
            other => f.write_char(other),
        })
    }
}

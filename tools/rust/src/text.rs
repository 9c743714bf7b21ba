//! Texts: an input, its program, and the lines of its script.

/// Whether a line of a program's input is the one that separates the program from the script. It may end with blanks, as in files whose
/// lines end with CR and LF.
pub(crate) fn is_separator(line: &str) -> bool {
    line.strip_prefix("%%").is_some_and(|rest| rest.bytes().all(|byte| matches!(byte, b' ' | b'\t' | b'\r')))
}

/// The words of a script line.
pub(crate) fn words(line: &str) -> impl Iterator<Item = &str> {
    line.split([' ', '\t', '\r']).filter(|word| !word.is_empty())
}

/// Whether a line of a script has no reply: it has no word, or its first one begins with `#`.
pub fn is_silent(line: &str) -> bool {
    words(line).next().map_or(true, |word| word.starts_with('#'))
}

/// The program text of an input, and the lines of its script.
pub fn split_input(text: &str) -> (&str, Vec<&str>) {
    let mut begin = 0;
    for line in text.split_inclusive('\n') {
        let end = begin + line.len();
        if is_separator(line.strip_suffix('\n').unwrap_or(line)) {
            let script = &text[end..];
            return (&text[..begin], script.strip_suffix('\n').unwrap_or(script).split('\n').filter(|_| !script.is_empty()).collect());
        }
        begin = end;
    }
    (text, vec![])
}

#[cfg(test)]
mod tests {
    use super::*;

    #[test]
    fn an_input_is_split_at_its_separator_line() {
        for (text, program, script) in [
            ("a\n%%\nb\nc\n", "a\n", vec!["b", "c"]),
            ("a\r\n%%\r\nb\r\n", "a\r\n", vec!["b\r"]),
            ("a\n%% \t\nb", "a\n", vec!["b"]),
            ("%%\n\nb\n", "", vec!["", "b"]),
            ("a\n%%", "a\n", vec![]),
            ("a\n%%\n", "a\n", vec![]),
            ("a\n%%x\n", "a\n%%x\n", vec![]),
            ("", "", vec![]),
        ] {
            assert_eq!(split_input(text), (program, script), "{text:?}");
        }
    }

    #[test]
    fn lines_without_a_word_and_comments_have_no_reply() {
        for (line, silent) in [("", true), (" \t\r", true), ("# a", true), ("\t#", true), ("stats", false), ("run # 1", false)] {
            assert_eq!(is_silent(line), silent, "{line:?}");
        }
    }
}

//! What is printed of a text of PRISM.

/// The names of a text that the library has read, and so is sound, in the order of their actions: by first sight.
pub fn names(text: &[u8]) -> Vec<String> {
    let mut names: Vec<&[u8]> = Vec::new();
    for line in lines(text).skip(1) {
        // Behind source, choice, target and probability.
        let name = line.split(|&byte| byte == b' ').nth(4);
        names.extend(name.filter(|name| !names.contains(name)));
    }
    names.into_iter().map(|name| String::from_utf8_lossy(name).into_owned()).collect()
}

/// The lines, without their newlines.
fn lines(text: &[u8]) -> impl Iterator<Item = &[u8]> {
    text.split_inclusive(|&byte| byte == b'\n').map(|line| line.strip_suffix(b"\n").unwrap_or(line))
}

/// A line as it is shown.
pub struct Line<'a> {
    /// Counted from 1, as editors do.
    pub number: usize,
    /// Without its newline.
    pub bytes: &'a [u8],
    pub has_newline: bool,
}

/// The line that begins at a byte; none where the text ends there.
pub fn line_at(text: &[u8], byte: usize) -> Option<Line<'_>> {
    let (before, rest) = text.split_at_checked(byte)?;
    let number = 1 + before.iter().filter(|&&byte| byte == b'\n').count();
    let bytes = lines(rest).next()?;
    Some(Line { number, bytes, has_newline: bytes.len() < rest.len() })
}

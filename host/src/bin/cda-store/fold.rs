//! Lines that fit their column.

/// An ASCII text in lines of at most so many characters: parted at a space, else behind a /, else anywhere.
pub fn folded(text: &str, width: usize) -> Vec<String> {
    let (mut lines, mut rest) = (Vec::new(), text);
    while rest.len() > width {
        let end = rest[..=width].rfind(' ').or(rest[..width].rfind('/').map(|at| at + 1)).unwrap_or(width);
        lines.push(rest[..end].to_string());
        rest = rest[end..].trim_start();
    }
    lines.push(rest.to_string());
    lines
}

#[cfg(test)]
mod tests {
    use super::folded;

    #[test]
    fn lines_fit() {
        assert_eq!(folded("", 4), [""]);
        assert_eq!(folded("four", 4), ["four"]);
        assert_eq!(folded("four more", 4), ["four", "more"]);
        assert_eq!(folded("a b c d e", 4), ["a b", "c d", "e"]);
        assert_eq!(folded("a longer/name", 7), ["a", "longer/", "name"]);
        assert_eq!(folded("nameless", 3), ["nam", "ele", "ss"]);
        assert_eq!(folded("///", 1), ["/", "/", "/"]);
    }
}

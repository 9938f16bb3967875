//! Text in a picture: escaped, and shortened to its room.

/// Text as it stands between tags or in quotes. What XML has no place for becomes U+FFFD.
pub fn escaped(text: &str) -> String {
    let mut escaped = String::with_capacity(text.len());
    for letter in text.chars() {
        match letter {
            '&' => escaped.push_str("&amp;"),
            '<' => escaped.push_str("&lt;"),
            '>' => escaped.push_str("&gt;"),
            '"' => escaped.push_str("&quot;"),
            '\n' => escaped.push('\n'),
            '\u{FFFE}' | '\u{FFFF}' => escaped.push('\u{FFFD}'),
            letter if letter.is_control() => escaped.push('\u{FFFD}'),
            letter => escaped.push(letter),
        }
    }
    escaped
}

/// About how wide a letter is at most, in hundredths of the font size; fonts differ, and this goes by a wide one.
fn hundredths(letter: char) -> usize {
    match letter {
        'i' | 'j' | 'l' | '\'' | '|' => 30,
        ' ' | ',' | '.' | ':' | ';' | 'I' | 'f' | 't' | '(' | ')' | '[' | ']' | '/' | '-' => 42,
        'm' | 'w' | 'M' | 'W' | '@' | '%' => 100,
        '+' | '<' | '=' | '>' | '~' | '#' | '&' => 85,
        'A'..='Z' => 78,
        ' '..='~' => 65,
        // letters with accents, Greek, Cyrillic
        '\u{A0}'..='\u{52F}' => 90,
        _ => 110,
    }
}

/// About how many pixels a text takes at most.
pub fn width(text: &str, font: usize) -> usize {
    let sum: usize = text.chars().map(hundredths).sum();
    (sum * font).div_ceil(100)
}

/// The text, or as much of its front as fits with an ellipsis behind it.
pub fn shortened(text: &str, font: usize, room: usize) -> String {
    if width(text, font) <= room {
        return text.to_owned();
    }
    let mut short = String::new();
    let mut left = room.saturating_sub(width("…", font)) * 100;
    for letter in text.chars() {
        let takes = hundredths(letter) * font;
        if takes > left {
            break;
        }
        left -= takes;
        short.push(letter);
    }
    format!("{}…", short.trim_end())
}

#[cfg(test)]
mod tests {
    use super::*;

    #[test]
    fn what_xml_reads_as_its_own_is_escaped() {
        assert_eq!(
            escaped("<a> & \"b\" 'c' é\u{7}\u{FFFF}"),
            "&lt;a&gt; &amp; &quot;b&quot; 'c' é\u{FFFD}\u{FFFD}"
        );
    }

    #[test]
    fn a_text_is_shortened_to_its_room_alone_where_it_does_not_fit() {
        assert_eq!(shortened("0 key", 12, 100), "0 key");
        let long = "1 a receiver with a name of forty letters";
        let short = shortened(long, 12, 150);
        assert!(width(&short, 12) <= 150);
        assert!(long.starts_with(short.trim_end_matches('…')));
        assert!(short.chars().count() > 15);
        assert_eq!(shortened("wide", 12, 0), "…");
    }
}

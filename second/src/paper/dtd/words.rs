//! The words that a DTD text is made of, and its comments.

#[derive(Clone, Copy, Debug, PartialEq)]
pub enum Sort {
    White,
    /// Name characters, as many as stand together.
    Run,
    /// `#` and the name characters behind it.
    Hash,
    /// Any other byte.
    Mark(u8),
    End,
}

#[derive(Clone, Copy, Debug, PartialEq)]
pub struct Word {
    pub sort: Sort,
    pub from: usize,
    pub to: usize,
}

pub fn is_white(byte: u8) -> bool {
    matches!(byte, b' ' | b'\t' | b'\r' | b'\n')
}

pub fn begins_name(byte: u8) -> bool {
    byte.is_ascii_alphabetic() || byte == b'_' || byte == b':'
}

pub fn in_name(byte: u8) -> bool {
    begins_name(byte) || byte.is_ascii_digit() || byte == b'-' || byte == b'.'
}

/// The word that begins at a place.
pub fn word_at(text: &[u8], from: usize) -> Word {
    let rest = &text[from..];
    let run = |is: fn(u8) -> bool, from: usize| from + rest[from..].iter().take_while(|byte| is(**byte)).count();
    let (sort, length) = match rest.first() {
        None => (Sort::End, 0),
        Some(byte) if is_white(*byte) => (Sort::White, run(is_white, 0)),
        Some(byte) if in_name(*byte) => (Sort::Run, run(in_name, 0)),
        Some(b'#') => (Sort::Hash, run(in_name, 1)),
        Some(byte) => (Sort::Mark(*byte), 1),
    };
    Word { sort, from, to: from + length }
}

/// Where the comment ends whose inside begins at a place; else the place of the byte that is at fault.
pub fn comment_end(text: &[u8], from: usize) -> Result<usize, usize> {
    let inside = &text[from..];
    let dashes = inside.windows(2).position(|pair| pair == b"--");
    let inside = &inside[..dashes.unwrap_or(inside.len())];
    if let Some(at) = no_char(inside) {
        return Err(from + at);
    }
    let behind = match dashes {
        Some(at) => from + at + 2,
        None => return Err(text.len()),
    };
    match text.get(behind) {
        Some(b'>') => Ok(behind + 1),
        _ => Err(behind),
    }
}

/// The place of the first byte with which no Char goes on; the length, if the last one is cut off.
fn no_char(bytes: &[u8]) -> Option<usize> {
    let (good, broken) = match std::str::from_utf8(bytes) {
        Ok(good) => (good, None),
        Err(error) => {
            let from = error.valid_up_to();
            let good = std::str::from_utf8(&bytes[..from]).expect("what is good so far");
            let can_begin = (0xc2..=0xf4).contains(&bytes[from]);
            let at = match error.error_len() {
                None => bytes.len(),
                Some(length) if can_begin => from + length,
                Some(_) => from,
            };
            (good, Some(at))
        }
    };
    // The last byte of a code tells it from those before it, which are Chars, wherever it is one that is not.
    let not_allowed = good.char_indices().find(|(_, code)| !is_char(*code));
    not_allowed.map(|(at, code)| at + code.len_utf8() - 1).or(broken)
}

fn is_char(code: char) -> bool {
    matches!(code, '\t' | '\n' | '\r' | '\u{20}'..='\u{d7ff}' | '\u{e000}'..='\u{fffd}' | '\u{10000}'..='\u{10ffff}')
}

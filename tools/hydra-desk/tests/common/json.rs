//! As much of JSON as `check --json` is held to: one value, and nothing behind it.

/// Fails where the text is no value of JSON.
pub fn read(text: &str) {
    let rest = value(text.as_bytes()).unwrap_or_else(|| panic!("not JSON: {text}"));
    assert_eq!(rest, b"", "something stands behind the value: {text}");
}

/// What stands behind the value that the text begins with.
fn value(text: &[u8]) -> Option<&[u8]> {
    match text.first()? {
        b'{' => list(&text[1..], b'}', |text| {
            value(string(text)?.strip_prefix(b":")?)
        }),
        b'[' => list(&text[1..], b']', value),
        b'"' => string(text),
        b'0' => Some(&text[1..]),
        b'1'..=b'9' => {
            let digits = text.iter().take_while(|byte| byte.is_ascii_digit());
            Some(&text[digits.count()..])
        }
        _ => {
            let words: [&[u8]; 3] = [b"null", b"true", b"false"];
            words.iter().find_map(|word| text.strip_prefix(*word))
        }
    }
}

fn list(mut text: &[u8], end: u8, item: impl Fn(&[u8]) -> Option<&[u8]>) -> Option<&[u8]> {
    if text.first() == Some(&end) {
        return Some(&text[1..]);
    }
    loop {
        text = item(text)?;
        match text.split_first()? {
            (b',', rest) => text = rest,
            (last, rest) => return (*last == end).then_some(rest),
        }
    }
}

fn string(text: &[u8]) -> Option<&[u8]> {
    let mut rest = text.strip_prefix(b"\"")?;
    loop {
        rest = match rest {
            [b'"', rest @ ..] => return Some(rest),
            [b'\\', b'"' | b'\\', rest @ ..] => rest,
            [b'\\', b'u', digits @ ..] => {
                let (digits, rest) = digits.split_at_checked(4)?;
                digits.iter().all(u8::is_ascii_hexdigit).then_some(rest)?
            }
            [0..=0x1f | b'\\', ..] => return None,
            [_, rest @ ..] => rest,
            [] => return None,
        };
    }
}

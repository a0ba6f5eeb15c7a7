//! Bytes that are written `\xNN`.

use crate::words;

/// The byte of an escape behind its backslash, and what stands behind it.
pub fn byte(text: &[u8]) -> Result<(u8, &[u8]), String> {
    let digit = |byte: u8| char::from(byte).to_digit(16);
    match text {
        [b'x', high, low, behind @ ..] => digit(*high).zip(digit(*low)).map(|pair| (pair, behind)),
        _ => None,
    }
    .map(|((high, low), behind)| ((16 * high + low) as u8, behind))
    .ok_or_else(|| "a backslash without xNN behind it".to_string())
}

/// The bytes of a name as `words::name` writes it.
pub fn bytes(text: &[u8]) -> Result<Vec<u8>, String> {
    let mut bytes = Vec::new();
    let mut rest = text;
    while let [first, behind @ ..] = rest {
        let (next, left) = match first {
            b'\\' => byte(behind)?,
            _ => (*first, behind),
        };
        bytes.push(next);
        rest = left;
    }
    Ok(bytes)
}

/// A name in the same form as one that a host file can have: no slash, and not "." or "..".
pub fn host_name(name: &[u8]) -> String {
    match name {
        b"." | b".." => "\\x2e".repeat(name.len()),
        _ => words::name(name).replace('/', "\\x2f"),
    }
}

#[cfg(test)]
mod tests {
    use super::*;

    #[test]
    fn every_byte_comes_back() {
        let all: Vec<u8> = (0..=255).collect();
        assert_eq!(bytes(words::name(&all).as_bytes()), Ok(all));
    }

    #[test]
    fn every_name_becomes_one_of_a_host_file() {
        for (name, host) in [
            (&b"boot.cfg"[..], "boot.cfg"),
            (b".", "\\x2e"),
            (b"..", "\\x2e\\x2e"),
            (b"...", "..."),
            (b"../a\\b", "..\\x2fa\\x5cb"),
        ] {
            assert_eq!(host_name(name), host);
            assert_eq!(bytes(host.as_bytes()), Ok(name.to_vec()));
        }
    }

    #[test]
    fn a_lone_backslash_is_told() {
        for text in ["\\", "a\\", "\\x", "\\x4", "\\n", "\\xg0", "\\x4g", "\\\\"] {
            let why = Err("a backslash without xNN behind it".to_string());
            assert_eq!(bytes(text.as_bytes()), why, "{text}");
        }
    }
}

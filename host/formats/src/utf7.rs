//! Names in modified UTF-7 (RFC 3501, 5.1.3): decoded for whoever reads them, and encoded as servers name mailboxes. The
//! rules know nothing of it: to them a name is its bytes.

/// The alphabet of modified BASE64, with "," in place of "/".
const ALPHABET: &[u8; 64] = b"ABCDEFGHIJKLMNOPQRSTUVWXYZabcdefghijklmnopqrstuvwxyz0123456789+,";
const BITS_A_DIGIT: u32 = 6;
const BITS_A_UNIT: u32 = 16;

/// What a name says, if it is in modified UTF-7 and says something else than its bytes.
pub fn decoded(name: &[u8]) -> Option<String> {
    let mut text = String::new();
    let mut rest = name;
    let mut after_shift = false;
    while let Some((&byte, after)) = rest.split_first() {
        (rest, after_shift) = if byte == b'&' {
            let end = after.iter().position(|&byte| byte == b'-')?;
            // "null shifts … are not permitted"
            if after_shift && end > 0 {
                return None;
            }
            text.push_str(&shifted(&after[..end])?);
            (&after[end + 1..], end > 0)
        } else {
            text.push(Some(char::from(byte)).filter(|&byte| is_direct(byte))?);
            (after, false)
        };
    }
    (text.as_bytes() != name).then_some(text)
}

/// What stands between "&" and "-": nothing for "&" itself, or characters that cannot stand for
/// themselves, in UTF-16 and BASE64, and no bit but 0 left over.
fn shifted(digits: &[u8]) -> Option<String> {
    if digits.is_empty() {
        return Some("&".to_string());
    }
    let (mut bits, mut count) = (0, 0);
    let mut units: Vec<u16> = Vec::new();
    for digit in digits {
        let value = ALPHABET.iter().position(|letter| letter == digit)?;
        bits = bits << BITS_A_DIGIT | value as u32;
        count += BITS_A_DIGIT;
        if count >= BITS_A_UNIT {
            count -= BITS_A_UNIT;
            units.push((bits >> count) as u16);
            bits &= (1 << count) - 1;
        }
    }
    let text = String::from_utf16(&units).ok()?;
    (bits == 0 && count < BITS_A_DIGIT && !text.chars().any(is_direct)).then_some(text)
}

/// "&" is "&-", and 20 to 7E stand for themselves; what stands between those is in UTF-16 and BASE64,
/// between "&" and "-".
pub fn encoded(text: &str) -> Vec<u8> {
    let mut name = Vec::new();
    let mut units: Vec<u16> = Vec::new();
    for character in text.chars() {
        if !is_direct(character) {
            units.extend(character.encode_utf16(&mut [0; 2]).iter());
            continue;
        }
        push_shifted(&mut name, &mut units);
        name.push(character as u8);
        if character == '&' {
            name.push(b'-');
        }
    }
    push_shifted(&mut name, &mut units);
    name
}

/// Adds what cannot stand for itself, and leaves none.
fn push_shifted(name: &mut Vec<u8>, units: &mut Vec<u16>) {
    if units.is_empty() {
        return;
    }
    let digit = |value: u32| ALPHABET[value as usize % ALPHABET.len()];
    let (mut bits, mut count) = (0_u32, 0);
    name.push(b'&');
    for unit in units.drain(..) {
        bits = bits << BITS_A_UNIT | u32::from(unit);
        count += BITS_A_UNIT;
        while count >= BITS_A_DIGIT {
            count -= BITS_A_DIGIT;
            name.push(digit(bits >> count));
        }
        bits &= (1 << count) - 1;
    }
    if count > 0 {
        name.push(digit(bits << (BITS_A_DIGIT - count)));
    }
    name.push(b'-');
}

/// 20 to 7E, which stand for themselves.
fn is_direct(character: char) -> bool {
    (' '..='~').contains(&character)
}

//! The words of a testbench line.

/// Why a line wasn't played. The testbench has other texts of its own, so that such a line always shows in a comparison.
pub type Fault = String;

pub fn outside<T>(why: &str) -> Result<T, Fault> {
    Err(format!("outside the comparison: {why}"))
}

pub fn decimal(word: &str) -> Result<usize, Fault> {
    if word.is_empty() || !word.bytes().all(|b| b.is_ascii_digit()) {
        return Err(format!("no number: {word}"));
    }
    word.parse().map_err(|_| format!("no number: {word}"))
}

pub fn decimal32(word: &str) -> Result<u32, Fault> {
    u32::try_from(decimal(word)?).map_err(|_| format!("over 32 bits: {word}"))
}

fn nibble(b: u8) -> Option<u8> {
    match b {
        b'0'..=b'9' => Some(b - b'0'),
        b'a'..=b'f' => Some(b - b'a' + 10),
        _ => None,
    }
}

fn pairs(hex: &str) -> Option<Vec<u8>> {
    let digits: Option<Vec<u8>> = hex.bytes().map(nibble).collect();
    let (both, rest) = digits.as_deref()?.as_chunks::<2>();
    (rest.is_empty() && !both.is_empty()).then(|| both.iter().map(|[high, low]| high * 16 + low).collect())
}

fn piece(word: &str) -> Option<Vec<u8>> {
    if word == "-" {
        return Some(Vec::new());
    }
    let Some((times, hex)) = word.split_once('*') else {
        return pairs(word);
    };
    let byte = pairs(hex).filter(|b| b.len() == 1)?[0];
    Some(vec![byte; decimal(times).ok()?])
}

fn quoted(name: &str) -> Option<Vec<u8>> {
    let fine = |b: u8| b.is_ascii_alphanumeric() || b"-_.".contains(&b);
    (!name.is_empty() && name.bytes().all(fine)).then(|| name.as_bytes().to_vec())
}

/// Hex pairs, `-` for none, `N*HH`, joined by `+`; or `'` and a name.
pub fn bytes(word: &str) -> Result<Vec<u8>, Fault> {
    let got = match word.strip_prefix('\'') {
        Some(name) => quoted(name),
        None => word.split('+').map(piece).collect::<Option<Vec<_>>>().map(|all| all.concat()),
    };
    got.filter(|b| b.len() <= 262_144).ok_or_else(|| "no bytes".to_string())
}

/// Bytes as the testbench prints them.
pub fn shown(bytes: &[u8]) -> String {
    const DIGITS: &[u8; 16] = b"0123456789abcdef";
    if bytes.is_empty() {
        return "-".to_string();
    }
    let pairs = bytes.iter().flat_map(|b| [DIGITS[(b >> 4) as usize], DIGITS[(b & 15) as usize]]);
    pairs.map(char::from).collect()
}

/// Words as the testbench prints them.
pub fn spaced(words: &[u32]) -> String {
    if words.is_empty() {
        return "-".to_string();
    }
    words.iter().map(u32::to_string).collect::<Vec<_>>().join(" ")
}

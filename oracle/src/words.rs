//! Words as files have them (little-endian) and as lines have them (hexadecimal).

/// The words of a stream file: one call after another, each a count and then that many words.
pub fn encode_calls(calls: &[Vec<u32>]) -> Vec<u32> {
    calls.iter().flat_map(|call| [&[call.len() as u32], &call[..]].concat()).collect()
}

pub fn decode_calls(words: &[u32]) -> Result<Vec<Vec<u32>>, String> {
    let mut calls = Vec::new();
    let mut rest = words;
    while let Some((count, after)) = rest.split_first() {
        let count = *count as usize;
        if count > after.len() {
            return Err(format!("call {} wants {count} words, {} are left", calls.len(), after.len()));
        }
        calls.push(after[..count].to_vec());
        rest = &after[count..];
    }
    Ok(calls)
}

pub fn read_words(file: &str) -> Result<Vec<u32>, String> {
    let bytes = std::fs::read(file).map_err(|error| format!("{file}: {error}"))?;
    if bytes.len() % 4 != 0 {
        return Err(format!("{file}: {} bytes are no whole number of words", bytes.len()));
    }
    Ok(bytes.chunks_exact(4).map(|b| u32::from_le_bytes([b[0], b[1], b[2], b[3]])).collect())
}

pub fn read_calls(file: &str) -> Result<Vec<Vec<u32>>, String> {
    decode_calls(&read_words(file)?).map_err(|error| format!("{file}: {error}"))
}

pub fn parse_line(line: &str) -> Result<Vec<u32>, String> {
    line.split_whitespace()
        .map(|text| u32::from_str_radix(text, 16).map_err(|error| format!("{text:?}: {error}")))
        .collect()
}

pub fn word_line(words: &[u32]) -> String {
    let texts: Vec<String> = words.iter().map(|word| format!("{word:08x}")).collect();
    texts.join(" ")
}

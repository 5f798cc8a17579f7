//! A plain interpreter of scripts over an ordered map, as a yardstick: `put`, `del`, `delspan`, `batch`, `get`, `scan`
//! and `rscan`. It takes well-formed scripts alone. Build: `rustc -O bench/btree_interpreter.rs -o /tmp/btree_interpreter`.
use std::collections::BTreeMap;
use std::io::{self, Read, Write};

fn unspell(word: &[u8]) -> Vec<u8> {
    if word == b"\"\"" {
        return Vec::new();
    }
    let digit = |letter: u8| if letter < b'a' { letter - b'0' } else { letter - b'a' + 10 };
    let mut bytes = Vec::with_capacity(word.len());
    let mut rest = word;
    loop {
        match rest {
            [] => return bytes,
            [b'%', high, low, after @ ..] => {
                bytes.push(16 * digit(*high) + digit(*low));
                rest = after;
            }
            [byte, after @ ..] => {
                bytes.push(*byte);
                rest = after;
            }
        }
    }
}

fn spell(bytes: &[u8], out: &mut Vec<u8>) {
    if bytes.is_empty() {
        out.extend_from_slice(b"\"\"");
    }
    for byte in bytes {
        match byte {
            b'a'..=b'z' | b'A'..=b'Z' | b'0'..=b'9' | b'_' | b'-' | b'.' | b'/' => out.push(*byte),
            _ => out.extend_from_slice(format!("%{byte:02x}").as_bytes()),
        }
    }
}

fn delete_span(map: &mut BTreeMap<Vec<u8>, Vec<u8>>, lo: &[u8], hi: &[u8]) {
    let keys: Vec<Vec<u8>> = map.range(unspell(lo)..unspell(hi)).map(|(key, _)| key.clone()).collect();
    for key in keys {
        map.remove(&key);
    }
}

fn act(map: &mut BTreeMap<Vec<u8>, Vec<u8>>, verb: &[u8], operands: &[&[u8]]) {
    match (verb, operands) {
        (b"set" | b"put", [key, value]) => {
            map.insert(unspell(key), unspell(value));
        }
        (b"del", [key]) => {
            map.remove(&unspell(key));
        }
        (b"delspan", [lo, hi]) => delete_span(map, lo, hi),
        _ => panic!("not such a line"),
    }
}

fn tell<'a>(pairs: impl Iterator<Item = (&'a Vec<u8>, &'a Vec<u8>)>, most: &[u8], out: &mut Vec<u8>) {
    let most = std::str::from_utf8(most).unwrap().parse().unwrap();
    out.extend_from_slice(b"found");
    for (key, value) in pairs.take(most) {
        out.push(b' ');
        spell(key, out);
        out.push(b'=');
        spell(value, out);
    }
}

fn main() -> io::Result<()> {
    let mut script = Vec::new();
    io::stdin().read_to_end(&mut script)?;
    let mut map: BTreeMap<Vec<u8>, Vec<u8>> = BTreeMap::new();
    let mut out = Vec::new();
    for line in script.split(|byte| *byte == b'\n') {
        if line.is_empty() || line[0] == b'#' {
            continue;
        }
        let words: Vec<&[u8]> = line.split(|byte| *byte == b' ').collect();
        out.extend_from_slice(line);
        out.extend_from_slice(b" -> ");
        match (words[1], &words[2..]) {
            (b"get", operands) => match map.get(&unspell(operands[0])) {
                Some(value) => {
                    out.extend_from_slice(b"value ");
                    spell(value, &mut out);
                }
                None => out.extend_from_slice(b"none"),
            },
            (b"scan", [lo, hi, most]) => tell(map.range(unspell(lo)..unspell(hi)), most, &mut out),
            (b"rscan", [lo, hi, most]) => tell(map.range(unspell(lo)..unspell(hi)).rev(), most, &mut out),
            (b"batch", operations) => {
                for operation in operations.split(|word| *word == b";") {
                    act(&mut map, operation[0], &operation[1..]);
                }
                out.extend_from_slice(b"done");
            }
            (verb, operands) => {
                act(&mut map, verb, operands);
                out.extend_from_slice(b"done");
            }
        }
        out.push(b'\n');
    }
    io::stdout().write_all(&out)
}

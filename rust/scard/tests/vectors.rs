//! Runs the vectors of the folder `vectors` through the crate, in the format of docs/VECTORS.md: each line of `check`,
//! also octet by octet if there is a reader, and each line of `build` without standard input.

use scard::*;
use std::fmt::Display;
use std::fs;
use std::path::Path;

const FILES: [&str; 7] = ["atr", "block", "chain", "command", "response", "tlv", "dol"];
const LEAST: usize = 6000;

/// The text of a field. All fields that are read here are ASCII.
fn text_of(field: &str) -> String {
    let (mut text, mut signs) = (String::new(), if field == "-" { "" } else { field }.chars());
    while let Some(sign) = signs.next() {
        let escaped = if sign == '\\' { signs.next() } else { None };
        match escaped {
            None => text.push(sign),
            Some('n') => text.push('\n'),
            Some('t') => text.push('\t'),
            Some('s') => text.push(' '),
            Some('e') => {}
            Some('x') => {
                let digits: String = signs.by_ref().take(2).collect();
                text.push(u8::from_str_radix(&digits, 16).unwrap() as char);
            }
            Some(other) => text.push(other),
        }
    }
    text
}

/// The cases of a file that need no standard input, and whose words have a form: its line, words, text.
fn cases(name: &str) -> Vec<(usize, Vec<String>, String)> {
    let folder = Path::new(env!("CARGO_MANIFEST_DIR")).join("../../vectors");
    let lines = fs::read_to_string(folder.join(name)).unwrap_or_default();
    let mut found = Vec::new();
    for (number, line) in lines.split('\n').enumerate() {
        let fields: Vec<&str> = line.split('\t').collect();
        if fields.len() == 4 && !line.starts_with('#') && fields[1] == "-" && fields[2] != "2" {
            let words = fields[0].split(' ').map(text_of).collect();
            found.push((number + 1, words, text_of(fields[3])));
        }
    }
    found
}

/// The octets of a word in hexadecimal.
fn octets_of(word: &str) -> Vec<u8> {
    let digits = if word == "none" { "" } else { word };
    (0..digits.len()).step_by(2).map(|at| u8::from_str_radix(&digits[at..at + 2], 16).unwrap()).collect()
}

/// The words without options, and the information size and number that these have.
fn without_options(words: &[String]) -> (Vec<String>, Ifs, bool) {
    let (mut rest, mut ifs, mut number) = (Vec::new(), 254, 0);
    let joined = words.join(" ").replace("--ifs=", "--ifs ").replace("--number=", "--number ");
    let mut all = joined.split(' ');
    while let Some(word) = all.next() {
        match word {
            "--ifs" => ifs = all.next().unwrap().trim_start_matches('+').parse().unwrap(),
            "--number" => number = all.next().unwrap().trim_start_matches('+').parse().unwrap(),
            _ => rest.push(word.to_string()),
        }
    }
    (rest, Ifs::new(ifs).unwrap(), number == 1)
}

/// What the program prints for a check: the count of octets, or the refusal.
fn said(found: Result<usize, impl Display>) -> String {
    match found {
        Ok(count) => format!("ok {count} octets\n"),
        Err(refusal) => format!("{refusal}\n"),
    }
}

/// What a check of octets says.
fn checked(kind: &str, octets: &[u8], ifs: Ifs, number: bool) -> String {
    let (count, mut room) = (octets.len(), vec![0; 131_072]);
    match kind {
        "atr" => said(Atr::decode(octets).map(|it| it.1)),
        "block" => said(Block::decode(octets, ifs).map(|it| it.1)),
        "command" => said(Command::decode(octets).map(|_| count)),
        "response" => said(Response::decode(octets).map(|_| count)),
        "tlv" => {
            let mut parts = vec![Part::NONE; count / 2];
            let decoded = said(Forest::decode(octets, &mut parts).map(|_| count));
            assert_eq!(decoded, said(check(octets)));
            decoded
        }
        "dol" => said(entries(octets, &mut vec![Entry::NONE; count / 2]).map(|_| count)),
        _ => {
            let mut receiver = Receiver::new(ifs, number, &mut room);
            said(match receiver.feed(octets) {
                Ok(Progress::Complete(came)) => Ok(came),
                Ok(Progress::More) => receiver.finish().map(|_| count),
                Err(refusal) => Err(refusal),
            })
        }
    }
}

/// What a reader says that gets the octets one by one.
fn by_octets<E: Display>(
    octets: &[u8],
    mut feed: impl FnMut(&[u8]) -> Result<Progress, E>,
) -> Option<String> {
    for (place, octet) in octets.iter().enumerate() {
        match feed(&[*octet]) {
            Ok(Progress::Complete(1)) => return Some(format!("ok {} octets\n", place + 1)),
            Ok(Progress::Complete(other)) => panic!("{other} octets of a piece of one"),
            Ok(Progress::More) => {}
            Err(refusal) => return Some(format!("{refusal}\n")),
        }
    }
    None
}

/// The same by the reader of a kind, octet by octet, if there is one.
fn in_pieces(kind: &str, octets: &[u8], ifs: Ifs, number: bool) -> Option<String> {
    let (count, mut room) = (octets.len(), vec![0; 131_072]);
    match kind {
        "atr" => {
            let mut reader = AtrReader::new();
            by_octets(octets, |it| reader.feed(it)).or_else(|| Some(said(reader.finish().map(|_| count))))
        }
        "block" => {
            let mut reader = BlockReader::new(ifs);
            by_octets(octets, |it| reader.feed(it)).or_else(|| Some(said(reader.finish().map(|_| count))))
        }
        "chain" => {
            let mut reader = Receiver::new(ifs, number, &mut room);
            let came = by_octets(octets, |it| reader.feed(it));
            came.or_else(|| Some(said(reader.finish().map(|_| count))))
        }
        "tlv" => {
            let mut reader = TlvCheck::new(TLV_LARGEST);
            by_octets(octets, |it| reader.feed(it)).or_else(|| Some(said(reader.finish().map(|_| count))))
        }
        _ => None,
    }
}

#[test]
fn every_check() {
    let (mut tried, mut pieces) = (0, 0);
    for name in FILES {
        for (line, words, text) in cases(name).into_iter().chain(cases(&format!("{name}.changes"))) {
            if words[0] != "check" {
                continue;
            }
            let (words, ifs, number) = without_options(&words);
            let octets = octets_of(&words[2]);
            tried += 1;
            assert_eq!(checked(&words[1], &octets, ifs, number), text, "{name}:{line} {words:?}");
            if let Some(found) = in_pieces(&words[1], &octets, ifs, number) {
                pieces += 1;
                assert_eq!(found, text, "{name}:{line} {words:?} in pieces");
            }
        }
    }
    println!("{tried} checks, {pieces} of them octet by octet");
    assert!(tried > LEAST);
}

/// Octets as a line of the program.
fn line_of(octets: &[u8]) -> String {
    let digits: String = octets.iter().map(|octet| format!("{octet:02X}")).collect();
    if digits.is_empty() { "none\n".into() } else { digits + "\n" }
}

/// What a line of `build` prints, or None if its words are of another kind.
fn built(words: &[String]) -> Option<String> {
    let mut out = vec![0; 70_000];
    match words[0].as_str() {
        "tidy" => Some(match tidy(&octets_of(&words[1]), &mut out) {
            Ok(octets) => line_of(octets),
            Err(failure) => format!("{failure}\n"),
        }),
        "fill" => {
            let values: Vec<_> = words[2..].iter().map(|word| word.split(':').collect::<Vec<_>>()).collect();
            let held: Vec<_> = values.iter().map(|it| (octets_of(it[1]), octets_of(it[2]))).collect();
            let formats = |sign: &str| match sign {
                "n" => Format::Numeric,
                "c" => Format::CompressedNumeric,
                _ => Format::Other,
            };
            let mut known = Vec::new();
            for (it, (tag, value)) in values.iter().zip(&held) {
                known.push(Known::new(Tag::new(tag)?, formats(it[0]), value));
            }
            Some(match fill(&octets_of(&words[1]), &known, &mut out) {
                Ok(octets) => line_of(octets),
                Err(failure) => format!("{failure}\n"),
            })
        }
        "chain" => {
            let (ifs, number) = (words[1].parse().ok().and_then(Ifs::new)?, words[2] == "1");
            Some(cut(&octets_of(&words[3]), ifs, number).map(|it| line_of(&it)).collect())
        }
        _ => None,
    }
}

#[test]
fn every_build() {
    let mut tried = 0;
    for (line, words, text) in cases("build") {
        if words[0] == "build" {
            let found = built(&words[1..]);
            assert_eq!(found.as_deref(), Some(text.as_str()), "build:{line} {words:?}");
            tried += 1;
        }
    }
    println!("{tried} lines of build");
    assert!(tried > 20);
}

#[test]
fn what_was_decoded_encodes() {
    let mut tried = 0;
    for name in ["atr", "block", "command", "response"] {
        for (line, words, text) in cases(name) {
            if words[0] != "check" || !text.starts_with("ok") {
                continue;
            }
            let (words, ifs, _) = without_options(&words);
            let (octets, mut out) = (octets_of(&words[2]), vec![0; 70_000]);
            let again: Vec<u8> = match name {
                "atr" => Atr::decode(&octets).unwrap().0.encode().to_vec(),
                "block" => Block::decode(&octets, ifs).unwrap().0.encode().unwrap().to_vec(),
                "command" => Command::decode(&octets).unwrap().encode(&mut out).unwrap().to_vec(),
                _ => Response::decode(&octets).unwrap().encode(&mut out).unwrap().to_vec(),
            };
            assert_eq!(again, octets[..again.len()], "{name}:{line}");
            tried += 1;
        }
    }
    assert!(tried > 50);
}

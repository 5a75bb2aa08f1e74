//! What the crate regex 1.7.1 says of patterns over bytes. Reads lines of standard input, writes one line for each.
//!
//! `peer values`: a line is a pattern in hexadecimal digits; writes its value in the notation of the jobs, or `none` if
//! regex-syntax refuses it, or if it has a Unicode class or a Unicode word boundary.
//!
//! `peer matches`: a line is patterns in hexadecimal digits, joined by commas, a tab and a text in hexadecimal digits;
//! writes all matches, first by the crate's own choice of engines, then, after a tab, by its Pike VM.

use regex::bytes::Regex;
use regex_syntax::hir::{Anchor, Class, Group, GroupKind, Hir, HirKind, Literal};
use regex_syntax::hir::{RepetitionKind, RepetitionRange, WordBoundary};
use std::io::{self, BufRead, Write};

fn bytes(hex: &str) -> Vec<u8> {
    let pair = |i: usize| u8::from_str_radix(&hex[2 * i..2 * i + 2], 16).unwrap();
    (0..hex.len() / 2).map(pair).collect()
}

fn hex(bytes: &[u8]) -> String {
    bytes.iter().map(|byte| format!("{byte:02x}")).collect()
}

fn literal(literal: &Literal) -> Vec<u8> {
    match literal {
        Literal::Unicode(c) => c.encode_utf8(&mut [0; 4]).as_bytes().to_vec(),
        Literal::Byte(byte) => vec![*byte],
    }
}

/// Returns the words of a list of parts, with adjacent literals joined, after the word of the list.
fn list(kind: char, parts: &[Hir], is_joined: bool) -> Option<String> {
    let mut words: Vec<String> = vec![];
    let mut last: Option<Vec<u8>> = None;
    for part in parts {
        match part.kind() {
            HirKind::Literal(found) if is_joined => last.get_or_insert(vec![]).extend(literal(found)),
            _ => {
                words.extend(last.take().map(|joined| format!("L:{}", hex(&joined))));
                words.push(value(part)?);
            }
        }
    }
    words.extend(last.take().map(|joined| format!("L:{}", hex(&joined))));
    if is_joined && words.len() == 1 {
        return words.pop();
    }
    Some(format!("{kind}:{} {}", words.len(), words.join(" ")))
}

fn value(hir: &Hir) -> Option<String> {
    Some(match hir.kind() {
        HirKind::Empty => "E".into(),
        HirKind::Literal(found) => format!("L:{}", hex(&literal(found))),
        HirKind::Class(Class::Bytes(class)) => {
            let range = |r: &regex_syntax::hir::ClassBytesRange| format!("{:02x}-{:02x}", r.start(), r.end());
            format!("C:{}", class.iter().map(range).collect::<Vec<_>>().join(","))
        }
        HirKind::Class(Class::Unicode(_)) => return None,
        HirKind::Anchor(Anchor::StartText) => "K:Start".into(),
        HirKind::Anchor(Anchor::EndText) => "K:End".into(),
        HirKind::Anchor(Anchor::StartLine) => "K:StartLF".into(),
        HirKind::Anchor(Anchor::EndLine) => "K:EndLF".into(),
        HirKind::WordBoundary(WordBoundary::Ascii) => "K:WordAscii".into(),
        HirKind::WordBoundary(WordBoundary::AsciiNegate) => "K:WordAsciiNegate".into(),
        HirKind::WordBoundary(_) => return None,
        HirKind::Repetition(repetition) => {
            let (min, max) = match &repetition.kind {
                RepetitionKind::ZeroOrOne => (0, Some(1)),
                RepetitionKind::ZeroOrMore => (0, None),
                RepetitionKind::OneOrMore => (1, None),
                RepetitionKind::Range(RepetitionRange::Exactly(n)) => (*n, Some(*n)),
                RepetitionKind::Range(RepetitionRange::AtLeast(n)) => (*n, None),
                RepetitionKind::Range(RepetitionRange::Bounded(m, n)) => (*m, Some(*n)),
            };
            let max = max.map_or("-".to_string(), |max| max.to_string());
            let choice = if repetition.greedy { 'g' } else { 'l' };
            format!("R:{min},{max},{choice} {}", value(&repetition.hir)?)
        }
        HirKind::Group(Group { kind: GroupKind::NonCapturing, hir }) => value(hir)?,
        HirKind::Group(Group { hir, .. }) => format!("G {}", value(hir)?),
        HirKind::Concat(parts) => list('S', parts, true)?,
        HirKind::Alternation(parts) => list('A', parts, false)?,
    })
}

/// Returns the value of a pattern over bytes, if the engines take it.
fn read(pattern: &str) -> Option<String> {
    let mut parser = regex_syntax::ParserBuilder::new();
    let hir = parser.allow_invalid_utf8(true).unicode(false).build().parse(pattern).ok()?;
    let hex = hex(pattern.as_bytes());
    Engines::new(&hex).ok()?;
    value(&hir)
}

/// The engines of some patterns: of their alternation, with a group for each.
struct Engines {
    patterns: String,
    count: usize,
    own: Regex,
    pike: Regex,
}

impl Engines {
    fn new(patterns: &str) -> Result<Engines, regex::Error> {
        let mut groups = vec![];
        for (i, pattern) in patterns.split(',').enumerate() {
            groups.push(format!("(?P<pattern{i}>{})", String::from_utf8(bytes(pattern)).unwrap()));
        }
        let all = format!("(?-u){}", groups.join("|"));
        let pike = regex::internal::ExecBuilder::new(&all).nfa().only_utf8(false);
        Ok(Engines {
            patterns: patterns.to_string(),
            count: groups.len(),
            own: Regex::new(&all)?,
            pike: pike.build()?.into_byte_regex(),
        })
    }

    /// Returns all matches, each as its pattern, start and end.
    fn matches(&self, regex: &Regex, text: &[u8]) -> String {
        let mut found = vec![];
        for captures in regex.captures_iter(text) {
            let is_of = |i: &usize| captures.name(&format!("pattern{i}")).is_some();
            let whole = captures.get(0).unwrap();
            found.push(((0..self.count).find(is_of).unwrap(), whole.start(), whole.end()));
        }
        let ends: Vec<_> = regex.find_iter(text).map(|m| (m.start(), m.end())).collect();
        if ends != found.iter().map(|m| (m.1, m.2)).collect::<Vec<_>>() {
            return "the captures have other ends".into();
        }
        let words: Vec<_> = found.iter().map(|(p, start, end)| format!("{p}:{start}-{end}")).collect();
        if words.is_empty() { "-".into() } else { words.join(",") }
    }
}

fn main() {
    let mode = std::env::args().nth(1).expect("values or matches");
    let mut out = io::BufWriter::new(io::stdout());
    let mut last: Option<Engines> = None;
    for line in io::stdin().lock().lines() {
        let line = line.unwrap();
        if mode == "values" {
            let pattern = String::from_utf8(bytes(&line)).unwrap();
            writeln!(out, "{}", read(&pattern).unwrap_or("none".into())).unwrap();
            continue;
        }
        let (patterns, text) = line.split_once('\t').unwrap();
        if last.as_ref().map_or(true, |last| last.patterns != patterns) {
            last = Some(Engines::new(patterns).expect("each pattern alone is accepted"));
        }
        let (text, engines) = (bytes(text), last.as_ref().unwrap());
        let (own, pike) = (engines.matches(&engines.own, &text), engines.matches(&engines.pike, &text));
        writeln!(out, "{own}\t{pike}").unwrap();
    }
}

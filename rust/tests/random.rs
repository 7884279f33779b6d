//! Random steps on a document and on a plain model of it: a list of units, and copies of it to undo by.

use std::ops::Range;
use textmodel::*;

const STEPS: usize = 4000;
const LONGEST: usize = 400;
const CR: u16 = 0x0D;
const LF: u16 = 0x0A;

/// Numbers that look random, the same for the same seed.
struct Dice(u64);

impl Dice {
    fn below(&mut self, most: usize) -> usize {
        self.0 ^= self.0 << 13;
        self.0 ^= self.0 >> 7;
        self.0 ^= self.0 << 17;
        (self.0 >> 11) as usize % most
    }

    fn one_in(&mut self, count: usize) -> bool {
        self.below(count) == 0
    }

    fn of<'a, T>(&mut self, items: &'a [T]) -> &'a T {
        &items[self.below(items.len())]
    }

    /// A text of some units, of which surrogates may stand alone.
    fn units(&mut self, most: usize) -> Vec<u16> {
        let parts = ["a", "b", "ab", " ", "\n", "\r\n", "\r", "é", "€", "😀", "(", ")", "[", "]", "\u{301}"];
        let mut units = Vec::new();
        for _ in 0..self.below(most) {
            if self.one_in(20) {
                units.push(*self.of(&[0xD83D, 0xDE00]));
            } else {
                units.extend(self.of(&parts).encode_utf16());
            }
        }
        units
    }
}

fn is_high(unit: u16) -> bool {
    (0xD800..0xDC00).contains(&unit)
}

fn is_low(unit: u16) -> bool {
    (0xDC00..0xE000).contains(&unit)
}

fn with_ending(units: &[u16], ending: Ending) -> Vec<u16> {
    let new: &[u16] = match ending {
        Ending::Mixed => return units.to_vec(),
        Ending::Lf => &[LF],
        Ending::CrLf => &[CR, LF],
    };
    let mut out = Vec::new();
    for (at, &unit) in units.iter().enumerate() {
        match unit {
            LF if at > 0 && units[at - 1] == CR => (),
            CR | LF => out.extend_from_slice(new),
            other => out.push(other),
        }
    }
    out
}

/// How many bytes, units or code points these units have.
fn measured(units: &[u16], encoding: Encoding) -> usize {
    let text = String::from_utf16_lossy(units);
    match encoding {
        Encoding::Utf8 => text.len(),
        Encoding::Utf16 => units.len(),
        Encoding::Utf32 => text.chars().count(),
    }
}

type Kept = (Vec<u16>, Ending);

struct Plain {
    units: Vec<u16>,
    ending: Ending,
    undo: Vec<Kept>,
    redo: Vec<Kept>,
    /// Whether an edit goes on with the last step.
    goes_on: bool,
    version: u64,
}

impl Plain {
    fn is_place(&self, at: usize) -> bool {
        let Some((before, after)) = at.checked_sub(1).and_then(|it| Some((self.units.get(it)?, self.units.get(at)?)))
        else {
            return at <= self.units.len();
        };
        let is_pair = is_high(*before) && is_low(*after);
        let is_ending = self.ending == Ending::CrLf && *before == CR && *after == LF;
        !is_pair && !is_ending
    }

    fn is_span(&self, span: &Range<usize>) -> bool {
        span.start <= span.end && self.is_place(span.start) && self.is_place(span.end)
    }

    /// The contents of the lines.
    fn lines(&self) -> Vec<Range<usize>> {
        let (mut lines, mut start, mut at) = (Vec::new(), 0, 0);
        while at < self.units.len() {
            let next = at + 1;
            match self.units[at] {
                CR | LF => {
                    lines.push(start..at);
                    let is_pair = self.units[at] == CR && self.units.get(next) == Some(&LF);
                    at = next + usize::from(is_pair);
                    start = at;
                }
                _ => at = next,
            }
        }
        lines.push(start..at);
        lines
    }

    fn position(&self, offset: usize, encoding: Encoding) -> Option<Position> {
        if !self.is_place(offset) {
            return None;
        }
        let lines = self.lines();
        let line = lines.iter().rposition(|it| it.start <= offset)?;
        let content = &self.units[lines[line].start..offset.min(lines[line].end)];
        let behind = offset.saturating_sub(lines[line].end);
        Some(Position::new(line + 1, measured(content, encoding) + behind + 1))
    }

    fn offset(&self, position: Position, encoding: Encoding) -> Option<usize> {
        let line = self.lines().get(position.line.checked_sub(1)?)?.clone();
        let column = position.column.checked_sub(1)?;
        let is_there = |at: &usize| measured(&self.units[line.start..*at], encoding) == column;
        (line.start..=line.end).filter(|at| self.is_place(*at)).find(is_there)
    }

    fn found(&self, sought: &[u16]) -> Vec<Range<usize>> {
        let (mut found, mut at) = (Vec::new(), 0);
        while at + sought.len() <= self.units.len() {
            let span = at..at + sought.len();
            let is_there = self.units[span.clone()] == *sought && self.is_span(&span);
            at = if is_there { span.end } else { at + 1 };
            found.extend(is_there.then_some(span));
        }
        found
    }

    fn keep(&mut self, is_own_step: bool) {
        if !self.goes_on || is_own_step {
            self.undo.push((self.units.clone(), self.ending));
        }
        self.redo.clear();
        self.goes_on = !is_own_step;
        self.version += 1;
    }

    fn edit(&mut self, span: Range<usize>, text: &[u16]) {
        self.keep(false);
        self.units.splice(span, with_ending(text, self.ending));
    }

    /// The spans rise, and none overlaps another.
    fn batch(&mut self, spans: &[Range<usize>], texts: &[Vec<u16>]) {
        self.keep(false);
        for (span, text) in spans.iter().zip(texts).rev() {
            self.units.splice(span.clone(), with_ending(text, self.ending));
        }
    }

    fn replace_all(&mut self, sought: &[u16], with: &[u16]) -> usize {
        let found = self.found(sought);
        if !found.is_empty() {
            self.keep(true);
        }
        let with = with_ending(with, self.ending);
        for span in found.iter().rev() {
            self.units.splice(span.clone(), with.iter().copied());
        }
        found.len()
    }

    fn set_ending(&mut self, ending: Ending) -> bool {
        if ending == self.ending {
            return false;
        }
        self.keep(true);
        self.units = with_ending(&self.units, ending);
        self.ending = ending;
        true
    }

    fn step(&mut self, is_undo: bool) -> bool {
        let (from, to) = match is_undo {
            true => (&mut self.undo, &mut self.redo),
            false => (&mut self.redo, &mut self.undo),
        };
        let Some((units, ending)) = from.pop() else { return false };
        to.push((std::mem::replace(&mut self.units, units), self.ending));
        self.ending = ending;
        self.goes_on = false;
        self.version += 1;
        true
    }
}

fn change(dice: &mut Dice, plain: &mut Plain, session: &Session, document: &mut Document<'_>) -> Result<(), Error> {
    let range = Error::Range(At { document: Some(0), index: None });
    match dice.below(20) {
        0 => assert_eq!(document.undo()?, plain.step(true)),
        1 => assert_eq!(document.redo()?, plain.step(false)),
        2 => {
            document.end_step();
            plain.goes_on = false;
        }
        3 => {
            let (sought, with) = (dice.units(3), dice.units(3));
            let told = match (String::from_utf16(&sought), String::from_utf16(&with)) {
                (Ok(sought), Ok(with)) => document.replace_all(&sought, &with),
                (Ok(sought), Err(_)) => document.replace_all(&sought, &with),
                _ => document.replace_all(&sought, &with),
            };
            match sought.is_empty() {
                true => assert_eq!(told, Err(range)),
                false => assert_eq!(told?, plain.replace_all(&sought, &with)),
            }
        }
        4 if dice.one_in(4) => {
            let ending = *dice.of(&[Ending::Mixed, Ending::Lf, Ending::CrLf]);
            assert_eq!(document.set_ending(ending)?, plain.set_ending(ending));
        }
        5 => batch(dice, plain, session)?,
        way => edit(way, dice, plain, document)?,
    }
    Ok(())
}

/// Several edits at once, which are of the text before, in any order.
fn batch(dice: &mut Dice, plain: &mut Plain, session: &Session) -> Result<(), Error> {
    let mut places: Vec<_> = (0..6).map(|_| dice.below(plain.units.len() + 1)).collect();
    places.sort_unstable();
    places.dedup();
    let spans: Vec<_> = places.chunks_exact(2).map(|pair| pair[0]..pair[1]).collect();
    let texts: Vec<_> = spans.iter().map(|_| dice.units(4)).collect();
    let mut edits: Vec<_> = spans.iter().zip(&texts).map(|(span, text)| Edit::new(0, span.clone(), text)).collect();
    if dice.one_in(2) {
        edits.reverse();
    }
    let bad = edits.iter().position(|it| !plain.is_span(&it.span));
    let told = session.joint(&edits);
    match bad {
        Some(_) => assert_eq!(told, Err(Error::Range(At { document: Some(0), index: bad }))),
        None if edits.is_empty() => assert_eq!(told, Err(Error::Range(At::default()))),
        None => {
            told?;
            plain.batch(&spans, &texts);
        }
    }
    Ok(())
}

fn edit(way: usize, dice: &mut Dice, plain: &mut Plain, document: &mut Document<'_>) -> Result<(), Error> {
    let start = dice.below(plain.units.len() + 2);
    let most = if plain.units.len() > LONGEST { LONGEST } else { 6 };
    let span = start..(start + dice.below(most)).saturating_sub(usize::from(dice.one_in(30)));
    let units = dice.units(8);
    let encoding = *dice.of(&[Encoding::Utf8, Encoding::Utf16, Encoding::Utf32]);
    let places = (plain.position(span.start, encoding), plain.position(span.end, encoding));
    let is_named = |it: Position| plain.offset(it, encoding).is_some();
    let told = match (way, places, String::from_utf16(&units)) {
        (6..=9, (Some(from), Some(to)), _) if is_named(from) && is_named(to) => {
            document.edit_at(from..to, encoding, &units)
        }
        (10..=14, _, Ok(text)) => document.edit(span.clone(), &text),
        _ => document.edit(span.clone(), &units),
    };
    if plain.is_span(&span) {
        plain.edit(span, &units);
        return told;
    }
    assert_eq!(told, Err(Error::Range(At { document: Some(0), index: None })));
    Ok(())
}

/// Asks about places, lines and searches.
fn compare(dice: &mut Dice, plain: &Plain, document: &Document<'_>) -> Result<(), Error> {
    let len = plain.units.len();
    assert_eq!((document.len(), document.version(), document.ending()), (len, plain.version, plain.ending));
    assert_eq!((document.can_undo(), document.can_redo()), (!plain.undo.is_empty(), !plain.redo.is_empty()));
    assert_eq!(document.slice_units(..)?, plain.units);
    let lines = plain.lines();
    let line = dice.below(lines.len());
    assert_eq!(document.len_lines(), lines.len());
    assert_eq!(document.line_units(line + 1)?, plain.units[lines[line].clone()]);
    let encoding = *dice.of(&[Encoding::Utf8, Encoding::Utf16, Encoding::Utf32]);
    let (offset, position) = (dice.below(len + 2), Position::new(dice.below(lines.len() + 2), dice.below(30)));
    assert_eq!(document.position(offset, encoding)?, plain.position(offset, encoding));
    assert_eq!(document.offset(position, encoding)?, plain.offset(position, encoding));
    let span = offset..dice.below(len + 2);
    match document.slice(span.clone()) {
        Ok(text) => assert_eq!(text, String::from_utf16_lossy(&plain.units[span])),
        Err(_) => assert!(!plain.is_span(&span)),
    }
    let sought = dice.units(3);
    if !sought.is_empty() {
        let mut found = plain.found(&sought);
        assert_eq!(document.find(&sought)?, found);
        if let Ok(text) = String::from_utf16(&sought) {
            assert_eq!(document.find(&text)?, found);
        }
        let told = document.find(Search::new(&sought).forward_from(offset).most(2))?;
        assert_eq!(told, found.iter().filter(|it| it.start >= offset).take(2).cloned().collect::<Vec<_>>());
        found.reverse();
        let told = document.find(Search::new(&sought).back_from(offset).most(3))?;
        assert_eq!(told, found.into_iter().filter(|it| it.end <= offset).take(3).collect::<Vec<_>>());
    }
    Ok(())
}

/// Each bracket of a pair leads to the other one, and levels count those that are open.
fn compare_brackets(document: &Document<'_>, encoding: Encoding) -> Result<(), Error> {
    let brackets: Vec<_> = document.brackets(.., encoding).collect::<Result<_, _>>()?;
    for bracket in brackets {
        let partner = document.partner(bracket.position, encoding)?;
        let is_paired = matches!(bracket.state, BracketState::Opening | BracketState::Closing);
        assert_eq!(partner.is_some(), is_paired);
        if let Some(partner) = partner {
            let back = document.partner(partner.position, encoding)?.map(|it| it.position);
            assert_eq!(back, Some(bracket.position));
        }
        if bracket.state == BracketState::Opening {
            let inside = Position::new(bracket.position.line, bracket.position.column + bracket.length);
            assert_eq!(document.level(inside, encoding)?, bracket.level + 1);
        }
    }
    Ok(())
}

/// The changes lead from the text before to that of now, and so does the mirror.
fn follow(copy: &mut Vec<u16>, document: &mut Document<'_>) -> Result<(), Error> {
    for change in document.changes_in_units()? {
        copy.splice(change.span, change.text);
    }
    assert_eq!(*copy, document.slice_units(..)?);
    let event = document.send()?.expect("a change was made");
    let now = document.deliver(event.number)?.expect("it is the next event");
    assert_eq!((now.version, now.len, now.len_lines), (document.version(), document.len(), document.len_lines()));
    assert_eq!(document.mirrored_line_units(now.len_lines)?, document.line_units(now.len_lines)?);
    Ok(())
}

fn run(seed: u64, ending: Ending) -> Result<(), Error> {
    let session = Session::new()?;
    let mut document = session.document(0)?;
    OpenOptions::new().ending(ending).open(&mut document, "")?;
    document.begin_mirror()?;
    let (undo, redo) = (Vec::new(), Vec::new());
    let mut plain = Plain { units: Vec::new(), ending, undo, redo, goes_on: false, version: 1 };
    let (mut dice, mut copy, mut kept) = (Dice(seed), Vec::new(), None);
    for step in 0..STEPS {
        let version = plain.version;
        change(&mut dice, &mut plain, &session, &mut document)?;
        if plain.version > version {
            follow(&mut copy, &mut document)?;
        }
        compare(&mut dice, &plain, &document)?;
        if step % 50 == 0 {
            compare_brackets(&document, *dice.of(&[Encoding::Utf8, Encoding::Utf16]))?;
            let snapshot = (document.snapshot()?, String::from_utf16_lossy(&plain.units));
            if let Some((snapshot, text)) = kept.replace(snapshot) {
                assert_eq!(snapshot.collect::<Result<String, _>>()?, text);
            }
        }
    }
    while plain.step(true) {
        assert!(document.undo()?);
    }
    assert!(!document.undo()? && document.is_empty() && document.ending() == ending);
    Ok(())
}

#[test]
fn mixed_endings() -> Result<(), Error> {
    run(7, Ending::Mixed)
}

#[test]
fn lf_endings() -> Result<(), Error> {
    run(8, Ending::Lf)
}

#[test]
fn cr_lf_endings() -> Result<(), Error> {
    run(9, Ending::CrLf)
}

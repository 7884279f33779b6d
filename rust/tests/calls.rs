//! Each call once where it is answered, and each way in which one is refused.

use textmodel::*;

type Told = Result<(), Error>;

/// A session whose document 0 has this text.
fn session_of(text: &str) -> Result<Session, Error> {
    let session = Session::new()?;
    session.document(0)?.insert(0, text)?;
    Ok(session)
}

fn at(document: usize, index: Option<usize>) -> At {
    let document = Some(document);
    At { document, index }
}

#[test]
fn the_versions_are_one() {
    let (major, minor, patch) = library_version();
    assert_eq!(format!("{major}.{minor}.{patch}"), env!("CARGO_PKG_VERSION"));
    let file = std::fs::read_to_string(concat!(env!("CARGO_MANIFEST_DIR"), "/../VERSION"));
    assert!(file.map_or(true, |it| it.trim() == env!("CARGO_PKG_VERSION")));
}

#[test]
fn all_documents_are_there_and_empty() -> Told {
    let session = Session::new()?;
    for number in 0..DOCUMENTS {
        let document = session.document(number)?;
        assert_eq!((document.number(), document.len(), document.len_lines()), (number, 0, 1));
        assert!(document.is_empty() && document.version() == 1);
        assert_eq!(document.ending(), Ending::Mixed);
    }
    assert_eq!(session.document(64).unwrap_err(), Error::Unknown(at(64, None)));
    assert_eq!(format!("{session:?}"), "Session { .. }");
    let debug = format!("{:?}", session.document(3)?);
    assert_eq!(debug, "Document { number: 3, version: 1, len: 0, .. }");
    Ok(())
}

#[test]
fn texts_are_read_in_all_ways() -> Told {
    let session = session_of("a😀\r\nb")?;
    let mut document = session.document(0)?;
    assert_eq!(document.text()?, "a😀\r\nb");
    assert_eq!(document.to_string(), "a😀\r\nb");
    assert_eq!((document.slice(1..3)?, document.slice(1..=2)?), ("😀".into(), "😀".into()));
    assert_eq!(document.slice_units(..3)?, [0x61, 0xD83D, 0xDE00]);
    assert_eq!((document.line(1)?, document.line_units(2)?), ("a😀".into(), vec![0x62]));
    let mut out = [0; 2];
    assert_eq!((document.read_at(0, &mut out)?, out[0]), (1, 0x61));
    assert_eq!((document.read_at(5, &mut out)?, out[0]), (1, 0x62));
    assert_eq!(document.read_at(6, &mut out)?, 0);
    document.edit(.., &[0xD800, 0x61])?;
    assert_eq!((document.text()?, document.slice_units(..)?), ("\u{FFFD}a".into(), vec![0xD800, 0x61]));
    assert_eq!(document.slice(0..usize::MAX), Err(Error::Range(at(0, None))));
    assert_eq!(document.slice(0..=usize::MAX), Err(Error::Range(at(0, None))));
    let (start, end) = (2, 1);
    assert_eq!(document.slice_units(start..end), Err(Error::Range(at(0, None))));
    assert_eq!(document.line(0), Err(Error::Range(at(0, None))));
    assert_eq!(document.line_units(2), Err(Error::Range(at(0, None))));
    assert_eq!(document.read_at(0, &mut [0]), Err(Error::Range(at(0, None))));
    Ok(())
}

#[test]
fn long_texts_are_read_whole() -> Told {
    let text = "é😀x\r\n".repeat(30_000);
    let session = session_of(&text)?;
    let document = session.document(0)?;
    assert_eq!(document.text()?, text);
    assert_eq!(document.to_string(), text);
    assert_eq!(document.slice_units(..)?, text.encode_utf16().collect::<Vec<_>>());
    let snapshot = document.snapshot()?;
    assert_eq!(snapshot.collect::<Result<String, _>>()?, text);
    let mut chunks = document.chunks(6);
    assert_eq!(chunks.by_ref().collect::<Result<String, _>>()?, text[9..]);
    assert_eq!((chunks.offset(), chunks.next()), (document.len(), None));
    let mut bad = document.chunks(2);
    assert_eq!((bad.next(), bad.next()), (Some(Err(Error::Range(at(0, None)))), None));
    let line = "x".repeat(1000);
    session.document(1)?.insert(0, &line)?;
    assert_eq!(session.document(1)?.line(1)?, line);
    Ok(())
}

#[test]
fn lines_come_from_either_end() -> Told {
    let session = session_of("a\nb\rc\r\n")?;
    let document = session.document(0)?;
    let mut lines = document.lines();
    assert_eq!(lines.len(), 4);
    assert_eq!((lines.next(), lines.next_back()), (Some(Ok("a".into())), Some(Ok("".into()))));
    assert_eq!((lines.nth(1), lines.next()), (Some(Ok("c".into())), None));
    Ok(())
}

#[test]
fn edits_and_their_history() -> Told {
    let session = session_of("f(x)")?;
    let mut document = session.document(0)?;
    document.end_step();
    document.edit(2..3, "[y]")?;
    document.insert(0, &"é".to_owned())?;
    document.remove(..1)?;
    assert_eq!((document.text()?, document.version()), ("f([y])".into(), 5));
    assert!(document.can_undo() && !document.can_redo());
    assert!(document.undo()?);
    assert_eq!((document.text()?, document.version(), document.alternative_version()), ("f(x)".into(), 6, 2));
    assert!(document.can_redo() && document.redo()? && !document.redo()?);
    assert!(document.undo()? && document.undo()? && !document.undo()? && !document.can_undo());
    assert_eq!(document.edit(1..2, "x"), Err(Error::Range(at(0, None))));
    assert_eq!(document.edit(1..2, &[0x61]), Err(Error::Range(at(0, None))));
    Ok(())
}

#[test]
fn positions_in_each_encoding() -> Told {
    let session = session_of("é😀x\nb")?;
    let mut document = session.document(0)?;
    for (encoding, column) in [(Encoding::Utf8, 7), (Encoding::Utf16, 4), (Encoding::Utf32, 3)] {
        let position = Position::new(1, column);
        assert_eq!(document.position(3, encoding)?, Some(position));
        assert_eq!(document.offset(position, encoding)?, Some(3));
        assert_eq!(document.position(9, encoding)?, None);
        assert_eq!(document.offset(Position::new(1, column + 2), encoding)?, None);
        assert_eq!(document.offset(Position::new(3, 1), encoding)?, None);
        document.edit_at(position..Position::new(2, 1), encoding, "y\n")?;
        document.edit_at(position..Position::new(2, 1), encoding, &[0x78, 0x0A])?;
        let refused = document.edit_at(Position::new(2, 3)..Position::new(2, 3), encoding, "z");
        assert_eq!(refused, Err(Error::Range(at(0, None))));
    }
    assert_eq!(document.text()?, "é😀x\nb");
    assert_eq!(document.stops(1, Encoding::Utf16)?, [1, 2, 4]);
    assert_eq!(document.stops(1, Encoding::Utf8)?, [1, 3, 7]);
    assert_eq!(document.stops(3, Encoding::Utf8), Err(Error::Range(at(0, None))));
    Ok(())
}

#[test]
fn joint_edits_and_their_faults() -> Told {
    let session = session_of("abc")?;
    let (mut first, mut second) = (session.document(0)?, session.document(1)?);
    second.insert(0, "xyz")?;
    session.joint(&[Edit::new(0, 0..1, "é"), Edit::new(1, 0..3, ""), Edit::new(1, 3..3, &[0xD800])])?;
    assert_eq!((first.text()?, second.slice_units(..)?), ("ébc".into(), vec![0xD800]));
    assert!(first.undo()?);
    assert_eq!((first.text()?, second.text()?), ("abc".into(), "xyz".into()));
    assert!(second.redo()?);
    second.edit(.., "later")?;
    assert_eq!(first.undo(), Err(Error::Joint { document: 1 }));
    let refused = |edits: &[Edit<'_>]| session.joint(edits).unwrap_err();
    let good = || Edit::new(0, 0..1, "");
    assert_eq!(refused(&[]), Error::Range(At::default()));
    assert_eq!(refused(&[good(), Edit::new(1, 4..9, "x")]), Error::Range(at(1, Some(1))));
    assert_eq!(refused(&[good(), Edit::new(70, 0..0, "x")]), Error::Unknown(at(70, Some(1))));
    assert_eq!(refused(&[good(), Edit::new(1, 0..0, ""), good()]), Error::Unknown(at(0, Some(2))));
    assert_eq!(refused(&[Edit::new(0, 0..2, ""), Edit::new(0, 1..3, &[0x61])]), Error::Overlap(at(0, Some(1))));
    Ok(())
}

#[test]
fn decorations_come_by_their_spans() -> Told {
    let session = session_of("abc")?;
    let mut document = session.document(0)?;
    let new = [2..3, 0..2, 0..1, 0..1].map(NewDecoration::new);
    document.decorate(1, &[], &new)?;
    let found = document.decorations(.., None)?;
    assert_eq!(found.iter().map(|it| it.id).collect::<Vec<_>>(), [3, 4, 2, 1]);
    Ok(())
}

#[test]
fn a_forced_edit_moves_decorations() -> Told {
    let session = session_of("ab")?;
    let mut document = session.document(0)?;
    let ids = document.decorate(1, &[], &[NewDecoration::new(1..1).stick(Stick::Neither)])?;
    let mut edit = Edit::new(0, 1..1, "xy");
    edit.force = true;
    session.joint(&[edit])?;
    assert_eq!(document.decoration(ids.start).map(|it| it.span), Some(3..3));
    Ok(())
}

#[test]
fn opening_says_endings_brackets_and_marks() -> Told {
    let session = Session::new()?;
    let mut document = session.document(5)?;
    let mut options = OpenOptions::new();
    options.ending(Ending::CrLf).pair("begin", "end").pair(&[0x3C], &[0x3E]);
    options.hiding(&Hiding::new().line("--").block("{-", "-}").quote('"'));
    options.open(&mut document, "begin\n< -- end\n{- end -} \"end\" > end")?;
    assert_eq!((document.ending(), document.line(2)?), (Ending::CrLf, "< -- end".into()));
    let found: Vec<_> = document.brackets(1..=3, Encoding::Utf8).collect::<Result<_, _>>()?;
    let told: Vec<_> = found.iter().map(|it| (it.position.line, it.kind, it.level, it.length)).collect();
    assert_eq!(told, [(1, 0, 0, 5), (2, 1, 1, 1), (3, 1, 1, 1), (3, 0, 0, 3)]);
    document.insert(0, "\r")?;
    assert_eq!(document.slice(..2)?, "\r\n");
    assert_eq!(document.slice(..1), Err(Error::Range(at(5, None))));
    document.open(&[0xD800])?;
    assert_eq!((document.version(), document.slice_units(..)?), (1, vec![0xD800]));
    let refused = OpenOptions::new().pair("(", "(").open(&mut document, "x");
    assert_eq!(refused, Err(Error::Range(at(5, None))));
    let refused = OpenOptions::new().hiding(&Hiding::new().block("/*", "")).open(&mut document, "x");
    assert_eq!((refused, document.len()), (Err(Error::Range(at(5, None))), 1));
    Ok(())
}

#[test]
fn endings_are_changed() -> Told {
    let session = session_of("a\nb\rc")?;
    let mut document = session.document(0)?;
    assert!(document.set_ending(Ending::CrLf)? && !document.set_ending(Ending::CrLf)?);
    assert_eq!((document.text()?, document.ending()), ("a\r\nb\r\nc".into(), Ending::CrLf));
    assert!(document.set_ending(Ending::Mixed)? && document.set_ending(Ending::Lf)?);
    assert_eq!((document.text()?, document.ending()), ("a\nb\nc".into(), Ending::Lf));
    assert!(document.undo()? && document.undo()? && document.undo()?);
    assert_eq!((document.text()?, document.ending()), ("a\nb\rc".into(), Ending::Mixed));
    Ok(())
}

#[test]
fn searches_and_replaces() -> Told {
    let session = session_of("aaa aa 😀")?;
    let mut document = session.document(0)?;
    assert_eq!(document.find("aa")?, [0..2, 4..6]);
    assert_eq!(document.find(&[0xD83D, 0xDE00])?, document.find("😀")?);
    assert_eq!(document.find(Search::new("a").forward_from(1).most(3))?, [1..2, 2..3, 4..5]);
    assert_eq!(document.find(Search::new("a").back_from(5).most(2))?, [4..5, 2..3]);
    assert_eq!(document.find(Search::new("a").most(0))?, []);
    assert_eq!(document.find("none")?, []);
    assert_eq!(document.find(""), Err(Error::Range(at(0, None))));
    assert_eq!(document.replace_all("aa", "b")?, 2);
    assert_eq!(document.replace_all(&[0x62], "cc")?, 2);
    assert_eq!((document.replace_all("none", "b")?, document.text()?), (0, "cca cc 😀".into()));
    assert_eq!((document.replace_all(&[0xFFFF], &[0x61])?, document.undo()?), (0, true));
    assert_eq!(document.replace_all("", "b"), Err(Error::Range(at(0, None))));
    document.edit(.., &"ab".repeat(1000))?;
    assert_eq!(document.find("b")?.len(), 1000);
    Ok(())
}

#[test]
fn decorations_move_and_are_told() -> Told {
    let session = session_of("one two")?;
    let mut document = session.document(0)?;
    let mut new = NewDecoration::new(4..7).stick(Stick::End);
    new.collapse = true;
    let ids = document.decorate(7, &[], &[NewDecoration::new(0..3), new])?;
    assert_eq!(ids, 1..3);
    assert_eq!((document.version(), document.changes()?.len()), (2, 1));
    document.insert(7, "!")?;
    document.insert(4, " ")?;
    let (id, owner, stick) = (2, 7, Stick::End);
    let moved = Decoration { id, owner, span: 5..9, stick, collapse: true };
    assert_eq!(document.decoration(2), Some(moved.clone()));
    assert_eq!(document.decorations(5.., Some(7))?, [moved]);
    assert_eq!((document.decorations(.., None)?.len(), document.decorations(.., Some(8))?.len()), (2, 0));
    document.remove(5..9)?;
    assert_eq!(document.decoration(2).map(|it| it.span), Some(5..5));
    let refused = document.decorate(7, &[1, 9], &[]);
    assert_eq!(refused, Err(Error::Unknown(at(0, Some(1)))));
    let refused = document.decorate(7, &[1], &[NewDecoration::new(0..1), NewDecoration::new(0..99)]);
    assert_eq!(refused, Err(Error::Range(at(0, Some(1)))));
    assert_eq!(document.decorations(0..99, None), Err(Error::Range(at(0, None))));
    assert_eq!(document.decorate(7, &[1], &[])?, 3..3);
    assert_eq!(document.decoration(1), None);
    Ok(())
}

#[test]
fn brackets_and_partners() -> Told {
    let session = session_of("😀(\n[])\n")?;
    let document = session.document(0)?;
    let found: Result<Vec<_>, _> = document.brackets(1..=3, Encoding::Utf32).collect();
    let first = found?[0];
    assert_eq!((first.position, first.length, first.kind), (Position::new(1, 2), 1, 0));
    let partner = document.partner(Position::new(2, 1), Encoding::Utf16)?;
    assert_eq!(partner.map(|it| (it.position, it.length)), Some((Position::new(2, 2), 1)));
    assert_eq!(document.partner(Position::new(1, 1), Encoding::Utf8)?, None);
    assert_eq!(document.level(Position::new(2, 2), Encoding::Utf8)?, 2);
    let range = Error::Range(at(0, None));
    assert_eq!(document.partner(Position::new(9, 1), Encoding::Utf8), Err(range));
    assert_eq!(document.level(Position::new(1, 3), Encoding::Utf8), Err(range));
    let mut bad = document.brackets(1..=4, Encoding::Utf16);
    assert_eq!((bad.next(), bad.next()), (Some(Err(range)), None));
    let mut bad = document.brackets(2..2, Encoding::Utf16);
    assert_eq!((bad.next(), bad.next()), (Some(Err(range)), None));
    assert_eq!(document.brackets(0.., Encoding::Utf16).next(), Some(Err(range)));
    assert_eq!(document.brackets(2..3, Encoding::Utf16).count(), 3);
    let mut all = session.document(1)?;
    all.insert(0, &"()\n".repeat(2000))?;
    assert_eq!(all.brackets(.., Encoding::Utf16).filter(Result::is_ok).count(), 4000);
    Ok(())
}

#[test]
fn changes_lead_from_text_to_text() -> Told {
    let session = session_of("one two")?;
    let mut document = session.document(0)?;
    assert_eq!(session.document(1)?.changes()?, []);
    let long = "x".repeat(1000);
    session.joint(&[Edit::new(0, 0..3, &long), Edit::new(0, 4..7, &[0xD800])])?;
    let told = document.changes()?;
    assert_eq!((told[0].span.clone(), &told[0].text[..]), (4..7, "\u{FFFD}"));
    assert_eq!((told[1].span.clone(), &told[1].text), (0..3, &long));
    assert_eq!(document.changes()?, told);
    assert_eq!(document.changes_in_units()?[0].text, [0xD800]);
    document.undo()?;
    assert_eq!(document.changes_in_units()?.len(), 3);
    Ok(())
}

#[test]
fn snapshots_keep_a_text() -> Told {
    let session = session_of("a😀b")?;
    let mut document = session.document(0)?;
    let mut snapshot = document.snapshot()?;
    document.edit(.., "other")?;
    let mut out = [0; 2];
    assert_eq!((snapshot.read(&mut out)?, out[0]), (1, 0x61));
    assert_eq!((snapshot.read(&mut out)?, out), (2, [0xD83D, 0xDE00]));
    assert_eq!(snapshot.read(&mut [0]), Err(Error::Range(at(0, None))));
    assert_eq!((snapshot.next(), snapshot.next()), (Some(Ok("b".into())), None));
    assert_eq!(snapshot.read(&mut out)?, 0);
    OpenOptions::new().open(&mut document, "new")?;
    let mut newer = document.snapshot()?;
    assert_eq!(snapshot.read(&mut out), Err(Error::Unknown(at(0, None))));
    drop(snapshot);
    assert_eq!(newer.next(), Some(Ok("new".into())));
    Ok(())
}

#[test]
fn a_dropped_snapshot_is_closed() -> Told {
    let session = Session::new()?;
    let document = session.document(0)?;
    for _ in 0..1001 {
        drop(document.snapshot()?);
    }
    let open: Result<Vec<_>, _> = (0..1000).map(|_| document.snapshot()).collect();
    assert_eq!(document.snapshot().unwrap_err(), Error::Limit(at(0, None)));
    drop(open?);
    document.snapshot().map(drop)
}

#[test]
fn mirrors_follow_by_events() -> Told {
    let session = Session::new()?;
    let mut document = session.document(0)?;
    assert_eq!((document.mirrored(), document.send()?), (None, None));
    let unknown = Error::Unknown(at(0, None));
    assert_eq!((document.deliver(1), document.mirrored_line(1)), (Err(unknown), Err(unknown)));
    assert_eq!(document.begin_mirror()?, 1);
    document.insert(0, "a\n")?;
    assert_eq!(document.send()?, Some(Event { number: 1, from: 1 }));
    document.insert(2, &[0xD800])?;
    assert_eq!(document.send()?, Some(Event { number: 2, from: 2 }));
    assert_eq!(document.deliver(2), Err(Error::Gap { have: 1, need: 2 }));
    let (version, len, len_lines) = (2, 2, 2);
    let now = Mirrored { version, len, len_lines };
    assert_eq!((document.deliver(1)?, document.mirrored()), (Some(now), Some(now)));
    assert_eq!(document.deliver(1)?, None);
    assert_eq!(document.deliver(2)?.map(|it| it.version), Some(3));
    assert_eq!((document.mirrored_line(2)?, document.mirrored_line_units(2)?), ("\u{FFFD}".into(), vec![0xD800]));
    assert_eq!(document.mirrored_line(3), Err(Error::Range(at(0, None))));
    assert_eq!(document.deliver(9), Err(unknown));
    Ok(())
}

#[test]
fn script_lines_are_answered() -> Told {
    let mut session = session_of("x\n")?;
    assert_eq!(session.answer(r#"{"cmd":"size"}"#)?, "ok 2 2");
    assert_eq!(session.answer(b"\xFF")?, "! syntax");
    assert_eq!(session.answer(" ")?, "");
    let long = "y".repeat(1000);
    session.document(0)?.insert(0, &long)?;
    assert_eq!(session.answer(r#"{"cmd":"line","n":1}"#)?, format!("ok \"{long}x\""));
    Ok(())
}

#[test]
fn sessions_go_to_other_threads() -> Told {
    let session = session_of("a")?;
    let moved = std::thread::spawn(move || -> Result<Session, Error> {
        session.document(0)?.insert(1, "b")?;
        Ok(session)
    });
    let session = moved.join().unwrap()?;
    assert_eq!(session.document(0)?.text()?, "ab");
    let shared = std::sync::Mutex::new(session);
    std::thread::scope(|scope| {
        for _ in 0..8 {
            scope.spawn(|| {
                let session = shared.lock().unwrap();
                let mut document = session.document(0).unwrap();
                document.insert(document.len(), "c").unwrap();
            });
        }
    });
    assert_eq!(shared.into_inner().unwrap().document(0)?.text()?, "abcccccccc");
    Ok(())
}

#[test]
fn texts_tell_their_units() {
    let (text, units) = (Text::from("😀"), Text::from(&[0xD83D, 0xDE00]));
    assert_eq!((text.to_units(), units.to_units()), (vec![0xD83D, 0xDE00].into(), text.to_units()));
    assert_eq!(Text::from(&Vec::new()), Text::from(&[][..]));
}

#[test]
fn errors_speak_in_plain_words() {
    let text = |error: Error| error.to_string();
    assert_eq!(
        text(Error::Range(at(3, Some(1)))),
        "document 3: item 1 of the list: an argument is out of range or invalid"
    );
    assert_eq!(text(Error::Overlap(At::default())), "two edits overlap");
    assert_eq!(
        text(Error::Gap { have: 1, need: 4 }),
        "the mirror lacks events before this one: it has version 1, and needs 4"
    );
    assert_eq!(Error::Joint { document: 4 }.at(), at(4, None));
    assert_eq!(
        text(Error::Joint { document: 4 }),
        "document 4: a step of several documents is not the next one of each"
    );
    assert_eq!(text(Error::Status(99)), "the library answered a status that is not expected: 99");
    assert_eq!(text(Error::Limit(At::default())), "a limit would be passed");
    assert_eq!(text(Error::Memory(at(0, None))), "document 0: out of memory");
    assert!(text(Error::Unknown(At::default())).starts_with("there is no document"));
    let boxed: Box<dyn std::error::Error + Send + Sync> = Box::new(Error::Status(1));
    assert!(boxed.source().is_none());
}

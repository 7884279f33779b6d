//! Edits a text, prints its lines and the pairs of its brackets, renames in two documents at once, and undoes it.
//!
//!     TEXTMODEL_LIB=FOLDER cargo run --example edit

use textmodel::{BracketState, Document, Edit, Encoding, Error, Hiding, OpenOptions, Search, Session};

fn print_lines(document: &Document<'_>) -> Result<(), Error> {
    for (at, line) in document.lines().enumerate() {
        println!("{}: {}", at + 1, line?);
    }
    Ok(())
}

/// Prints where each bracket that is closed stands, and where it is closed.
fn print_pairs(document: &Document<'_>) -> Result<(), Error> {
    for bracket in document.brackets(1..=document.len_lines(), Encoding::Utf16) {
        let bracket = bracket?;
        if bracket.state != BracketState::Opening {
            continue;
        }
        if let Some(partner) = document.partner(bracket.position, Encoding::Utf16)? {
            let (open, close) = (bracket.position, partner.position);
            println!("{}:{} {}:{}", open.line, open.column, close.line, close.column);
        }
    }
    Ok(())
}

/// Puts one name in the place of another in these documents, as one step of undo in all of them.
fn rename(session: &Session, documents: &[usize], old: &str, new: &str) -> Result<(), Error> {
    let mut edits = Vec::new();
    for &number in documents {
        let found = session.document(number)?.find(Search::new(old))?;
        edits.extend(found.into_iter().map(|span| Edit::new(number, span, new)));
    }
    session.joint(&edits)
}

fn main() -> Result<(), Error> {
    let session = Session::new()?;
    let (mut source, mut header) = (session.document(0)?, session.document(1)?);
    OpenOptions::new().hiding(&Hiding::c()).open(&mut source, "int f(int x) {\n    return g[x // )\n}\n")?;
    header.insert(0, "int f(int x);\n")?;
    source.insert(29, "]")?;
    print_lines(&source)?;
    print_pairs(&source)?;
    let before = source.snapshot()?;
    rename(&session, &[0, 1], "f", "second")?;
    for change in source.changes()? {
        println!("{:?} became {:?}", change.span, change.text);
    }
    print!("{header}");
    if let Err(why) = source.insert(99, "x") {
        println!("beyond the text: {why}");
    }
    println!("undone: {}", header.undo()?);
    println!("as before: {}", before.collect::<Result<String, Error>>()? == source.text()?);
    Ok(())
}

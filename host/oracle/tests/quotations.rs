//! What a comment of `crates/` quotes stands in a document of `docs/`.
//!
//! A quotation is a text between straight double quotes, over as many comment lines as it takes.
//! Two dots behind a space leave something out; each part beside them is looked for.

#[path = "helpers/files.rs"]
mod files;

use files::files_under;
use std::{
    fs, io,
    path::{Path, PathBuf},
};

#[derive(Debug, PartialEq, Eq)]
struct Quotation {
    /// The line, from 1, on which it starts.
    line: usize,
    text: String,
}

#[test]
fn each_quotation_stands_in_a_document() {
    let root = Path::new(env!("CARGO_MANIFEST_DIR")).join("../..");
    let documents = documents(&root.join("docs")).unwrap();
    let mut count = 0;
    let mut missing = Vec::new();
    let files = files_of_kinds(&root.join("crates"), &["antt", "rt"]).unwrap();
    // What `rt` makes beside the sources may be of older ones.
    let is_made = |file: &PathBuf| file.components().any(|it| it.as_os_str() == "out");
    for file in files.into_iter().filter(|file| !is_made(file)) {
        let quotations = quotations(&fs::read_to_string(&file).unwrap());
        count += quotations.len();
        for (line, part) in not_found(&quotations, &documents) {
            let file = file.strip_prefix(&root).unwrap().display();
            missing.push(format!("{file}:{line}: \"{part}\""));
        }
    }
    assert!(count > 0, "no quotation was read");
    assert!(missing.is_empty(), "\n{}\n", missing.join("\n"));
}

#[test]
fn a_text_that_no_document_has_is_not_found() {
    let documents = [
        fold("| 1 | store *not* sound |\nA format\nother than 1 or 2 answers 0."),
        fold("\"After a split\" means with at least one cut"),
    ];
    let source = "\
-- \"store not sound\", and \"A format other
  -- than 1 or 2 .. answers 0.\"
f = \"this is code\"
// \"'After a split' .. with at least one cut,\"
-- \"A format other than 3\"
-- \"store .. unsound .. not sound\"
g = 1
-- \"store not sound";
    let quotations = quotations(source);
    let lines: Vec<_> = quotations.iter().map(|quotation| quotation.line).collect();
    assert_eq!(lines, [1, 1, 4, 5, 6, 8]);
    let missing = [
        (5, "A format other than 3"),
        (6, "unsound"),
        (8, "not closed: store not sound"),
    ];
    let missing = missing.map(|(line, part)| (line, part.to_string()));
    assert_eq!(not_found(&quotations, &documents), missing);
}

/// The parts that are in none of the documents, each with its quotation's line.
fn not_found(quotations: &[Quotation], documents: &[String]) -> Vec<(usize, String)> {
    let is_missing = |part: &String| !documents.iter().any(|document| document.contains(part));
    quotations
        .iter()
        .flat_map(|quotation| {
            let missing = parts(&quotation.text).into_iter().filter(is_missing);
            missing.map(|part| (quotation.line, part))
        })
        .collect()
}

/// The quotations in the comments of a source text.
fn quotations(source: &str) -> Vec<Quotation> {
    let mut quotations = Vec::new();
    for (mut line, comment) in comments(source) {
        let mut pieces = comment.split('"').peekable();
        while let Some(outside) = pieces.next() {
            line += outside.matches('\n').count();
            let Some(inside) = pieces.next() else { break };
            let is_closed = pieces.peek().is_some();
            let text = if is_closed { "" } else { "not closed: " }.to_string() + inside;
            quotations.push(Quotation { line, text });
            line += inside.matches('\n').count();
        }
    }
    quotations
}

/// The comments of a source text, lines that follow one another being one, each with its line.
fn comments(source: &str) -> Vec<(usize, String)> {
    let mut comments: Vec<(usize, String)> = Vec::new();
    let mut is_code = true;
    for (line, text) in (1..).zip(source.lines()) {
        let text = text.trim_start();
        let comment = text.strip_prefix("--").or(text.strip_prefix("//"));
        match (comment, comments.last_mut()) {
            (Some(comment), Some((_, last))) if !is_code => *last += &format!("\n{comment}"),
            (Some(comment), _) => comments.push((line, comment.to_string())),
            (None, _) => {}
        }
        is_code = comment.is_none();
    }
    comments
}

/// What stands between the places where something is left out, without a last stop or comma.
fn parts(quotation: &str) -> Vec<String> {
    format!(" {}", fold(quotation))
        .split(" ..")
        .map(|part| part.trim().trim_end_matches(['.', ',']).to_string())
        .filter(|part| !part.is_empty())
        .collect()
}

/// White space folded, and the marks of tables, emphasis, code and quotations taken out.
fn fold(text: &str) -> String {
    let text = text.replace("\n>", " ").replace('|', " ");
    let text = text.replace(['*', '`', '"', '\''], "");
    text.split_whitespace().collect::<Vec<_>>().join(" ")
}

/// The documents in a directory, folded.
fn documents(directory: &Path) -> io::Result<Vec<String>> {
    let pages = files_of_kinds(directory, &["md"])?.into_iter();
    pages
        .map(|page| Ok(fold(&fs::read_to_string(page)?)))
        .collect()
}

fn files_of_kinds(directory: &Path, kinds: &[&str]) -> io::Result<Vec<PathBuf>> {
    let mut files = files_under(directory)?;
    files.retain(|file| {
        kinds
            .iter()
            .any(|&kind| file.extension() == Some(kind.as_ref()))
    });
    Ok(files)
}

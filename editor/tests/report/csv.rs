//! The lines for a spreadsheet.

use super::{
    folder::{Folder, WIDE},
    table::mixed,
};

const HEADS: &str = "file,bytes,newlines,column,given,wrapped,placed,left,\
    refused,place,words";

#[test]
fn all_lines_have_all_cells() {
    let folder = mixed("csv");
    let said = folder.run(&["--csv"]);
    assert_eq!((said.status, said.out.len()), (2, 6), "{said:?}");
    assert_eq!(said.out[0], HEADS);
    let name = |name: &str| folder.path(name).display().to_string();
    let plain = format!(r#""{}",18,1,17,1,0,0,0,,,"#, name("a b.frame"));
    assert_eq!(said.out[1], plain);
    let cut = "not read: cut off within its source";
    let cut = format!(r#""{}",,,,,,,,,,"{cut}""#, name("cut.frame"));
    assert_eq!(said.out[2], cut);
    let damaged = format!(r#""{}",,,,,,,,6,"#, name("in/damaged.frame"));
    assert!(said.out[3].starts_with(&damaged), "{said:?}");
    let words = said.out[3].split(",\"").nth(1).expect("words");
    assert!(words.starts_with("line 2, column 1: "), "{said:?}");
    let two =
        format!(r#""{}",,,,,,,,20,0,"the tree image"#, name("two.frame"));
    assert!(said.out[5].starts_with(&two), "{said:?}");
    // As many figures as in the table.
    assert_eq!(said.out[4].matches(',').count(), 10);
    assert_eq!(said.err.len(), 1);
}

#[test]
fn quotes_are_doubled() {
    let folder = Folder::new("quotes");
    folder.put_lines(r#"say "yes", no.frame"#, WIDE);
    let said = folder.run(&["--csv"]);
    assert!(
        said.out[1].contains(r#"/say ""yes"", no.frame","#),
        "{said:?}"
    );
}

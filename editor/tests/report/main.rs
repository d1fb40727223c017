//! The report of a desk lead's quarter, on folders of its own: its lines, what
//! it makes of frames that have none, and its status. `test-report` tries what
//! takes a process.

#[path = "../support/mod.rs"]
mod support;

#[allow(dead_code)]
#[path = "../../examples/report/main.rs"]
mod example;

#[allow(dead_code)]
#[path = "../hook/folder.rs"]
mod folder;

mod csv;
mod feed;
mod table;
mod words;

//! The example for a repository's hook, on folders of its own: what it
//! writes, what it says, and its status. `test-hook` tries what takes a
//! process: pipes, another user, a run that is cut off.

#[path = "../support/mod.rs"]
mod support;

#[allow(dead_code)]
#[path = "../../examples/hook/main.rs"]
mod example;

mod diff;
mod folder;
mod paths;
mod settings;
mod targets;
mod texts;
mod words;

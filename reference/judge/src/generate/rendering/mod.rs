//! A fixed list of rendering calls on rows made for the purpose.

mod faults;
mod legal;
mod limits;
pub(super) mod parts;

use super::CallCase;

/// All cases: what is rendered, refusal 11, then the limits.
pub fn cases() -> Vec<CallCase> {
    let parts = [
        legal::kinds(),
        legal::widths(),
        legal::other_widths(),
        legal::choices(),
        legal::marks(),
        legal::texts(),
        legal::pieces(),
        faults::stops(),
        faults::ranges(),
        faults::if_wraps(),
        faults::calls(),
        faults::call_ranges(),
        faults::cells(),
        faults::unused(),
        faults::ignored(),
        limits::depth(),
        limits::pens(),
        limits::states(),
        limits::numbers(),
        limits::output(),
        limits::widths(),
        limits::choices(),
        limits::headers(),
        limits::order(),
    ];
    parts.into_iter().flatten().collect()
}

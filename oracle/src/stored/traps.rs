//! A stream for each place where the original does something other than a reader may expect. The comment over each says
//! which reading would give other lines.

mod checks;
mod clips;
mod lights;
mod matrices;

use crate::replay::Stored;

pub fn traps() -> Vec<Stored> {
    [matrices::traps(), lights::traps(), clips::traps(), checks::traps()].into_iter().flatten().collect()
}

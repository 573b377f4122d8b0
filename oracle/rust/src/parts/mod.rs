mod apply;
mod levels;
mod limits;
mod line;
mod record;
pub mod speed;

use crate::part::Part;

pub const PARTS: [&dyn Part; 6] = [
    &limits::Limits,
    &levels::Levels,
    &line::Line,
    &record::Recording,
    &apply::Apply(apply::Size::Small),
    &apply::Apply(apply::Size::Large),
];

//! What the oracle answers, the packs it is asked about, and the lists of stored answers.

pub mod accents;
pub mod alike;
pub mod answer;
pub mod cases;
pub mod corpus;
pub mod packs;
pub mod record;
pub mod sizes;
pub mod texts;
mod words;

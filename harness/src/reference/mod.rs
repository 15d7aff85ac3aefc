//! Document 01 once more, written for clarity and without the engine's ways: sets are lists of booleans, operands
//! are visited one by one, trees are linked nodes, fixed points are taken by their definition or from a game, lines are met
//! by paths.

pub mod forecast;
pub mod game;
pub mod met;
pub mod model;
pub mod nested;
pub mod one_sided;
mod operations;
pub mod page;
pub mod plain;
pub mod restricted;
pub mod tree;
pub mod votes;

pub use forecast::forecast;
pub use game::good_lines;
pub use met::met_lines;
pub use model::{set_of, word_of, Kind, Model, Operand, Set};
pub use operations::{built, join, judgeable, lent, one_sided, plain, put, query, read, write};
pub use page::{page, page_of, page_text, share, share_of};
pub use tree::Tree;

//! What the replay reads its cases with, lends, and says.
pub mod cases;
pub mod lent;
pub mod words_of;

pub mod entries;
pub mod listing;
pub mod reader;
pub mod texts;

//! An interpreter of the language's steps, and a search through its schedules.

pub mod claims;
pub mod expression;
pub mod programs;
pub mod run;
mod rwlock;
pub mod search;
pub mod state;
#[cfg(test)]
mod tests;

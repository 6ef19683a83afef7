//! The desk's tool: it reads arguments and files, finds messages in them, asks the proved library, and writes.
pub mod args;
pub mod build;
pub mod capture;
pub mod clean;
pub mod edit;
pub mod forms;
pub mod help;
pub mod hex;
pub mod input;
pub mod library;
pub mod packet;
pub mod page;
pub mod rows;
pub mod run;
pub mod text;
pub mod why;

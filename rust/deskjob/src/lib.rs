//! Jobs, units in XML and lines, asked of the proved desk and shown. No rule of documents 01 and 02
//! stands here; the desk's answers are shown as they come.

pub mod commands;
pub mod difference;
pub mod grant;
pub mod job;
pub mod lines;
pub mod requests;
pub mod table;
pub mod xml;

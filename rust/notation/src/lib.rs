//! Jobs in the notation of document 01: a line for each record or request, `SG 1 - I`,
//! `TX "A. B"`, `SP 1 2 0 2`. [`read`] and [`read_requests`] turn lines into tables and requests,
//! [`records`], [`requests`] and [`job`] turn bytes into lines. Marks, fields and lengths are known
//! here, no rule: whether a table is valid is the desk's to say.

mod fields;
mod hexadecimal;
mod read;
mod request;
mod show;
mod words;

pub use fields::least_length;
pub use hexadecimal::{from_hexadecimal, hexadecimal};
pub use read::{read, read_requests, Job, Mistake};
pub use request::Request;
pub use show::{job, records, requests, Line};

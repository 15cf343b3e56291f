//! A verdict in the words of the encoding. The linked library alone decides; everything else here is commentary.

pub mod answers;
pub mod ends;
pub mod expect;
pub mod explain;
pub mod json;
pub mod judge;
pub mod names;
pub mod numbered;
pub mod places;
pub mod report;
pub mod support;
pub mod svg;
pub mod text;
pub mod unfounded;
pub mod unsound;
pub mod warnings;

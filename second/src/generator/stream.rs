//! The streams of cases. In each a seed gives the same case always, whatever other
//! streams bring.

use crate::edition::Edition;

/// A stream; its sound jobs are of one edition.
#[derive(Debug, Clone, Copy, PartialEq, Eq)]
pub enum Stream {
    One,
    Four,
    /// Edition 2, with the kinds of edition 1.
    Two,
    /// Edition 2 with spans by sign.
    Spans,
    /// Edition 3, with all kinds.
    Three,
}

impl Stream {
    /// In the order in which the requests of 02 bring them.
    pub const ALL: [Stream; 5] = [
        Stream::One,
        Stream::Four,
        Stream::Two,
        Stream::Spans,
        Stream::Three,
    ];

    /// The edition of its sound jobs.
    pub fn edition(self) -> Edition {
        match self {
            Stream::One => Edition::One,
            Stream::Four => Edition::Four,
            Stream::Two | Stream::Spans => Edition::Two,
            Stream::Three => Edition::Three,
        }
    }

    /// Its name on the command line.
    pub fn name(self) -> &'static str {
        match self {
            Stream::One => "1",
            Stream::Four => "4",
            Stream::Two => "2",
            Stream::Spans => "spans",
            Stream::Three => "3",
        }
    }

    /// The stream of a name.
    pub fn of_name(name: &str) -> Option<Stream> {
        Stream::ALL.into_iter().find(|stream| stream.name() == name)
    }
}

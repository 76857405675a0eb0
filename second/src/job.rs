//! 01 "The job's words", 02 "Farm bridges", "Effects past a word", "Span by sign" and
//! "Two carriageways": a job decoded into its fields, and encoded again.

use crate::edition::Edition;
use crate::line;
use crate::loads::{self, Question};
use crate::sections::{self, Sections};
use crate::words;

/// One piece of the longitudinal influence line, with its ordinates in U.
#[derive(Debug, Clone, Copy, PartialEq, Eq)]
pub struct Piece {
    pub left: i64,
    pub right: i64,
}

/// A finished effect.
#[derive(Debug, Clone, Copy, PartialEq, Eq)]
pub struct Effect {
    /// In the edition's unit: kN·U, but N·U in editions 2 and 3.
    pub value: i64,
    /// 1 always present, 2 may be left out.
    pub mark: i64,
}

pub const ALWAYS_PRESENT: i64 = 1;
pub const MAY_BE_LEFT_OUT: i64 = 2;

/// A row of the table of load factors: one load combination.
#[derive(Debug, Clone, Copy, PartialEq, Eq)]
pub struct Row {
    /// 1 service, 2 ultimate.
    pub state: i64,
    /// 0 none, 1 normal, 2 overload.
    pub live_kind: i64,
    /// Thousandths.
    pub live_factor: i64,
    /// First record of its chain, counted from 1; 0 for an empty chain.
    pub first: usize,
}

impl Row {
    pub fn new(state: i64, live_kind: i64, live_factor: i64, first: usize) -> Row {
        Row {
            state,
            live_kind,
            live_factor,
            first,
        }
    }
}

pub const SERVICE: i64 = 1;
pub const ULTIMATE: i64 = 2;

pub const LIVE_NONE: i64 = 0;
pub const LIVE_NORMAL: i64 = 1;
pub const LIVE_OVERLOAD: i64 = 2;

/// A chain record.
#[derive(Debug, Clone, Copy, PartialEq, Eq)]
pub struct Record {
    /// Effect, counted from 1.
    pub effect: usize,
    /// Thousandths.
    pub factor: i64,
    /// Next record, counted from 1; 0 ends the chain.
    pub next: usize,
}

impl Record {
    pub fn new(effect: usize, factor: i64, next: usize) -> Record {
        Record {
            effect,
            factor,
            next,
        }
    }
}

/// The dynamic kind with a span for each question.
pub const SPANS_BY_SIGN: i64 = 4;

/// A job whose words are within their limits.
#[derive(Debug, Clone, PartialEq, Eq)]
pub struct Job {
    pub edition: Edition,
    /// h, in decimetres.
    pub piece_length: i64,
    /// g, in cm.
    pub spacing: i64,
    /// W, in cm; with two carriageways the first's.
    pub width: i64,
    pub dynamic_kind: i64,
    /// With spans by sign, the one for greatest.
    pub dynamic_value: i64,
    /// The header's words past word 9, which edition 1 has none of: a farm job's
    /// barriers; in editions 2 and 3 the span for least, or 0, and a 0; in edition 3
    /// then the second width.
    pub further_header: Vec<i64>,
    pub pieces: Vec<Piece>,
    /// Transverse ordinates in thousandths, the first at the left kerb.
    pub transverse: Vec<i64>,
    /// Those of the second carriageway, from its own left kerb; empty where there is
    /// none.
    pub second_transverse: Vec<i64>,
    pub effects: Vec<Effect>,
    /// Empty, as the records are, where the edition has its rows built in.
    pub rows: Vec<Row>,
    pub records: Vec<Record>,
}

impl Effect {
    pub fn new(value: i64, mark: i64) -> Effect {
        Effect { value, mark }
    }

    /// Its value, of one word or of two halves, and its mark.
    fn of_words(words: &[i32]) -> Effect {
        let (value, mark) = match *words {
            [low, high, mark] => (words::joined(low, high), mark),
            _ => (words[0].into(), words[1]),
        };
        Effect {
            value,
            mark: mark.into(),
        }
    }

    fn words(&self, edition: Edition) -> Vec<i64> {
        let mut words = match edition {
            Edition::One | Edition::Four => vec![self.value],
            Edition::Two | Edition::Three => words::halves(self.value).map(i64::from).to_vec(),
        };
        words.push(self.mark);
        words
    }
}

impl Job {
    /// Decodes words that are free of refusals 1 to 6.
    pub fn decode(words: &[i32]) -> Job {
        let edition = Edition::of_words(words).expect("the edition is admitted");
        let sections = Sections::called_for_by(words);
        let word = |place: usize| i64::from(words[place]);
        let number = |word: i32| i64::from(word);
        let numbers = |words: &[i32]| words.iter().map(|&word| number(word)).collect();
        Job {
            edition,
            piece_length: word(sections::PIECE_LENGTH),
            spacing: word(sections::SPACING),
            width: word(sections::WIDTH),
            dynamic_kind: word(sections::DYNAMIC_KIND),
            dynamic_value: word(sections::DYNAMIC_VALUE),
            further_header: numbers(&words[sections::RECORDS + 1..edition.header_words()]),
            pieces: line::pieces_of(&words[sections.line]),
            transverse: numbers(&words[sections.transverse]),
            second_transverse: numbers(&words[sections.second_transverse]),
            effects: words[sections.effects]
                .chunks_exact(edition.words_per_effect())
                .map(Effect::of_words)
                .collect(),
            rows: words[sections.rows]
                .chunks_exact(sections::WORDS_PER_ROW)
                .map(|row| Row {
                    state: number(row[0]),
                    live_kind: number(row[1]),
                    live_factor: number(row[2]),
                    first: row[3] as usize,
                })
                .collect(),
            records: words[sections.records]
                .chunks_exact(sections::WORDS_PER_RECORD)
                .map(|record| Record {
                    effect: record[0] as usize,
                    factor: number(record[1]),
                    next: record[2] as usize,
                })
                .collect(),
        }
    }

    /// The job's words; the counts in the header are those of the fields.
    pub fn words(&self) -> Vec<i32> {
        let mut words: Vec<i64> = vec![
            self.edition.number().into(),
            self.piece_length,
            self.pieces.len() as i64,
            self.spacing,
            self.width,
            self.dynamic_kind,
            self.dynamic_value,
            self.effects.len() as i64,
            self.rows.len() as i64,
            self.records.len() as i64,
        ];
        words.extend(&self.further_header);
        words.extend(line::ordinates_of(&self.pieces));
        words.extend(&self.transverse);
        words.extend(&self.second_transverse);
        for effect in &self.effects {
            words.extend(effect.words(self.edition));
        }
        for row in &self.rows {
            words.extend([row.state, row.live_kind, row.live_factor, row.first as i64]);
        }
        for record in &self.records {
            words.extend([record.effect as i64, record.factor, record.next as i64]);
        }
        words
            .into_iter()
            .map(|word| i32::try_from(word).expect("a job's field fits a word"))
            .collect()
    }

    /// The job's bytes.
    pub fn bytes(&self) -> Vec<u8> {
        words::bytes_of(&self.words())
    }

    /// The width in cm of the second carriageway, where the job has one.
    pub fn second_width(&self) -> Option<i64> {
        let place = sections::SECOND_WIDTH - (sections::RECORDS + 1);
        let has_second = self.edition.has_second_carriageway();
        has_second.then(|| self.further_header[place])
    }

    /// The job, of edition 2, as one of edition 3 with this second carriageway.
    pub fn with_second_carriageway(mut self, width: i64, transverse: Vec<i64>) -> Job {
        self.edition = Edition::Three;
        self.further_header.push(width);
        self.second_transverse = transverse;
        self
    }

    /// The job, of edition 2 or 3, with these spans by sign.
    pub fn with_spans(mut self, greatest: i64, least: i64) -> Job {
        (self.dynamic_kind, self.dynamic_value) = (SPANS_BY_SIGN, greatest);
        self.further_header[0] = least;
        self
    }

    /// The dynamic factor of a question, in thousandths.
    pub fn dynamic_factor(&self, question: Question) -> i64 {
        let value = match (self.dynamic_kind, question) {
            (SPANS_BY_SIGN, Question::Least) => self.further_header[0],
            _ => self.dynamic_value,
        };
        loads::dynamic_factor(self.dynamic_kind, value)
    }

    /// The records of a row's chain, first to last, of a chain without a return.
    pub fn chain(&self, row: &Row) -> Vec<Record> {
        let mut chain = Vec::new();
        let mut number = row.first;
        while number != 0 {
            let record = self.records[number - 1];
            chain.push(record);
            number = record.next;
        }
        chain
    }
}

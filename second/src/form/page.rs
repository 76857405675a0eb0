//! What the example host prints for the job that it writes.

use super::{standard_form, WriteAnswer};
use crate::job::{Job, Row};
use crate::report::refusal_line;
use crate::sections::RECORDS;
use crate::words::words_of;

/// The form's size and the job's, each row's factors as the form has them, and what
/// writing the form again gives; or `refused NUMBER at PLACE`. Each line ends in a newline.
pub fn page(job: &[u8], answer: &WriteAnswer) -> String {
    if answer.refusal != 0 {
        return refusal_line(answer.refusal, answer.place);
    }
    let form = Job::decode(&words_of(&answer.form));
    let rows = (1..).zip(&form.rows);
    let rows = rows.map(|(number, row)| row_line(number, &form, row));
    let again = if standard_form(&form) == answer.form {
        "the same"
    } else {
        "another"
    };
    [
        size_line("form", &answer.form),
        size_line("job", job),
        rows.collect(),
        format!("written again: {again}\n"),
    ]
    .concat()
}

fn size_line(name: &str, bytes: &[u8]) -> String {
    let records = words_of(bytes)[RECORDS];
    format!("{name} {} bytes, {records} records\n", bytes.len())
}

/// A row's effects with their factors in thousandths, in the order of its chain.
fn row_line(number: u32, form: &Job, row: &Row) -> String {
    let chain = form.chain(row).into_iter();
    let parts: Vec<String> = chain
        .map(|record| format!("effect {} x {}", record.effect, record.factor))
        .collect();
    if parts.is_empty() {
        return format!("row {number}: no effect\n");
    }
    format!("row {number}: {}\n", parts.join(", "))
}

//! `train_cases COUNT DIR` writes that many generated trains into DIR/trains, for tests/train_calls.c, and what is due for each into
//! DIR/trains.expected.

use random::trains::case_bytes;
use second::generator::train::case;
use second::train::rate;
use std::fs::write;

fn main() -> std::io::Result<()> {
    let arguments: Vec<String> = std::env::args().skip(1).collect();
    let [count, folder] = arguments.as_slice() else {
        panic!("usage: train_cases COUNT DIR");
    };
    let (mut trains, mut expected) = (Vec::new(), String::new());
    for seed in 0..count.parse().expect("COUNT is a number") {
        let case = case(seed);
        let answer = rate(&case);
        trains.extend(case_bytes(&case));
        expected += &if answer.refusal == 0 {
            let (greatest, least) = (answer.rating.greatest, answer.rating.least);
            let difference = answer.rating.difference;
            format!("greatest {greatest} least {least} difference {difference}\n")
        } else {
            format!("refused {} at {}\n", answer.refusal, answer.place)
        };
    }
    write(format!("{folder}/trains"), trains)?;
    write(format!("{folder}/trains.expected"), expected)
}

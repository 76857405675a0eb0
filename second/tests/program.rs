//! 01 "The host and the program", 02 "Rating trucks" and "One way to write a job": the
//! program as a whole.

use second::generator::{case, Stream};
use std::fs::{self, File};
use std::path::PathBuf;
use std::process::{Command, Output, Stdio};

fn second(arguments: &[&str], input: Stdio) -> Output {
    Command::new(env!("CARGO_BIN_EXE_second"))
        .args(arguments)
        .stdin(input)
        .output()
        .unwrap()
}

/// Runs the program on these bytes, by way of a file of this name.
fn second_on(name: &str, bytes: &[u8]) -> Output {
    command_on(&[], name, bytes)
}

fn command_on(arguments: &[&str], name: &str, bytes: &[u8]) -> Output {
    let path = scratch(name);
    fs::write(&path, bytes).unwrap();
    second(arguments, Stdio::from(File::open(&path).unwrap()))
}

fn scratch(name: &str) -> PathBuf {
    PathBuf::from(env!("CARGO_TARGET_TMPDIR")).join(name)
}

fn printed(output: &Output) -> &str {
    std::str::from_utf8(&output.stdout).unwrap()
}

#[track_caller]
fn prints(output: &Output, expected: &str) {
    assert_eq!(printed(output), expected);
    assert_eq!(output.stderr, b"");
    assert_eq!(output.status.code(), Some(0));
}

const JOB_A_LINES: &str = "\
normal greatest 162556875 least 0
overload greatest 263981250 least 0
service greatest 299451781250 row 1 least 80000000000 row 1
ultimate greatest 491971875000 row 2 least 96000000000 row 2
";

/// The bytes that a command writes.
#[track_caller]
fn written_by(command: &str) -> Vec<u8> {
    let output = second(&[command], Stdio::null());
    assert_eq!(output.status.code(), Some(0));
    output.stdout
}

fn job_a() -> Vec<u8> {
    written_by("job-a")
}

/// The job that a command writes prints these lines and is not beaten; one word fewer
/// than its header is no job, and the header alone calls for so many words.
#[track_caller]
fn prints_its_lines(command: &str, lines: &str, header_words: usize, due: usize) {
    let job = written_by(command);
    let on = |what: &str, bytes: &[u8]| second_on(&format!("{command}-{what}"), bytes);
    prints(&on("whole", &job), lines);
    let header = &job[..4 * header_words];
    let front = on("front", &header[..header.len() - 4]);
    prints(&front, "refused 1 at 0\n");
    prints(&on("header", header), &format!("refused 3 at {due}\n"));
    let beat = command_on(&["beat", "1", "500"], &format!("{command}-beat"), &job);
    prints(&beat, "not beaten in 500 tries\n");
}

const FARM_JOB_LINES: &str = "\
normal greatest 27400547 least 0
overload greatest 0 least 0
service greatest 46150547000 row 3 least 15350000000 row 6
ultimate greatest 69708554839 row 11 least 11587500000 row 16
";

const FARM_JOB_PAGE: &str = "\
normal greatest 27400547 N.U
  lanes 1, set 1
  lane 1: HN raising, centre 150/1 cm, factor 0
normal least 0 N.U
  lanes 1, set 0
overload greatest 0 N.U
  lanes 1, set 0
overload least 0 N.U
  lanes 1, set 0
raising pair at station 0, side left
lowering pair at station -5, side left
service greatest 46150547000 row 3, left out 8, traffic not left out
service least 15350000000 row 6, left out 48, traffic not left out
ultimate greatest 69708554839 row 11, left out 8, traffic not left out
ultimate least 11587500000 row 16, left out 48, traffic not left out, k 800
records walked 0
";

/// The figures are worked out in farm_hand_worked.rs. Left out are SG (8) from
/// the greatest values, ST and TP (16 and 32) from the least. 11 + 20 + 9 + 22 = 62 words
/// are due.
#[test]
fn the_farm_job_prints_its_lines_and_its_page() {
    prints_its_lines("farm-job", FARM_JOB_LINES, 11, 62);
    let page = command_on(&["account"], "farm-job-page", &written_by("farm-job"));
    prints(&page, FARM_JOB_PAGE);
}

const ARCH_JOB_LINES: &str = "\
normal greatest 207820515 least -128233892
overload greatest 323215971 least -175273014
service greatest 2749692386250 row 1 least -2503981063200 row 1
ultimate greatest 7414923629640 row 2 least -2330865309000 row 3
";

/// The figures are worked out in edition_2_hand_worked.rs. Its header is 12 words,
/// and 12 + 40 + 19 + 12 + 12 + 18 = 113 are due.
#[test]
fn the_arch_job_prints_its_lines() {
    prints_its_lines("arch-job", ARCH_JOB_LINES, 12, 113);
}

const DECK_JOB_LINES: &str = "\
normal greatest 190026758 least -50683322
overload greatest 311329534 least -85423988
service greatest 498811123300 row 1 least 129802515300 row 1
ultimate greatest 757724301000 row 2 least 109734018000 row 2
";

/// The figures are worked out in deck_job.rs. 10 + 40 + 41 + 4 + 8 + 12 = 115 words are
/// due.
#[test]
fn the_deck_job_prints_its_lines() {
    prints_its_lines("deck-job", DECK_JOB_LINES, 10, 115);
}

const MOTORWAY_JOB_LINES: &str = "\
normal greatest 83867801 least -11451558
overload greatest 148202927 least -21401111
service greatest 279231531350 row 1 least 112240396700 row 1
ultimate greatest 421516390500 row 2 least 121138333500 row 2
";

/// The figures are worked out in motorway_job.rs. Its header is 13 words, and 13 + 28 + 29 +
/// 20 + 6 + 8 + 12 = 116 are due.
#[test]
fn the_motorway_job_prints_its_lines() {
    prints_its_lines("motorway-job", MOTORWAY_JOB_LINES, 13, 116);
}

/// The longest job there is, of 16572 bytes, is read whole.
#[test]
fn the_longest_job_is_answered() {
    let job = second::chosen::edition_3::longest().bytes();
    assert_eq!(job.len(), 16_572);
    let answer = second::solve(&job, &mut [0; 1000]);
    assert_eq!(answer.refusal, 0);
    prints(
        &second_on("longest-job", &job),
        &second::report::report(&answer),
    );
}

#[test]
fn job_a_prints_its_four_lines() {
    prints(&second_on("job-a", &job_a()), JOB_A_LINES);
}

#[test]
fn empty_input_is_refused_by_the_kernel_not_the_program() {
    prints(&second(&[], Stdio::null()), "refused 1 at 0\n");
}

#[test]
fn a_directory_as_standard_input_is_an_error() {
    let directory = File::open(env!("CARGO_TARGET_TMPDIR")).unwrap();
    let output = second(&[], Stdio::from(directory));
    assert_eq!(printed(&output), "");
    assert_eq!(output.status.code(), Some(1));
    let message = String::from_utf8(output.stderr).unwrap();
    assert!(message.starts_with("second: cannot read standard input"));
}

/// Job A has 85 words. Were all 40001 bytes read, their count would not be
/// divisible by 4 and the refusal would be 1; the 32768 read are 8192 words.
#[test]
fn only_32768_bytes_are_read() {
    for length in [16384, 20000, 32768, 32769, 40000, 40001] {
        let mut job = job_a();
        job.resize(length, 0);
        prints(
            &second_on(&format!("{length}-bytes"), &job),
            "refused 3 at 85\n",
        );
    }
    let mut job = job_a();
    for length in [16383, 16385, 32767] {
        job.resize(length, 0);
        let name = format!("{length}-bytes");
        prints(&second_on(&name, &job), "refused 1 at 0\n");
    }
}

/// Job A without its ultimate row: word 8 is R, and rows are at words 71 to 78.
#[test]
fn a_state_without_rows_prints_none() {
    let mut job = job_a();
    job[8 * 4] = 1;
    job.drain(75 * 4..79 * 4);
    let expected = "\
normal greatest 162556875 least 0
overload greatest 263981250 least 0
service greatest 299451781250 row 1 least 80000000000 row 1
ultimate none
";
    prints(&second_on("no-ultimate", &job), expected);
}

/// The largest line has 1000 pieces; the program's own buffer holds them.
#[test]
fn a_line_of_1000_pieces_is_never_refused_for_the_patch() {
    let mut words = vec![1, 1, 1000, 50, 300, 2, 0, 0, 1, 0];
    words.extend([0; 2000 + 7]);
    words.extend([2, 0, 0, 0]);
    let job: Vec<u8> = words
        .iter()
        .flat_map(|word: &i32| word.to_le_bytes())
        .collect();
    let expected = "\
normal greatest 0 least 0
overload greatest 0 least 0
service none
ultimate greatest 0 row 1 least 0 row 1
";
    prints(&second_on("1000-pieces", &job), expected);
}

#[test]
fn account_prints_the_page_of_the_account() {
    let account = second::solve(&job_a(), &mut [0; 20]).account;
    let page = second::report::page(&account);
    assert!(page.ends_with("\nrecords walked 2\n"), "{page}");
    prints(&command_on(&["account"], "account", &job_a()), &page);
    prints(&second(&["account"], Stdio::null()), "refused 1 at 0\n");
}

/// The truck line's first two pieces, those at its jump, and its last.
#[test]
fn truck_line_writes_its_section() {
    let output = second(&["truck-line"], Stdio::null());
    assert_eq!(output.status.code(), Some(0));
    let words = second::words::words_of(&output.stdout);
    assert_eq!((output.stdout.len(), words.len()), (400, 100));
    assert_eq!(words[..4], [0, -20, -20, -40]);
    assert_eq!(words[38..42], [-380, -400, 600, 580]);
    assert_eq!(words[98..], [20, 0]);
}

/// Worked out in train_hand_worked.rs; the values are the same in both modes.
#[test]
fn train_prints_the_page_of_a_rating() {
    let line = second(&["truck-line"], Stdio::null()).stdout;
    let expected = "\
greatest 136800 kN.U, turned, leftmost axle at station 20, side right
least -81600 kN.U, as given, leftmost axle at station -4, side left
difference 218400 kN.U
";
    for mode in ["1", "2"] {
        let arguments = ["train", "2", mode, "60@0", "120@36", "120@48"];
        let output = command_on(&arguments, &format!("truck-{mode}"), &line);
        prints(&output, expected);
    }
}

#[test]
fn train_prints_a_refusal() {
    let line = second(&["truck-line"], Stdio::null()).stdout;
    let on_line = |arguments: &[&str], bytes: &[u8], expected: &str| {
        let arguments = [&["train"], arguments].concat();
        prints(&command_on(&arguments, "train-refused", bytes), expected);
    };
    on_line(&["3", "1", "60@0"], &line, "refused 2 at 0\n");
    on_line(&["2", "3", "60@0"], &line, "refused 2 at 0\n");
    on_line(&["2", "1"], &line, "refused 10 at 0\n");
    on_line(&["2", "1", "60@0", "401@2"], &line, "refused 10 at 2\n");
    // Half a piece over, half a piece short, nothing, and more than is read.
    on_line(
        &["2", "1", "60@0"],
        &[&line[..], &[0; 4]].concat(),
        "refused 2 at 0\n",
    );
    on_line(&["2", "1", "60@0"], &line[..396], "refused 2 at 0\n");
    on_line(&["2", "1", "60@0"], &[], "refused 2 at 0\n");
    on_line(&["1", "1", "60@0"], &[0; 16392], "refused 2 at 0\n");
    // Word 3 is the second piece's right ordinate.
    let mut spoiled = line.clone();
    spoiled[12..16].copy_from_slice(&65541_i32.to_le_bytes());
    on_line(&["2", "1", "60@0"], &spoiled, "refused 4 at 3\n");
    spoiled[12..16].copy_from_slice(&5_i32.to_le_bytes());
    on_line(&["2", "1", "60@0"], &spoiled, "refused 5 at 2\n");
}

const SPELLED_JOB_LINES: &str = "\
normal greatest 32235938 least 0
overload greatest 54660938 least 0
service greatest 85910938000 row 2 least 23500000000 row 1
ultimate greatest 119882297620 row 3 least 0 row 4
";

/// The line's area gives 7 * 25 * 1000 = 175000, the pair 250 times an axle, and the
/// ordinate across is 575 at 150 cm: normal is 575000 * 575 * 20 * 1300 * 3 / 800000 =
/// 32235937.5, overload 975000 / 575000 times as much, 54660937.5. The effects, times 1000
/// times their factors, give 25e9, 6.25e9 and -1.5e9. Row 1 has 31.25e9 and 1350 * 32235938,
/// row 2 31.25e9 and 1000 * 54660938, which is more; row 1's least is 25e9 - 1.5e9. Row 3
/// has 30e9, 8.4375e9 and 1490 * 54660938; row 4 traffic alone. 10 + 8 + 9 + 6 + 16 + 24 =
/// 73 words are due.
#[test]
fn the_spelled_job_prints_its_lines() {
    prints_its_lines("spelled-job", SPELLED_JOB_LINES, 10, 73);
}

const SPELLED_JOB_PAGE: &str = "\
form 280 bytes, 7 records
job 292 bytes, 8 records
row 1: effect 1 x 1000, effect 2 x 1000, effect 3 x 1000
row 2: effect 1 x 1000, effect 2 x 1000
row 3: effect 1 x 1200, effect 2 x 1350
row 4: no effect
written again: the same
";

/// The form has three words fewer than its job, and prints the same lines.
#[test]
fn write_writes_the_form_and_its_page() {
    let job = written_by("spelled-job");
    let page = command_on(&["write-page"], "spelled-page", &job);
    prints(&page, SPELLED_JOB_PAGE);
    let written = command_on(&["write"], "spelled-written", &job);
    assert_eq!(written.stderr, b"");
    assert_eq!(written.status.code(), Some(0));
    let form = written.stdout;
    let words = second::words::words_of(&form);
    let mut due = second::words::words_of(&job)[..49].to_vec();
    due[9] = 7;
    for (place, first) in [(36, 1), (40, 4), (44, 6), (48, 0)] {
        due[place] = first;
    }
    due.extend([1, 1000, 2, 2, 1000, 3, 3, 1000, 0]); // row 1
    due.extend([1, 1000, 5, 2, 1000, 0]); // row 2
    due.extend([1, 1200, 7, 2, 1350, 0]); // row 3
    assert_eq!(words, due);
    prints(&second_on("spelled-form", &form), SPELLED_JOB_LINES);
    let again = command_on(&["write"], "spelled-again", &form);
    assert_eq!(again.stdout, form);
    let page = command_on(&["write-page"], "spelled-form-page", &form);
    let of_itself = SPELLED_JOB_PAGE.replace("job 292 bytes, 8", "job 280 bytes, 7");
    prints(&page, &of_itself);
}

#[test]
fn write_prints_a_refusal() {
    for command in ["write", "write-page"] {
        let on = |bytes: &[u8], expected: &str| {
            let name = format!("{command}-refused");
            prints(&command_on(&[command], &name, bytes), expected);
        };
        on(&[], "refused 1 at 0\n");
        on(&written_by("farm-job"), "refused 1 at 0\n");
        on(&job_a()[..336], "refused 3 at 85\n");
        let mut spoiled = job_a();
        spoiled[16] = 0;
        spoiled[17] = 0;
        on(&spoiled, "refused 2 at 4\n");
    }
}

/// The longest job there is, of 16572 bytes, is written.
#[test]
fn the_longest_job_is_written() {
    let job = second::chosen::edition_3::longest();
    let written = command_on(&["write"], "longest-written", &job.bytes());
    assert_eq!(written.stdout, second::form::standard_form(&job));
}

#[test]
fn beat_says_that_job_a_is_not_beaten() {
    let output = command_on(&["beat", "1", "300"], "beat", &job_a());
    prints(&output, "not beaten in 300 tries\n");
    prints(
        &second(&["beat", "1", "1"], Stdio::null()),
        "refused 1 at 0\n",
    );
}

#[test]
fn generate_writes_the_cases_of_its_seeds() {
    let directory = scratch("generated");
    fs::create_dir_all(&directory).unwrap();
    for stream in Stream::ALL {
        let into = directory.to_str().unwrap();
        let arguments = ["generate", stream.name(), "7", "3", into];
        prints(&second(&arguments, Stdio::null()), "");
        for seed in 7..10 {
            let case = case(stream, seed);
            let file = |ending: &str| fs::read(directory.join(format!("{seed}.{ending}"))).unwrap();
            assert_eq!((file("job"), file("patch")), (case.job, case.patch));
        }
    }
    let missing = scratch("missing-directory");
    let output = second(
        &["generate", "1", "7", "1", missing.to_str().unwrap()],
        Stdio::null(),
    );
    assert_eq!(output.status.code(), Some(1));
    assert!(output.stderr.starts_with(b"second: cannot write"));
}

/// The cases in one file and what is due for each in the other, read back.
#[test]
fn store_writes_cases_and_what_is_due_for_each() {
    let directory = scratch("stored");
    fs::create_dir_all(&directory).unwrap();
    let output = second(&["store", directory.to_str().unwrap()], Stdio::null());
    prints(&output, "");
    let mut jobs = &fs::read(directory.join("jobs")).unwrap()[..];
    let mut due = String::new();
    for case in second::store::cases() {
        let length = |at: usize| usize::from(u16::from_le_bytes([jobs[at], jobs[at + 1]]));
        let (job_bytes, patch_bytes) = (length(0), length(2));
        let (patch, rest) = jobs[4..].split_at(patch_bytes);
        let (job, rest) = rest.split_at(job_bytes);
        assert_eq!((job, patch), (&case.job[..], &case.patch[..]));
        jobs = rest;

        let mut patch = case.patch.clone();
        let answer = second::solve(job, &mut patch);
        due += &second::report::report(&answer);
        let numbered = patch.iter().enumerate();
        let sum: usize = numbered.map(|(i, &byte)| (i + 1) * usize::from(byte)).sum();
        due += &format!("patch {sum} records {}\n", answer.account.records_walked);
    }
    assert!(jobs.is_empty());
    assert_eq!(fs::read_to_string(directory.join("expected")).unwrap(), due);
}

#[test]
fn unknown_arguments_are_a_usage_error() {
    for arguments in [
        &["unknown"][..],
        &["job-a", "more"],
        &["--help"],
        &[""],
        &["generate", "1", "1", "2"],
        &["generate", "7", "1", "."],
        &["generate", "1", "-1", "2", "."],
        &["generate", "0", "1", "1", "."],
        &["generate", "5", "1", "1", "."],
        &["generate", "Spans", "1", "1", "."],
        &["generate", "4294967300", "1", "1", "."],
        &["farm-job", "more"],
        &["arch-job", "more"],
        &["deck-job", "more"],
        &["store"],
        &["store", "0", "1700", "."],
        &["generate", "1", "18446744073709551615", "1", "."],
        &["beat", "1", "4294967296"],
        &["beat", "one", "1"],
        &["train"],
        &["train", "2"],
        &["train", "two", "1", "60@0"],
        &["train", "2", "-1", "60@0"],
        &["train", "2", "1", "60"],
        &["train", "2", "1", "60@"],
        &["train", "2", "1", "60@-2"],
        &["train", "2", "1", "4294967296@0"],
        &["train", "2", "1", "60@0@2"],
        &["truck-line", "2"],
        &["write", "more"],
        &["write-page", "more"],
        &["spelled-job", "more"],
    ] {
        let output = second(arguments, Stdio::null());
        assert_eq!(output.status.code(), Some(2), "{arguments:?}");
        assert_eq!(printed(&output), "");
        assert!(output.stderr.starts_with(b"usage:"));
    }
}

/// Standard output that takes no bytes is an error, not a silent success.
#[cfg(target_os = "linux")]
#[test]
fn a_full_standard_output_is_an_error() {
    let full = fs::OpenOptions::new()
        .write(true)
        .open("/dev/full")
        .unwrap();
    let status = Command::new(env!("CARGO_BIN_EXE_second"))
        .arg("job-a")
        .stdin(Stdio::null())
        .stdout(Stdio::from(full))
        .stderr(Stdio::null())
        .status()
        .unwrap();
    assert_eq!(status.code(), Some(1));
}

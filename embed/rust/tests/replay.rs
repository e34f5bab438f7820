//! A pair file by the wrapper.
#![cfg(feature = "replay")]

use gatepast::{replay, Ending};

const HEADER: &str =
    "fsoe 1 pair\nlengths 2 2\nmaster 1 2 100 1\nslave 2 200 1000 2\nrule any 0\ngo\n";
const REPORT: &str =
    "1 m again Reset 0000 > 2a0000c42d0000\n2 s took Reset Reset 0000 > 2a0000c42d0000\n";

fn text(events: &str) -> Vec<u8> {
    format!("{HEADER}{events}").into_bytes()
}

#[test]
fn a_report_is_whole() {
    let mut memory = [0xA5; 200];
    let replayed = replay(&text("tm\nds -1\nend\n"), &mut memory);
    assert_eq!(replayed.ending, Ending::Whole);
    let wanted = format!("{REPORT}events 2\nother none\n");
    assert_eq!(replayed.report, wanted.as_bytes());
    assert!(memory[wanted.len()..].iter().all(|byte| *byte == 0xA5));
}

#[test]
fn a_frame_that_was_not_sent_is_refused_at_its_line() {
    let mut memory = [0; 200];
    let replayed = replay(&text("tm\nds -1\nds -2\nend\n"), &mut memory);
    assert_eq!(replayed.ending, Ending::Refused(9));
    assert_eq!(
        replayed.report,
        format!("{REPORT}refused 9 NoFrame\n").as_bytes()
    );
}

#[test]
fn a_report_that_does_not_fit_is_cut() {
    let mut memory = [0; 10];
    let replayed = replay(&text("tm\nds -1\nend\n"), &mut memory);
    assert_eq!(replayed.ending, Ending::Cut);
    assert_eq!(replayed.report, &REPORT.as_bytes()[..10]);
}

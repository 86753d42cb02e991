//! Guard pages and canaries: a party that keeps to its buffers answers as without them, and one that does not is seen.

use oracle::compare::{every_length, services_batch};
use oracle::decision::Decision;
use oracle::guarded::{Guarded, shown};
use oracle::services::{ListAnswer, LivenessAnswer, Part, RewriteAnswer, Services};
use std::os::unix::process::ExitStatusExt;
use std::process::Command;

/// The signal of a touch of memory that may not be touched.
const SEGMENTATION_FAULT: i32 = 11;

#[test]
fn the_decision_answers_the_same_between_guard_pages() {
    assert_eq!(services_batch(every_length, &mut Guarded::new(Decision::default()), 3, 60), Vec::<String>::new());
}

/// Answers nothing, and writes one word, so many places from the start of a list.
struct Writer(isize);

impl Services for Writer {
    fn liveness(&mut self, _: &[u8], _: &mut [u64], _: &mut [u64]) -> LivenessAnswer {
        LivenessAnswer::default()
    }

    fn list(&mut self, _: &[u8], _: u32, list: &mut [u32]) -> ListAnswer {
        // SAFETY: none: this is what must be seen.
        unsafe { list.as_mut_ptr().offset(self.0).write_volatile(1) };
        ListAnswer::default()
    }

    fn rewrite(&mut self, _: &[u8], _: u32, _: &mut [u8]) -> RewriteAnswer {
        RewriteAnswer::default()
    }

    fn final_records(&mut self, _: &RewriteAnswer, _: &[u8], _: &[u8]) -> Part {
        Part::EMPTY
    }
}

#[test]
fn a_write_inside_is_no_fault() {
    let mut list = [0; 5];
    Guarded::new(Writer(4)).list(&[], 0, &mut list);
    assert_eq!(list, [0, 0, 0, 0, 1]);
}

#[test]
#[should_panic(expected = "written in front of a lent buffer")]
fn a_write_in_front_is_seen() {
    Guarded::new(Writer(-1)).list(&[], 0, &mut [0; 5]);
}

/// The signal that ends a process which runs one of the tests below.
fn ended_by(test: &str) -> Option<i32> {
    let program = std::env::current_exe().unwrap();
    Command::new(program).args(["--exact", test, "--ignored"]).output().unwrap().status.signal()
}

#[test]
fn a_write_behind_ends_the_process() {
    assert_eq!(ended_by("writes_behind"), Some(SEGMENTATION_FAULT));
}

#[test]
fn a_write_to_the_file_ends_the_process() {
    assert_eq!(ended_by("writes_to_the_file"), Some(SEGMENTATION_FAULT));
}

#[test]
fn a_read_behind_the_file_ends_the_process() {
    assert_eq!(ended_by("reads_behind_the_file"), Some(SEGMENTATION_FAULT));
}

#[test]
#[ignore = "run in a process of its own, which it ends"]
fn writes_behind() {
    Guarded::new(Writer(5)).list(&[], 0, &mut [0; 5]);
}

#[test]
#[ignore = "run in a process of its own, which it ends"]
fn writes_to_the_file() {
    // SAFETY: none: this is what must be seen.
    shown(&[7; 40], |file| unsafe { file.as_ptr().cast_mut().write_volatile(1) });
}

#[test]
#[ignore = "run in a process of its own, which it ends"]
fn reads_behind_the_file() {
    // SAFETY: none: this is what must be seen.
    shown(&[7; 40], |file| unsafe { file.as_ptr().add(file.len()).read_volatile() });
}

//! The functions of `include/ration.h`, as they stand in the archive, and that the archive has this package's sizes.

use crate::answers::REPORT;
use crate::{ANSWER, IMAGE_SIZE, KEPT_SIZE, SIZE};

extern "C" {
    pub fn ration_size() -> usize;
    pub fn ration_answer_size() -> usize;
    pub fn ration_report_size() -> usize;
    pub fn ration_image_size() -> usize;
    pub fn ration_kept_size() -> usize;
    pub fn ration_fresh(state: *mut [u8; SIZE]);
    pub fn ration_fresh_with(state: *mut [u8; SIZE], policy: u8) -> u8;
    pub fn ration_policy(state: *const [u8; SIZE]) -> u8;
    pub fn ration_valid(state: *const [u8; SIZE]) -> bool;
    pub fn ration_free_pages(state: *const [u8; SIZE]) -> u32;
    pub fn ration_step(
        state: *mut [u8; SIZE],
        record: *const u8,
        length: usize,
        answer: *mut [u8; ANSWER],
    );
    pub fn ration_run(
        state: *mut [u8; SIZE],
        journal: *const u8,
        length: usize,
        answers: *mut u8,
        room: usize,
        report: *mut [u8; REPORT],
    );
    pub fn ration_begin(kept: *mut [u8; KEPT_SIZE]);
    pub fn ration_feed(
        state: *mut [u8; SIZE],
        kept: *mut [u8; KEPT_SIZE],
        piece: *const u8,
        length: usize,
        allowance: usize,
        last: bool,
        answers: *mut u8,
        room: usize,
        records: *mut usize,
        bytes: *mut usize,
    ) -> u8;
    pub fn ration_save(state: *const [u8; SIZE], image: *mut u8, length: usize) -> u8;
    pub fn ration_load(state: *mut [u8; SIZE], image: *const u8, length: usize) -> u8;
    pub fn ration_open(state: *mut [u8; SIZE], image: *const u8, length: usize) -> u8;
    pub fn ration_broken(state: *const [u8; SIZE], rule: u8, part: *mut u8, place: *mut u16) -> u8;
}

/// Panics where the archive was built with other sizes than this package: it would write past what is lent to it.
pub fn compare_sizes() {
    // these lend nothing
    let archive = unsafe {
        [
            ration_size(),
            ration_answer_size(),
            ration_report_size(),
            ration_image_size(),
            ration_kept_size(),
        ]
    };
    let package = [SIZE, ANSWER, REPORT, IMAGE_SIZE, KEPT_SIZE];
    assert!(
        archive == package,
        "libration.a has {archive:?} bytes for a state, an answer, a report, an image and what is kept of a journal, \
         this package {package:?}: they do not belong together"
    );
}

//! The raw functions of libima_verify, as `ima_verify.h` declares them for other languages than C. Names and numbers are those of the
//! header, which says what each function takes and gives, and what a caller must keep. The crate `ima-verify` calls them safely.

#![no_std]

pub const IMA_VERIFY_VERSION: u32 = 1;

pub const IMA_VERIFY_DONE: i32 = 0;
pub const IMA_VERIFY_DIFFERS: i32 = 1;
pub const IMA_VERIFY_REFUSED: i32 = 2;
pub const IMA_VERIFY_OUT_OF_MEMORY: i32 = 3;
pub const IMA_VERIFY_TOO_SHORT: i32 = 4;
pub const IMA_VERIFY_MORE: i32 = 5;
pub const IMA_VERIFY_MISUSED: i32 = 6;

pub const IMA_VERIFY_NO_ERROR: u32 = 0;
pub const IMA_VERIFY_ARGUMENT: u32 = 1;
pub const IMA_VERIFY_LOG: u32 = 2;
pub const IMA_VERIFY_LIST: u32 = 3;
pub const IMA_VERIFY_REPLAY: u32 = 4;
pub const IMA_VERIFY_EXPECTED: u32 = 5;
pub const IMA_VERIFY_CHECKPOINT: u32 = 6;
pub const IMA_VERIFY_MEMORY: u32 = 7;
pub const IMA_VERIFY_QUOTE: u32 = 8;
pub const IMA_VERIFY_KEY: u32 = 9;
pub const IMA_VERIFY_KNOWN: u32 = 10;
pub const IMA_VERIFY_SIGNATURE: u32 = 11;
pub const IMA_VERIFY_TEXT_LIST: u32 = 12;
pub const IMA_VERIFY_LOG_FORM: u32 = 13;

pub const IMA_VERIFY_NO_PLACE: u64 = u64::MAX;

pub const IMA_VERIFY_BY_NOTHING: u32 = 0;
pub const IMA_VERIFY_BY_EXPECTED: u32 = 1;
pub const IMA_VERIFY_BY_QUOTE: u32 = 2;

pub const IMA_VERIFY_CONVERT_LIST: u32 = 1;
pub const IMA_VERIFY_CONVERT_LOG: u32 = 2;

#[repr(C)]
#[derive(Debug, Clone, Copy, PartialEq, Eq)]
#[allow(non_camel_case_types)]
pub struct ima_verify_info {
    pub size: usize,
    pub error_kind: u32,
    pub error_number: u32,
    pub error_place: u64,
}

extern "C" {
    pub fn ima_verify_version() -> u32;
    pub fn ima_verify_raw_verdict(
        log: *const u8, log_size: usize, hcrtm: bool, old_kernel: bool, list: *const u8, list_size: usize, expected: *const u8, expected_size: usize,
        require: *const u8, require_size: usize, known: *const u8, known_size: usize, checks_known: bool, json: bool, numbers: *mut u64,
        numbers_count: usize, out: *mut u8, capacity: usize, info: *mut ima_verify_info,
    ) -> i32;
    pub fn ima_verify_raw_locate(
        log: *const u8, log_size: usize, hcrtm: bool, list: *const u8, list_size: usize, expected: *const u8, expected_size: usize,
        require: *const u8, require_size: usize, json: bool, out: *mut u8, capacity: usize, info: *mut ima_verify_info,
    ) -> i32;
    pub fn ima_verify_raw_replay(
        list: *const u8, list_size: usize, expected: *const u8, expected_size: usize, require: *const u8, require_size: usize, known: *const u8,
        known_size: usize, checks_known: bool, json: bool, numbers: *mut u64, numbers_count: usize, out: *mut u8, capacity: usize,
        info: *mut ima_verify_info,
    ) -> i32;
    pub fn ima_verify_raw_more(
        log: *const u8, log_size: usize, hcrtm: bool, old_kernel: bool, state: *const u8, state_size: usize, more: *const u8, more_size: usize,
        expected: *const u8, expected_size: usize, require: *const u8, require_size: usize, known: *const u8, known_size: usize, checks_known: bool,
        prefix: bool, json: bool, numbers: *mut u64, numbers_count: usize, next: *mut u8, next_capacity: usize, next_size: *mut usize, out: *mut u8,
        capacity: usize, info: *mut ima_verify_info,
    ) -> i32;
    pub fn ima_verify_raw_attest(
        log: *const u8, log_size: usize, hcrtm: bool, old_kernel: bool, state: *const u8, state_size: usize, more: *const u8, more_size: usize,
        message: *const u8, message_size: usize, key: *const u8, key_size: usize, signature: *const u8, signature_size: usize, nonce: *const u8,
        nonce_size: usize, nonce_hex: *const u8, nonce_hex_size: usize, require: *const u8, require_size: usize, known: *const u8, known_size: usize,
        checks_known: bool, allow_sha1: bool, signature_checked: bool, prefix: bool, json: bool, numbers: *mut u64, numbers_count: usize,
        next: *mut u8, next_capacity: usize, next_size: *mut usize, out: *mut u8, capacity: usize, info: *mut ima_verify_info,
    ) -> i32;
    pub fn ima_verify_raw_expected(
        printed: *const u8, printed_size: usize, registers: *const u8, registers_size: usize, json: bool, out: *mut u8, capacity: usize,
        info: *mut ima_verify_info,
    ) -> i32;
    pub fn ima_verify_raw_registers(
        bytes: *const u8, size: usize, of_list: bool, hcrtm: bool, json: bool, out: *mut u8, capacity: usize, info: *mut ima_verify_info,
    ) -> i32;
    pub fn ima_verify_raw_key(
        area: *const u8, area_size: usize, endorsement: bool, json: bool, out: *mut u8, capacity: usize, info: *mut ima_verify_info,
    ) -> i32;
    pub fn ima_verify_raw_matching(
        log: *const u8, log_size: usize, hcrtm: bool, old_kernel: bool, by: u32, expected: *const u8, expected_size: usize, list: *const u8,
        list_size: usize, message: *const u8, message_size: usize, key: *const u8, key_size: usize, signature: *const u8, signature_size: usize,
        nonce: *const u8, nonce_size: usize, nonce_hex: *const u8, nonce_hex_size: usize, require: *const u8, require_size: usize, allow_sha1: bool,
        signature_checked: bool, out: *mut u8, capacity: usize, info: *mut ima_verify_info,
    ) -> i32;
    pub fn ima_verify_raw_boot(
        log: *const u8, log_size: usize, hcrtm: bool, old_kernel: bool, before: *const u8, before_size: usize, compares: bool, by: u32,
        expected: *const u8, expected_size: usize, list: *const u8, list_size: usize, message: *const u8, message_size: usize, key: *const u8,
        key_size: usize, signature: *const u8, signature_size: usize, nonce: *const u8, nonce_size: usize, nonce_hex: *const u8,
        nonce_hex_size: usize, require: *const u8, require_size: usize, allow_sha1: bool, signature_checked: bool, json: bool, out: *mut u8,
        capacity: usize, info: *mut ima_verify_info,
    ) -> i32;
    pub fn ima_verify_raw_events(
        log: *const u8, log_size: usize, matching: *const u8, matching_size: usize, matching_given: bool, offset: *mut usize, number: *mut usize,
        out: *mut u8, capacity: usize, info: *mut ima_verify_info,
    ) -> i32;
    pub fn ima_verify_raw_entries(
        list: *const u8, list_size: usize, offset: *mut usize, number: *mut usize, json: bool, out: *mut u8, capacity: usize,
        info: *mut ima_verify_info,
    ) -> i32;
    pub fn ima_verify_raw_convert(
        bytes: *const u8, size: usize, conversion: u32, padding: *mut usize, out: *mut u8, capacity: usize, info: *mut ima_verify_info,
    ) -> i32;
    pub fn ima_verify_raw_error_text(kind: u32, number: u32, place: u64, out: *mut u8, capacity: usize, info: *mut ima_verify_info) -> i32;
}

#[cfg(test)]
mod tests;

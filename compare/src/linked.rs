//! The calls of the archive, as gtid.h declares them.
#![allow(dead_code)] // each program calls some

unsafe extern "C" {
    pub fn gtid_check_set(set: *const u8, len: usize, entries: *mut u64, n: *mut u64) -> u8;
    pub fn gtid_contains(
        set: *const u8,
        set_len: usize,
        uuid: *const u8,
        uuid_len: usize,
        tag: *const u8,
        tag_len: usize,
        gno: u64,
        present: *mut u8,
    ) -> u8;
    pub fn gtid_take_in(
        body: *const u8,
        body_len: usize,
        out: *mut u8,
        out_len: usize,
        len: *mut usize,
    ) -> u8;
    pub fn gtid_either(
        first: *const u8,
        first_len: usize,
        second: *const u8,
        second_len: usize,
        out: *mut u8,
        out_len: usize,
        len: *mut usize,
    ) -> u8;
    pub fn gtid_both(
        first: *const u8,
        first_len: usize,
        second: *const u8,
        second_len: usize,
        out: *mut u8,
        out_len: usize,
        len: *mut usize,
    ) -> u8;
    pub fn gtid_without(
        first: *const u8,
        first_len: usize,
        second: *const u8,
        second_len: usize,
        out: *mut u8,
        out_len: usize,
        len: *mut usize,
    ) -> u8;
    pub fn gtid_within(
        first: *const u8,
        first_len: usize,
        second: *const u8,
        second_len: usize,
        within: *mut u8,
    ) -> u8;
    pub fn gtid_head(
        first: *const u8,
        first_len: usize,
        second: *const u8,
        second_len: usize,
        head: *mut u8,
    ) -> u8;
    pub fn gtid_report_add(
        report: *mut u8,
        report_len: usize,
        set: *const u8,
        set_len: usize,
        entries: *mut u64,
        intervals: *mut u64,
        high: *mut u64,
        low: *mut u64,
    ) -> u8;
    pub fn gtid_report_sum(
        report: *const u8,
        report_len: usize,
        entries: *mut u64,
        intervals: *mut u64,
        high: *mut u64,
        low: *mut u64,
    ) -> u8;
    pub fn gtid_report_write(
        report: *const u8,
        report_len: usize,
        out: *mut u8,
        out_len: usize,
        len: *mut usize,
    ) -> u8;
    pub fn gtid_binlog_begin(
        set: *const u8,
        set_len: usize,
        checksums: u8,
        reader: *mut u8,
        reader_len: usize,
    ) -> u8;
    pub fn gtid_binlog_step(
        reader: *mut u8,
        reader_len: usize,
        chunk: *const u8,
        chunk_len: usize,
        work: *mut u8,
        work_len: usize,
        set: *mut u8,
        set_len: usize,
        spare: *mut u8,
        spare_len: usize,
    ) -> u8;
    pub fn gtid_rewrite(
        body: *const u8,
        body_len: usize,
        out: *mut u8,
        out_len: usize,
        len: *mut usize,
    ) -> u8;
    pub fn gtid_read_varlen_uint(
        s: *const u8,
        s_len: usize,
        value: *mut u64,
        used: *mut usize,
    ) -> u8;
    pub fn gtid_read_previous(
        body: *const u8,
        body_len: usize,
        entries: *mut u64,
        used: *mut usize,
    ) -> u8;
    pub fn gtid_read_entry(
        body: *const u8,
        body_len: usize,
        at: usize,
        tag_len: *mut usize,
        intervals: *mut u64,
        first: *mut usize,
        next: *mut usize,
    ) -> u8;
    pub fn gtid_offer(
        set: *const u8,
        set_len: usize,
        event_type: u8,
        body: *const u8,
        body_len: usize,
        out: *mut u8,
        out_len: usize,
        kind: *mut u8,
        len: *mut usize,
    ) -> u8;
    pub fn gtid_list(
        input: *const u8,
        input_len: usize,
        out: *mut u8,
        out_len: usize,
        len: *mut usize,
    ) -> u8;
    pub fn gtid_read(
        event_type: u8,
        body: *const u8,
        body_len: usize,
        record: *mut u8,
        record_len: usize,
        used: *mut usize,
    ) -> u8;
    pub fn gtid_read_present(
        event_type: u8,
        body: *const u8,
        body_len: usize,
        record: *mut u8,
        record_len: usize,
        used: *mut usize,
        present: *mut u16,
    ) -> u8;
    pub fn gtid_write(
        record: *const u8,
        record_len: usize,
        out: *mut u8,
        out_len: usize,
        len: *mut usize,
    ) -> u8;
}

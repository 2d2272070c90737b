//! The declarations of heronditch.h, made from it by `tools/header.py rust`: change the header, and make them anew.
#![allow(non_camel_case_types)]

use std::ffi::c_char;

pub const HERONDITCH_VERSION: u32 = 3;
pub const HERONDITCH_FIRST: u32 = 1;
pub const HERONDITCH_SECOND: u32 = 2;
pub const HERONDITCH_THIRD: u32 = 3;
pub const HERONDITCH_NEITHER: u32 = 0;
pub const HERONDITCH_PATTERN: u32 = 1;
pub const HERONDITCH_BOARD: u32 = 2;
pub const HERONDITCH_FORWARD: u32 = 1;
pub const HERONDITCH_BACKWARD: u32 = 2;
pub const HERONDITCH_LESS: u32 = 1;
pub const HERONDITCH_EQUAL: u32 = 2;
pub const HERONDITCH_GREATER: u32 = 3;
pub const HERONDITCH_ACCEPTED: u32 = 0;
pub const HERONDITCH_SHORT_FILE: u32 = 1;
pub const HERONDITCH_SIZE_RANGE: u32 = 2;
pub const HERONDITCH_WRONG_LENGTH: u32 = 3;
pub const HERONDITCH_NO_SUCH_NODE: u32 = 4;
pub const HERONDITCH_NOT_RISING: u32 = 5;
pub const HERONDITCH_NOT_CONNECTED: u32 = 6;
pub const HERONDITCH_NO_SUCH_CENTRE: u32 = 7;
pub const HERONDITCH_SHORT_TABLE: u32 = 8;
pub const HERONDITCH_NO_PLACE: u32 = 9;
pub const HERONDITCH_NUMBER_RANGE: u32 = 10;
pub const HERONDITCH_TOO_WIDE: u32 = 11;
pub const HERONDITCH_PACKAGE_LOST: u32 = 12;
pub const HERONDITCH_BOUND_RANGE: u32 = 13;
pub const HERONDITCH_NO_SUCH_LINK: u32 = 14;
pub const HERONDITCH_HAS_PLACE: u32 = 15;
pub const HERONDITCH_OUTSIDE: u16 = 65535;
pub const HERONDITCH_PARTS: usize = 32;
pub const HERONDITCH_PATTERN_LINKS: usize = 256;
pub const HERONDITCH_RADIUS: usize = 12;
pub const HERONDITCH_BOUND: usize = 4;
pub const HERONDITCH_NODES: usize = 512;
pub const HERONDITCH_BOARD_LINKS: usize = 4096;
pub const HERONDITCH_PATTERN_BYTES: usize = 4 + 4 * HERONDITCH_PARTS + 6 * HERONDITCH_PATTERN_LINKS;
pub const HERONDITCH_BOARD_BYTES: usize = 4 + 4 * HERONDITCH_NODES + 4 * HERONDITCH_BOARD_LINKS;
pub const HERONDITCH_SHELF: usize = 16;
pub const HERONDITCH_LINE_BYTES: usize = 34829;
pub const HERONDITCH_REPORT_BYTES: usize = 513 * HERONDITCH_LINE_BYTES;
pub const HERONDITCH_STACK: usize = 65536;
pub const HERONDITCH_SESSION_BYTES: usize = 37132;

#[repr(C)]
#[derive(Clone, Copy, Debug)]
pub struct heronditch_reply {
    pub number: u32,
    pub file: u32,
    pub first: usize,
    pub second: usize,
}

#[repr(C)]
#[derive(Clone, Copy, Debug)]
pub struct heronditch_counts {
    pub number: u32,
    pub file: u32,
    pub started: u32,
    pub kept: u32,
    pub struck: u32,
    pub rounds: u32,
}

#[repr(C)]
#[derive(Clone, Copy, Debug)]
pub struct heronditch_piece {
    pub number: u32,
    pub file: u32,
    pub next: usize,
    pub found: usize,
    pub size: usize,
}

#[repr(C)]
#[derive(Clone, Copy, Debug)]
pub struct heronditch_comparison {
    pub number: u32,
    pub file: u32,
    pub which: u32,
    pub order: u32,
}

#[repr(C)]
#[derive(Clone, Copy, Debug)]
pub struct heronditch_session {
    pub fixed: [u32; 66],
    pub sets: [u32; HERONDITCH_NODES],
    pub offsets: [u16; 1026],
    pub numbers: [u16; 2 * HERONDITCH_BOARD_LINKS],
    pub ends: [u16; 2 * HERONDITCH_BOARD_LINKS],
}

extern "C" {
    pub fn heronditch_version() -> u32;
    pub fn heronditch_message(
        number: u32,
    ) -> *const c_char;
    pub fn heronditch_read(
        role: u32,
        file: *const u8,
        file_len: usize,
        edition: u32,
        kinds: *mut u16,
        kinds_len: usize,
        packages: *mut u16,
        packages_len: usize,
        starts: *mut u16,
        starts_len: usize,
        ends: *mut u16,
        ends_len: usize,
    ) -> heronditch_reply;
    pub fn heronditch_write(
        role: u32,
        edition: u32,
        kinds: *const u16,
        kinds_len: usize,
        packages: *const u16,
        packages_len: usize,
        starts: *const u16,
        starts_len: usize,
        ends: *const u16,
        ends_len: usize,
        out: *mut u8,
        out_len: usize,
    ) -> heronditch_reply;
    pub fn heronditch_convert(
        role: u32,
        file: *const u8,
        file_len: usize,
        edition: u32,
        to_edition: u32,
        out: *mut u8,
        out_len: usize,
    ) -> heronditch_reply;
    pub fn heronditch_test_board(
        seed: u32,
        n: u32,
        m: u32,
        k: u32,
        out: *mut u8,
        out_len: usize,
    ) -> heronditch_reply;
    pub fn heronditch_neighbours(
        direction: u32,
        forward_offsets: *const u16,
        forward_offsets_len: usize,
        forward: *const u16,
        forward_len: usize,
        backward_offsets: *const u16,
        backward_offsets_len: usize,
        backward: *const u16,
        backward_len: usize,
        node: usize,
        out: *mut u16,
        out_len: usize,
    ) -> heronditch_reply;
    pub fn heronditch_radius(
        pattern: *const u8,
        pattern_len: usize,
        pattern_edition: u32,
    ) -> heronditch_reply;
    pub fn heronditch_ball(
        board: *const u8,
        board_len: usize,
        board_edition: u32,
        centre: usize,
        radius: u16,
        out: *mut u16,
        out_len: usize,
    ) -> heronditch_reply;
    pub fn heronditch_match(
        pattern: *const u8,
        pattern_len: usize,
        pattern_edition: u32,
        board: *const u8,
        board_len: usize,
        board_edition: u32,
        table: *mut u32,
        table_len: usize,
    ) -> heronditch_counts;
    pub fn heronditch_match_one_way(
        pattern: *const u8,
        pattern_len: usize,
        pattern_edition: u32,
        board: *const u8,
        board_len: usize,
        board_edition: u32,
        table: *mut u32,
        table_len: usize,
    ) -> heronditch_counts;
    pub fn heronditch_place(
        pattern: *const u8,
        pattern_len: usize,
        board: *const u8,
        board_len: usize,
        centre: usize,
        nodes: *mut u8,
        nodes_len: usize,
        links: *mut u8,
        links_len: usize,
        table: *mut u32,
        table_len: usize,
        distances: *mut u16,
        distances_len: usize,
    ) -> heronditch_counts;
    pub fn heronditch_place_within(
        pattern: *const u8,
        pattern_len: usize,
        board: *const u8,
        board_len: usize,
        centre: usize,
        radius: u16,
        nodes: *mut u8,
        nodes_len: usize,
        links: *mut u8,
        links_len: usize,
        table: *mut u32,
        table_len: usize,
        distances: *mut u16,
        distances_len: usize,
    ) -> heronditch_counts;
    pub fn heronditch_place_editions(
        pattern: *const u8,
        pattern_len: usize,
        pattern_edition: u32,
        board: *const u8,
        board_len: usize,
        board_edition: u32,
        centre: usize,
        nodes: *mut u8,
        nodes_len: usize,
        links: *mut u8,
        links_len: usize,
        table: *mut u32,
        table_len: usize,
        distances: *mut u16,
        distances_len: usize,
    ) -> heronditch_counts;
    pub fn heronditch_place_within_editions(
        pattern: *const u8,
        pattern_len: usize,
        pattern_edition: u32,
        board: *const u8,
        board_len: usize,
        board_edition: u32,
        centre: usize,
        radius: u16,
        nodes: *mut u8,
        nodes_len: usize,
        links: *mut u8,
        links_len: usize,
        table: *mut u32,
        table_len: usize,
        distances: *mut u16,
        distances_len: usize,
    ) -> heronditch_counts;
    pub fn heronditch_check(
        pattern: *const u8,
        pattern_len: usize,
        pattern_edition: u32,
        board: *const u8,
        board_len: usize,
        board_edition: u32,
        centre: usize,
        nodes: *const u8,
        nodes_len: usize,
        links: *const u8,
        links_len: usize,
    ) -> heronditch_reply;
    pub fn heronditch_bar(
        pattern: *const u8,
        pattern_len: usize,
        pattern_edition: u32,
        board: *const u8,
        board_len: usize,
        board_edition: u32,
        centre: usize,
        out: *mut u8,
        out_len: usize,
    ) -> heronditch_reply;
    pub fn heronditch_report(
        pattern: *const u8,
        pattern_len: usize,
        board: *const u8,
        board_len: usize,
        from: usize,
        found: u16,
        out: *mut u8,
        out_len: usize,
    ) -> heronditch_piece;
    pub fn heronditch_report_editions(
        pattern: *const u8,
        pattern_len: usize,
        pattern_edition: u32,
        board: *const u8,
        board_len: usize,
        board_edition: u32,
        from: usize,
        found: u16,
        out: *mut u8,
        out_len: usize,
    ) -> heronditch_piece;
    pub fn heronditch_merge(
        pattern: *const u8,
        pattern_len: usize,
        pattern_edition: u32,
        classes: *mut u8,
        classes_len: usize,
        out: *mut u8,
        out_len: usize,
    ) -> heronditch_reply;
    pub fn heronditch_compare(
        first: *const u8,
        first_len: usize,
        second: *const u8,
        second_len: usize,
    ) -> heronditch_comparison;
    pub fn heronditch_shelf(
        bytes: *const u8,
        bytes_len: usize,
        lengths: *const u32,
        lengths_len: usize,
        order: *mut u8,
        order_len: usize,
    ) -> heronditch_reply;
    pub fn heronditch_open(
        session: *mut heronditch_session,
        pattern: *const u8,
        pattern_len: usize,
        pattern_edition: u32,
        board: *const u8,
        board_len: usize,
        board_edition: u32,
    ) -> heronditch_reply;
    pub fn heronditch_cut(
        session: *mut heronditch_session,
        link: usize,
    ) -> heronditch_reply;
    pub fn heronditch_table(
        session: *const heronditch_session,
        table: *mut u32,
        table_len: usize,
    ) -> heronditch_reply;
}

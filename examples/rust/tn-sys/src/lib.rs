//! The declarations of `tn.h`, which describes each call and the rules for its caller.
#![no_std]
#![allow(non_camel_case_types)]

use core::ffi::{c_char, c_void};

macro_rules! handles {
    ($($name:ident),*) => {$(
        /// A handle, which begins with a null pointer, is never copied, and is touched only by the calls.
        #[repr(C)]
        pub struct $name {
            pub tn_private: *mut c_void,
        }
    )*};
}

handles!(tn_line, tn_decoder, tn_server, tn_client);

// Numbers, since a later library may give more of them.
pub type tn_code = u32;
pub type tn_effect = u32;
pub type tn_kind = u32;
pub type tn_option_state = u32;
pub type tn_item_kind = u32;
pub type tn_command = u32;

pub const TN_OK: tn_code = 0;
pub const TN_MEMORY: tn_code = 1;
pub const TN_FAILED: tn_code = 2;
pub const TN_NOT_STARTED: tn_code = 3;
pub const TN_STARTED: tn_code = 4;
pub const TN_OTHER_KIND: tn_code = 5;
pub const TN_NO_LIMIT: tn_code = 6;
pub const TN_TOO_FAR_AHEAD: tn_code = 7;
pub const TN_CLOSED: tn_code = 8;
pub const TN_NO_FUNCTION: tn_code = 9;
pub const TN_NOT_SETTABLE: tn_code = 10;
pub const TN_RESERVED: tn_code = 11;
pub const TN_TAKEN: tn_code = 12;
pub const TN_NOT_ON: tn_code = 13;
pub const TN_TOO_LONG: tn_code = 14;
pub const TN_NO_COMMAND: tn_code = 15;
pub const TN_NOT_OWNED: tn_code = 16;
pub const TN_TOO_LATE: tn_code = 17;
pub const TN_ITEMS_WAIT: tn_code = 18;

pub const TN_BAD_LIMIT: tn_code = TN_NO_LIMIT;
pub const TN_BAD_FUNCTION: tn_code = TN_NO_FUNCTION;
pub const TN_CHAR_IN_USE: tn_code = TN_TAKEN;
pub const TN_BAD_COMMAND: tn_code = TN_NO_COMMAND;

pub const TN_NONE: tn_effect = 0;
pub const TN_TEXT: tn_effect = 1;
pub const TN_EOF: tn_effect = 2;
pub const TN_INT: tn_effect = 3;
pub const TN_QUIT: tn_effect = 4;
pub const TN_TSTP: tn_effect = 5;
pub const TN_KEPT: tn_effect = 6;
pub const TN_ERASED: tn_effect = 7;
pub const TN_ERASED_AHEAD: tn_effect = 8;
pub const TN_KILLED: tn_effect = 9;
pub const TN_DROPPED: tn_effect = 10;

pub const TN_CHAR_INTR: u8 = 3;
pub const TN_CHAR_QUIT: u8 = 7;
pub const TN_CHAR_EOF: u8 = 8;
pub const TN_CHAR_SUSP: u8 = 9;
pub const TN_CHAR_ERASE: u8 = 10;
pub const TN_CHAR_KILL: u8 = 11;
pub const TN_CHAR_EOL: u8 = 17;
pub const TN_CHAR_EOL2: u8 = 18;

pub const TN_OPTION_NO: tn_option_state = 0;
pub const TN_OPTION_YES: tn_option_state = 1;
pub const TN_OPTION_WANT_NO: tn_option_state = 2;
pub const TN_OPTION_WANT_NO_THEN_YES: tn_option_state = 3;
pub const TN_OPTION_WANT_YES: tn_option_state = 4;
pub const TN_OPTION_WANT_YES_THEN_NO: tn_option_state = 5;

pub const TN_NO_ITEM: tn_item_kind = 0;
pub const TN_BYTE: tn_item_kind = 1;
pub const TN_NEWLINE: tn_item_kind = 2;
pub const TN_COMMAND: tn_item_kind = 3;
pub const TN_WORD: tn_item_kind = 4;
pub const TN_SUBNEGOTIATION: tn_item_kind = 5;

pub const TN_COMMAND_NOP: tn_command = 241;
pub const TN_COMMAND_BRK: tn_command = 243;
pub const TN_COMMAND_IP: tn_command = 244;
pub const TN_COMMAND_AYT: tn_command = 246;

pub const TN_CHANGED_SIZE: u32 = 1;
pub const TN_CHANGED_MODE: u32 = 2;
pub const TN_CHANGED_OPTION: u32 = 4;
pub const TN_CHANGED_CHAR: u32 = 8;
pub const TN_CHANGED_BREAK: u32 = 16;

pub const TN_NO_CHAR: u16 = 256;
pub const TN_MODE_EDIT: u8 = 1;
pub const TN_MODE_TRAPSIG: u8 = 2;

#[repr(C)]
#[derive(Clone, Copy, Debug, PartialEq, Eq)]
pub struct tn_flags {
    pub icrnl: bool,
    pub inlcr: bool,
    pub igncr: bool,
    pub isig: bool,
    pub echo: bool,
    pub echoe: bool,
    pub echok: bool,
    pub echonl: bool,
    pub tostop: bool,
    pub opost: bool,
    pub onlcr: bool,
}

pub const TN_STANDARD_FLAGS: tn_flags = tn_flags {
    icrnl: true,
    inlcr: false,
    igncr: false,
    isig: true,
    echo: true,
    echoe: true,
    echok: true,
    echonl: false,
    tostop: false,
    opost: true,
    onlcr: true,
};

#[repr(C)]
#[derive(Clone, Copy, Debug, Default, PartialEq, Eq)]
pub struct tn_item {
    pub kind: tn_item_kind,
    pub code: u8,
    pub option: u8,
    pub length: usize,
}

extern "C" {
    pub fn tn_version() -> u32;
    pub fn tn_code_text(code: tn_code) -> *const c_char;
    pub fn tn_line_free(line: *mut tn_line);
    pub fn tn_decoder_free(decoder: *mut tn_decoder);
    pub fn tn_server_free(server: *mut tn_server);
    pub fn tn_client_free(client: *mut tn_client);
    pub fn tn_line_start(line: *mut tn_line, flags: *const tn_flags, limit: u16) -> tn_code;
    pub fn tn_line_key(line: *mut tn_line, key: u8, effect: *mut tn_effect) -> tn_code;
    pub fn tn_line_text(line: *const tn_line, buf: *mut u8, size: usize, length: *mut usize) -> tn_code;
    pub fn tn_line_echo(line: *const tn_line, buf: *mut u8, size: usize, length: *mut usize) -> tn_code;
    pub fn tn_line_half(line: *const tn_line, buf: *mut u8, size: usize, length: *mut usize) -> tn_code;
    pub fn tn_line_set_flags(line: *mut tn_line, flags: *const tn_flags) -> tn_code;
    pub fn tn_line_set_char(line: *mut tn_line, function: u8, value: u16) -> tn_code;
    pub fn tn_line_char(line: *const tn_line, function: u8, value: *mut u16) -> tn_code;
    pub fn tn_decoder_start(decoder: *mut tn_decoder) -> tn_code;
    pub fn tn_decoder_feed(decoder: *mut tn_decoder, bytes: *const u8, length: usize) -> tn_code;
    pub fn tn_decoder_take(decoder: *mut tn_decoder, item: *mut tn_item) -> tn_code;
    pub fn tn_decoder_take_run(decoder: *mut tn_decoder, buf: *mut u8, size: usize, count: *mut usize) -> tn_code;
    pub fn tn_decoder_parameters(decoder: *const tn_decoder, buf: *mut u8, size: usize, length: *mut usize) -> tn_code;
    pub fn tn_put_byte(byte: u8, buf: *mut u8, size: usize, length: *mut usize) -> tn_code;
    pub fn tn_put_newline(buf: *mut u8, size: usize, length: *mut usize) -> tn_code;
    pub fn tn_put_command(command: u8, buf: *mut u8, size: usize, length: *mut usize) -> tn_code;
    pub fn tn_put_option(word: u8, option: u8, buf: *mut u8, size: usize, length: *mut usize) -> tn_code;
    pub fn tn_put_sub(option: u8, parameters: *const u8, count: usize, buf: *mut u8, size: usize, length: *mut usize) -> tn_code;
    pub fn tn_server_start(server: *mut tn_server, flags: *const tn_flags, limit: u16) -> tn_code;
    pub fn tn_server_start_lines(server: *mut tn_server, flags: *const tn_flags, limit: u16) -> tn_code;
    pub fn tn_server_feed(server: *mut tn_server, bytes: *const u8, length: usize) -> tn_code;
    pub fn tn_server_feed_some(server: *mut tn_server, bytes: *const u8, length: usize, taken: *mut usize) -> tn_code;
    pub fn tn_server_pending(server: *const tn_server, count: *mut usize) -> tn_code;
    pub fn tn_server_read(server: *mut tn_server, buf: *mut u8, size: usize, count: *mut usize) -> tn_code;
    pub fn tn_server_peek(server: *const tn_server, bytes: *mut *const u8, count: *mut usize) -> tn_code;
    pub fn tn_server_sent(server: *mut tn_server, count: usize) -> tn_code;
    pub fn tn_server_take(server: *mut tn_server, kind: *mut tn_kind) -> tn_code;
    pub fn tn_server_text(server: *const tn_server, buf: *mut u8, size: usize, length: *mut usize) -> tn_code;
    pub fn tn_server_forget(server: *mut tn_server) -> tn_code;
    pub fn tn_server_write(server: *mut tn_server, bytes: *const u8, length: usize, count: *mut usize) -> tn_code;
    pub fn tn_server_pull(server: *mut tn_server, max: usize, count: *mut usize) -> tn_code;
    pub fn tn_server_say(server: *mut tn_server, bytes: *const u8, length: usize, count: *mut usize) -> tn_code;
    pub fn tn_server_wish(server: *mut tn_server, at_client: bool, sent: *mut bool) -> tn_code;
    pub fn tn_server_set_char(server: *mut tn_server, function: u8, value: u16) -> tn_code;
    pub fn tn_server_set_echo(server: *mut tn_server, on: bool) -> tn_code;
    pub fn tn_server_set_mask(server: *mut tn_server, octets: *const u8, length: usize) -> tn_code;
    pub fn tn_server_clear_mask(server: *mut tn_server) -> tn_code;
    pub fn tn_server_waiting(server: *const tn_server, index: usize, kind: *mut tn_kind) -> tn_code;
    pub fn tn_server_waiting_text(server: *const tn_server, index: usize, buf: *mut u8, size: usize, length: *mut usize) -> tn_code;
    pub fn tn_server_signal_waiting(server: *const tn_server, kind: *mut tn_kind) -> tn_code;
    pub fn tn_server_changes(server: *mut tn_server, bits: *mut u32) -> tn_code;
    pub fn tn_server_size(server: *const tn_server, width: *mut u16, height: *mut u16) -> tn_code;
    pub fn tn_server_mode(server: *const tn_server, mode: *mut u8) -> tn_code;
    pub fn tn_server_asked(server: *const tn_server, mode: *mut u8) -> tn_code;
    pub fn tn_server_half(server: *const tn_server, buf: *mut u8, size: usize, length: *mut usize) -> tn_code;
    pub fn tn_server_char(server: *const tn_server, function: u8, value: *mut u16) -> tn_code;
    pub fn tn_server_option(server: *const tn_server, ours: bool, option: u8, state: *mut tn_option_state) -> tn_code;
    pub fn tn_server_failed(server: *const tn_server, failed: *mut bool) -> tn_code;
    pub fn tn_server_own(server: *mut tn_server, option: u8) -> tn_code;
    pub fn tn_server_take_own(server: *mut tn_server, item: *mut tn_item) -> tn_code;
    pub fn tn_server_own_parameters(server: *const tn_server, buf: *mut u8, size: usize, length: *mut usize) -> tn_code;
    pub fn tn_server_say_own(server: *mut tn_server, option: u8, word: u8) -> tn_code;
    pub fn tn_server_say_own_sub(server: *mut tn_server, option: u8, parameters: *const u8, count: usize) -> tn_code;
    pub fn tn_client_start(client: *mut tn_client, width: u16, height: u16, limit: u16) -> tn_code;
    pub fn tn_client_key(client: *mut tn_client, key: u8) -> tn_code;
    pub fn tn_client_new_line(client: *mut tn_client) -> tn_code;
    pub fn tn_client_feed(client: *mut tn_client, bytes: *const u8, length: usize) -> tn_code;
    pub fn tn_client_pending(client: *const tn_client, count: *mut usize) -> tn_code;
    pub fn tn_client_read(client: *mut tn_client, buf: *mut u8, size: usize, count: *mut usize) -> tn_code;
    pub fn tn_client_screen_pending(client: *const tn_client, count: *mut usize) -> tn_code;
    pub fn tn_client_screen(client: *mut tn_client, buf: *mut u8, size: usize, count: *mut usize) -> tn_code;
    pub fn tn_client_resize(client: *mut tn_client, width: u16, height: u16) -> tn_code;
    pub fn tn_client_propose(client: *mut tn_client, function: u8, value: u16) -> tn_code;
    pub fn tn_client_send(client: *mut tn_client, command: tn_command) -> tn_code;
    pub fn tn_client_mode(client: *const tn_client, mode: *mut u8) -> tn_code;
    pub fn tn_client_half(client: *const tn_client, buf: *mut u8, size: usize, length: *mut usize) -> tn_code;
    pub fn tn_client_ahead(client: *const tn_client, count: *mut u16) -> tn_code;
    pub fn tn_client_counts(client: *const tn_client, trapped: *mut u16, plain: *mut u16) -> tn_code;
    pub fn tn_client_char(client: *const tn_client, function: u8, value: *mut u16) -> tn_code;
    pub fn tn_client_option(client: *const tn_client, ours: bool, option: u8, state: *mut tn_option_state) -> tn_code;
    pub fn tn_client_failed(client: *const tn_client, failed: *mut bool) -> tn_code;
    pub fn tn_client_own(client: *mut tn_client, option: u8) -> tn_code;
    pub fn tn_client_take_own(client: *mut tn_client, item: *mut tn_item) -> tn_code;
    pub fn tn_client_own_parameters(client: *const tn_client, buf: *mut u8, size: usize, length: *mut usize) -> tn_code;
    pub fn tn_client_say_own(client: *mut tn_client, option: u8, word: u8) -> tn_code;
    pub fn tn_client_say_own_sub(client: *mut tn_client, option: u8, parameters: *const u8, count: usize) -> tn_code;
}

//! Lines, decoders and both ends of a Telnet connection with LINEMODE, over `libtn`, with nothing unsafe left to the caller.
//!
//! Each call of `tn.h`, which describes it, is a method or a function of its name; those that move or copy bytes return all of them.

use std::collections::VecDeque;
use std::ffi::CStr;
use tn_sys as raw;

pub use tn_sys::{tn_flags as Flags, TN_STANDARD_FLAGS as STANDARD_FLAGS};
pub use tn_sys::{TN_CHAR_EOF, TN_CHAR_EOL, TN_CHAR_EOL2, TN_CHAR_ERASE, TN_CHAR_INTR, TN_CHAR_KILL, TN_CHAR_QUIT, TN_CHAR_SUSP};
pub use tn_sys::{TN_CHANGED_BREAK, TN_CHANGED_CHAR, TN_CHANGED_MODE, TN_CHANGED_OPTION, TN_CHANGED_SIZE, TN_MODE_EDIT, TN_MODE_TRAPSIG};

/// The number of a refusal: `TN_MEMORY` and the others of `tn.h`.
#[derive(Clone, Copy, Debug, PartialEq, Eq)]
pub struct Refused(pub u32);

impl std::fmt::Display for Refused {
    fn fmt(&self, f: &mut std::fmt::Formatter<'_>) -> std::fmt::Result {
        write!(f, "{} (code {})", code_text(self.0), self.0)
    }
}

impl std::error::Error for Refused {}

pub type Result<T> = std::result::Result<T, Refused>;

// SAFETY, of each call below: its handle is started, lent only to this call and never copied; each pointer leads to as
// many initialized objects as the call names, or to none, and is not kept.

/// Returns a short English text for a code.
pub fn code_text(code: u32) -> &'static str {
    unsafe { CStr::from_ptr(raw::tn_code_text(code)) }.to_str().unwrap_or("")
}

/// Returns the library's version: 10,000 times its first number, plus 100 times its second, plus its third.
pub fn version() -> u32 {
    unsafe { raw::tn_version() }
}

fn done(code: u32) -> Result<()> {
    if code == raw::TN_OK { Ok(()) } else { Err(Refused(code)) }
}

/// Returns the number that a call gives through a pointer.
fn value<T: Default>(call: impl FnOnce(&mut T) -> u32) -> Result<T> {
    let mut given = T::default();
    done(call(&mut given))?;
    Ok(given)
}

/// Returns the two numbers that a call gives through pointers.
fn pair(call: impl FnOnce(&mut u16, &mut u16) -> u32) -> Result<(u16, u16)> {
    let (mut first, mut second) = (0, 0);
    done(call(&mut first, &mut second))?;
    Ok((first, second))
}

/// Returns the bytes that a call moves or copies to a buffer of this size.
fn bytes(size: usize, call: impl FnOnce(*mut u8, usize, &mut usize) -> u32) -> Result<Vec<u8>> {
    let (mut bytes, mut count) = (vec![0; size], 0);
    done(call(bytes.as_mut_ptr(), size, &mut count))?;
    bytes.truncate(count);
    Ok(bytes)
}

/// An entry: the result of one read of a terminal.
#[derive(Clone, Debug, PartialEq, Eq)]
pub enum Entry {
    Text(Vec<u8>),
    Eof,
    Int,
    Quit,
    Tstp,
}

/// Returns the entry of this kind, if there is one.
fn entry(kind: u32, text: impl FnOnce() -> Result<Vec<u8>>) -> Result<Option<Entry>> {
    Ok(match kind {
        raw::TN_TEXT => Some(Entry::Text(text()?)),
        raw::TN_EOF => Some(Entry::Eof),
        raw::TN_INT => Some(Entry::Int),
        raw::TN_QUIT => Some(Entry::Quit),
        raw::TN_TSTP => Some(Entry::Tstp),
        _ => None,
    })
}

/// The effect of a key on a line.
#[derive(Clone, Debug, PartialEq, Eq)]
pub enum Effect {
    /// The key was ignored, or there was nothing to erase.
    Nothing,
    Gives(Entry),
    /// The key joined the half-typed line.
    Kept,
    Erased,
    Killed,
    /// The line is full.
    Dropped,
}

/// The state of one side of an option (RFC 1143, section 7).
#[derive(Clone, Copy, Debug, PartialEq, Eq)]
pub enum OptionState {
    No,
    Yes,
    WantNo,
    WantNoThenYes,
    WantYes,
    WantYesThenNo,
}

fn option_state(number: u32) -> OptionState {
    match number {
        raw::TN_OPTION_YES => OptionState::Yes,
        raw::TN_OPTION_WANT_NO => OptionState::WantNo,
        raw::TN_OPTION_WANT_NO_THEN_YES => OptionState::WantNoThenYes,
        raw::TN_OPTION_WANT_YES => OptionState::WantYes,
        raw::TN_OPTION_WANT_YES_THEN_NO => OptionState::WantYesThenNo,
        _ => OptionState::No,
    }
}

/// Returns the number of a special character in the library.
fn number_of(value: Option<u8>) -> u16 {
    value.map_or(raw::TN_NO_CHAR, u16::from)
}

/// An item of a stream (RFC 854, 855).
#[derive(Clone, Debug, PartialEq, Eq)]
pub enum Item {
    Byte(u8),
    /// CR LF.
    Newline,
    Command(u8),
    /// A verb, 251 to 254, and its option.
    Word(u8, u8),
    /// An option and its parameters.
    Sub(u8, Vec<u8>),
}

/// Returns the item that a call took, with the parameters that another copies.
fn given(item: raw::tn_item, parameters: impl FnOnce(*mut u8, usize, &mut usize) -> u32) -> Result<Option<Item>> {
    Ok(match item.kind {
        raw::TN_BYTE => Some(Item::Byte(item.code)),
        raw::TN_NEWLINE => Some(Item::Newline),
        raw::TN_COMMAND => Some(Item::Command(item.code)),
        raw::TN_WORD => Some(Item::Word(item.code, item.option)),
        raw::TN_SUBNEGOTIATION => Some(Item::Sub(item.option, bytes(item.length, parameters)?)),
        _ => None,
    })
}

/// Spells an item as a decoder reads it.
pub fn spelled(item: &Item) -> Result<Vec<u8>> {
    match item {
        &Item::Byte(byte) => bytes(2, |buf, size, count| unsafe { raw::tn_put_byte(byte, buf, size, count) }),
        Item::Newline => bytes(2, |buf, size, count| unsafe { raw::tn_put_newline(buf, size, count) }),
        &Item::Command(command) => bytes(2, |buf, size, count| unsafe { raw::tn_put_command(command, buf, size, count) }),
        &Item::Word(word, option) => bytes(3, |buf, size, count| unsafe { raw::tn_put_option(word, option, buf, size, count) }),
        Item::Sub(option, parameters) => bytes(2 * parameters.len() + 6, |buf, size, count| unsafe {
            raw::tn_put_sub(*option, parameters.as_ptr(), parameters.len(), buf, size, count)
        }),
    }
}

/// A command that a client sends for its user (RFC 854).
#[derive(Clone, Copy, Debug, PartialEq, Eq)]
pub enum Command {
    Nop = raw::TN_COMMAND_NOP as isize,
    Brk = raw::TN_COMMAND_BRK as isize,
    Ip = raw::TN_COMMAND_IP as isize,
    Ayt = raw::TN_COMMAND_AYT as isize,
}

macro_rules! held {
    ($(#[$doc:meta])* $name:ident { $($field:ident: $kind:ty),* } of $raw:ident, $free:ident) => {
        $(#[$doc])*
        pub struct $name {
            held: raw::$raw,
            $($field: $kind,)*
        }

        // SAFETY: what it holds may be used on any thread, by one at a time (`tn.h`).
        unsafe impl Send for $name {}

        impl Drop for $name {
            fn drop(&mut self) {
                unsafe { raw::$free(&mut self.held) }
            }
        }
    };
}

held!(
    /// Keys to entries (POSIX.1-2017, XBD 11.1).
    Line { limit: u16 } of tn_line, tn_line_free
);
held!(
    /// A stream to items.
    Decoder {} of tn_decoder, tn_decoder_free
);
held!(
    /// A server end, with its terminal.
    Server { limit: u16, taken: VecDeque<Entry>, items: VecDeque<Item> } of tn_server, tn_server_free
);
held!(
    /// A client end.
    Client { limit: u16, items: VecDeque<Item> } of tn_client, tn_client_free
);

impl Line {
    pub fn start(flags: &Flags, limit: u16) -> Result<Line> {
        let mut held = raw::tn_line { tn_private: std::ptr::null_mut() };
        done(unsafe { raw::tn_line_start(&mut held, flags, limit) })?;
        Ok(Line { held, limit })
    }

    pub fn key(&mut self, key: u8) -> Result<Effect> {
        let effect = value(|effect| unsafe { raw::tn_line_key(&mut self.held, key, effect) })?;
        let text = || bytes(self.limit.into(), |buf, size, count| unsafe { raw::tn_line_text(&self.held, buf, size, count) });
        Ok(match effect {
            raw::TN_KEPT => Effect::Kept,
            raw::TN_ERASED | raw::TN_ERASED_AHEAD => Effect::Erased,
            raw::TN_KILLED => Effect::Killed,
            raw::TN_DROPPED => Effect::Dropped,
            _ => entry(effect, text)?.map_or(Effect::Nothing, Effect::Gives),
        })
    }

    /// Returns the bytes that a terminal shows of the last key.
    pub fn echo(&self) -> Result<Vec<u8>> {
        bytes(6, |buf, size, count| unsafe { raw::tn_line_echo(&self.held, buf, size, count) })
    }

    pub fn half(&self) -> Result<Vec<u8>> {
        bytes(self.limit.into(), |buf, size, count| unsafe { raw::tn_line_half(&self.held, buf, size, count) })
    }

    pub fn set_flags(&mut self, flags: &Flags) -> Result<()> {
        done(unsafe { raw::tn_line_set_flags(&mut self.held, flags) })
    }

    pub fn set_char(&mut self, function: u8, value: Option<u8>) -> Result<()> {
        done(unsafe { raw::tn_line_set_char(&mut self.held, function, number_of(value)) })
    }

    pub fn char(&self, function: u8) -> Result<Option<u8>> {
        let number: u16 = value(|it| unsafe { raw::tn_line_char(&self.held, function, it) })?;
        Ok(u8::try_from(number).ok())
    }
}

impl Decoder {
    pub fn start() -> Result<Decoder> {
        let mut held = raw::tn_decoder { tn_private: std::ptr::null_mut() };
        done(unsafe { raw::tn_decoder_start(&mut held) })?;
        Ok(Decoder { held })
    }

    /// Reads a piece, cut anywhere: its items wait to be taken.
    pub fn feed(&mut self, piece: &[u8]) -> Result<()> {
        done(unsafe { raw::tn_decoder_feed(&mut self.held, piece.as_ptr(), piece.len()) })
    }

    /// Takes the bytes of data that stand first, as many as came together and at most `most`.
    pub fn take_run(&mut self, most: usize) -> Result<Vec<u8>> {
        bytes(most, |buf, size, count| unsafe { raw::tn_decoder_take_run(&mut self.held, buf, size, count) })
    }

    /// Takes the first item, if one waits.
    pub fn take(&mut self) -> Result<Option<Item>> {
        let item = value(|item| unsafe { raw::tn_decoder_take(&mut self.held, item) })?;
        given(item, |buf, size, count| unsafe { raw::tn_decoder_parameters(&self.held, buf, size, count) })
    }
}

impl Server {
    pub fn start(flags: &Flags, limit: u16) -> Result<Server> {
        let mut held = raw::tn_server { tn_private: std::ptr::null_mut() };
        done(unsafe { raw::tn_server_start(&mut held, flags, limit) })?;
        Ok(Server { held, limit, taken: VecDeque::new(), items: VecDeque::new() })
    }

    /// Starts an end for clients that edit lines themselves: it opens with DO LINEMODE and DO NAWS only.
    pub fn start_lines(flags: &Flags, limit: u16) -> Result<Server> {
        let mut held = raw::tn_server { tn_private: std::ptr::null_mut() };
        done(unsafe { raw::tn_server_start_lines(&mut held, flags, limit) })?;
        Ok(Server { held, limit, taken: VecDeque::new(), items: VecDeque::new() })
    }

    /// Takes bytes that came from the client, cut anywhere and as many as there are: entries and items of owned options beyond those that
    /// may wait are kept in this object.
    pub fn feed(&mut self, mut piece: &[u8]) -> Result<()> {
        loop {
            let taken = match self.feed_some(piece) {
                Ok(taken) => taken,
                Err(refused) => {
                    self.make_room(refused)?;
                    continue;
                },
            };
            piece = &piece[taken..];
            if piece.is_empty() {
                return Ok(());
            }
            if taken == 0 {
                while let Some(entry) = self.take_held()? {
                    self.taken.push_back(entry);
                }
            }
        }
    }

    /// Takes the first of these bytes, and returns their number: none while more than 511 entries wait.
    pub fn feed_some(&mut self, piece: &[u8]) -> Result<usize> {
        value(|taken| unsafe { raw::tn_server_feed_some(&mut self.held, piece.as_ptr(), piece.len(), taken) })
    }

    /// Takes these bytes: the end fails if they make more entries than may wait.
    pub fn feed_at_once(&mut self, piece: &[u8]) -> Result<()> {
        done(unsafe { raw::tn_server_feed(&mut self.held, piece.as_ptr(), piece.len()) })
    }

    pub fn pending(&self) -> Result<usize> {
        value(|count| unsafe { raw::tn_server_pending(&self.held, count) })
    }

    /// Returns all bytes that wait to be sent.
    pub fn read(&mut self) -> Result<Vec<u8>> {
        bytes(self.pending()?, |buf, size, count| unsafe { raw::tn_server_read(&mut self.held, buf, size, count) })
    }

    /// Returns the bytes that wait to be sent, without a copy.
    pub fn peek(&self) -> Result<&[u8]> {
        let (mut at, mut count) = (std::ptr::null(), 0);
        done(unsafe { raw::tn_server_peek(&self.held, &mut at, &mut count) })?;
        // SAFETY: these bytes stay until the next call that borrows the server as mutable.
        Ok(if count == 0 { &[] } else { unsafe { std::slice::from_raw_parts(at, count) } })
    }

    /// Removes the first bytes that waited, which were sent.
    pub fn sent(&mut self, count: usize) -> Result<()> {
        done(unsafe { raw::tn_server_sent(&mut self.held, count) })
    }

    fn take_held(&mut self) -> Result<Option<Entry>> {
        let kind = value(|kind| unsafe { raw::tn_server_take(&mut self.held, kind) })?;
        entry(kind, || bytes(self.limit.into(), |buf, size, count| unsafe { raw::tn_server_text(&self.held, buf, size, count) }))
    }

    /// Takes the first entry, if one waits.
    pub fn take(&mut self) -> Result<Option<Entry>> {
        match self.taken.pop_front() {
            Some(entry) => Ok(Some(entry)),
            None => self.take_held(),
        }
    }

    /// Returns an entry that waits, by its place from 0 on; it stays.
    pub fn waiting(&self, index: usize) -> Result<Option<Entry>> {
        if let Some(entry) = self.taken.get(index) {
            return Ok(Some(entry.clone()));
        }
        let index = index - self.taken.len();
        let kind = value(|kind| unsafe { raw::tn_server_waiting(&self.held, index, kind) })?;
        entry(kind, || {
            bytes(self.limit.into(), |buf, size, count| unsafe {
                raw::tn_server_waiting_text(&self.held, index, buf, size, count)
            })
        })
    }

    /// Returns the first signal among the entries that wait.
    pub fn signal_waiting(&self) -> Result<Option<Entry>> {
        if let Some(signal) = self.taken.iter().find(|it| matches!(it, Entry::Int | Entry::Quit | Entry::Tstp)) {
            return Ok(Some(signal.clone()));
        }
        let kind = value(|kind| unsafe { raw::tn_server_signal_waiting(&self.held, kind) })?;
        entry(kind, || Ok(Vec::new()))
    }

    /// Writes zeros over the text that was taken last, as far as the library holds it.
    pub fn forget(&mut self) -> Result<()> {
        done(unsafe { raw::tn_server_forget(&mut self.held) })
    }

    /// Writes all of it to the screen, and spells the screen, the echo too.
    pub fn write(&mut self, mut bytes: &[u8]) -> Result<()> {
        loop {
            let count = self.say(bytes)?;
            bytes = &bytes[count..];
            if bytes.is_empty() {
                return Ok(());
            }
        }
    }

    /// Writes the first of these bytes to the screen, spells all that waits there, and returns how many were written.
    pub fn say(&mut self, bytes: &[u8]) -> Result<usize> {
        value(|count| unsafe { raw::tn_server_say(&mut self.held, bytes.as_ptr(), bytes.len(), count) })
    }

    /// Writes the first of these bytes to the screen, and spells none; returns how many found room.
    pub fn write_some(&mut self, bytes: &[u8]) -> Result<usize> {
        value(|count| unsafe { raw::tn_server_write(&mut self.held, bytes.as_ptr(), bytes.len(), count) })
    }

    /// Spells the first symbols of the screen, and returns how many.
    pub fn pull(&mut self, most: usize) -> Result<usize> {
        value(|count| unsafe { raw::tn_server_pull(&mut self.held, most, count) })
    }

    /// Requests that the client, or the server, edit lines, and returns whether a MODE waits to be sent for it.
    pub fn wish(&mut self, at_client: bool) -> Result<bool> {
        value(|sent| unsafe { raw::tn_server_wish(&mut self.held, at_client, sent) })
    }

    pub fn set_char(&mut self, function: u8, value: Option<u8>) -> Result<()> {
        done(unsafe { raw::tn_server_set_char(&mut self.held, function, number_of(value)) })
    }

    pub fn set_echo(&mut self, on: bool) -> Result<()> {
        done(unsafe { raw::tn_server_set_echo(&mut self.held, on) })
    }

    pub fn set_mask(&mut self, octets: &[u8]) -> Result<()> {
        done(unsafe { raw::tn_server_set_mask(&mut self.held, octets.as_ptr(), octets.len()) })
    }

    pub fn clear_mask(&mut self) -> Result<()> {
        done(unsafe { raw::tn_server_clear_mask(&mut self.held) })
    }

    /// Returns the sum of the `TN_CHANGED_` of all that differs from the last such call, or from the start.
    pub fn changes(&mut self) -> Result<u32> {
        value(|bits| unsafe { raw::tn_server_changes(&mut self.held, bits) })
    }

    /// Returns the window's width and height in characters; 0 is unspecified.
    pub fn size(&self) -> Result<(u16, u16)> {
        pair(|width, height| unsafe { raw::tn_server_size(&self.held, width, height) })
    }

    pub fn mode(&self) -> Result<u8> {
        value(|mode| unsafe { raw::tn_server_mode(&self.held, mode) })
    }

    pub fn asked(&self) -> Result<u8> {
        value(|mode| unsafe { raw::tn_server_asked(&self.held, mode) })
    }

    pub fn half(&self) -> Result<Vec<u8>> {
        bytes(self.limit.into(), |buf, size, count| unsafe { raw::tn_server_half(&self.held, buf, size, count) })
    }

    pub fn char(&self, function: u8) -> Result<Option<u8>> {
        let number: u16 = value(|it| unsafe { raw::tn_server_char(&self.held, function, it) })?;
        Ok(u8::try_from(number).ok())
    }

    pub fn option(&self, ours: bool, option: u8) -> Result<OptionState> {
        value(|state| unsafe { raw::tn_server_option(&self.held, ours, option, state) }).map(option_state)
    }

    pub fn failed(&self) -> Result<bool> {
        value(|failed| unsafe { raw::tn_server_failed(&self.held, failed) })
    }

    /// Owns an option, before anything is fed: the end no longer refuses it, and its items wait for `take_own`.
    pub fn own(&mut self, option: u8) -> Result<()> {
        done(unsafe { raw::tn_server_own(&mut self.held, option) })
    }

    fn take_held_own(&mut self) -> Result<Option<Item>> {
        let item = value(|item| unsafe { raw::tn_server_take_own(&mut self.held, item) })?;
        given(item, |buf, size, count| unsafe { raw::tn_server_own_parameters(&self.held, buf, size, count) })
    }

    /// Takes the first item of owned options, if one waits.
    pub fn take_own(&mut self) -> Result<Option<Item>> {
        match self.items.pop_front() {
            Some(item) => Ok(Some(item)),
            None => self.take_held_own(),
        }
    }

    /// Makes room for items of owned options, if that is why a feed was refused; any other refusal is returned.
    fn make_room(&mut self, refused: Refused) -> Result<()> {
        if refused != Refused(raw::TN_ITEMS_WAIT) {
            return Err(refused);
        }
        while let Some(item) = self.take_held_own()? {
            self.items.push_back(item);
        }
        Ok(())
    }

    /// Sends an option message of an owned option, whose word is 251 WILL to 254 DONT.
    pub fn say_own(&mut self, option: u8, word: u8) -> Result<()> {
        done(unsafe { raw::tn_server_say_own(&mut self.held, option, word) })
    }

    /// Sends a subnegotiation of an owned option, of at most 512 parameters.
    pub fn say_own_sub(&mut self, option: u8, parameters: &[u8]) -> Result<()> {
        done(unsafe { raw::tn_server_say_own_sub(&mut self.held, option, parameters.as_ptr(), parameters.len()) })
    }
}

impl Client {
    pub fn start(width: u16, height: u16, limit: u16) -> Result<Client> {
        let mut held = raw::tn_client { tn_private: std::ptr::null_mut() };
        done(unsafe { raw::tn_client_start(&mut held, width, height, limit) })?;
        Ok(Client { held, limit, items: VecDeque::new() })
    }

    pub fn key(&mut self, key: u8) -> Result<()> {
        done(unsafe { raw::tn_client_key(&mut self.held, key) })
    }

    /// Types the key LF, which goes to the server as CR LF.
    pub fn new_line(&mut self) -> Result<()> {
        done(unsafe { raw::tn_client_new_line(&mut self.held) })
    }

    /// Takes bytes that came from the server, cut anywhere: items of owned options beyond those that may wait are kept in this object.
    pub fn feed(&mut self, piece: &[u8]) -> Result<()> {
        while let Err(refused) = done(unsafe { raw::tn_client_feed(&mut self.held, piece.as_ptr(), piece.len()) }) {
            self.make_room(refused)?;
        }
        Ok(())
    }

    pub fn pending(&self) -> Result<usize> {
        value(|count| unsafe { raw::tn_client_pending(&self.held, count) })
    }

    /// Returns all bytes that wait to be sent.
    pub fn read(&mut self) -> Result<Vec<u8>> {
        bytes(self.pending()?, |buf, size, count| unsafe { raw::tn_client_read(&mut self.held, buf, size, count) })
    }

    pub fn screen_pending(&self) -> Result<usize> {
        value(|count| unsafe { raw::tn_client_screen_pending(&self.held, count) })
    }

    /// All that waits to be shown.
    pub fn screen(&mut self) -> Result<Vec<u8>> {
        bytes(self.screen_pending()?, |buf, size, count| unsafe { raw::tn_client_screen(&mut self.held, buf, size, count) })
    }

    pub fn resize(&mut self, width: u16, height: u16) -> Result<()> {
        done(unsafe { raw::tn_client_resize(&mut self.held, width, height) })
    }

    pub fn propose(&mut self, function: u8, value: Option<u8>) -> Result<()> {
        done(unsafe { raw::tn_client_propose(&mut self.held, function, number_of(value)) })
    }

    /// Sends a command, before what is held of a line, which stays as it is.
    pub fn send(&mut self, command: Command) -> Result<()> {
        done(unsafe { raw::tn_client_send(&mut self.held, command as raw::tn_command) })
    }

    pub fn mode(&self) -> Result<u8> {
        value(|mode| unsafe { raw::tn_client_mode(&self.held, mode) })
    }

    /// The bytes of the half line that are held at the client.
    pub fn half(&self) -> Result<Vec<u8>> {
        bytes(self.limit.into(), |buf, size, count| unsafe { raw::tn_client_half(&self.held, buf, size, count) })
    }

    /// How many bytes of the half line were sent before those.
    pub fn ahead(&self) -> Result<u16> {
        value(|count| unsafe { raw::tn_client_ahead(&self.held, count) })
    }

    /// How long a half line is that the server edits, with its ISIG set and with it clear.
    pub fn counts(&self) -> Result<(u16, u16)> {
        pair(|trapped, plain| unsafe { raw::tn_client_counts(&self.held, trapped, plain) })
    }

    pub fn char(&self, function: u8) -> Result<Option<u8>> {
        let number: u16 = value(|it| unsafe { raw::tn_client_char(&self.held, function, it) })?;
        Ok(u8::try_from(number).ok())
    }

    pub fn option(&self, ours: bool, option: u8) -> Result<OptionState> {
        value(|state| unsafe { raw::tn_client_option(&self.held, ours, option, state) }).map(option_state)
    }

    pub fn failed(&self) -> Result<bool> {
        value(|failed| unsafe { raw::tn_client_failed(&self.held, failed) })
    }

    /// Owns an option, before anything is fed: the end no longer refuses it, and its items wait for `take_own`.
    pub fn own(&mut self, option: u8) -> Result<()> {
        done(unsafe { raw::tn_client_own(&mut self.held, option) })
    }

    fn take_held_own(&mut self) -> Result<Option<Item>> {
        let item = value(|item| unsafe { raw::tn_client_take_own(&mut self.held, item) })?;
        given(item, |buf, size, count| unsafe { raw::tn_client_own_parameters(&self.held, buf, size, count) })
    }

    /// Takes the first item of owned options, if one waits.
    pub fn take_own(&mut self) -> Result<Option<Item>> {
        match self.items.pop_front() {
            Some(item) => Ok(Some(item)),
            None => self.take_held_own(),
        }
    }

    /// Makes room for items of owned options, if that is why a feed was refused; any other refusal is returned.
    fn make_room(&mut self, refused: Refused) -> Result<()> {
        if refused != Refused(raw::TN_ITEMS_WAIT) {
            return Err(refused);
        }
        while let Some(item) = self.take_held_own()? {
            self.items.push_back(item);
        }
        Ok(())
    }

    /// Sends an option message of an owned option, whose word is 251 WILL to 254 DONT.
    pub fn say_own(&mut self, option: u8, word: u8) -> Result<()> {
        done(unsafe { raw::tn_client_say_own(&mut self.held, option, word) })
    }

    /// Sends a subnegotiation of an owned option, of at most 512 parameters.
    pub fn say_own_sub(&mut self, option: u8, parameters: &[u8]) -> Result<()> {
        done(unsafe { raw::tn_client_say_own_sub(&mut self.held, option, parameters.as_ptr(), parameters.len()) })
    }
}

#[cfg(test)]
mod tests;

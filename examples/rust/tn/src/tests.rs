use super::*;

fn deliver(server: &mut Server, client: &mut Client) -> Result<()> {
    for _ in 0..4 {
        server.write(&[])?;
        client.feed(&server.read()?)?;
        server.feed(&client.read()?)?;
    }
    Ok(())
}

fn text(bytes: &[u8]) -> Option<Entry> {
    Some(Entry::Text(bytes.to_vec()))
}

#[test]
fn a_line_is_edited_at_the_client() -> Result<()> {
    let (mut server, mut client) = (Server::start(&STANDARD_FLAGS, 255)?, Client::start(80, 24, 255)?);
    server.wish(true)?;
    deliver(&mut server, &mut client)?;
    let mut client = std::thread::spawn(move || -> Result<Client> {
        for &key in b"helo\x7flo\r" {
            client.key(key)?;
        }
        Ok(client)
    })
    .join()
    .unwrap()?;
    assert_eq!(client.screen_pending()?, 11);
    assert_eq!(client.screen()?, b"helo\x08 \x08lo\r\n");
    server.feed(&client.read()?)?;
    assert_eq!(server.take()?, text(b"hello\n"));
    assert_eq!(server.take()?, None);
    client.new_line()?;
    client.send(Command::Ip)?;
    server.feed(&client.read()?)?;
    assert_eq!((server.take()?, server.take()?), (text(b"\n"), Some(Entry::Int)));
    assert_eq!(Server::start(&STANDARD_FLAGS, 1).err(), Some(Refused(raw::TN_NO_LIMIT)));
    assert_eq!(Refused(raw::TN_MEMORY).to_string(), "out of memory (code 1)");
    assert_eq!(version(), 10200);
    Ok(())
}

#[test]
fn both_ends_tell_of_themselves() -> Result<()> {
    let (mut server, mut client) = (Server::start(&STANDARD_FLAGS, 255)?, Client::start(80, 24, 255)?);
    server.wish(true)?;
    deliver(&mut server, &mut client)?;
    let edits = TN_MODE_EDIT | TN_MODE_TRAPSIG;
    assert_eq!((server.mode()?, server.asked()?, client.mode()?), (edits, edits, edits));
    assert_eq!((server.option(false, 34)?, client.option(true, 34)?), (OptionState::Yes, OptionState::Yes));
    assert_eq!((server.size()?, server.half()?, client.half()?), ((80, 24), vec![], vec![]));
    assert_eq!((client.ahead()?, client.counts()?), (0, (0, 0)));
    assert_eq!((server.changes()?, server.changes()?), (TN_CHANGED_SIZE | TN_CHANGED_MODE | TN_CHANGED_OPTION, 0));
    server.set_mask(&[1])?;
    server.clear_mask()?;
    server.set_echo(false)?;
    server.set_char(TN_CHAR_EOL, Some(7))?;
    client.resize(90, 30)?;
    client.propose(TN_CHAR_KILL, Some(24))?;
    deliver(&mut server, &mut client)?;
    assert_eq!((server.size()?, server.char(TN_CHAR_KILL)?, client.char(TN_CHAR_EOL)?), ((90, 30), Some(24), Some(7)));
    assert_eq!((server.failed()?, client.failed()?, client.pending()?), (false, false, 0));
    assert_eq!(server.changes()?, TN_CHANGED_SIZE | TN_CHANGED_OPTION | TN_CHANGED_CHAR);
    client.send(Command::Brk)?;
    deliver(&mut server, &mut client)?;
    assert_eq!((server.changes()?, server.take()?), (TN_CHANGED_BREAK, Some(Entry::Int)));
    Ok(())
}

#[test]
fn a_server_opens_for_lines() -> Result<()> {
    let mut server = Server::start_lines(&STANDARD_FLAGS, 255)?;
    server.feed(b"ls\r\n")?;
    assert_eq!(server.peek()?, b"\xff\xfd\x22\xff\xfd\x1f");
    assert_eq!(server.take()?, text(b"ls\n"));
    Ok(())
}

#[test]
fn a_flood_is_taken_whole() -> Result<()> {
    let mut server = Server::start(&STANDARD_FLAGS, 255)?;
    server.feed(&[b"\n".repeat(5000), b"\x03x\r\0".to_vec()].concat())?;
    assert_eq!((server.waiting(0)?, server.waiting(5001)?, server.waiting(5002)?), (text(b"\n"), text(b"x\n"), None));
    assert_eq!(server.signal_waiting()?, Some(Entry::Int));
    for _ in 0..5000 {
        assert_eq!(server.take()?, text(b"\n"));
    }
    assert_eq!((server.take()?, server.take()?, server.take()?), (Some(Entry::Int), text(b"x\n"), None));
    server.forget()?;
    assert_eq!((server.write_some(b"ab\n")?, server.pull(4096)?), (3, 3));
    assert!(server.peek()?.ends_with(b"ab\r\n"));
    server.sent(server.pending()? - 2)?;
    assert_eq!(server.peek()?, b"\r\n");
    assert_eq!((server.say(b"cd")?, server.read()?), (2, b"\r\ncd".to_vec()));
    assert!(server.peek()?.is_empty());
    assert_eq!(server.feed_at_once(&b"\n".repeat(1025)), Err(Refused(raw::TN_TOO_FAR_AHEAD)));
    assert_eq!(server.feed(b"a"), Err(Refused(raw::TN_FAILED)));
    Ok(())
}

#[test]
fn a_line_and_a_decoder() -> Result<()> {
    let mut line = Line::start(&STANDARD_FLAGS, 255)?;
    assert_eq!((line.key(b'a')?, line.half()?, line.echo()?), (Effect::Kept, b"a".to_vec(), b"a".to_vec()));
    assert_eq!((line.key(13)?, line.key(4)?), (Effect::Gives(Entry::Text(b"a\n".to_vec())), Effect::Gives(Entry::Eof)));
    line.set_flags(&Flags { isig: false, ..STANDARD_FLAGS })?;
    line.set_char(TN_CHAR_EOL, Some(7))?;
    assert_eq!((line.key(3)?, line.char(TN_CHAR_EOL)?, line.char(TN_CHAR_EOL2)?), (Effect::Kept, Some(7), None));
    let items = [Item::Byte(255), Item::Newline, Item::Command(244), Item::Word(251, 34), Item::Sub(31, b"\0\x50\xff".to_vec())];
    let mut decoder = Decoder::start()?;
    for item in &items {
        decoder.feed(&spelled(item)?)?;
    }
    for item in items {
        assert_eq!(decoder.take()?, Some(item));
    }
    assert_eq!(decoder.take()?, None);
    decoder.feed(b"text\r\n")?;
    assert_eq!((decoder.take_run(3)?, decoder.take_run(3)?, decoder.take_run(3)?), (b"tex".to_vec(), b"t".to_vec(), vec![]));
    assert_eq!(decoder.take()?, Some(Item::Newline));
    Ok(())
}

#[test]
fn options_of_ones_own_wait() -> Result<()> {
    let (mut server, mut client) = (Server::start(&STANDARD_FLAGS, 255)?, Client::start(80, 24, 255)?);
    server.own(201)?;
    client.own(201)?;
    assert_eq!((server.own(34), client.say_own(70, 253)), (Err(Refused(raw::TN_RESERVED)), Err(Refused(raw::TN_NOT_OWNED))));
    deliver(&mut server, &mut client)?;
    assert_eq!((client.own(70), server.take_own()?), (Err(Refused(raw::TN_TOO_LATE)), None));
    client.say_own(201, 253)?;
    client.say_own_sub(201, b"Core.Hello \xff")?;
    server.feed(&client.read()?)?;
    assert_eq!((server.take_own()?, server.take_own()?), (Some(Item::Word(253, 201)), Some(Item::Sub(201, b"Core.Hello \xff".to_vec()))));
    server.say_own(201, 251)?;
    server.say_own_sub(201, b"x")?;
    client.feed(&server.read()?)?;
    assert_eq!((client.take_own()?, client.take_own()?), (Some(Item::Word(251, 201)), Some(Item::Sub(201, b"x".to_vec()))));
    server.feed(&[255, 253, 201].repeat(300))?;
    for _ in 0..65 {
        client.feed(&[255, 251, 201])?;
    }
    for _ in 0..300 {
        assert_eq!(server.take_own()?, Some(Item::Word(253, 201)));
    }
    for _ in 0..65 {
        assert_eq!(client.take_own()?, Some(Item::Word(251, 201)));
    }
    assert_eq!((server.take_own()?, client.take_own()?), (None, None));
    Ok(())
}

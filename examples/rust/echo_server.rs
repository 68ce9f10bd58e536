//! echo_server [PORT [remote]]: answers each line of each client in capitals, over the crate `tn`, a wrapper of `libtn`.
//! Lines are edited at the client if it can do that, and at the server if the second argument is given.
//!
//!     cd examples/rust && TN_LIB_DIR=$PWD/../../out cargo run -- 2323

use std::io::{Read, Write};
use std::net::{Shutdown, TcpListener, TcpStream};
use tn::{Entry, Refused, Server, STANDARD_FLAGS};

/// Runs the job over the entries that have come. Returns whether it has ended.
fn run_job(server: &mut Server) -> Result<bool, Refused> {
    server.write(&[])?; // the echo
    while let Some(entry) = server.take()? {
        match entry {
            Entry::Text(text) => server.write(&text.to_ascii_uppercase())?,
            Entry::Eof => return Ok(true),
            _ => server.write(b"^\n")?,
        }
    }
    Ok(false)
}

fn serve(stream: &mut TcpStream, is_local: bool) -> Result<(), Refused> {
    let mut server = Server::start(&STANDARD_FLAGS, 255)?;
    server.wish(is_local)?;
    let _ = stream.set_nodelay(true); // else an agreement waits 40 ms for the one before it
    let mut piece = [0; 4096];
    let mut fed = Ok(());
    loop {
        let has_ended = run_job(&mut server);
        // The bytes that wait are sent even if a feed was refused.
        let is_sent = stream.write_all(&server.read()?).is_ok();
        fed?;
        if has_ended? || !is_sent {
            return Ok(());
        }
        fed = match stream.read(&mut piece) {
            Ok(n) if n > 0 => server.feed(&piece[..n]),
            _ => return Ok(()),
        };
    }
}

fn main() -> std::io::Result<()> {
    let port = std::env::args().nth(1).and_then(|word| word.parse().ok()).unwrap_or(2323);
    let listener = TcpListener::bind(("127.0.0.1", port))?;
    let is_local = std::env::args().nth(2).is_none();
    println!("port {}", listener.local_addr()?.port());
    for stream in listener.incoming() {
        let Ok(mut stream) = stream else { continue }; // a client that had gone before
        std::thread::spawn(move || {
            if let Err(refused) = serve(&mut stream, is_local) {
                eprintln!("echo_server: refused: {}", refused.0);
            }
            // What still comes is dropped: to close at once could cost the client what is on its way.
            let _ = stream.shutdown(Shutdown::Write);
            while stream.read(&mut [0; 512]).is_ok_and(|n| n > 0) {}
        });
    }
    Ok(())
}

//! Asks `storklocker serve` about the bytes on standard input: client http://ADDRESS:PORT/check
//!
//! Status 0 is a yes, 1 a no. Whatever else happens ends with 2: without a verdict nothing is
//! loaded. It uses the standard library alone; a service would take the HTTP client that it has.

use std::io::{Error, ErrorKind, Read, Result, Write};
use std::net::TcpStream;
use std::process::ExitCode;
use std::thread::sleep;
use std::time::Duration;

const TRIES: u32 = 4;
const SECONDS: u64 = 35;

fn fault(why: &str) -> Error {
    Error::new(ErrorKind::Other, why)
}

/// The status and the body of an answer.
fn asked(url: &str, data: &[u8]) -> Result<(u16, String)> {
    let rest = url.strip_prefix("http://").ok_or_else(|| fault("give an http:// URL"))?;
    let (host, path) = rest.split_once('/').unwrap_or((rest, ""));
    let mut stream = TcpStream::connect(host)?;
    stream.set_read_timeout(Some(Duration::from_secs(SECONDS)))?;
    stream.set_write_timeout(Some(Duration::from_secs(SECONDS)))?;
    let token = std::env::var("STORKLOCKER_TOKEN")
        .map(|it| format!("Authorization: Bearer {it}\r\n"))
        .unwrap_or_default();
    write!(
        stream,
        "POST /{path} HTTP/1.1\r\nHost: {host}\r\nConnection: close\r\n{token}Content-Length: {}\r\n\r\n",
        data.len()
    )?;
    let sent = stream.write_all(data); // a refusal may end it
    let mut answer = Vec::new();
    stream.read_to_end(&mut answer)?;
    let text = String::from_utf8(answer).map_err(|_| fault("an answer that isn't text"))?;
    let (head, body) = match text.split_once("\r\n\r\n") {
        Some(both) => both,
        None => return sent.and(Err(fault("an answer that was cut"))),
    };
    let length = head.lines().find_map(|it| it.strip_prefix("Content-Length: "));
    if length.and_then(|it| it.parse().ok()) != Some(body.len()) {
        return Err(fault("an answer that was cut"));
    }
    let status = head.split(' ').nth(1).and_then(|it| it.parse().ok());
    Ok((status.ok_or_else(|| fault("an answer without a status"))?, body.to_string()))
}

/// Whether the daemon says yes; an error where it gives no verdict.
fn accepted(url: &str, data: &[u8]) -> Result<bool> {
    let mut why = fault("no try");
    for number in 0..TRIES {
        match asked(url, data) {
            Ok((200, body)) if body.starts_with("{\"accepted\": true,") => return Ok(true),
            Ok((422, body)) if body.starts_with("{\"accepted\": false,") => return Ok(false),
            Ok((503, _)) => why = fault("status 503"),
            Ok((status, _)) => return Err(fault(&format!("status {status}"))),
            Err(error) => why = error,
        }
        sleep(Duration::from_millis(100 << number));
    }
    Err(why)
}

fn main() -> ExitCode {
    let mut data = Vec::new();
    let url = std::env::args().nth(1).unwrap_or_default();
    match std::io::stdin().read_to_end(&mut data).and_then(|_| accepted(&url, &data)) {
        Ok(true) => {
            println!("yes");
            ExitCode::SUCCESS
        }
        Ok(false) => {
            println!("no");
            ExitCode::from(1)
        }
        Err(error) => {
            println!("no verdict: {error}");
            ExitCode::from(2)
        }
    }
}

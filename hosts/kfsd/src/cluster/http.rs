//! As much of HTTP as etcd's gateway takes: texts are posted, and answered whole. Connections are kept open for the next question.

use super::tls::{Connector, Stream};
use std::io::{self, ErrorKind};
use std::sync::{Mutex, PoisonError};
use tokio::io::{AsyncBufRead, AsyncBufReadExt, AsyncReadExt, AsyncWriteExt, BufReader};
use tokio::net::TcpStream;

/// The most bytes of a line of a head, of all its lines, and of an answer.
const LINE: u64 = 8192;
const LINES: usize = 100;
const MOST: usize = 1 << 28;

/// What an address begins with where a server is asked with TLS.
pub const HTTPS: &str = "https://";

/// A server at a host and a port.
pub struct Http {
    address: String,
    connector: Connector,
    /// The name that its certificate has.
    name: String,
    /// Connections that nobody uses now.
    idle: Mutex<Vec<BufReader<Stream>>>,
}

impl std::fmt::Debug for Http {
    fn fmt(&self, to: &mut std::fmt::Formatter<'_>) -> std::fmt::Result {
        write!(to, "{} {:?}", self.address, self.connector)
    }
}

impl Http {
    /// The server at this address. Its certificate has this name, or its host where there is none.
    pub fn new(address: &str, connector: &Connector, name: Option<&str>) -> Http {
        let address = address.strip_prefix(HTTPS).unwrap_or(address).to_string();
        let host = address.rsplit_once(':').map_or(&address[..], |(host, _)| host);
        Http { name: name.unwrap_or(host).to_string(), address, connector: connector.clone(), idle: Mutex::default() }
    }

    /// Where it is.
    pub fn address(&self) -> &str {
        &self.address
    }

    /// Posts a text, with a token where there is one. Answers the status, and what stands behind the head. Dropped before that,
    /// the connection is closed.
    pub async fn post(&self, path: &str, text: &str, token: Option<&str>) -> io::Result<(u16, Vec<u8>)> {
        let kept = self.idle.lock().unwrap_or_else(PoisonError::into_inner).pop();
        let mut stream = match kept {
            Some(stream) => stream,
            None => {
                let stream = TcpStream::connect(&self.address).await?;
                stream.set_nodelay(true)?;
                BufReader::new(self.connector.connect(stream, &self.name).await?)
            }
        };
        let token = token.map_or_else(String::new, |token| format!("Authorization: {token}\r\n"));
        let head = format!(
            "POST {path} HTTP/1.1\r\nHost: {}\r\nContent-Type: application/json\r\n{token}Content-Length: {}\r\n\r\n",
            self.address,
            text.len()
        );
        stream.get_mut().write_all((head + text).as_bytes()).await?;
        stream.get_mut().flush().await?;
        let answer = read_answer(&mut stream).await;
        let mut idle = self.idle.lock().unwrap_or_else(PoisonError::into_inner);
        match &answer {
            Ok(_) => idle.push(stream),
            // The server has ended or is at fault, and so has closed the others.
            Err(_) => idle.clear(),
        }
        answer
    }
}

fn wrong(what: &'static str) -> io::Error {
    io::Error::new(ErrorKind::InvalidData, what)
}

/// A line without its end.
async fn line(from: &mut (impl AsyncBufRead + Unpin)) -> io::Result<String> {
    let mut text = String::new();
    from.take(LINE).read_line(&mut text).await?;
    text.strip_suffix("\r\n").map(str::to_string).ok_or_else(|| wrong("a line of an answer is cut short"))
}

/// The lines up to an empty one.
async fn lines(from: &mut (impl AsyncBufRead + Unpin)) -> io::Result<Vec<String>> {
    let mut found = Vec::new();
    while found.len() < LINES {
        match line(from).await? {
            empty if empty.is_empty() => return Ok(found),
            other => found.push(other),
        }
    }
    Err(wrong("the head of an answer is too long"))
}

async fn read_answer(from: &mut (impl AsyncBufRead + Unpin)) -> io::Result<(u16, Vec<u8>)> {
    let head = lines(from).await?;
    let status = head.first().and_then(|line| line.strip_prefix("HTTP/1.1 ")?.get(..3)?.parse().ok());
    let status = status.ok_or_else(|| wrong("no answer of HTTP"))?;
    let value = |name: &str| {
        let mut pairs = head.iter().filter_map(|line| line.split_once(": "));
        pairs.find(|(found, _)| found.eq_ignore_ascii_case(name)).map(|(_, value)| value)
    };
    let mut bytes = Vec::new();
    if value("Transfer-Encoding") == Some("chunked") {
        while take_chunk(from, &mut bytes).await? {}
        lines(from).await?;
    } else {
        let length = value("Content-Length").and_then(|text| text.parse().ok());
        add(from, &mut bytes, length.ok_or_else(|| wrong("an answer without a length"))?).await?;
    }
    Ok((status, bytes))
}

/// Takes a part of an answer. False where it is the last one, which is empty.
async fn take_chunk(from: &mut (impl AsyncBufRead + Unpin), bytes: &mut Vec<u8>) -> io::Result<bool> {
    let length = usize::from_str_radix(&line(from).await?, 16).map_err(|_| wrong("a part without a length"))?;
    if length == 0 {
        return Ok(false);
    }
    add(from, bytes, length).await?;
    match line(from).await?.is_empty() {
        true => Ok(true),
        false => Err(wrong("a part is longer than it says")),
    }
}

async fn add(from: &mut (impl AsyncBufRead + Unpin), bytes: &mut Vec<u8>, length: usize) -> io::Result<()> {
    let start = bytes.len();
    if length > MOST - start {
        return Err(wrong("an answer is too long"));
    }
    bytes.resize(start + length, 0);
    from.read_exact(&mut bytes[start..]).await.map(drop)
}

#[cfg(test)]
mod tests {
    use super::*;

    async fn read(mut text: &[u8]) -> io::Result<(u16, Vec<u8>)> {
        read_answer(&mut text).await
    }

    #[tokio::test]
    async fn answers_are_read_in_parts_and_whole() {
        let parts = b"HTTP/1.1 404 Not Found\r\nTransfer-Encoding: chunked\r\n\r\n3\r\nabc\r\nA\r\n0123456789\r\n0\r\nTrailer: x\r\n\r\nrest";
        assert_eq!(read(parts).await.unwrap(), (404, b"abc0123456789".to_vec()));
        let whole = b"HTTP/1.1 200 OK\r\ncontent-length: 2\r\n\r\n{}rest";
        assert_eq!(read(whole).await.unwrap(), (200, b"{}".to_vec()));
    }

    #[tokio::test]
    async fn what_is_cut_or_wrong_is_no_answer() {
        let parts = b"HTTP/1.1 200 OK\r\nTransfer-Encoding: chunked\r\n\r\n3\r\nabc\r\n0\r\n\r\n";
        for end in 0..parts.len() {
            assert!(read(&parts[..end]).await.is_err(), "{end}");
        }
        for text in ["HTTP/1.1 200 OK\r\n\r\n", "HTTP/1.1 200 OK\r\nContent-Length: 300000000\r\n\r\n", "FTP\r\n\r\n"] {
            assert!(read(text.as_bytes()).await.is_err(), "{text}");
        }
        let wrong = b"HTTP/1.1 200 OK\r\nTransfer-Encoding: chunked\r\n\r\n3\r\nabcd\r\n0\r\n\r\n";
        assert!(read(wrong).await.is_err());
    }
}

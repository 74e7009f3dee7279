//! HTTP/1.1 for `plain_index.rs`: connections to 127.0.0.1, one after another and on one thread, each kept open until
//! its client closes it.
use std::io::{self, BufRead, BufReader, Write};
use std::net::{TcpListener, TcpStream};

/// What was asked: its method, the path and the query of its target, its key and its body.
#[derive(Default)]
pub struct Request {
    pub method: String,
    pub path: String,
    query: String,
    pub key: String,
    pub body: String,
}

/// The status and the body of a reply.
pub type Reply = (&'static str, String);

impl Request {
    /// The value of a parameter; empty if it is missing.
    pub fn parameter(&self, name: &str) -> String {
        let mut found = self.query.split('&').filter_map(|pair| pair.split_once('='));
        found.find(|(it, _)| *it == name).map_or(String::new(), |(_, value)| decoded(value))
    }
}

/// A text as a web form means it.
fn decoded(text: &str) -> String {
    let mut bytes = Vec::with_capacity(text.len());
    let mut rest = text.bytes();
    while let Some(byte) = rest.next() {
        bytes.push(match byte {
            b'+' => b' ',
            b'%' => {
                let digits: String = rest.by_ref().take(2).map(char::from).collect();
                u8::from_str_radix(&digits, 16).unwrap_or(byte)
            }
            byte => byte,
        });
    }
    String::from_utf8_lossy(&bytes).into_owned()
}

fn refused() -> io::Error {
    io::Error::other("this is no request")
}

/// The next request of a connection; none if its client has closed it.
fn read(reader: &mut impl BufRead) -> io::Result<Option<Request>> {
    let mut line = String::new();
    if reader.read_line(&mut line)? == 0 {
        return Ok(None);
    }
    let mut words = line.split_whitespace();
    let (Some(method), Some(target), Some("HTTP/1.1")) = (words.next(), words.next(), words.next()) else {
        return Err(refused());
    };
    let (path, query) = target.split_once('?').unwrap_or((target, ""));
    let (method, path, query) = (method.to_string(), path.to_string(), query.to_string());
    let mut request = Request { method, path, query, ..Request::default() };
    let mut length = 0;
    loop {
        line.clear();
        reader.read_line(&mut line)?;
        if line.trim_end().is_empty() {
            break;
        }
        let (name, value) = line.split_once(':').ok_or_else(refused)?;
        match name.to_ascii_lowercase().as_str() {
            "content-length" => length = value.trim().parse().map_err(|_| refused())?,
            "x-ports-key" => request.key = value.trim().to_string(),
            _ => {}
        }
    }
    let mut body = vec![0; length];
    reader.read_exact(&mut body)?;
    request.body = String::from_utf8(body).map_err(|_| refused())?;
    Ok(Some(request))
}

/// Answers what comes on a connection.
fn answer_all(mut stream: &TcpStream, answer: &mut impl FnMut(&mut Request) -> Reply) -> io::Result<()> {
    let mut reader = BufReader::new(stream);
    while let Some(mut request) = read(&mut reader)? {
        let (status, body) = answer(&mut request);
        let fields = format!("Content-Type: application/json\r\nContent-Length: {}", body.len());
        stream.write_all(format!("HTTP/1.1 {status}\r\n{fields}\r\n\r\n{body}").as_bytes())?;
    }
    Ok(())
}

/// Listens on a port, and answers each request with the status and the body that it is given for it.
pub fn serve(port: u16, mut answer: impl FnMut(&mut Request) -> Reply) -> io::Result<()> {
    let listener = TcpListener::bind(("127.0.0.1", port))?;
    println!("plain_index: ready");
    for stream in listener.incoming() {
        let stream = stream?;
        stream.set_nodelay(true)?;
        if let Err(error) = answer_all(&stream, &mut answer) {
            eprintln!("plain_index: {error}");
        }
    }
    Ok(())
}

//! A server by four threads, one request a connection.

use crate::service::{text, Service};
use std::io::{Read, Write};
use std::net::{TcpListener, TcpStream};
use std::thread;

/// Reads a request, and sends the reply with this text.
fn reply(mut stream: TcpStream, text: &str) -> std::io::Result<()> {
    let mut reply = format!(
        "HTTP/1.1 200 OK\r\nContent-Type: text/plain; version=0.0.4; charset=utf-8\r\nContent-Length: {}\r\nConnection: close\r\n\r\n",
        text.len()
    );
    reply.push_str(text);
    stream.write_all(reply.as_bytes())
}

/// Serves a service until the program is killed: each request's scrape, or a text that was made before.
pub fn serve(port: u16, service: Service, is_bare: bool) {
    let registry = &service.registry();
    let made = &text(registry);
    let listener = &TcpListener::bind(("127.0.0.1", port)).expect("a port that is free");
    println!("listening {}", listener.local_addr().expect("an address").port());
    thread::scope(|scope| {
        for _thread in 0..4 {
            scope.spawn(move || {
                let mut request = [0; 8_192];
                while let Ok((mut stream, _)) = listener.accept() {
                    if stream.read(&mut request).unwrap_or(0) == 0 {
                        continue;
                    }
                    let _ = match is_bare {
                        true => reply(stream, made),
                        false => reply(stream, &text(registry)),
                    };
                }
            });
        }
    });
}

//! Scrapes over TCP.

mod shared;

use dirgwako::*;
use shared::{both, counter};
use std::io::{Read, Write};
use std::net::{SocketAddr, TcpStream};
use std::thread;
use std::time::{Duration, Instant};

fn ask(addr: SocketAddr, request: &str) -> String {
    let mut client = TcpStream::connect(addr).unwrap();
    client.write_all(request.as_bytes()).unwrap();
    let mut reply = String::new();
    client.read_to_string(&mut reply).unwrap();
    reply
}

const SCRAPE: &str = "GET /metrics HTTP/1.1\r\nHost: shop\r\n\r\n";

/// Each request gets its reply, of the length that it says, and scrapes show what was counted
/// before.
#[test]
fn replies() {
    for (way, registry) in both() {
        let hits = counter(&registry, "hits_total");
        let server = registry.serve("127.0.0.1:0", 2).unwrap();
        hits.inc_by(3);
        let reply = ask(server.addr(), SCRAPE);
        let (head, body) = reply.split_once("\r\n\r\n").unwrap();
        assert!(head.starts_with("HTTP/1.1 200 OK\r\n"), "{way}: {head}");
        assert!(head.contains(&format!("Content-Length: {}\r\n", body.len())), "{way}: {head}");
        assert_eq!(body, registry.gather_text().unwrap(), "{way}");
        assert!(body.ends_with("\nhits_total 3\n"), "{way}: {body}");
        let status = |request: &str| ask(server.addr(), request)[9..12].to_string();
        assert_eq!(status("GET /x HTTP/1.1\r\nHost: shop\r\n\r\n"), "404", "{way}");
        assert_eq!(
            status("POST /metrics HTTP/1.1\r\nHost: shop\r\nContent-Length: 4\r\n\r\nbody"),
            "405",
            "{way}"
        );
        assert_eq!(status("GET /metrics HTTP/1.1\r\n\r\n"), "400", "{way}");
        assert_eq!(
            status(&format!("GET /metrics HTTP/1.1\r\nHost: {}\r\n\r\n", "h".repeat(9000))),
            "431",
            "{way}"
        );
        let head_only = ask(server.addr(), "HEAD /metrics HTTP/1.1\r\nHost: shop\r\n\r\n");
        assert!(head_only.starts_with("HTTP/1.1 200") && head_only.ends_with("\r\n\r\n"), "{way}");
        assert!(registry.reply(b"").is_empty(), "{way}");
    }
}

/// Clients at once, while threads count: each scrape is whole, and totals do not fall from one to
/// the next.
#[test]
fn many_clients() {
    for (way, registry) in both() {
        let hits = counter(&registry, "hits_total");
        let server = registry.serve("127.0.0.1:0", 3).unwrap();
        thread::scope(|scope| {
            for _ in 0..4 {
                scope.spawn(|| {
                    let mut last = 0;
                    for _ in 0..100 {
                        hits.inc();
                        let reply = ask(server.addr(), SCRAPE);
                        let told = shared::number(&reply, "hits_total");
                        assert!(told > last, "{way}: {reply}");
                        last = told;
                    }
                });
            }
        });
        assert_eq!(hits.get(), 400, "{way}");
    }
}

/// A client that says nothing, and one that drips bytes, hold one thread each, for five seconds at
/// most; others get their scrapes meanwhile.
#[test]
fn slow_clients() {
    let registry = Registry::new();
    counter(&registry, "hits_total");
    let server = registry.serve("127.0.0.1:0", 3).unwrap();
    let start = Instant::now();
    let mut silent = TcpStream::connect(server.addr()).unwrap();
    let mut dripping = TcpStream::connect(server.addr()).unwrap();
    let drip = thread::spawn(move || {
        while start.elapsed() < Duration::from_secs(8) && dripping.write_all(b"G").is_ok() {
            thread::sleep(Duration::from_millis(300));
        }
        start.elapsed()
    });
    for _ in 0..10 {
        assert!(ask(server.addr(), SCRAPE).contains("\nhits_total 0\n"));
    }
    assert!(start.elapsed() < Duration::from_secs(3));
    silent.set_read_timeout(Some(Duration::from_secs(8))).unwrap();
    assert_eq!(silent.read(&mut [0]).unwrap_or(0), 0);
    let ended = (start.elapsed(), drip.join().unwrap());
    for end in [ended.0, ended.1] {
        assert!(end > Duration::from_secs(4) && end < Duration::from_secs(7), "{ended:?}");
    }
}

/// A server ends when it is dropped, also where a client holds it up, and its port is free again.
#[test]
fn it_ends() {
    let registry = Registry::new();
    let server = registry.serve("127.0.0.1:0", 2).unwrap();
    let addr = server.addr();
    let _silent = TcpStream::connect(addr).unwrap();
    thread::sleep(Duration::from_millis(50));
    let start = Instant::now();
    drop(server);
    assert!(start.elapsed() < Duration::from_secs(2), "{:?}", start.elapsed());
    assert!(TcpStream::connect(addr).is_err());
    let again = registry.serve("0.0.0.0:0", 1).unwrap();
    let port = again.addr().port();
    assert!(ask(([127, 0, 0, 1], port).into(), SCRAPE).starts_with("HTTP/1.1 200"));
}

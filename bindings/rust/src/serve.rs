//! A server of scrapes, by the standard library's sockets.

use crate::pool::lock;
use crate::registry::Registry;
use std::io::{self, Read, Write};
use std::net::{Shutdown, SocketAddr, TcpListener, TcpStream, ToSocketAddrs};
use std::sync::atomic::{AtomicBool, Ordering::SeqCst};
use std::sync::{Arc, Mutex};
use std::thread::{Builder, JoinHandle};
use std::time::{Duration, Instant};

/// What a connection may take in all, from when it is accepted.
const PATIENCE: Duration = Duration::from_secs(5);
/// How long a server waits for a client to close, who has its reply.
const FAREWELL: Duration = Duration::from_millis(200);
/// The bytes of a request's head; the library answers 431 to more.
const HEAD: usize = 8192;

/// A thread that answers, and the connection that it has.
struct Worker {
    thread: JoinHandle<()>,
    busy: Arc<Mutex<Option<TcpStream>>>,
}

/// Answers scrapes until it is dropped: [`Registry::serve`].
pub struct Server {
    addr: SocketAddr,
    stop: Arc<AtomicBool>,
    workers: Vec<Worker>,
}

impl std::fmt::Debug for Server {
    fn fmt(&self, f: &mut std::fmt::Formatter<'_>) -> std::fmt::Result {
        f.debug_struct("Server").field("addr", &self.addr).finish_non_exhaustive()
    }
}

impl Registry {
    /// Answers scrapes at this address by so many threads (at least one), a connection for each
    /// request, until the server is dropped. A client that is slow holds one thread up, for five
    /// seconds at most.
    ///
    /// ```
    /// use std::io::{Read, Write};
    /// let registry = dirgwako::Registry::new();
    /// let server = registry.serve("127.0.0.1:0", 2).unwrap();
    /// let mut client = std::net::TcpStream::connect(server.addr()).unwrap();
    /// client.write_all(b"GET /metrics HTTP/1.1\r\nHost: shop\r\n\r\n").unwrap();
    /// let mut reply = String::new();
    /// client.read_to_string(&mut reply).unwrap();
    /// assert!(reply.starts_with("HTTP/1.1 200 OK\r\n"));
    /// ```
    ///
    /// # Errors
    ///
    /// The system has no such address, or no thread.
    pub fn serve<A: ToSocketAddrs>(&self, addr: A, threads: usize) -> io::Result<Server> {
        let listener = Arc::new(TcpListener::bind(addr)?);
        let mut server = Server {
            addr: listener.local_addr()?,
            stop: Arc::new(AtomicBool::new(false)),
            workers: Vec::new(),
        };
        for _ in 0..threads.max(1) {
            let (registry, listener, stop) = (self.clone(), listener.clone(), server.stop.clone());
            let busy = Arc::new(Mutex::new(None));
            let own = busy.clone();
            let work = move || answer_all(&registry, &listener, &stop, &own);
            let thread = Builder::new().name("dirgwako".into()).spawn(work)?;
            server.workers.push(Worker { thread, busy });
        }
        Ok(server)
    }
}

impl Server {
    /// Where it listens, with the port that the system chose for 0.
    pub fn addr(&self) -> SocketAddr {
        self.addr
    }

    /// Serves until the process ends.
    pub fn join(mut self) {
        for worker in std::mem::take(&mut self.workers) {
            let _ = worker.thread.join();
        }
    }
}

impl Drop for Server {
    fn drop(&mut self) {
        self.stop.store(true, SeqCst);
        // Who waits for a connection gets one, and who has one loses it.
        let were_woken = self
            .workers
            .iter()
            .all(|_| TcpStream::connect_timeout(&reachable(self.addr), PATIENCE).is_ok());
        for worker in std::mem::take(&mut self.workers) {
            if let Some(stream) = &*lock(&worker.busy) {
                let _ = stream.shutdown(Shutdown::Both);
            }
            // A thread that nobody can wake ends at its next connection.
            if were_woken {
                let _ = worker.thread.join();
            }
        }
    }
}

/// An address that listens on all interfaces is asked on this host.
fn reachable(mut addr: SocketAddr) -> SocketAddr {
    if addr.ip().is_unspecified() {
        let host = if addr.is_ipv4() {
            [127, 0, 0, 1].into()
        } else {
            std::net::Ipv6Addr::LOCALHOST.into()
        };
        addr.set_ip(host);
    }
    addr
}

fn answer_all(
    registry: &Registry,
    listener: &TcpListener,
    stop: &AtomicBool,
    busy: &Mutex<Option<TcpStream>>,
) {
    while !stop.load(SeqCst) {
        let Ok((mut stream, _)) = listener.accept() else {
            // The process may be out of descriptors for a while.
            std::thread::sleep(Duration::from_millis(10));
            continue;
        };
        *lock(busy) = stream.try_clone().ok();
        // A server that is dropped from now on shuts this connection down; one that was dropped
        // before has told.
        if !stop.load(SeqCst) {
            let _ = answer(registry, &mut stream);
        }
        *lock(busy) = None;
    }
}

/// What is left until this time.
fn left(until: Instant) -> io::Result<Duration> {
    let left = until.saturating_duration_since(Instant::now());
    if left.is_zero() {
        Err(io::ErrorKind::TimedOut.into())
    } else {
        Ok(left)
    }
}

fn answer(registry: &Registry, stream: &mut TcpStream) -> io::Result<()> {
    let until = Instant::now() + PATIENCE;
    let (mut head, mut len) = ([0; HEAD], 0);
    while len < HEAD && !is_whole(&head[..len]) {
        stream.set_read_timeout(Some(left(until)?))?;
        match whole(|| stream.read(&mut head[len..]))? {
            0 => break,
            more => len += more,
        }
    }
    let reply = registry.reply(&head[..len]);
    let mut rest = &reply[..];
    while !rest.is_empty() {
        stream.set_write_timeout(Some(left(until)?))?;
        match whole(|| stream.write(rest))? {
            0 => return Err(io::ErrorKind::WriteZero.into()),
            sent => rest = &rest[sent..],
        }
    }
    farewell(stream)
}

/// Whether the empty line has come that ends a head. Empty lines in front of it are none of it.
fn is_whole(head: &[u8]) -> bool {
    let is_end = |byte: &u8| matches!(byte, b'\r' | b'\n');
    let start = head.iter().position(|byte| !is_end(byte)).unwrap_or(head.len());
    let head = &head[start..];
    head.windows(2).any(|two| two == b"\n\n") || head.windows(3).any(|three| three == b"\n\r\n")
}

/// What a call answers that no signal interrupts.
fn whole<T>(mut call: impl FnMut() -> io::Result<T>) -> io::Result<T> {
    loop {
        match call() {
            Err(error) if error.kind() == io::ErrorKind::Interrupted => continue,
            made => return made,
        }
    }
}

/// Reads what the client still sends, a little: a connection that is closed over unread bytes takes
/// the reply with it.
fn farewell(stream: &mut TcpStream) -> io::Result<()> {
    let until = Instant::now() + FAREWELL;
    let mut unread = [0; 1024];
    stream.shutdown(Shutdown::Write)?;
    loop {
        stream.set_read_timeout(Some(left(until)?))?;
        if whole(|| stream.read(&mut unread))? == 0 {
            return Ok(());
        }
    }
}

#[cfg(test)]
mod tests {
    use super::is_whole;

    /// A head ends at its first empty line, by either kind of line's end.
    #[test]
    fn whole_heads() {
        for head in ["a\r\nb\r\n\r\n", "a\nb\n\n", "a\n\r\n", "a\r\n\n", "\r\n\na\r\n\r\nrest"] {
            assert!(is_whole(head.as_bytes()), "{head:?}");
        }
        for part in ["", "\r\n\r\n", "\n\n\n", "a\r\n", "a\r\n\r", "\n\na\n"] {
            assert!(!is_whole(part.as_bytes()), "{part:?}");
        }
    }
}

//! A service over tiny_http, which answers each request with its metrics. The argument is the port,
//! 0 where the system is to choose.

use prometheus::{gather, register_int_counter, Encoder, TextEncoder};
use std::error::Error;
use tiny_http::{Header, Response, Server};

fn main() -> Result<(), Box<dyn Error + Send + Sync>> {
    let port: u16 = std::env::args().nth(1).map_or(Ok(0), |word| word.parse())?;
    let requests = register_int_counter!("requests_total", "Requests.")?;
    let server = Server::http(("127.0.0.1", port))?;
    println!("http://{}/", server.server_addr());
    for request in server.incoming_requests() {
        requests.inc();
        let (encoder, mut text) = (TextEncoder::new(), Vec::new());
        encoder.encode(&gather(), &mut text)?;
        let header = Header::from_bytes("Content-Type", encoder.format_type());
        let reply = Response::from_data(text);
        let reply = header.into_iter().fold(reply, |reply, header| reply.with_header(header));
        request.respond(reply)?;
    }
    Ok(())
}

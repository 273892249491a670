//! A service over hyper, which answers each request with its metrics: `prometheus` by another
//! import. The argument is the port, 0 where the system is to choose.

use hyper::header::CONTENT_TYPE;
use hyper::service::{make_service_fn, service_fn};
use hyper::{Body, Request, Response, Server};
use prometheus::{gather, register_histogram_vec, register_int_counter_vec};
use prometheus::{Encoder, HistogramVec, IntCounterVec, TextEncoder};
use std::error::Error;

#[derive(Clone)]
struct Metrics {
    requests: IntCounterVec,
    seconds: HistogramVec,
}

impl Metrics {
    fn new() -> prometheus::Result<Metrics> {
        let requests = "requests_total";
        let seconds = "request_duration_seconds";
        Ok(Metrics {
            requests: register_int_counter_vec!(requests, "Requests by method.", &["method"])?,
            seconds: register_histogram_vec!(seconds, "How long they took.", &["method"])?,
        })
    }

    fn answer(
        &self,
        request: &Request<Body>,
    ) -> Result<Response<Body>, Box<dyn Error + Send + Sync>> {
        let method = request.method().as_str();
        self.requests.with_label_values(&[method]).inc();
        let _timer = self.seconds.with_label_values(&[method]).start_timer();
        let (encoder, mut text) = (TextEncoder::new(), Vec::new());
        encoder.encode(&gather(), &mut text)?;
        let reply = Response::builder().header(CONTENT_TYPE, encoder.format_type());
        Ok(reply.body(Body::from(text))?)
    }
}

#[tokio::main]
async fn main() -> Result<(), Box<dyn Error>> {
    let port: u16 = std::env::args().nth(1).map_or(Ok(0), |word| word.parse())?;
    let metrics = Metrics::new()?;
    let make = make_service_fn(move |_| {
        let metrics = metrics.clone();
        let serve = move |request| {
            let metrics = metrics.clone();
            async move { metrics.answer(&request) }
        };
        async move { Ok::<_, std::convert::Infallible>(service_fn(serve)) }
    });
    let server = Server::try_bind(&([127, 0, 0, 1], port).into())?.serve(make);
    println!("http://{}/", server.local_addr());
    Ok(server.await?)
}

//! judged KIND PORT UPLOAD: the requests of a file of dialogues by Rust's h2.

use bytes::Bytes;
use h2::client::{Builder, SendRequest};
use std::time::Duration;
use tokio::{task::spawn_local, time::timeout};

async fn request(mut sender: SendRequest<Bytes>, method: &str, url: &str, content: Option<Bytes>) -> Result<(u16, usize), h2::Error> {
    sender = sender.ready().await?;
    let request = http::Request::builder().method(method).uri(url).body(()).unwrap();
    let (response, mut body) = sender.send_request(request, content.is_none())?;
    if let Some(content) = content {
        body.send_data(content, true)?;
    }
    let response = response.await?;
    let (status, mut body, mut octets) = (response.status().as_u16(), response.into_body(), 0);
    while let Some(data) = body.data().await {
        let data = data?;
        octets += data.len();
        let _ = body.flow_control().release_capacity(data.len());
    }
    body.trailers().await?;
    Ok((status, octets))
}

/// The bit of a request that fails.
async fn send(bit: i32, sender: SendRequest<Bytes>, method: &'static str, url: String, content: Option<Bytes>) -> i32 {
    let result = timeout(Duration::from_secs(20), request(sender, method, &url, content)).await;
    println!("{bit} {result:?}");
    match result {
        Ok(Ok((status, _))) if status < 400 => 0,
        _ => bit,
    }
}

async fn run(kind: &str, port: &str, upload: &str) -> i32 {
    let tcp = tokio::net::TcpStream::connect(format!("127.0.0.1:{port}")).await.unwrap();
    let _ = tcp.set_nodelay(true);
    let mut builder = Builder::new();
    builder.enable_push(false);
    if kind == "small-window" {
        builder.initial_window_size(1000);
    }
    let (sender, connection) = match builder.handshake::<_, Bytes>(tcp).await {
        Ok(pair) => pair,
        Err(error) => {
            println!("{error}");
            return 1;
        }
    };
    let connection = spawn_local(async move { println!("connection {:?}", connection.await) });
    let url = |path: &str| format!("http://127.0.0.1:{port}{path}");
    let status = match kind {
        "get" | "small-window" => send(1, sender.clone(), "GET", url("/"), None).await,
        "upload" => send(1, sender.clone(), "POST", url("/p"), Some(std::fs::read(upload).unwrap().into())).await,
        "two-requests" => {
            let first = spawn_local(send(1, sender.clone(), "GET", url("/1"), None));
            let second = spawn_local(send(2, sender.clone(), "GET", url("/2"), None));
            first.await.unwrap() | second.await.unwrap()
        }
        "next-request" => send(1, sender.clone(), "GET", url("/1"), None).await | send(2, sender.clone(), "GET", url("/2"), None).await,
        _ => 9,
    };
    drop(sender);
    let _ = timeout(Duration::from_millis(500), connection).await;
    status
}

fn main() {
    let words: Vec<String> = std::env::args().collect();
    let runtime = tokio::runtime::Builder::new_current_thread().enable_all().build().unwrap();
    let status = tokio::task::LocalSet::new().block_on(&runtime, run(&words[1], &words[2], &words[3]));
    std::process::exit(status);
}

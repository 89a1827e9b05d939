//! Chromium, driven by chromedriver over plain HTTP.

use std::io::{self, BufRead, BufReader, Read, Write};
use std::net::TcpStream;
use std::path::Path;
use std::process::{Child, Command, Stdio};
use std::time::Duration;

use crate::json::{quoted, Json};

/// A busy machine takes its time.
const PATIENCE: Duration = Duration::from_secs(300);

pub struct Driver {
    process: Child,
    port: u16,
    session: String,
}

/// Are browser and driver installed?
pub fn is_installed() -> bool {
    ["chromium", "chromedriver"].iter().all(|program| found(program).is_some())
}

fn found(program: &str) -> Option<String> {
    let path = std::env::var("PATH").unwrap_or_default();
    let places = path.split(':').map(|folder| Path::new(folder).join(program));
    places.into_iter().find(|place| place.is_file()).map(|place| place.display().to_string())
}

impl Driver {
    /// A window of so many points, with its scroll bar.
    pub fn start(width: u32, height: u32) -> Driver {
        let mut process = Command::new("chromedriver")
            .arg("--port=0")
            .stdout(Stdio::piped())
            .stderr(Stdio::null())
            .spawn()
            .expect("the driver starts");
        let port = port(&mut process);
        let mut driver = Driver { process, port, session: String::new() };
        let opened = driver.request("POST", "/session", &capabilities(width, height));
        driver.session = format!("/session/{}", opened.get("sessionId").text());
        driver
    }

    fn request(&self, method: &str, path: &str, body: &str) -> Json {
        let answer = self.send(method, path, body).unwrap_or_else(|error| panic!("{method} {path}: {error}"));
        let value = answer.get("value").clone();
        assert_eq!(value.get("error"), &Json::Null, "{method} {path}: {}", value.get("message").text());
        value
    }

    fn send(&self, method: &str, path: &str, body: &str) -> io::Result<Json> {
        let mut stream = TcpStream::connect(("127.0.0.1", self.port))?;
        stream.set_read_timeout(Some(PATIENCE))?;
        let head = format!(
            "{method} {path} HTTP/1.1\r\nHost: 127.0.0.1\r\nContent-Type: application/json\r\nContent-Length: {}\r\n\
             Connection: close\r\n\r\n",
            body.len()
        );
        stream.write_all(head.as_bytes())?;
        stream.write_all(body.as_bytes())?;
        let mut answer = BufReader::new(stream);
        let mut text = vec![0; content_length(&mut answer)?];
        answer.read_exact(&mut text)?;
        Json::parse(&String::from_utf8_lossy(&text)).ok_or_else(|| io::Error::other("no JSON"))
    }

    fn post(&self, path: &str, body: &str) -> Json {
        self.request("POST", &format!("{}{path}", self.session), body)
    }

    pub fn open(&self, url: &str) {
        self.post("/url", &format!("{{\"url\":{}}}", quoted(url)));
    }

    pub fn evaluate(&self, script: &str) -> Json {
        self.post("/execute/sync", &format!("{{\"script\":{},\"args\":[]}}", quoted(script)))
    }

    pub fn press(&self, key: &str) {
        self.press_all(&[key]);
    }

    /// Presses keys one after the other.
    pub fn press_all(&self, keys: &[&str]) {
        let press = |key: &&str| {
            let key = quoted(code(key));
            format!("{{\"type\":\"keyDown\",\"value\":{key}}},{{\"type\":\"keyUp\",\"value\":{key}}}")
        };
        let presses = keys.iter().map(press).collect::<Vec<String>>().join(",");
        let actions = format!("[{{\"type\":\"key\",\"id\":\"keys\",\"actions\":[{presses}]}}]");
        self.post("/actions", &format!("{{\"actions\":{actions}}}"));
    }

    /// A command of the browser's own protocol.
    pub fn command(&self, name: &str, parameters: &str) -> Json {
        self.post("/goog/cdp/execute", &format!("{{\"cmd\":{},\"params\":{parameters}}}", quoted(name)))
    }

    /// The messages of a log (`browser` for the console, `performance` for what was fetched) since the last call.
    pub fn log(&self, kind: &str) -> Vec<String> {
        let entries = self.post("/se/log", &format!("{{\"type\":{}}}", quoted(kind)));
        entries.list().iter().map(|entry| entry.get("message").text().to_string()).collect()
    }

    /// Keeps a picture of the window.
    pub fn picture(&self, file: &Path) {
        let answer = self.request("GET", &format!("{}/screenshot", self.session), "");
        std::fs::write(file, decoded(answer.text())).expect("a picture is kept");
    }

    /// Keeps the page as it is printed.
    pub fn print(&self, file: &Path) {
        let answer = self.command("Page.printToPDF", "{\"printBackground\":true,\"preferCSSPageSize\":true}");
        std::fs::write(file, decoded(answer.get("data").text())).expect("a print is kept");
    }
}

impl Drop for Driver {
    /// Ends the browser, then the driver, also where a check has failed.
    fn drop(&mut self) {
        if !self.session.is_empty() {
            let _ = self.send("DELETE", &self.session, "");
        }
        let _ = self.process.kill();
        let _ = self.process.wait();
    }
}

/// A key as the driver names it.
fn code(key: &str) -> &str {
    match key {
        "Enter" => "\u{e007}",
        "Backspace" => "\u{e003}",
        "Tab" => "\u{e004}",
        "ArrowDown" => "\u{e015}",
        "ArrowUp" => "\u{e013}",
        key => key,
    }
}

fn capabilities(width: u32, height: u32) -> String {
    let arguments = format!(
        "[\"--headless=new\",\"--no-sandbox\",\"--disable-gpu\",\"--disable-dev-shm-usage\",\"--hide-crash-restore-bubble\",\
         \"--window-size={width},{height}\"]"
    );
    let binary = quoted(&found("chromium").expect("it is installed"));
    format!(
        "{{\"capabilities\":{{\"alwaysMatch\":{{\"goog:chromeOptions\":{{\"args\":{arguments},\"binary\":{binary}}},\
         \"goog:loggingPrefs\":{{\"browser\":\"ALL\",\"performance\":\"ALL\"}},\
         \"timeouts\":{{\"script\":300000,\"pageLoad\":300000}}}}}}}}"
    )
}

/// The driver chooses a free port and prints it: `ChromeDriver was started successfully on port 41233.`
fn port(process: &mut Child) -> u16 {
    let out = process.stdout.take().expect("a pipe");
    for line in BufReader::new(out).lines() {
        let line = line.expect("a line of the driver");
        if let Some((_, port)) = line.split_once("successfully on port ") {
            return port.trim_end_matches('.').parse().expect("a port");
        }
    }
    panic!("the driver has not started");
}

fn content_length(answer: &mut impl BufRead) -> io::Result<usize> {
    let mut length = 0;
    loop {
        let mut line = String::new();
        answer.read_line(&mut line)?;
        let line = line.trim_end().to_ascii_lowercase();
        if line.is_empty() {
            return Ok(length);
        }
        if let Some(value) = line.strip_prefix("content-length:") {
            length = value.trim().parse().map_err(io::Error::other)?;
        }
    }
}

/// The bytes of a base64 text.
fn decoded(text: &str) -> Vec<u8> {
    let alphabet = b"ABCDEFGHIJKLMNOPQRSTUVWXYZabcdefghijklmnopqrstuvwxyz0123456789+/";
    let sextets = text.bytes().filter_map(|byte| alphabet.iter().position(|&letter| letter == byte));
    let mut out = Vec::new();
    let (mut bits, mut held) = (0u32, 0);
    for sextet in sextets {
        bits = bits << 6 | sextet as u32;
        held += 6;
        if held >= 8 {
            held -= 8;
            out.push((bits >> held) as u8);
        }
    }
    out
}

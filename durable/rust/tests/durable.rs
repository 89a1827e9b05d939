//! Commit, a crash, reopening, fencing, errors. The scratch folder is DURABLE_TMP, or the system's.

use luzhanem::{Refusal, State, Store};
use luzhanem_durable::{channels, Channel, Durable, Error, How, Level};
use std::io::{BufRead, BufReader, Write};
use std::path::PathBuf;
use std::process::{Command, Stdio};

const CREATE: How = How { create: true, level: Level::Full };

/// A folder of the test's own, removed at its end.
struct Folder(PathBuf);

impl Folder {
    fn new(name: &str) -> Folder {
        let base = std::env::var_os("DURABLE_TMP").map_or_else(std::env::temp_dir, PathBuf::from);
        let folder = base.join(format!("luzhanem-durable-{name}-{}", std::process::id()));
        std::fs::create_dir_all(&folder).unwrap();
        Folder(folder)
    }

    fn url(&self) -> String {
        format!("sqlite:{}", self.0.join("one.db").display())
    }
}

impl Drop for Folder {
    fn drop(&mut self) {
        let _ = std::fs::remove_dir_all(&self.0);
    }
}

fn put(d: &Durable, t: usize, f: usize, bytes: &[u8]) {
    let mut s = d.store();
    s.begin(t).unwrap();
    s.seek(t, f, 0).unwrap();
    s.write(t, f, bytes).unwrap();
}

fn file(url: &str, f: usize) -> Vec<u8> {
    Durable::load(url, "one").unwrap().0.file(f).unwrap().to_vec()
}

#[test]
fn a_commit_is_there_after_reopening() {
    let folder = Folder::new("reopening");
    let url = folder.url();
    let d = Durable::open(&url, "one", CREATE, Store::new()).unwrap();
    put(&d, 0, 3, b"14:02 jingle\n");
    assert!(d.commit(0, 842).unwrap().is_empty());
    put(&d, 1, 2, b"not yet");
    d.sync().unwrap();
    drop(d);
    let d = Durable::open(&url, "one", How::default(), Store::new()).unwrap();
    assert_eq!(d.store().file(3).unwrap(), b"14:02 jingle\n");
    assert_eq!(d.store().file(2).unwrap(), b"");
    assert_eq!(d.store().state(1), Ok(State::Closed));
    d.store().undo().unwrap();
    assert_eq!(file(&url, 3), b"14:02 jingle\n");
    d.sync().unwrap();
    assert_eq!(file(&url, 3), b"");
}

/// The child of the test below: counts in file 1 until it is killed.
#[test]
fn child() {
    let Ok(url) = std::env::var("LUZHANEM_CHILD_URL") else { return };
    let d = Durable::open(&url, "one", CREATE, Store::new()).unwrap();
    for n in 0..1_000_000 {
        put(&d, 0, 1, format!("{n:09}").as_bytes());
        d.commit(0, 0).unwrap();
        writeln!(std::io::stderr(), "{n}").unwrap();
    }
}

#[test]
fn a_commit_is_there_after_a_kill() {
    let folder = Folder::new("kill");
    let url = folder.url();
    for _ in 0..3 {
        let mut child = Command::new(std::env::current_exe().unwrap())
            .args(["--exact", "child", "--nocapture"])
            .env("LUZHANEM_CHILD_URL", &url)
            .stdout(Stdio::null())
            .stderr(Stdio::piped())
            .spawn()
            .unwrap();
        let mut lines = BufReader::new(child.stderr.take().unwrap()).lines();
        let mut answered = String::new();
        for _ in 0..5 {
            answered = lines.next().unwrap().unwrap();
        }
        child.kill().unwrap();
        for line in lines {
            answered = line.unwrap();
        }
        assert!(!child.wait().unwrap().success());
        let answered: u32 = answered.parse().unwrap();
        let d = Durable::open(&url, "one", How::default(), Store::new()).unwrap();
        let there: u32 = std::str::from_utf8(d.store().file(1).unwrap()).unwrap().parse().unwrap();
        assert!(there == answered || there == answered + 1, "{answered} was answered, and {there} is there");
    }
}

#[test]
fn fenced() {
    let folder = Folder::new("fenced");
    let url = folder.url();
    let first = Durable::open(&url, "one", CREATE, Store::new()).unwrap();
    put(&first, 0, 1, b"a");
    first.commit(0, 0).unwrap();
    let second = Durable::open(&url, "one", How::default(), Store::new()).unwrap();
    put(&first, 0, 1, b"b");
    let error = first.commit(0, 0).unwrap_err();
    assert!(matches!(&error, Error::Fenced(words) if words.contains("taken the channel over")), "{error}");
    assert_eq!(first.store().file(1).unwrap(), b"b");
    assert!(matches!(first.sync(), Err(Error::Fenced(_))));
    assert_eq!(file(&url, 1), b"a");
    put(&second, 0, 1, b"c");
    second.commit(0, 0).unwrap();
    assert_eq!(file(&url, 1), b"c");
}

#[test]
fn threads_share_one_channel() {
    let folder = Folder::new("threads");
    let url = folder.url();
    let d = Durable::open(&url, "one", CREATE, Store::new()).unwrap();
    std::thread::scope(|scope| {
        for t in 0..8 {
            let d = &d;
            scope.spawn(move || {
                for n in 0..25 {
                    put(d, t, t, format!("{n:03}").as_bytes());
                    d.commit(t, 0).unwrap();
                }
            });
        }
    });
    let (store, generation) = Durable::load(&url, "one").unwrap();
    assert!((0..8).all(|f| store.file(f).unwrap() == b"024"));
    assert!(generation <= 201, "{generation}");
}

#[test]
fn a_store_may_be_replaced() {
    let folder = Folder::new("replaced");
    let url = folder.url();
    let mut store = Store::with_files([7; 16]).unwrap();
    store.begin(0).unwrap();
    store.write(0, 0, b"given").unwrap();
    store.commit(0, 0).unwrap();
    let d = Durable::open(&url, "one", CREATE, store).unwrap();
    assert_eq!(file(&url, 7), b"given");
    *d.store() = Store::new();
    put(&d, 0, 4, b"other");
    d.commit(0, 0).unwrap();
    assert_eq!((file(&url, 7), file(&url, 4)), (vec![], b"other".to_vec()));
    let broken = vec![0xff; Store::new().block().len()];
    *d.store() = Store::from_block(&broken).unwrap();
    assert_eq!(d.sync(), Err(Error::Refused(Refusal::RecordRange)));
    assert_eq!(file(&url, 4), b"other");
    *d.store() = Store::new();
    d.sync().unwrap();
    assert_eq!(file(&url, 4), b"");
}

#[test]
fn lists_channels() {
    let folder = Folder::new("channels");
    let url = folder.url();
    for name in ["south", "north"] {
        Durable::open(&url, name, CREATE, Store::new()).unwrap();
    }
    let expected = ["north", "south"].map(|name| Channel { name: name.into(), generation: 1 });
    assert_eq!(channels(&url).unwrap(), expected);
}

#[test]
fn errors_have_their_kind() {
    let folder = Folder::new("errors");
    let url = folder.url();
    let open = |url: &str, channel: &str| Durable::open(url, channel, How::default(), Store::new()).map(|_| ());
    let load = |url: &str, channel: &str| Durable::load(url, channel).map(|_| ());
    for call in [&open as &dyn Fn(&str, &str) -> Result<(), Error>, &load] {
        assert!(matches!(call(&url, "one"), Err(Error::Unreachable(words)) if !words.is_empty()));
        for (url, channel) in [("mysql://x", "one"), (&url, ""), (&url, "a\0b"), ("", "one"), (&url, &"a".repeat(201))]
        {
            assert!(matches!(call(url, channel), Err(Error::BadArgument(_))), "{url} {channel}");
        }
    }
    assert!(matches!(channels(&url), Err(Error::Unreachable(_))));
    let d = Durable::open(&url, "one", CREATE, Store::new()).unwrap();
    assert!(matches!(open(&url, "two"), Err(Error::NoChannel(_))));
    assert!(matches!(load(&url, "two"), Err(Error::NoChannel(_))));
    assert_eq!(d.commit(0, 0), Err(Error::Refused(Refusal::NotOpen)));
    assert_eq!(d.commit(8, 0), Err(Error::Refused(Refusal::NoSuchTransaction)));
    drop(d);
    let file = folder.0.join("one.db");
    let mut bytes = std::fs::read(&file).unwrap();
    bytes[..16].fill(0);
    std::fs::write(&file, bytes).unwrap();
    assert!(matches!(open(&url, "one"), Err(Error::Unreachable(_))));
}

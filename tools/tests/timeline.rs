//! The pages of `timeline`, without a browser.

use std::collections::{BTreeMap, BTreeSet};
use std::io::Write;
use std::path::{Path, PathBuf};
use std::process::{Command, Output, Stdio};

use twin::{logs, traces};

const SAMPLE: &str = include_str!("../../samples/afternoon.trace");
const LOG: &str = include_str!("../../samples/evening.log");
const SCRIPT: &str = include_str!("../src/timeline/page.js");

fn run(arguments: &[&str], input: &[u8]) -> Output {
    let mut process = Command::new(env!("CARGO_BIN_EXE_timeline"))
        .args(arguments)
        .stdin(Stdio::piped())
        .stdout(Stdio::piped())
        .stderr(Stdio::piped())
        .spawn()
        .expect("timeline runs");
    let mut stdin = process.stdin.take().expect("a pipe");
    let input = input.to_vec();
    // The program may end before it has read everything.
    let writer = std::thread::spawn(move || drop(stdin.write_all(&input)));
    let output = process.wait_with_output().expect("timeline ends");
    writer.join().expect("the input is written");
    output
}

#[track_caller]
fn drawn(arguments: &[&str], input: &[u8]) -> String {
    let output = run(arguments, input);
    assert!(output.status.success(), "{}", String::from_utf8_lossy(&output.stderr));
    String::from_utf8(output.stdout).expect("UTF-8")
}

fn generated(seed: u64, lines: u64) -> Vec<u8> {
    let mut trace = Vec::new();
    traces::write(&mut trace, seed, lines).expect("memory is written");
    trace
}

fn generated_log(seed: u64, calls: u64) -> Vec<u8> {
    let mut log = Vec::new();
    logs::write(&mut log, seed, calls).expect("memory is written");
    log
}

/// An element's name and its attributes.
struct Tag<'a> {
    name: &'a str,
    attributes: Vec<(&'a str, &'a str)>,
}

impl<'a> Tag<'a> {
    fn parse(text: &'a str) -> Tag<'a> {
        let (name, mut rest) = text.split_once(' ').unwrap_or((text, ""));
        let mut attributes = Vec::new();
        while !rest.is_empty() {
            let end = rest.find(['=', ' ']).unwrap_or(rest.len());
            let (attribute, behind) = rest.split_at(end);
            let quoted = behind.strip_prefix("=\"").and_then(|behind| behind.split_once('"'));
            let (value, behind) = quoted.unwrap_or(("", behind));
            attributes.push((attribute, value));
            rest = behind.trim_start_matches([' ', '/']);
        }
        Tag { name: name.trim_end_matches('/'), attributes }
    }

    fn get(&self, name: &str) -> Option<&'a str> {
        self.attributes.iter().find(|(attribute, _)| *attribute == name).map(|(_, value)| *value)
    }

    fn has_class(&self, class: &str) -> bool {
        self.get("class").is_some_and(|classes| classes.split(' ').any(|own| own == class))
    }
}

/// The elements of a page. In text and attributes each `<` and `>` is escaped, style and script aside.
fn tags(page: &str) -> Vec<Tag<'_>> {
    let mut tags = Vec::new();
    let mut rest = page;
    while let Some((_, behind)) = rest.split_once('<') {
        let (tag, text) = behind.split_once('>').expect("a tag ends");
        rest = text;
        if tag.starts_with(['/', '!']) {
            continue;
        }
        if tag == "style" || tag == "script" {
            rest = text.split_once(&format!("</{tag}>")).expect("it ends").1;
        }
        tags.push(Tag::parse(tag));
    }
    tags
}

fn style(page: &str) -> &str {
    page.split_once("<style>").and_then(|(_, rest)| rest.split_once("</style>")).expect("a style").0
}

/// Top and height of each box, by its number.
fn boxes(page: &str) -> BTreeMap<&str, (u64, u64)> {
    let rules = style(page).split("#b").skip(1).filter_map(|rule| rule.split_once("{top:"));
    let placed = rules.filter_map(|(number, rest)| {
        let (top, rest) = rest.split_once("px;height:")?;
        let (height, _) = rest.split_once("px}")?;
        Some((number, (top.parse().ok()?, height.parse().ok()?)))
    });
    placed.collect()
}

/// Each line once, no link and no arrow into nothing, and no two boxes of a lane over each other.
#[track_caller]
fn check_page(page: &str, lines: impl Iterator<Item = u64>) {
    let tags = tags(page);
    let ids: Vec<&str> = tags.iter().filter_map(|tag| tag.get("id")).collect();
    let distinct: BTreeSet<&str> = ids.iter().copied().collect();
    assert_eq!(ids.len(), distinct.len(), "an id stands twice");
    let rows: Vec<String> = tags.iter().filter(|tag| tag.name == "li").filter_map(row_id).collect();
    assert_eq!(rows, lines.map(|line| format!("L{line}")).collect::<Vec<String>>());
    for link in tags.iter().filter_map(|tag| tag.get("href")) {
        assert!(distinct.contains(&link[1..]) && link.starts_with("#L"), "{link}");
    }
    for described in tags.iter().filter_map(|tag| tag.get("aria-describedby")) {
        assert!(distinct.contains(described), "{described}");
    }
    for name in ["data-from", "data-to", "data-cause"] {
        for end in tags.iter().filter_map(|tag| tag.get(name)) {
            assert!(distinct.contains(format!("L{end}").as_str()), "{name} {end}");
        }
    }
    check_boxes(page, &tags);
}

fn row_id(tag: &Tag) -> Option<String> {
    tag.get("id").map(str::to_string)
}

#[track_caller]
fn check_boxes(page: &str, tags: &[Tag]) {
    let places = boxes(page);
    let mut by_lane: BTreeMap<&str, Vec<(u64, u64)>> = BTreeMap::new();
    for tag in tags.iter().filter(|tag| tag.has_class("box")) {
        let number = tag.get("id").and_then(|id| id.strip_prefix('b')).expect("a number");
        let lane = tag.get("class").and_then(|classes| classes.rsplit(' ').next()).expect("a lane");
        by_lane.entry(lane).or_default().push(places[number]);
    }
    for (lane, mut boxes) in by_lane {
        boxes.sort_unstable();
        for pair in boxes.windows(2) {
            assert!(pair[0].0 + pair[0].1 <= pair[1].0, "{lane}: {pair:?}");
        }
    }
}

#[test]
fn pages_of_generated_traces() {
    for seed in 0..40 {
        let lines = 500;
        let page = drawn(&[], &generated(seed, lines));
        check_page(&page, 1..=lines);
        assert!(boxes(&page).len() > 20);
    }
}

#[test]
fn pages_of_generated_logs() {
    for seed in 0..40 {
        let log = generated_log(seed, 300);
        let lines = log.iter().filter(|&&byte| byte == b'\n').count() as u64;
        check_page(&drawn(&[], &log), 1..=lines);
    }
}

#[test]
fn parts_of_a_trace() {
    let trace = generated(5, 1000);
    check_page(&drawn(&["--from", "301"], &trace), 301..=1000);
    check_page(&drawn(&["--to", "40"], &trace), 1..=40);
    check_page(&drawn(&["--from=700", "--to=2000"], &trace), 700..=1000);
    check_page(&drawn(&["--around", "500"], &trace), 300..=700);
    check_page(&drawn(&["--around", "990"], &trace), 790..=1000);
    for first in (1..900).step_by(97) {
        let (from, to) = (first.to_string(), (first + 60).to_string());
        let page = drawn(&["--from", &from, "--to", &to], &trace);
        check_page(&page, first..=first + 60);
        assert!(page.contains(&format!("Lines {from} to {to} of 1,000 lines")));
    }
}

/// Of the sample 0 reads at 9, 3 commits at 13, and 0 is stale at 14.
#[test]
fn a_part_cuts_boxes_and_names_causes() {
    let page = drawn(&["--from", "14", "--to", "16"], SAMPLE.as_bytes());
    check_page(&page, 14..=16);
    assert!(page.contains("since 13 (C3): length of file 1, seen at 9 (R0 1 5), set by 12 (W3 1 Hello)"));
    assert!(page.contains("class=\"box stale above t0\"") && page.contains("class=\"box granted below t0\""));
    assert!(page.contains("<span>↓ ends at 19</span>") && !page.contains("data-cause"));
    let page = drawn(&["--from", "13", "--to", "14"], SAMPLE.as_bytes());
    assert!(page.contains("since <a href=\"#L13\">13</a> (C3): length of file 1, seen at 9 (R0 1 5)"));
    assert!(page.contains("data-cause=\"13\" data-stale=\"13-0\"") && !page.contains("<path"));
    // The counts are those of the whole trace.
    assert!(page.contains("<b>7</b> granted") && page.contains("<b>2</b> stale"));
}

/// The words of a page's rows, with the sign behind them.
fn words(page: &str) -> Vec<String> {
    let rows = page.split("<li id=\"L").skip(1).map(|row| row.split_once("</i>").expect("a row's words").1);
    rows.map(|row| {
        let text = row.split_once("</a>").expect("its link ends").0;
        let plain = text.replace("<span>", "").replace("</span>", "").replace("<em>", " ").replace("</em>", "");
        plain.replace("&lt;", "<").replace("&amp;", "&")
    })
    .collect()
}

#[test]
fn the_sample_in_words() {
    let expected = "Begin|Write 0: 14:02 jingle.|Begin|Write 0: 14:03 news.|Commit ✓|Commit ✓|Begin|Seek 1 to 0|\
        ◉ Read 1, 0 of 5|Begin|Seek 1 to 0|Write 1: Hello|Commit ✓ makes 0 stale|Commit ✗ 13 Stale|Begin|Seek 1 to 0|\
        ◉ Read 1, 5 of 5: Hello|◉ offset of 0: 24|Commit ✓|Begin|Seek 2 to 0|Write 2: 14:30 film. 16:00 sport.|Commit ✓|\
        Begin|Seek 2 to 6|◉ Read 2, 4 of 4: film|Begin|Seek 2 to 6|Write 2: show|Commit ✓ makes 4 stale|\
        Read 2, 1 ✗ 18 StaleReader|Commit ✗ 13 Stale|Begin|Seek 2 to 6|◉ Read 2, 4 of 4: show|Write 2: !|Commit ✓|\
        hello ✗ 17 BadLine|Abort ✗ 4 NotOpen";
    let page = drawn(&[], SAMPLE.as_bytes());
    assert_eq!(words(&page), expected.split('|').collect::<Vec<&str>>());
    check_page(&page, 1..=39);
    let rows = tags(&page);
    let row = |line: u64| rows.iter().find(|tag| tag.get("id") == Some(&format!("L{line}"))).expect("a row");
    assert_eq!(row(38).get("class"), Some("left no aside"));
    assert_eq!((row(14).get("data-cause"), row(13).get("data-cause")), (Some("13"), Some("9")));
    assert_eq!((row(31).get("data-cause"), row(30).get("data-cause")), (Some("30"), Some("26")));
}

#[test]
fn a_log_in_words() {
    let page = drawn(&[], LOG.as_bytes());
    let words = words(&page);
    let has = |text: &str| assert!(words.iter().any(|own| own == text), "{text}: {words:?}");
    has("Fresh store");
    has("Window of file 1: 00:00 to 19:30");
    has("Places of file 1: 0 to 22");
    has("Commit at 19:40 ✗ 21 FileClosed");
    has("Undo takes back the grant of line 79 (C4 1211)");
    has("Best order of 6, 5 at 20:15: 5, 6 (2 granted)");
    has("= ok 48656c6c6f");
    let across: Vec<Tag> = tags(&page).into_iter().filter(|tag| tag.has_class("across")).collect();
    assert_eq!(across.iter().filter_map(|tag| tag.get("id")).collect::<Vec<&str>>(), ["L3", "L81"]);
    assert!(!page.contains("✗ differs"));
}

#[test]
fn an_answer_that_differs() {
    let changed = LOG.replacen("= 21\n", "= ok 0\n", 1);
    let output = run(&[], changed.as_bytes());
    assert!(output.status.success());
    let said = String::from_utf8_lossy(&output.stderr).into_owned();
    assert!(said.starts_with("timeline: line 28 differs"), "{said}");
    let page = String::from_utf8_lossy(&output.stdout).into_owned();
    assert!(page.contains("1 answer of the log differs, the first at <a href=\"#L28\">line 28</a>"));
    assert!(page.contains("<li id=\"L28\" class=\"t3 differs aside\">"));
}

/// A lane is there for each transaction that the trace names, and refusals of others stand at the left.
#[test]
fn lanes() {
    let page = drawn(&[], b"B2\nA7\nB8\nB9\nC2\n");
    let heads: Vec<&str> = page.matches("\">transaction ").collect();
    assert_eq!(heads.len(), 2);
    assert!(page.contains("<b class=\"t2\">transaction 2</b><b class=\"t7\">transaction 7</b>"));
    assert_eq!(words(&page)[2], "Begin of transaction 8 ✗ 3 NoSuchTransaction");
    assert!(page.contains("<li id=\"L3\" class=\"left no aside\">"));
}

#[test]
fn a_list_of_refusals_is_folded_above_twelve() {
    let refused = |count: usize| drawn(&[], &b"A0\n".repeat(count));
    assert!(refused(12).contains("<details open><summary>12 refusals"));
    assert!(refused(13).contains("<details><summary>13 refusals"));
    assert_eq!(refused(13).matches("0 was never begun").count(), 26);
}

#[test]
fn an_arrow_of_more_than_80_rows() {
    let trace = |between: usize| ["B0\nB1\nP0 0\n", &"S1 0 0\n".repeat(between), "C1\nC0\n"].concat();
    let near = drawn(&[], trace(79).as_bytes());
    assert_eq!((near.matches("<path data-from=\"83\" data-to=\"3\"").count(), near.matches("<path").count()), (1, 1));
    let far = drawn(&[], trace(80).as_bytes());
    assert_eq!((far.matches("<path data-from").count(), far.matches("<path d=").count()), (0, 2));
}

#[test]
fn empty_input() {
    let page = drawn(&[], b"");
    assert!(page.contains("The trace is empty: it has no line."));
    check_page(&page, 1..1);
}

#[test]
fn the_title() {
    let page = drawn(&["--title", "a <b> & \"c\""], b"B0\n");
    assert!(page.contains("<title>a &lt;b&gt; &amp; &quot;c&quot;</title>"));
    let file = folder("title").join("day <1>.trace");
    std::fs::write(&file, "B0\n").expect("a file");
    assert!(drawn(&[&file.display().to_string()], b"").contains("<h1>day &lt;1&gt;.trace</h1>"));
}

// Hostile bytes.

fn kinds(page: &str) -> BTreeSet<String> {
    let mut kinds = BTreeSet::new();
    for tag in tags(page) {
        kinds.insert(tag.name.to_string());
        kinds.extend(tag.attributes.iter().map(|(attribute, _)| format!("{} {attribute}", tag.name)));
    }
    kinds
}

#[track_caller]
fn check_bytes(page: &str) {
    let strange = |character: &char| (character.is_control() && *character != '\n') || is_turning(*character);
    assert_eq!(page.chars().find(strange), None);
}

fn is_turning(character: char) -> bool {
    matches!(character, '\u{61c}' | '\u{200e}' | '\u{200f}' | '\u{202a}'..='\u{202e}' | '\u{2066}'..='\u{2069}')
}

#[test]
fn hostile_bytes_are_text() {
    let texts: [&[u8]; 7] = [
        b"</script><script>alert(1)</script>",
        b"<img src=x onerror=\"alert(1)\">",
        b"\"' onmouseover='alert(1)'",
        b"<a href=\"javascript:alert(1)\">",
        b"\x00\x1b[2J\x7f\xff",
        "\u{202e}\u{2066}\u{200f}".as_bytes(),
        b"</style><!--",
    ];
    let mut trace = b"B0\nS0 0 0\n".to_vec();
    for text in texts {
        for front in [b"W0 0 ".as_slice(), b"", b"R0 0 9 ", b"B0"] {
            trace.extend([front, text, b"\n"].concat());
        }
        trace.extend(b"S0 0 0\nR0 0 200\nS0 0 0\n");
    }
    let plain = kinds(&drawn(&[], &generated(1, 400)));
    let title = "</title><script>alert(1)</script>\u{202e}\u{1b}";
    let pages = [drawn(&["--title", title], &trace), drawn(&["--log"], &trace)];
    for page in pages {
        let strange: Vec<String> =
            kinds(&page).into_iter().filter(|kind| !plain.contains(kind) && kind != "details open").collect();
        assert!(strange.is_empty(), "{strange:?}");
        check_bytes(&page);
        assert_eq!(page.matches("<script>").count(), 1);
        assert_eq!(page.split_once("<script>").and_then(|(_, rest)| rest.split_once("</script>")), {
            Some((SCRIPT, "\n</body>\n</html>\n"))
        });
    }
}

#[test]
fn junk() {
    let mut draws = traces::Draws::new(3);
    let junk: Vec<u8> = (0..100_000).map(|_| draws.below(256) as u8).collect();
    for arguments in [[].as_slice(), &["--log"]] {
        check_bytes(&drawn(arguments, &junk));
    }
}

/// No source but the one style and the one script: no attribute that the policy would have to allow.
#[test]
fn the_policy() {
    let page = drawn(&[], SAMPLE.as_bytes());
    let tags = tags(&page);
    let policy = tags.iter().find_map(|tag| tag.get("content")).expect("a policy");
    let sources: Vec<&str> = policy.split("; ").collect();
    assert_eq!((sources[0], sources.len()), ("default-src 'none'", 5));
    assert!(sources[1].starts_with("style-src 'sha256-") && sources[2].starts_with("script-src 'sha256-"));
    assert!(!policy.contains("unsafe"));
    for tag in &tags {
        for (attribute, _) in &tag.attributes {
            assert!(*attribute != "style" && *attribute != "src" && !attribute.starts_with("on"), "{attribute}");
        }
    }
}

// Bad inputs.

fn folder(name: &str) -> PathBuf {
    let folder = Path::new(env!("CARGO_TARGET_TMPDIR")).join("timeline").join(name);
    std::fs::create_dir_all(&folder).expect("a folder for the test");
    folder
}

/// One sentence on standard error, status 2, and nothing on standard output.
#[track_caller]
fn check_failure(output: &Output, parts: &[&str]) {
    let said = String::from_utf8_lossy(&output.stderr).into_owned();
    assert_eq!((output.status.code(), output.stdout.len()), (Some(2), 0), "{said}");
    assert_eq!((said.matches('\n').count(), said.starts_with("timeline: ")), (1, true), "{said}");
    for part in parts {
        assert!(said.contains(part), "{part}: {said}");
    }
}

#[test]
fn files_that_cannot_be_read() {
    let folder = folder("reading");
    let name = folder.display().to_string();
    check_failure(&run(&[&name], b""), &["cannot read", &name, "after 0 lines"]);
    let missing = format!("{name}/missing");
    check_failure(&run(&[&missing], b""), &["cannot read", &missing, "after 0 lines"]);
    check_failure(&run(&["--from-block", &missing, "-"], b""), &["cannot read", &missing]);
    let short = folder.join("short.block");
    std::fs::write(&short, [0; 100]).expect("a file");
    let short = short.display().to_string();
    check_failure(&run(&["--from-block", &short], b""), &[&short, "no saved block"]);
}

#[cfg(target_os = "linux")]
#[test]
fn a_file_that_fails_while_it_is_read() {
    check_failure(&run(&["/proc/self/mem"], b""), &["cannot read /proc/self/mem after 0 lines"]);
}

#[test]
fn arguments_that_are_wrong() {
    for arguments in [["--from", "0"], ["--around", "x"], ["--unknown", "x"], ["a", "b"], ["x", "-o"]] {
        let output = run(&arguments, b"");
        let said = String::from_utf8_lossy(&output.stderr).into_owned();
        assert_eq!((output.status.code(), output.stdout.len()), (Some(2), 0), "{arguments:?}");
        assert!(said.starts_with("timeline: ") && said.contains("usage: timeline"), "{said}");
    }
    for arguments in [["--help"], ["--version"]] {
        assert!(drawn(&arguments, b"").contains("timeline"));
    }
}

#[test]
fn lines_that_are_not_there() {
    check_failure(&run(&["--from", "40"], SAMPLE.as_bytes()), &["standard input has no line 40, it has 39"]);
    check_failure(&run(&["--around", "40"], SAMPLE.as_bytes()), &["no line 40"]);
    check_page(&drawn(&["--around", "39"], SAMPLE.as_bytes()), 1..=39);
}

#[test]
fn traces_that_are_too_long() {
    let trace = generated(2, 10_001);
    let parts = ["standard input", "10,000 lines", "--from", "--to", "--around"];
    check_failure(&run(&[], &trace), &parts);
    check_failure(&run(&["--to", "10001"], &trace), &parts);
    check_page(&drawn(&["--from", "2"], &trace), 2..=10_001);
}

#[cfg(target_os = "linux")]
#[test]
fn outputs_that_cannot_be_written() {
    let full = |command: &str| {
        let program = env!("CARGO_BIN_EXE_timeline");
        let command = command.replace("timeline", program);
        let mut shell = Command::new("sh");
        shell.args(["-c", &command]).current_dir(folder("writing")).stdin(Stdio::null());
        shell.output().expect("a shell runs")
    };
    let sample = concat!(env!("CARGO_MANIFEST_DIR"), "/../samples/afternoon.trace");
    let space = "after 39 lines: No space left on device";
    check_failure(&full(&format!("timeline {sample} >/dev/full")), &["standard output", space]);
    check_failure(&full(&format!("timeline -o /dev/full {sample}")), &["/dev/full", space]);
    check_failure(&full(&format!("timeline -o missing/page.html {sample}")), &["missing/page.html", "after 39 lines"]);
    check_failure(&full(&format!("timeline -o . {sample}")), &["cannot write . after 39 lines"]);
    check_failure(&full(&format!("timeline {sample} >&-")), &["standard output"]);
    let quiet = full(&format!("timeline {sample} | head -c 1"));
    assert_eq!((quiet.stdout.len(), quiet.stderr.len()), (1, 0));
    let status = full(&format!("{{ timeline {sample}; echo $? >status; }} | true; cat status"));
    assert_eq!(status.stdout, b"0\n");
}

/// A run that fails leaves the old page, and nothing beside it.
#[cfg(target_os = "linux")]
#[test]
fn a_page_is_written_beside_and_renamed() {
    let folder = folder("renaming");
    for old in std::fs::read_dir(&folder).expect("a folder") {
        std::fs::remove_file(old.expect("a file").path()).expect("it is removed");
    }
    let page = folder.join("page.html");
    let name = page.display().to_string();
    std::fs::write(&page, "old").expect("a page");
    let command = format!(
        "trap '' XFSZ; ulimit -f 4; {} -o '{name}' '{}/../samples/afternoon.trace'",
        env!("CARGO_BIN_EXE_timeline"),
        env!("CARGO_MANIFEST_DIR"),
    );
    let output = Command::new("sh").args(["-c", &command]).output().expect("a shell runs");
    check_failure(&output, &["cannot write", &name, "after 39 lines"]);
    check_failure(&run(&["-o", &name, "--from", "40"], SAMPLE.as_bytes()), &["no line 40"]);
    let files = || std::fs::read_dir(&folder).expect("a folder").count();
    assert_eq!((std::fs::read_to_string(&page).expect("a page"), files()), ("old".to_string(), 1));
    std::os::unix::fs::symlink(&page, folder.join("link.html")).expect("a link");
    let link = folder.join("link.html").display().to_string();
    assert_eq!(drawn(&["-o", &link], SAMPLE.as_bytes()), "");
    check_page(&std::fs::read_to_string(&page).expect("a page"), 1..=39);
    assert!(Path::new(&link).is_symlink() && files() == 2);
}

/// Some tens of megabytes without an end of a line.
#[test]
fn a_line_of_any_length() {
    let page = drawn(&[], &vec![b'x'; 50_000_000]);
    check_page(&page, 1..=1);
    assert!(page.len() < 40_000);
    let log = [b"V1\nX0 0 ".as_slice(), &b"00".repeat(4097), b"\n# ", &[b'x'; 8000], b"\n"].concat();
    assert!(drawn(&[], &log).len() < 40_000);
}

#[test]
fn line_ends_of_windows() {
    let output = run(&[], b"B0\r\nC0\r\n");
    assert!(String::from_utf8_lossy(&output.stderr).trim_end().lines().last().expect("a line").contains("--crlf"));
    let output = run(&["--crlf"], b"B0\r\nC0\r\n");
    assert_eq!(output.stderr.len(), 0);
    assert_eq!(words(&String::from_utf8_lossy(&output.stdout)), ["Begin", "Commit ✓"]);
}

/// A log that starts from a saved block, with transactions open in it.
#[test]
fn a_saved_block() {
    let folder = folder("block");
    let mut state = twin::replay::fresh();
    for line in ["B0", "P0 0", "B1", "S1 0 4"] {
        let twin::calllog::Line::Asks(asked) = twin::calllog::parse(line.as_bytes()) else { panic!("a call") };
        state.apply(&asked.call());
    }
    let block = folder.join("day.block");
    std::fs::write(&block, twin::block::encode(&state)).expect("a block");
    let page = drawn(&["--from-block", &block.display().to_string()], b"C1 0\nC0 0\n");
    check_page(&page, 1..=2);
    assert_eq!(words(&page), ["Commit at 00:00 ✓ makes 0 stale", "Commit at 00:00 ✗ 13 Stale"]);
    assert!(page.contains("class=\"box stale above t0\"") && page.contains("class=\"box granted above t1\""));
    assert!(page.contains("seen before line 1") && !page.contains("<path"));
}

/// Whoever opens the README loads it.
#[test]
fn the_picture_is_small() {
    let picture = include_bytes!("../../docs/timeline.png");
    assert!(picture.starts_with(b"\x89PNG") && picture.len() <= 150_000, "{} bytes", picture.len());
}

/// 10,000 lines in at most 4 MB, and half a second of processor time: other work may slow a run.
#[cfg(target_os = "linux")]
#[test]
fn speed_and_size() {
    let folder = folder("speed");
    let (trace, page) = (folder.join("long.trace"), folder.join("long.html"));
    std::fs::write(&trace, generated(1, 10_000)).expect("a trace");
    let command = format!("{} -o {} {}; times", env!("CARGO_BIN_EXE_timeline"), page.display(), trace.display());
    let output = Command::new("sh").args(["-c", &command]).output().expect("a shell runs");
    let times = String::from_utf8(output.stdout).expect("letters and digits");
    let seconds: f64 = times.lines().nth(1).expect("those of children").split_whitespace().map(seconds).sum();
    let size = std::fs::metadata(&page).expect("a page").len();
    println!("10,000 lines: {seconds} s, {size} bytes");
    assert!(size <= 4_000_000, "{size} bytes");
    assert!(cfg!(debug_assertions) || seconds <= 0.5, "{seconds} s");
}

/// `0m0.060s`, as a shell writes it.
fn seconds(time: &str) -> f64 {
    let (minutes, seconds) = time.trim_end_matches('s').split_once('m').expect("minutes and seconds");
    60.0 * minutes.parse::<f64>().expect("minutes") + seconds.parse::<f64>().expect("seconds")
}

//! What is held of a page in the browser.

use std::cell::Cell;
use std::path::PathBuf;
use std::time::Instant;

use crate::driver::Driver;
use crate::json::Json;
use crate::pages::{folder, Page};

/// In seconds.
const OPENS_WITHIN: f64 = 3.0;
const ANSWERS_WITHIN: f64 = 0.3;
const VISIONS: [&str; 4] = ["protanopia", "deuteranopia", "tritanopia", "achromatopsia"];

const CONTRAST: &str = include_str!("contrast.js");

/// Whether a row stands below the head and above its note, is framed, and whether its note is in sight with all its text.
const SELECTED: &str = "
    const row = document.querySelector('li:target');
    if (!row) return null;
    const link = row.firstElementChild, note = row.lastElementChild;
    const box = row.getBoundingClientRect(), head = document.getElementById('heads').getBoundingClientRect();
    const below = note.getBoundingClientRect();
    return {
        line: +row.id.slice(1),
        above: box.top >= head.bottom - 0.5 && head.top >= -0.5,
        free: box.bottom <= below.top + 0.5,
        framed: parseFloat(getComputedStyle(link).outlineWidth) >= 2,
        note: getComputedStyle(note).display != 'none' && Math.abs(below.bottom - innerHeight) < 1 && below.height > 20,
    };";

/// The line of a selected row; it is in sight, framed, and has its note.
#[track_caller]
fn line_of(selected: &Json, what: &str) -> u64 {
    for property in ["above", "free", "framed", "note"] {
        assert!(selected.get(property).is_true(), "{what}: not {property}: {selected:?}");
    }
    selected.get("line").number() as u64
}

pub struct Check<'a> {
    driver: &'a Driver,
    /// How many pages were opened.
    opened: Cell<u32>,
    pictures: PathBuf,
}

impl<'a> Check<'a> {
    pub fn new(driver: &'a Driver) -> Check<'a> {
        Check { driver, opened: Cell::new(0), pictures: folder("pictures") }
    }

    /// Opens a page anew, also where only the row in its address differs from that of the page that is open.
    fn open(&self, url: &str) {
        self.opened.set(self.opened.get() + 1);
        let query = format!(".html?{}", self.opened.get());
        self.driver.open(&url.replacen(".html", &query, 1));
    }

    /// Names a row in the address of the page that is open.
    fn go_to(&self, line: u64) {
        self.value(&format!("location.hash = 'L{line}'"));
    }

    fn picture(&self, name: &str) {
        self.driver.picture(&self.pictures.join(format!("{name}.png")));
    }

    fn value(&self, expression: &str) -> Json {
        self.driver.evaluate(&format!("return {expression};"))
    }

    #[track_caller]
    fn selected(&self, what: &str) -> u64 {
        line_of(&self.driver.evaluate(SELECTED), what)
    }

    pub fn opens_in_silence(&self, page: &Page) {
        self.driver.log("browser");
        self.driver.log("performance");
        self.open(&page.url());
        self.picture(page.name);
        let console = self.driver.log("browser");
        assert!(console.is_empty(), "{}: {console:?}", page.name);
        let sent: Vec<String> = self.driver.log("performance");
        let fetched = sent.iter().filter(|message| message.contains("Network.requestWillBeSent\""));
        let others: Vec<&String> = fetched.filter(|message| !message.contains(&page.url())).collect();
        assert!(others.is_empty(), "{}: {others:?}", page.name);
        assert_eq!(self.value("performance.getEntriesByType('resource').length").number(), 0.0);
        assert_eq!(self.value("document.title").text(), page.title);
        assert_eq!(self.value("document.querySelectorAll('#rows li').length").number(), page.lines as f64);
    }

    /// Of the page that is open.
    pub fn needs_no_sideways_scrolling(&self, page: &Page) {
        let width = self.value("innerWidth").number();
        let free = self.value("document.documentElement.clientWidth").number();
        assert_eq!((width, free), (1280.0, 1265.0), "a window of 1,280 points with a scroll bar");
        let wanted = self.value("document.documentElement.scrollWidth").number();
        assert!(wanted <= free, "{}: {wanted} points wide", page.name);
    }

    /// At the top, in the middle and at the end.
    pub fn selects_by_address(&self, page: &Page) {
        for line in [1, page.lines / 2, page.lines] {
            self.open(&page.at(line));
            assert_eq!(self.selected(&page.at(line)), line);
        }
        if page.lines > 1000 {
            self.picture(&format!("{}-end", page.name));
        }
    }

    /// Presses the keys one after the other on the page that is open, at no row, and compares the rows that they select.
    pub fn keys(&self, page: &Page, steps: &[(&str, u64)]) {
        self.driver.evaluate(&format!(
            "history.replaceState(null, '', location.pathname);
            location.hash = '';
            document.activeElement.blur();
            window.visited = [];
            const selected = () => {{ {SELECTED} }};
            addEventListener('keyup', () => visited.push(selected()));"
        ));
        let keys: Vec<&str> = steps.iter().map(|(key, _)| *key).collect();
        self.driver.press_all(&keys);
        let visited = self.value("window.visited");
        assert_eq!(visited.list().len(), steps.len());
        for (number, (row, (key, line))) in visited.list().iter().zip(steps).enumerate() {
            let what = format!("{}: step {number}, {key}", page.name);
            assert_eq!(line_of(row, &what), *line, "{what} of {steps:?}");
        }
    }

    /// The arrow from 13 to 9 is thick at both ends, and at line 14, which it made stale.
    pub fn thick_arrows_of_the_sample(&self) {
        let expected = [(13, "13-9"), (9, "13-9"), (14, "13-9"), (12, ""), (31, "30-26"), (26, "30-26")];
        for (line, thick) in expected {
            self.go_to(line);
            if line == 14 {
                self.picture("sample-14");
            }
            assert_eq!(self.thick(), thick, "line {line}");
        }
    }

    fn thick(&self) -> String {
        let script = "return Array.from(document.querySelectorAll('#arrows path'))
            .filter(path => parseFloat(getComputedStyle(path).strokeWidth) > 3)
            .map(path => path.dataset.from + '-' + path.dataset.to).join(' ');";
        self.driver.evaluate(script).text().to_string()
    }

    /// An arrow over more than 80 rows is drawn only while one of its ends is selected.
    pub fn long_arrows(&self, page: &Page) {
        let count = |drawn: &str| {
            let script = format!(
                "Array.from(document.querySelectorAll('{drawn}')).filter(path => path.getClientRects().length > 0).length"
            );
            self.value(&script).number() as usize
        };
        self.value("location.hash = ''");
        let near = page.arrows.iter().filter(|(commit, sighting, _)| commit - sighting <= 80).count();
        assert_eq!((count("#arrows path"), count("li path")), (near, 0));
        let far: Vec<_> = page.arrows.iter().filter(|(commit, sighting, _)| commit - sighting > 80).collect();
        assert!(near > 10 && !far.is_empty(), "{near} short and {} long arrows", far.len());
        for end in [far[0].0, far[0].1] {
            self.go_to(end);
            let own = far.iter().filter(|(commit, sighting, _)| [*commit, *sighting].contains(&end)).count();
            assert_eq!((count("#arrows path"), count("li path")), (near, own), "line {end}");
        }
        self.picture("busy-long-arrow");
    }

    /// The page of 10,000 lines. Held is the processor time of the page's main thread, since other work may slow a run.
    pub fn is_quick_to_open(&self, page: &Page) {
        self.driver.command("Performance.enable", "{\"timeDomain\":\"threadTicks\"}");
        let (start, before) = (Instant::now(), self.busy_seconds());
        self.opens_in_silence(page);
        let (wall, busy) = (start.elapsed(), self.busy_seconds() - before);
        println!("10,000 lines: opened and looked at in {wall:?}, {busy:.2} s of it busy");
        assert!(busy <= OPENS_WITHIN, "opened in {busy} s");
    }

    /// Of keys that are pressed one after the other, the mean.
    pub fn is_quick_to_answer(&self) {
        let keys = ["n", "n", "ArrowDown", "n", "p", "ArrowUp", "n", "p"];
        self.driver.press_all(&keys);
        let (start, before) = (Instant::now(), self.busy_seconds());
        self.driver.press_all(&keys);
        let count = keys.len() as f64;
        let (wall, busy) = (start.elapsed().as_secs_f64() / count, (self.busy_seconds() - before) / count);
        println!("10,000 lines: a key answered in {wall:.3} s, {busy:.3} s of it busy");
        assert!(busy <= ANSWERS_WITHIN, "a key answered in {busy} s");
    }

    fn busy_seconds(&self) -> f64 {
        let metrics = self.driver.command("Performance.getMetrics", "{}");
        let is_time = |metric: &&Json| metric.get("name").text() == "TaskDuration";
        metrics.get("metrics").list().iter().find(is_time).expect("a time").get("value").number()
    }

    /// The kinds of elements and attributes of the page that is open.
    pub fn kinds(&self) -> Vec<String> {
        let script = "const kinds = new Set();
            for (const element of document.querySelectorAll('*')) {
                kinds.add(element.localName);
                for (const attribute of element.attributes) kinds.add(element.localName + ' ' + attribute.name);
            }
            return Array.from(kinds);";
        self.driver.evaluate(script).list().iter().map(|kind| kind.text().to_string()).collect()
    }

    /// No element and no attribute that a plain page has not.
    pub fn shows_what_was_written(&self, hostile: &Page, plain: &[String]) {
        let strange: Vec<String> = self.kinds().into_iter().filter(|kind| !plain.contains(kind)).collect();
        assert!(strange.is_empty(), "{strange:?}");
        let count = |selector: &str| self.value(&format!("document.querySelectorAll('{selector}').length")).number();
        assert_eq!((count("script"), count("style"), count("a:not([href^=\"#L\"])")), (1.0, 1.0, 0.0));
        assert_eq!(self.value("document.querySelector('h1').textContent").text(), hostile.title);
    }

    pub fn works_without_scripts(&self, sample: &Page, busy: &Page) {
        self.driver.command("Emulation.setScriptExecutionDisabled", "{\"value\":true}");
        self.open(&sample.at(14));
        assert!(self.value("document.querySelector('.keys').hidden").is_true(), "a script has run");
        assert_eq!(self.selected("without scripts"), 14);
        let arrows =
            "Array.from(document.querySelectorAll('#arrows path')).filter(path => path.getClientRects()[0].width > 0)";
        assert_eq!(self.value(&format!("{arrows}.length")).number(), 2.0);
        self.picture("sample-14-without-scripts");
        for &line in busy.refused.iter().take(1).chain([&busy.lines]) {
            self.open(&busy.at(line));
            assert_eq!(self.selected("without scripts"), line);
        }
        self.driver.command("Emulation.setScriptExecutionDisabled", "{\"value\":false}");
    }

    /// By their borders, whatever colours are seen.
    pub fn tells_ends_apart(&self) {
        let script = "const ends = {};
            for (const kind of ['granted', 'stale', 'aborted', 'open']) {
                const box = document.querySelector('.box.' + kind + ':not(.above)');
                const style = getComputedStyle(box);
                const lower = kind == 'open' || style.borderBottomWidth != '0px';
                ends[kind] = [style.borderTopStyle, style.borderLeftStyle, lower ? style.borderBottomWidth : '2px',
                    style.backgroundImage == 'none' ? 'plain' : 'hatched'].join(' ');
            }
            return ends;";
        for vision in VISIONS {
            self.driver.command("Emulation.setEmulatedVisionDeficiency", &format!("{{\"type\":\"{vision}\"}}"));
            let ends = self.driver.evaluate(script);
            let style = |kind: &str| ends.get(kind).text().to_string();
            assert_eq!(style("granted"), "solid solid 2px plain");
            assert_eq!(style("stale"), "dashed dashed 2px hatched");
            assert_eq!(style("aborted"), "dotted dotted 2px plain");
            assert_eq!(style("open"), "solid solid 0px plain");
            self.picture(&format!("busy-{vision}"));
        }
        self.driver.command("Emulation.setEmulatedVisionDeficiency", "{\"type\":\"none\"}");
    }

    pub fn has_contrast(&self, page: &Page) {
        self.go_to(page.refused.first().copied().unwrap_or(1));
        for scheme in ["light", "dark"] {
            let feature = format!("[{{\"name\":\"prefers-color-scheme\",\"value\":\"{scheme}\"}}]");
            self.driver.command("Emulation.setEmulatedMedia", &format!("{{\"features\":{feature}}}"));
            let least = self.driver.evaluate(CONTRAST);
            let (contrast, text) = (least.get("contrast").number(), least.get("text").text());
            println!("{}, {scheme}: least contrast {contrast:.1}, {text}", page.name);
            assert!(contrast >= 4.5, "{}, {scheme}: {least:?}", page.name);
            assert!(least.get("texts").number() > 50.0, "{}: {least:?}", page.name);
        }
        self.picture(&format!("{}-dark", page.name));
        self.driver.command("Emulation.setEmulatedMedia", "{\"features\":[]}");
    }

    /// Tab reaches the links one after the other, and where the focus is can be seen.
    pub fn shows_the_focus(&self) {
        for text in ["5 refusals", "line 14", "13", "9"] {
            assert_eq!(self.next_focus(), text);
        }
        self.value("document.querySelector('#L2>a').focus()");
        assert_eq!(self.next_focus(), "3transaction 2: Begin");
        self.picture("sample-focus");
    }

    /// The text of the element that Tab leads to. Its outline can be seen.
    fn next_focus(&self) -> String {
        self.driver.press("Tab");
        let focus = self.driver.evaluate(
            "const link = document.activeElement, style = getComputedStyle(link);
            return { text: link.textContent, seen: style.outlineStyle != 'none' && parseFloat(style.outlineWidth) >= 2 };",
        );
        assert!(focus.get("seen").is_true(), "{focus:?}");
        focus.get("text").text().to_string()
    }

    /// What a reader of the screen is told of each row.
    pub fn tells_each_row(&self, page: &Page) {
        let tree = self.driver.command("Accessibility.getFullAXTree", "{}");
        let nodes = tree.get("nodes").list();
        let is_link = |node: &&Json| node.get("role").get("value") == &Json::Text("link".to_string());
        let names = nodes.iter().filter(is_link).map(|link| link.get("name").get("value").text());
        let spoken: Vec<String> = names.map(|name| name.split_whitespace().collect::<Vec<&str>>().join(" ")).collect();
        for row in ["1 transaction 1: Begin", "14 transaction 0: Commit ✗ 13 Stale", "38 hello ✗ 17 BadLine"] {
            assert!(spoken.iter().any(|name| name == row), "{row}: {spoken:?}");
        }
        assert!(spoken.iter().filter(|name| name.contains("transaction")).count() as u64 == page.lines - 1);
    }

    pub fn prints(&self) {
        self.go_to(14);
        self.driver.print(&self.pictures.join("sample.pdf"));
        self.driver.command("Emulation.setEmulatedMedia", "{\"media\":\"print\"}");
        let shown = "getComputedStyle(document.querySelector('li:target>.n')).display";
        assert_eq!(self.value(shown).text(), "none", "the note would cover a printed page");
        self.picture("sample-print");
        self.driver.command("Emulation.setEmulatedMedia", "{\"media\":\"\"}");
    }

    /// The picture that docs/timeline.png is a copy of: line 14 is selected.
    pub fn portrays(&self, page: &Page) {
        let size = "{\"width\":924,\"height\":776,\"deviceScaleFactor\":1.3,\"mobile\":false}";
        self.driver.command("Emulation.setDeviceMetricsOverride", size);
        self.driver.command("Emulation.setScrollbarsHidden", "{\"hidden\":true}");
        self.open(&page.at(14));
        self.value("scrollTo(0, 0)");
        self.picture("timeline");
        self.driver.command("Emulation.setScrollbarsHidden", "{\"hidden\":false}");
        self.driver.command("Emulation.clearDeviceMetricsOverride", "{}");
    }
}

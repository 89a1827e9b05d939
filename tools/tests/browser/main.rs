//! The pages of `timeline` in Chromium. Pictures of them are kept in target/tmp/pictures, to be looked at. Where browser and
//! driver are not installed, nothing is tested and the test says so.

mod checks;
mod driver;
mod json;
mod keys;
mod pages;

use std::io::Write;

use checks::Check;
use driver::Driver;

const WIDTH: u32 = 1280;
const HEIGHT: u32 = 1143;

#[test]
fn pages_in_a_browser() {
    if !driver::is_installed() {
        let said = writeln!(std::io::stderr(), "left out: chromium and chromedriver are not installed");
        return said.expect("standard error is written");
    }
    let driver = Driver::start(WIDTH, HEIGHT);
    let check = Check::new(&driver);
    let busy = pages::busy();
    let plain = check_busy(&check, &busy);
    let sample = pages::sample();
    check_sample(&check, &sample);
    check_hostile(&check, &plain);
    check_log(&check);
    check_long(&check);
    for page in [&sample, &busy] {
        check.selects_by_address(page);
    }
    check.works_without_scripts(&sample, &busy);
    check.portrays(&pages::first_lines());
}

/// What kinds of elements and attributes does a plain page have?
fn check_busy(check: &Check, page: &pages::Page) -> Vec<String> {
    check.opens_in_silence(page);
    let kinds = check.kinds();
    check.needs_no_sideways_scrolling(page);
    check.tells_ends_apart();
    check.keys(page, &keys::tour(page));
    check.long_arrows(page);
    check.has_contrast(page);
    kinds
}

fn check_sample(check: &Check, page: &pages::Page) {
    check.opens_in_silence(page);
    check.needs_no_sideways_scrolling(page);
    check.shows_the_focus();
    check.tells_each_row(page);
    check.keys(page, &keys::of_the_sample());
    check.thick_arrows_of_the_sample();
    check.has_contrast(page);
    check.prints();
}

fn check_hostile(check: &Check, plain: &[String]) {
    let page = pages::hostile();
    check.opens_in_silence(&page);
    check.needs_no_sideways_scrolling(&page);
    check.shows_what_was_written(&page, plain);
    check.has_contrast(&page);
}

fn check_log(check: &Check) {
    let page = pages::log();
    check.opens_in_silence(&page);
    check.needs_no_sideways_scrolling(&page);
    check.keys(&page, &keys::tour(&page));
    check.has_contrast(&page);
}

fn check_long(check: &Check) {
    let page = pages::long();
    check.is_quick_to_open(&page);
    check.needs_no_sideways_scrolling(&page);
    check.is_quick_to_answer();
    check.keys(&page, &keys::tour(&page));
    check.selects_by_address(&page);
}

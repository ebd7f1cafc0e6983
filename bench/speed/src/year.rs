//! A year of journals, as one text that is records to its last byte.

use crate::texts;
use model::page::page;

/// A page a day.
pub const PAGES: usize = 365;

/// What stands behind the lines of the table.
fn records(journal: &str) -> String {
    let mut page = page(journal.as_bytes());
    let table = page.find("do=").expect("a page with records");
    page.split_off(table)
}

/// So many pages without their tables: P2 in turns, contention, all refused, and again.
pub fn of_pages(pages: usize) -> String {
    let journals = [texts::turns(), texts::contention(), texts::refusals()];
    let records = journals.map(|journal| records(&journal));
    let each_day = records.iter().map(String::as_str).cycle();
    each_day.take(pages).collect()
}

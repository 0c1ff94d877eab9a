//! The worked cases, on a card of 8 blocks and 3 slots. A case is a list of script lines with the answers due;
//! a cut with a landing is a `power` with the blocks that did not land taken back.

#![cfg(test)]

use crate::format::{Block, BLOCK};
use crate::script::{hex, Session};

/// `alto`, `bass` and `ABC` as they stand in scripts.
const ALTO: &str = "616c746f";
const BASS: &str = "62617373";
const ABC: &str = "414243";

/// A session that is asked line by line.
struct Case {
    session: Session,
    /// The image when last settled.
    settled: Vec<Block>,
}

impl Case {
    /// A new image, plain.
    fn on(blocks: usize) -> Case {
        let mut case = Case { session: Session::default(), settled: Vec::new() };
        case.asks(&format!("card {blocks}"), "ok");
        case
    }

    fn asks(&mut self, line: &str, due: &str) {
        assert_eq!(self.session.line(line.as_bytes()).as_deref(), Some(due), "{line}");
        if line.starts_with("format") || line == "sync" {
            self.settled = self.session.stack.image.clone();
        }
    }

    /// The same, and the blocks that are written, in order.
    fn writes(&mut self, line: &str, due: &str, blocks: &[u16]) {
        self.asks(line, due);
        let asked: Vec<u16> = self.session.stack.asked.iter().map(|put| put.0).collect();
        assert_eq!(asked, blocks, "{line}");
    }

    /// The first bytes of a raw block.
    fn looks(&mut self, block: usize, due: &[u8]) {
        assert_eq!(&self.session.stack.image[block][..due.len()], due, "block {block}");
    }

    /// A cut after which exactly the chosen blocks show their last content, the others the settled one.
    fn cut(&mut self, lands: impl Fn(u16) -> bool) {
        self.asks("power", "ok");
        for b in 0..self.settled.len() {
            if !lands(b as u16) {
                let line = format!("block {b} {}", hex(&self.settled[b]));
                self.asks(&line, "ok");
            }
        }
    }

    fn opens(&mut self) {
        self.asks("open", "ok");
        self.asks("end", "ok");
    }
}

fn case_a() -> Case {
    let mut case = Case::on(8);
    case.writes("format 8 3", "ok", &[0, 1, 2, 3, 4, 5, 6, 7]);
    case.looks(0, &[1, 1, 8, 0, 3, 0]);
    case.opens();
    case.asks("space", "ok 4 2");
    case
}

fn case_b() -> Case {
    let mut case = case_a();
    case.writes(&format!("create 0 1 {ALTO} file"), "ok 1 2", &[2, 4, 1]);
    case
}

fn case_c() -> Case {
    let mut case = case_b();
    case.writes(&format!("write 1 2 0 {ABC}"), "ok", &[5, 2]);
    case.looks(5, &[4, 0, 1, 0, 2, 0, 0, 0, 0, 0, 3, 0, 0, 0, 0, 0, 65, 66, 67]);
    case.looks(2, &[2, 0, 1, 0, 2, 0, 0, 0, 1, 0, 0, 0, 0, 0, 0, 0, 5, 0]);
    case
}

fn before_the_cut() -> Case {
    let mut case = case_c();
    case.writes(&format!("create 0 1 {BASS} file"), "ok 2 3", &[3, 4]);
    case.asks("sync", "ok");
    case.writes("shorten 1 2 0", "ok", &[2]);
    case.writes(&format!("write 2 3 0 {ABC}"), "ok", &[6, 3]);
    case.writes(&format!("write 2 3 1 {ABC}"), "ok", &[7, 3]);
    case.writes(&format!("write 2 3 2 {ABC}"), "ok", &[5, 3]);
    case
}

#[test]
fn a_b_c_a_new_card_and_a_first_file() {
    case_c();
}

#[test]
fn d_only_the_body_lands() {
    let mut case = case_c();
    case.cut(|b| b == 5);
    case.asks("open", "ok");
    for step in ["ok 6 1", "ok 5 1", "ok 4 1", "ok 3 1", "ok 2 2", "ok 1 2", "ok 0 2", "ok 0 2"] {
        case.asks("step", step);
    }
    case.asks("end", "ok");
    case.asks(&format!("path {ALTO}"), "refused 9 file 0 at 0");
    case.asks("space", "ok 4 2");
    case.writes(&format!("create 0 1 {BASS} file"), "ok 1 3", &[2, 4, 1]);
}

#[test]
fn e_all_but_the_body_land() {
    let mut case = case_c();
    case.cut(|b| b != 5);
    case.opens();
    case.asks(&format!("path {ALTO}"), "ok 1 2");
    case.asks("read 1 2 0 496", "refused 8 file 5");
    case.asks("space", "ok 3 1");
}

#[test]
fn f_all_but_the_slot_land() {
    let mut case = case_c();
    case.cut(|b| b != 2);
    case.opens();
    case.asks(&format!("path {ALTO}"), "refused 9 file 0 at 0");
    case.asks("space", "ok 3 2");
    case.writes(&format!("create 0 1 {BASS} file"), "ok 1 3", &[2, 4]);
}

#[test]
fn g_a_body_given_to_another_lands_alone() {
    let mut case = before_the_cut();
    case.cut(|b| b == 5);
    case.opens();
    case.asks(&format!("path {ALTO}"), "ok 1 2");
    case.asks("read 1 2 0 496", "refused 8 file 5");
    case.asks(&format!("path {BASS}"), "ok 2 3");
    case.asks("status 2 3", "ok file 0 0 1");
}

#[test]
fn h_the_other_slot_lands_alone() {
    let mut case = before_the_cut();
    case.cut(|b| b == 3);
    case.opens();
    case.asks(&format!("path {ALTO}"), "ok 1 2");
    case.asks("read 1 2 0 496", &format!("ok 3 {ABC}"));
    case.asks(&format!("path {BASS}"), "ok 2 3");
    case.asks("read 2 3 0 496", "refused 8 file 6");
    case.asks("read 2 3 1 496", "refused 8 file 7");
    case.asks("read 2 3 2 496", "refused 8 file 5");
    case.asks("damage 4096", "ok 3 2:0 2:1 2:2");
    case.asks("damage 1", "ok 3 2:0");
    case.writes(&format!("remove 0 1 {BASS}"), "ok", &[4, 3]);
    case.asks("space", "ok 2 1");
}

#[test]
fn i_no_body_is_free() {
    let mut case = before_the_cut();
    case.writes(&format!("write 2 3 3 {ABC}"), "refused 13 file 2", &[]);
}

#[test]
fn limits() {
    let mut case = Case::on(8);
    case.asks("format 8 3", "ok");
    case.opens();
    case.asks(&format!("create 0 1 {} file", "61".repeat(24)), "ok 1 2");
    case.asks(&format!("create 0 1 {} file", "61".repeat(25)), "refused 11 file 25");
    let full = "41".repeat(496);
    case.asks(&format!("write 1 2 0 {full}"), "ok");
    case.asks("read 1 2 0 496", &format!("ok 496 {full}"));
    case.asks(&format!("write 1 2 0 {full}41"), "refused 12 file 497");
    case.asks("path 612f2f62", "refused 11 file 0 at 1");
    case.asks("power", "ok");
    case.asks("format 4 2", "ok");
    case.asks("format 3 2", "refused 18 card 3");
}

#[test]
fn on_seven_blocks() {
    let mut case = Case::on(7);
    case.asks("format 8 3", "refused 4 card 8");
    case.asks("open", "ok");
    case.asks("step", "refused 3 card 0");
    case.asks("end", "ok");
    case.asks("space", "refused 3 card 0");
}

#[test]
fn other_replies() {
    let mut case = case_c();
    case.asks(&format!("find 0 1 {ALTO}"), "ok 1 2");
    case.asks("list 0 1 4096", &format!("ok 1 {ALTO}:1:2"));
    case.asks("list 0 1 0", "ok 1");
    case.asks("path -", "ok 0 1");
    case.asks(&format!("path {ALTO}2f{BASS}"), "refused 6 file 1 at 1");
    case.asks(&format!("find 0 1 {BASS}"), "refused 9 file 0");
    case.asks(&format!("find 2 2 {ALTO}"), "refused 5 file 2");
    case.asks("status 1 3", "refused 5 file 1");
    case.asks("read 0 1 0 496", "refused 6 file 0");
    case.asks("read 1 2 1 496", "refused 7 file 1");
    case.asks("read 1 2 0 495", "refused 12 file 495");
    case.asks(&format!("write 1 2 2 {ABC}"), "refused 7 file 2");
    case.writes("write 1 2 0 -", "ok", &[5]);
    case.asks("read 1 2 0 496", "ok 0 -");
    case.asks("shorten 1 2 2", "refused 7 file 2");
    case.writes("shorten 1 2 1", "ok", &[]);
    case.asks(&format!("create 0 1 {ALTO} file"), "refused 10 file 1");
    case.writes(&format!("create 0 1 {BASS} folder"), "ok 2 3", &[3, 4]);
    case.asks(&format!("create 2 3 {ALTO} file"), "refused 14 card 3");
    case.writes(&format!("remove 0 1 {ALTO}"), "ok", &[4, 2]);
    case.writes(&format!("create 2 3 {ALTO} file"), "ok 1 4", &[2, 6, 3]);
    case.asks(&format!("path {BASS}2f{ALTO}"), "ok 1 4");
    case.asks(&format!("remove 0 1 {BASS}"), "refused 17 file 2");
    case.cut(|_| false);
    case.asks("open", "ok");
    case.asks("step", "ok 6 1");
    case.asks("step", "ok 5 1");
    case.asks("end", "ok");
    case.asks("space", "ok 4 2");
}

#[test]
fn power_goes_at_the_third_write_of_a_create() {
    let mut case = case_a();
    case.asks("layers failing 2", "ok");
    case.opens();
    case.writes(&format!("create 0 1 {ALTO} file"), "refused 1 device 1", &[2, 4, 1]);
    case.asks(&format!("find 0 1 {ALTO}"), "refused 1 device 1");
    case.asks("find 0 1 -", "refused 11 file 0");
    case.asks(&format!("path {ALTO}"), "refused 1 device 1 at 0");
    case.asks("sync", "refused 1 device 1");
    case.asks("power", "ok");
    case.opens();
    case.asks(&format!("find 0 1 {ALTO}"), "refused 9 file 0");
    case.asks("layers plain", "ok");
    case.opens();
    case.writes(&format!("create 0 1 {ALTO} file"), "ok 1 3", &[2, 4, 1]);
}

#[test]
fn buffered_over_failing() {
    let mut case = Case::on(12);
    case.asks("layers buffered failing 3", "ok");
    // eight wait; the ninth to the eleventh send 7, 8 and 9 down; the twelfth meets power gone
    case.asks("format 12 3", "refused 1 device 11");
    case.asks("format 12 3", "refused 1 device 0");
    case.asks("open", "ok");
    case.asks("step", "refused 1 device 0");
    case.asks("layers failing 11 buffered", "ok");
    case.asks("format 12 3", "refused 1 device 11");
    case.asks("layers buffered failing 11", "ok");
    case.asks("format 12 3", "refused 1 device 65535");
    case.asks("layers buffered failing 12", "ok");
    case.asks("format 12 3", "ok");
}

#[test]
fn the_script_itself() {
    let mut case = Case::on(0);
    case.asks("dump 0", "bad command");
    case.asks("open", "ok");
    case.asks("open", "not now");
    case.asks("sync", "not now");
    case.asks("path -", "refused 3 card 0 at 0");
    case.asks("end", "ok");
    case.asks("step", "not now");
    for bad in ["", " ", "    ", "# find", "#"] {
        assert_eq!(case.session.line(bad.as_bytes()), None);
    }
    for bad in [
        " open", "open ", "open\r", "find  0 1 61", "find 0 1 6", "find 0 1 6A", "find 65536 1 61", "card 4097", "block 0 -",
        "list 0 1 4097", "layers", "layers plain buffered", "power now", "create 0 1 61", "create 0 1 61 dir", "read 0 1 +1 496",
        "layers failing 4294967296", "\t",
    ] {
        assert_eq!(case.session.line(bad.as_bytes()).as_deref(), Some("bad command"), "{bad}");
    }
    case.asks("status 00000000000000000000000000 1", "refused 3 card 0");
    case.asks("card 4096", "ok");
    assert_eq!(case.session.stack.image.len() * BLOCK, 4096 * 512);
    case.asks("screen 2f 0 0", "ok 1011 -");
    case.asks("screen 61 0 0", "ok 1012 -");
    case.asks("screen 61 0 496", "ok 1003 -");
}

//! What document 004 prints a second time, as formulas on words: the S-box and the L-box (section 3.4) and their inverses (Appendices E
//! and F). Only the checks use it: a slip in reading the table or the matrices would have to be made again here. `rot` of a row that is
//! written from bit 0 on is a right rotation of the number.

use super::layers::Rows;

pub fn s([x0, x1, x2, x3]: Rows) -> Rows {
    let y1 = (x0 & x1) ^ x2;
    let y0 = (x3 & x0) ^ x1;
    let y3 = (y1 & x3) ^ x0;
    let y2 = (y0 & y1) ^ x3;
    [y0, y1, y2, y3]
}

pub fn s_undone([x0, x1, x2, x3]: Rows) -> Rows {
    let y3 = (x0 & x1) ^ x2;
    let y0 = (x1 & y3) ^ x3;
    let y1 = (y3 & y0) ^ x0;
    let y2 = (y0 & y1) ^ x1;
    [y0, y1, y2, y3]
}

fn rot(x: u32, places: u32) -> u32 {
    x.rotate_right(places)
}

fn l_pair(x: u32, y: u32) -> (u32, u32) {
    let (mut a, mut b) = (x ^ rot(x, 12), y ^ rot(y, 12));
    (a, b) = (a ^ rot(a, 3), b ^ rot(b, 3));
    (a, b) = (a ^ rot(x, 17), b ^ rot(y, 17));
    let (c, d) = (a ^ rot(a, 31), b ^ rot(b, 31));
    (a, b) = (a ^ rot(d, 26), b ^ rot(c, 25));
    (a ^ rot(c, 15), b ^ rot(d, 15))
}

fn l_pair_undone(x: u32, y: u32) -> (u32, u32) {
    let (mut a, mut b) = (x ^ rot(x, 25), y ^ rot(y, 25));
    let (mut c, mut d) = (x ^ rot(a, 31), y ^ rot(b, 31));
    (c, d) = (c ^ rot(a, 20), d ^ rot(b, 20));
    (a, b) = (c ^ rot(c, 31), d ^ rot(d, 31));
    (c, d) = (c ^ rot(b, 26), d ^ rot(a, 25));
    (a, b) = (a ^ rot(c, 17), b ^ rot(d, 17));
    (rot(a, 16), rot(b, 16))
}

fn on_pairs([x0, x1, x2, x3]: Rows, f: fn(u32, u32) -> (u32, u32)) -> Rows {
    let ((y0, y1), (y2, y3)) = (f(x0, x1), f(x2, x3));
    [y0, y1, y2, y3]
}

pub fn l(x: Rows) -> Rows {
    on_pairs(x, l_pair)
}

pub fn l_undone(x: Rows) -> Rows {
    on_pairs(x, l_pair_undone)
}

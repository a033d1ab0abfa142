//! Crossing marks without split lists. A leaf leaves two numbers behind: at its column the line below it, at its line the column right of it.
//! A top line at y is crossed from above in column c exactly where a leaf that starts in column c ends above y, so where the column's number is y;
//! a left side in column x is crossed from the left at line l exactly where the line's number is x. Nothing has to be cleared: a number that is
//! out of date is less than the line (the column) in question.

use crate::canvas::{splat, store16, store_part, Canvas};
use crate::nodes::{Node, Nodes, Sharing};
use crate::record::{mark, Settings};
use crate::{refused, Answer};
use core::arch::x86_64::*;
use core::mem::MaybeUninit;

#[derive(Clone, Copy)]
struct Group {
    row: bool,
    x: usize,
    y: usize,
    /// The extent beside the axis.
    beside: usize,
    sharing: Sharing,
}

/// What is at a leaf's start: the sheet's corner, a Row's later child, a Column's later child.
#[derive(Clone, Copy, PartialEq)]
enum Start {
    Corner,
    Across,
    Down,
}

struct Painter<'a> {
    canvas: Canvas<'a>,
    columns: [u8; 432],
    lines: [u16; 176],
    top: __m128i,
    /// What turns a top mark into a bottom_intersection.
    turn: __m128i,
    top_left: u8,
    top_intersection: u8,
    left_intersection: u8,
    right_intersection: u8,
    intersection: u8,
}

impl Painter<'_> {
    #[inline(always)]
    unsafe fn leaf<const FAST: bool>(
        &mut self,
        node: Node,
        feeds: u64,
        start: Start,
        (x, y): (usize, usize),
        (w, h): (usize, usize),
    ) {
        let base = self.canvas.out.add(y * self.canvas.stride + x);
        let corner = match start {
            Start::Corner => self.top_left,
            Start::Across if *self.columns.get_unchecked(x) == y as u8 => self.intersection,
            Start::Across => self.top_intersection,
            Start::Down if *self.lines.get_unchecked(y) == x as u16 => self.intersection,
            Start::Down => self.left_intersection,
        };
        *base = corner;
        let met = splat(y as u8);
        let mut k = 0;
        while k < w {
            let c = _mm_loadu_si128(self.columns.as_ptr().add(x + 1 + k).cast());
            let v = _mm_xor_si128(self.top, _mm_and_si128(_mm_cmpeq_epi8(c, met), self.turn));
            if FAST {
                store16(base.add(1 + k), v);
            } else {
                store_part(base.add(1 + k), v, 16.min(w - k));
            }
            k += 16;
        }
        let first = base.add(self.canvas.stride);
        self.canvas.body::<FAST>(first, node, feeds, w, h);
        let met = _mm_set1_epi16(x as i16);
        let mut k = 0;
        while k < h {
            let c = _mm_loadu_si128(self.lines.as_ptr().add(y + 1 + k).cast());
            let hits = _mm_packs_epi16(_mm_cmpeq_epi16(c, met), _mm_setzero_si128());
            let mut hits = _mm_movemask_epi8(hits) as u32;
            while hits != 0 {
                let j = k + hits.trailing_zeros() as usize;
                if j >= h {
                    break;
                }
                *first.add(j * self.canvas.stride) = self.right_intersection;
                hits &= hits - 1;
            }
            k += 8;
        }
        *self.columns.get_unchecked_mut(x) = (y + h + 1) as u8;
        *self.lines.get_unchecked_mut(y) = (x + w + 1) as u16;
    }
}

pub fn print_sheet(settings: &[u8], tree: &[u8], out: &mut [u8]) -> Answer {
    let Some(s) = Settings::read(settings) else {
        return refused(1);
    };
    let mut nodes = Nodes::new();
    let number = nodes.read(&s, tree);
    if number != 0 {
        return refused(number);
    }
    let root = nodes.at(0);
    let (wide, tall) = (root.w as usize + 2, root.h as usize + 2);
    if wide > 400 || tall > 160 {
        return refused(6);
    }
    let stride = wide + 1;
    let count = stride * tall - 1;
    if out.len() < count {
        return refused(8);
    }
    let m = |which: usize| s.mark(which);
    let mut painter = Painter {
        canvas: Canvas::new(&s, tree, out.as_mut_ptr(), stride),
        columns: [255; 432],
        lines: [u16::MAX; 176],
        top: splat(m(mark::TOP)),
        turn: splat(m(mark::TOP) ^ m(mark::BOTTOM_INTERSECTION)),
        top_left: m(mark::TOP_LEFT),
        top_intersection: m(mark::TOP_INTERSECTION),
        left_intersection: m(mark::LEFT_INTERSECTION),
        right_intersection: m(mark::RIGHT_INTERSECTION),
        intersection: m(mark::INTERSECTION),
    };
    // The walk: sizes are allotted and leaves painted in node order.
    let mut stack = [MaybeUninit::<Group>::uninit(); 17];
    let mut depth = 0;
    let mut g = Group {
        row: true,
        x: 0,
        y: 0,
        beside: 0,
        sharing: Sharing::NONE,
    };
    let (mut start, mut x, mut y, mut w, mut h) =
        (Start::Corner, 0, 0, root.w as usize, root.h as usize);
    let mut i = 0;
    loop {
        let node = nodes.at(i);
        if node.is_group() {
            stack[depth] = MaybeUninit::new(g);
            depth += 1;
            let row = node.across();
            let (spare, beside) = if row {
                (w - node.w as usize, h)
            } else {
                (h - node.h as usize, w)
            };
            g = Group {
                row,
                x,
                y,
                beside,
                sharing: Sharing::new(spare, node.at as usize, s.priority(row)),
            };
        } else {
            unsafe {
                let feeds = nodes.feeds(i);
                if x + 1 + w + 16 <= stride {
                    painter.leaf::<true>(node, feeds, start, (x, y), (w, h));
                } else {
                    painter.leaf::<false>(node, feeds, start, (x, y), (w, h));
                }
            }
            while g.sharing.left == 0 && depth > 0 {
                depth -= 1;
                g = unsafe { stack[depth].assume_init() };
            }
            if depth == 0 {
                break;
            }
            start = if g.row { Start::Across } else { Start::Down };
        }
        i += 1;
        let child = nodes.at(i);
        let part = g.sharing.next();
        (x, y) = (g.x, g.y);
        if g.row {
            (w, h) = (child.w as usize + part, g.beside);
            g.x += w + 1;
        } else {
            (w, h) = (g.beside, child.h as usize + part);
            g.y += h + 1;
        }
    }
    // The last line, the last column, the line feeds.
    let last = tall - 1;
    unsafe {
        let (p, met) = (out.as_mut_ptr().add(last * stride), splat(last as u8));
        let (bottom, turn) = (
            splat(m(mark::BOTTOM)),
            splat(m(mark::BOTTOM) ^ m(mark::BOTTOM_INTERSECTION)),
        );
        let mut k = 0;
        while k < wide {
            let c = _mm_loadu_si128(painter.columns.as_ptr().add(k).cast());
            let v = _mm_xor_si128(bottom, _mm_and_si128(_mm_cmpeq_epi8(c, met), turn));
            store_part(p.add(k), v, 16.min(wide - k));
            k += 16;
        }
        *p = m(mark::BOTTOM_LEFT);
        let mut p = out.as_mut_ptr().add(wide - 1);
        for line in 0..last {
            let met = *painter.lines.get_unchecked(line) as usize == wide - 1;
            let b = if met {
                m(mark::RIGHT_INTERSECTION)
            } else {
                m(mark::RIGHT)
            };
            p.cast::<[u8; 2]>().write_unaligned([b, b'\n']);
            p = p.add(stride);
        }
        *p = m(mark::BOTTOM_RIGHT);
        *out.as_mut_ptr().add(wide - 1) = m(mark::TOP_RIGHT);
    }
    Answer { number: 0, count }
}

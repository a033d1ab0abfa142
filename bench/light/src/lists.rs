//! The proved code's algorithm: split lists cut by each group and passed on, eight flags, a crossing pass over the list of each side. The nodes
//! are flat, sizes are allotted on the way, the pieces of both axes are in two stacks that are not cleared, the painter is that of `stamps`.

use crate::canvas::{fill, splat, Canvas};
use crate::nodes::{Node, Nodes, Sharing};
use crate::record::{mark, Settings};
use crate::{refused, Answer};
use core::arch::x86_64::__m128i;
use core::mem::MaybeUninit;

const PIECES: usize = 16 * 1024;

#[derive(Clone, Copy)]
struct Flags {
    first_row: bool,
    last_row: bool,
    first_col: bool,
    last_col: bool,
    lean_top: bool,
    top_left: bool,
    top_intersection: bool,
}

#[derive(Clone, Copy)]
struct Place {
    x: usize,
    y: usize,
    w: usize,
    h: usize,
}

/// Pieces on a stack, from `at` on.
#[derive(Clone, Copy)]
struct List {
    at: usize,
    n: usize,
}

struct Walker<'a> {
    s: &'a Settings<'a>,
    nodes: &'a Nodes,
    canvas: Canvas<'a>,
    top: __m128i,
    bottom: __m128i,
    next: usize,
    /// Across and down.
    pieces: [MaybeUninit<[u16; PIECES]>; 2],
}

#[inline(always)]
unsafe fn cross(p: *mut u8, step: usize, n: usize, pieces: *const u16, count: usize, byte: u8) {
    let mut pos = 0;
    for i in 0..count {
        pos += *pieces.add(i) as usize;
        if pos + i >= n {
            return;
        }
        *p.add((pos + i) * step) = byte;
    }
}

impl Walker<'_> {
    #[inline(always)]
    fn stack(&mut self, row: bool) -> *mut u16 {
        self.pieces[!row as usize].as_mut_ptr().cast()
    }

    #[inline(always)]
    unsafe fn leaf<const FAST: bool>(
        &mut self,
        node: Node,
        feeds: u64,
        at: Place,
        f: Flags,
        across: List,
        down: List,
    ) {
        let Place { x, y, w, h } = at;
        let m = |which: usize| self.s.mark(which);
        let stride = self.canvas.stride;
        let base = self.canvas.out.add(y * stride + x);
        *base = m(if f.top_intersection {
            mark::INTERSECTION
        } else if f.top_left {
            mark::LEFT_INTERSECTION
        } else if f.lean_top {
            mark::TOP_INTERSECTION
        } else if f.first_col && !f.first_row {
            mark::LEFT_INTERSECTION
        } else {
            mark::TOP_LEFT
        });
        fill::<FAST>(base.add(1), self.top, w);
        cross(
            base.add(1),
            1,
            w,
            self.pieces[0].as_ptr().cast::<u16>().add(across.at),
            across.n,
            m(mark::BOTTOM_INTERSECTION),
        );
        let first = base.add(stride);
        self.canvas.body::<FAST>(first, node, feeds, w, h);
        cross(
            first,
            stride,
            h,
            self.pieces[1].as_ptr().cast::<u16>().add(down.at),
            down.n,
            m(mark::RIGHT_INTERSECTION),
        );
        if f.last_col {
            let mut p = base.add(1 + w);
            *p = m(if f.first_row {
                mark::TOP_RIGHT
            } else {
                mark::RIGHT_INTERSECTION
            });
            *p.add(1) = b'\n';
            for _ in 0..h {
                p = p.add(stride);
                *p = m(mark::RIGHT);
                *p.add(1) = b'\n';
            }
        }
        if f.last_row {
            let p = first.add(h * stride);
            *p = m(if f.first_col {
                mark::BOTTOM_LEFT
            } else {
                mark::BOTTOM_INTERSECTION
            });
            fill::<FAST>(p.add(1), self.bottom, w);
            if f.last_col {
                *p.add(1 + w) = m(mark::BOTTOM_RIGHT);
            }
        }
    }

    /// The next node; the counts of what it gives back, which is where the lists were.
    unsafe fn walk(&mut self, at: Place, f: Flags, across: List, down: List) -> (usize, usize) {
        let i = self.next;
        self.next += 1;
        let node = self.nodes.at(i);
        if node.is_group() {
            return self.group(node, at, f, across, down);
        }
        let feeds = self.nodes.feeds(i);
        if at.x + 1 + at.w + 16 <= self.canvas.stride {
            self.leaf::<true>(node, feeds, at, f, across, down);
        } else {
            self.leaf::<false>(node, feeds, at, f, across, down);
        }
        *self.stack(true).add(across.at) = at.w as u16;
        *self.stack(false).add(down.at) = at.h as u16;
        (1, 1)
    }

    unsafe fn group(
        &mut self,
        node: Node,
        place: Place,
        f: Flags,
        across: List,
        down: List,
    ) -> (usize, usize) {
        let row = node.across();
        let spare = if row {
            place.w - node.w as usize
        } else {
            place.h - node.h as usize
        };
        let mut sharing = Sharing::new(spare, node.at as usize, self.s.priority(row));
        let (along, beside) = if row { (across, down) } else { (down, across) };
        let pieces = self.stack(row);
        let joined = along.at + along.n.max(1);
        let (mut from, to, mut n, mut handed) = (along.at, along.at + along.n, 0, beside.n);
        let (mut at, mut old, mut first) = (place, f.top_intersection, true);
        while sharing.left > 0 {
            let part = sharing.next();
            let child = self.nodes.at(self.next);
            let last = sharing.left == 0;
            let extent = if row {
                child.w as usize + part
            } else {
                child.h as usize + part
            };
            // `short_splits3`.
            let (mut pos, mut taken, mut split) = (0, 0, false);
            while from < to {
                let piece = *pieces.add(from);
                if pos + piece as usize >= extent {
                    let short = pos + piece as usize - extent;
                    split = short == 0;
                    if split {
                        from += 1;
                    } else {
                        *pieces.add(from) = (short - 1) as u16;
                    }
                    break;
                }
                *pieces.add(joined + n + taken) = piece;
                pos += piece as usize + 1;
                taken += 1;
                from += 1;
            }
            let top_intersection = old;
            let (cut, other) = (
                List {
                    at: joined + n,
                    n: taken,
                },
                List {
                    at: beside.at,
                    n: handed,
                },
            );
            if row {
                at.w = extent;
                let first_col = f.first_col && first;
                let flags = Flags {
                    first_col,
                    last_col: f.last_col && last,
                    lean_top: !first_col,
                    top_left: f.top_left && first,
                    top_intersection,
                    ..f
                };
                let (a, b) = self.walk(at, flags, cut, other);
                n += a;
                handed = b;
                at.x += extent + 1;
            } else {
                at.h = extent;
                let flags = Flags {
                    first_row: f.first_row && first,
                    last_row: f.last_row && last,
                    lean_top: f.lean_top && first,
                    top_left: f.top_left || !first,
                    top_intersection,
                    ..f
                };
                let (a, b) = self.walk(at, flags, other, cut);
                n += b;
                handed = a;
                at.y += extent + 1;
            }
            first = false;
            old = split;
        }
        core::ptr::copy(pieces.add(joined), pieces.add(along.at), n);
        if row {
            (n, handed)
        } else {
            (handed, n)
        }
    }
}

pub fn print_sheet(settings: &[u8], tree: &[u8], out: &mut [u8]) -> Answer {
    let Some(s) = Settings::read(settings) else {
        return refused(1);
    };
    let mut nodes = Nodes::new();
    let number = nodes.read(&s, tree);
    if number != 0 {
        return refused(number);
    }
    let root = nodes.at(0);
    let (wide, tall) = (root.w as usize + 2, root.h as usize + 2);
    if wide > 400 || tall > 160 {
        return refused(6);
    }
    let stride = wide + 1;
    let count = stride * tall - 1;
    if out.len() < count {
        return refused(8);
    }
    let mut walker = Walker {
        s: &s,
        nodes: &nodes,
        canvas: Canvas::new(&s, tree, out.as_mut_ptr(), stride),
        top: splat(s.mark(mark::TOP)),
        bottom: splat(s.mark(mark::BOTTOM)),
        next: 0,
        pieces: [MaybeUninit::uninit(); 2],
    };
    let flags = Flags {
        first_row: true,
        last_row: true,
        first_col: true,
        last_col: true,
        lean_top: false,
        top_left: false,
        top_intersection: false,
    };
    let none = List { at: 0, n: 0 };
    unsafe {
        walker.walk(
            Place {
                x: 0,
                y: 0,
                w: wide - 2,
                h: tall - 2,
            },
            flags,
            none,
            none,
        )
    };
    Answer { number: 0, count }
}

//! One pass over the tree's bytes: every check of 2 to 5, the text bytes, and natural sizes, into flat nodes in preorder.

use crate::record::Settings;
use core::arch::x86_64::*;
use core::mem::MaybeUninit;

pub const MOST: usize = 512;
const DEPTH: usize = 16;
const GROUP: u16 = 0x8000;

/// A leaf's text starts at `at` and has `n` bytes. A group has `at` children, and `n` is `GROUP`, with 1 for a Row.
#[derive(Clone, Copy)]
pub struct Node {
    pub w: u16,
    pub h: u16,
    pub at: u16,
    n: u16,
}

impl Node {
    #[inline(always)]
    pub fn is_group(self) -> bool {
        self.n >= GROUP
    }
    #[inline(always)]
    pub fn across(self) -> bool {
        self.n & 1 == 1
    }
    #[inline(always)]
    pub fn len(self) -> usize {
        self.n as usize
    }
}

pub struct Nodes {
    nodes: MaybeUninit<[Node; MOST]>,
    /// The line feeds of a leaf's text of up to 64 bytes, a bit each.
    feeds: MaybeUninit<[u64; MOST]>,
}

#[derive(Clone, Copy)]
struct Open {
    end: usize,
    node: usize,
    kids: usize,
    sum_w: usize,
    sum_h: usize,
    max_w: usize,
    max_h: usize,
    row: bool,
}

/// The bytes that a text may have, and the line feeds.
#[inline(always)]
unsafe fn classes(v: __m128i) -> (__m128i, __m128i) {
    let feed = _mm_cmpeq_epi8(v, _mm_set1_epi8(10));
    let low = _mm_cmpgt_epi8(v, _mm_set1_epi8(31));
    let del = _mm_cmpeq_epi8(v, _mm_set1_epi8(127));
    (_mm_or_si128(_mm_andnot_si128(del, low), feed), feed)
}

/// A bit for each of 64 bytes; most blocks have none.
#[inline(always)]
unsafe fn gathered(f: [__m128i; 4]) -> u64 {
    let any = _mm_or_si128(_mm_or_si128(f[0], f[1]), _mm_or_si128(f[2], f[3]));
    if _mm_movemask_epi8(any) == 0 {
        return 0;
    }
    let bits = |k: usize| (_mm_movemask_epi8(f[k]) as u64) << (16 * k);
    bits(0) | bits(1) | bits(2) | bits(3)
}

/// The bad bytes and the line feeds of 16 bytes.
#[inline(always)]
unsafe fn look16(p: *const u8) -> (u32, u32) {
    let (good, feed) = classes(_mm_loadu_si128(p.cast()));
    (
        !(_mm_movemask_epi8(good) as u32) & 0xFFFF,
        _mm_movemask_epi8(feed) as u32,
    )
}

#[inline(always)]
unsafe fn look64(p: *const u8) -> (u64, u64) {
    let (mut bad, mut feeds) = (0u64, 0u64);
    for k in 0..4 {
        let (b, f) = look16(p.add(16 * k));
        bad |= (b as u64) << (16 * k);
        feeds |= (f as u64) << (16 * k);
    }
    (bad, feeds)
}

/// The line feeds of 64 bytes.
#[inline(always)]
pub unsafe fn feeds64(p: *const u8) -> u64 {
    let f = |k: usize| _mm_cmpeq_epi8(_mm_loadu_si128(p.add(16 * k).cast()), _mm_set1_epi8(10));
    gathered([f(0), f(1), f(2), f(3)])
}

/// The 64 bytes from `at` on, with spaces past the tree's end.
#[cold]
#[inline(never)]
pub fn padded(tree: &[u8], at: usize) -> [u8; 64] {
    let mut b = [b' '; 64];
    let n = 64.min(tree.len() - at);
    b[..n].copy_from_slice(&tree[at..at + n]);
    b
}

#[inline(always)]
fn below(n: usize) -> u64 {
    if n >= 64 {
        !0
    } else {
        (1 << n) - 1
    }
}

/// The longest line and the line count by the line feeds of up to 64 bytes.
#[inline(always)]
fn by_feeds(mut feeds: u64, len: usize) -> (usize, usize) {
    let (mut from, mut w, mut lines) = (0, 0, 1);
    while feeds != 0 {
        let at = feeds.trailing_zeros() as usize;
        w = w.max(at - from);
        from = at + 1;
        lines += 1;
        feeds &= feeds - 1;
    }
    (w.max(len - from), lines)
}

/// Whether the text is good, its line feeds (of up to 64 bytes), its longest line, its line count.
#[inline(always)]
fn measure(tree: &[u8], at: usize, len: usize) -> (bool, u64, usize, usize) {
    let p = unsafe { tree.as_ptr().add(at) };
    if len <= 16 && at + 16 <= tree.len() {
        let (bad, feeds) = unsafe { look16(p) };
        let mask = (1u32 << len) - 1;
        let feeds = (feeds & mask) as u64;
        let (w, n) = by_feeds(feeds, len);
        return (bad & mask == 0, feeds, w, n);
    }
    measure_long(tree, at, len)
}

#[inline(never)]
fn measure_long(tree: &[u8], at: usize, len: usize) -> (bool, u64, usize, usize) {
    let (mut w, mut lines, mut from, mut done, mut first) = (0, 1, 0usize, 0usize, 0);
    let mut step = |mut feeds: u64, done: usize| {
        while feeds != 0 {
            let k = done + feeds.trailing_zeros() as usize;
            w = w.max(k - from);
            from = k + 1;
            lines += 1;
            feeds &= feeds - 1;
        }
    };
    // Whole blocks: what is good is gathered, and where no byte of the 64 is a line feed nothing is searched.
    let mut all = unsafe { _mm_set1_epi8(-1) };
    while len - done > 64 && at + done + 64 <= tree.len() {
        unsafe {
            let p = tree.as_ptr().add(at + done);
            let mut feeds = [_mm_setzero_si128(); 4];
            for (k, feeds) in feeds.iter_mut().enumerate() {
                let (good, feed) = classes(_mm_loadu_si128(p.add(16 * k).cast()));
                all = _mm_and_si128(all, good);
                *feeds = feed;
            }
            let bits = gathered(feeds);
            if done == 0 {
                first = bits;
            }
            step(bits, done);
        }
        done += 64;
    }
    let mut good = unsafe { _mm_movemask_epi8(all) == 0xFFFF };
    loop {
        let here = at + done;
        let (bad, feeds) = if here + 64 <= tree.len() {
            unsafe { look64(tree.as_ptr().add(here)) }
        } else {
            let b = padded(tree, here);
            unsafe { look64(b.as_ptr()) }
        };
        let mask = below(len - done);
        good &= bad & mask == 0;
        if done == 0 {
            first = feeds & mask;
        }
        step(feeds & mask, done);
        done += 64;
        if done >= len {
            return (good, first, w.max(len - from), lines);
        }
    }
}

impl Nodes {
    #[inline(always)]
    pub fn new() -> Nodes {
        Nodes {
            nodes: MaybeUninit::uninit(),
            feeds: MaybeUninit::uninit(),
        }
    }

    /// Node `i`, which was read.
    #[inline(always)]
    pub fn at(&self, i: usize) -> Node {
        unsafe { *self.nodes.as_ptr().cast::<Node>().add(i) }
    }

    /// The line feeds of leaf `i`.
    #[inline(always)]
    pub fn feeds(&self, i: usize) -> u64 {
        debug_assert!(!self.at(i).is_group());
        unsafe { *self.feeds.as_ptr().cast::<u64>().add(i) }
    }

    /// Reads a whole tree: 0, or the first fault.
    #[inline(never)]
    pub fn read(&mut self, s: &Settings, tree: &[u8]) -> u8 {
        let pad_w = s.padding(0) + s.padding(1);
        let pad_h = s.padding(2) + s.padding(3);
        if tree.len() > 32768 || tree.len() < 3 {
            return 2;
        }
        if 3 + 256 * tree[1] as usize + tree[2] as usize != tree.len() {
            return 2;
        }
        let outside = Open {
            end: tree.len(),
            node: 0,
            kids: 0,
            sum_w: 0,
            sum_h: 0,
            max_w: 0,
            max_h: 0,
            row: false,
        };
        let mut stack = [MaybeUninit::<Open>::uninit(); DEPTH + 1];
        let (mut depth, mut g) = (0, outside);
        let (mut at, mut count) = (0usize, 0usize);
        loop {
            if g.end - at < 3 {
                return 2;
            }
            // In bounds: at + 3 <= g.end <= tree.len().
            let (tag, len) = unsafe {
                let p = tree.as_ptr().add(at);
                (*p, u16::from_be_bytes([*p.add(1), *p.add(2)]) as usize)
            };
            let start = at + 3;
            let stop = start + len;
            if tag.wrapping_sub(1) > 2 || stop > g.end {
                return 2;
            }
            if depth >= DEPTH {
                return 5;
            }
            if count >= MOST {
                return 4;
            }
            let i = count;
            count += 1;
            if tag != 1 && len != 0 {
                stack[depth] = MaybeUninit::new(g);
                depth += 1;
                g = Open {
                    end: stop,
                    node: i,
                    row: tag == 2,
                    ..outside
                };
                at = start;
                continue;
            }
            let (good, feeds, w, n) = measure(tree, start, len);
            if !good {
                return 3;
            }
            let (mut w, mut h) = (w + pad_w, n + pad_h);
            unsafe {
                self.nodes.as_mut_ptr().cast::<Node>().add(i).write(Node {
                    w: w as u16,
                    h: h as u16,
                    at: start as u16,
                    n: len as u16,
                });
                self.feeds.as_mut_ptr().cast::<u64>().add(i).write(feeds);
            }
            at = stop;
            loop {
                g.kids += 1;
                g.sum_w += w + 1;
                g.sum_h += h + 1;
                g.max_w = g.max_w.max(w);
                g.max_h = g.max_h.max(h);
                if at != g.end {
                    break;
                }
                if depth == 0 {
                    return 0;
                }
                (w, h) = if g.row {
                    (g.sum_w - 1, g.max_h)
                } else {
                    (g.max_w, g.sum_h - 1)
                };
                let n = GROUP | g.row as u16;
                unsafe {
                    self.nodes
                        .as_mut_ptr()
                        .cast::<Node>()
                        .add(g.node)
                        .write(Node {
                            w: w as u16,
                            h: h as u16,
                            at: g.kids as u16,
                            n,
                        })
                };
                depth -= 1;
                g = unsafe { stack[depth].assume_init() };
            }
        }
    }
}

/// The children of a group that are still to come, and how its spare is shared.
#[derive(Clone, Copy)]
pub struct Sharing {
    q: u32,
    /// This many children from the first get one more.
    more: u32,
    /// The first child's, the last one's own part.
    first: u32,
    last: u32,
    pub left: u32,
}

impl Sharing {
    /// Of no children.
    pub const NONE: Sharing = Sharing {
        q: 0,
        more: 0,
        first: 0,
        last: 0,
        left: 0,
    };
    #[inline(always)]
    pub fn new(spare: usize, n: usize, priority: u8) -> Sharing {
        let (spare, n) = (spare as u32, n as u32);
        let none = Sharing {
            q: 0,
            more: 0,
            first: 0,
            last: 0,
            left: n,
        };
        match priority {
            0 => Sharing {
                first: spare,
                ..none
            },
            1 => Sharing {
                last: spare,
                ..none
            },
            _ if spare < n => Sharing {
                more: spare,
                ..none
            },
            _ => Sharing {
                q: spare / n,
                more: spare % n,
                ..none
            },
        }
    }
    /// The next child's part.
    #[inline(always)]
    pub fn next(&mut self) -> usize {
        let mut part = self.q + self.first + (self.more != 0) as u32;
        self.more -= (self.more != 0) as u32;
        self.first = 0;
        self.left -= 1;
        if self.left == 0 {
            part += self.last;
        }
        part as usize
    }
}

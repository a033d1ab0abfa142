//! Painting in the lent output: lines of 16 bytes at a time.
//!
//! A store of 16 bytes may run over what is to the right on the same line: leaves are painted in node order, so whatever is to the
//! right of a leaf is painted after it, and the right marks and line feeds come last. Near a line's end (`FAST` is false) stores are exact.

use crate::nodes::{feeds64, padded, Node};
use crate::record::{mark, Settings};
use core::arch::x86_64::*;

/// From this many bytes on the C library's memset and memcpy are faster.
const LONG: usize = 96;

#[inline(always)]
pub unsafe fn store16(p: *mut u8, v: __m128i) {
    _mm_storeu_si128(p.cast(), v)
}

#[inline(always)]
pub fn splat(byte: u8) -> __m128i {
    unsafe { _mm_set1_epi8(byte as i8) }
}

/// The first n bytes of v, n up to 16.
#[inline(always)]
pub unsafe fn store_part(p: *mut u8, v: __m128i, n: usize) {
    let mut b = [0u8; 16];
    store16(b.as_mut_ptr(), v);
    copy_exact(p, b.as_ptr(), n)
}

#[inline(always)]
unsafe fn copy_exact(p: *mut u8, q: *const u8, n: usize) {
    if n >= LONG {
        core::ptr::copy_nonoverlapping(q, p, n)
    } else if n >= 16 {
        let mut k = 0;
        while k + 16 <= n {
            store16(p.add(k), _mm_loadu_si128(q.add(k).cast()));
            k += 16;
        }
        store16(p.add(n - 16), _mm_loadu_si128(q.add(n - 16).cast()));
    } else if n >= 8 {
        let (a, b) = (
            q.cast::<u64>().read_unaligned(),
            q.add(n - 8).cast::<u64>().read_unaligned(),
        );
        p.cast::<u64>().write_unaligned(a);
        p.add(n - 8).cast::<u64>().write_unaligned(b);
    } else if n >= 4 {
        let (a, b) = (
            q.cast::<u32>().read_unaligned(),
            q.add(n - 4).cast::<u32>().read_unaligned(),
        );
        p.cast::<u32>().write_unaligned(a);
        p.add(n - 4).cast::<u32>().write_unaligned(b);
    } else if n > 0 {
        *p = *q;
        if n > 1 {
            *p.add(1) = *q.add(1);
            *p.add(n - 1) = *q.add(n - 1);
        }
    }
}

#[inline(always)]
unsafe fn fill_exact(p: *mut u8, v: __m128i, n: usize) {
    if n >= LONG {
        core::ptr::write_bytes(p, _mm_cvtsi128_si32(v) as u8, n)
    } else if n >= 16 {
        let mut k = 0;
        while k + 16 <= n {
            store16(p.add(k), v);
            k += 16;
        }
        store16(p.add(n - 16), v);
    } else {
        let x = _mm_cvtsi128_si64(v) as u64;
        if n >= 8 {
            p.cast::<u64>().write_unaligned(x);
            p.add(n - 8).cast::<u64>().write_unaligned(x);
        } else if n >= 4 {
            p.cast::<u32>().write_unaligned(x as u32);
            p.add(n - 4).cast::<u32>().write_unaligned(x as u32);
        } else if n > 0 {
            *p = x as u8;
            if n > 1 {
                *p.add(1) = x as u8;
                *p.add(n - 1) = x as u8;
            }
        }
    }
}

#[inline(always)]
pub unsafe fn fill<const FAST: bool>(p: *mut u8, v: __m128i, n: usize) {
    if FAST && n < LONG {
        let mut k = 0;
        while k < n {
            store16(p.add(k), v);
            k += 16;
        }
    } else {
        fill_exact(p, v, n)
    }
}

pub struct Canvas<'a> {
    pub out: *mut u8,
    pub stride: usize,
    tree: &'a [u8],
    spaces: __m128i,
    /// The left mark, then the left fill or spaces.
    left_fill: __m128i,
    left_space: __m128i,
    fills: [__m128i; 4],
    padding: [usize; 4],
    /// The right padding, but 0 where its fill is a space.
    right: usize,
    /// No lines of padding, no right fill, no alignment, a left padding of under 16.
    plain: bool,
    each_line: bool,
    horizontal: usize,
    vertical: usize,
    pub left: u8,
}

impl<'a> Canvas<'a> {
    #[inline(always)]
    pub fn new(s: &Settings, tree: &'a [u8], out: *mut u8, stride: usize) -> Canvas<'a> {
        let left = s.mark(mark::LEFT);
        let begun = |byte: u8| {
            let mut b = [byte; 16];
            b[0] = left;
            unsafe { _mm_loadu_si128(b.as_ptr().cast()) }
        };
        Canvas {
            out,
            stride,
            tree,
            spaces: splat(b' '),
            left_fill: begun(s.fill(0)),
            left_space: begun(b' '),
            fills: [
                splat(s.fill(0)),
                splat(s.fill(1)),
                splat(s.fill(2)),
                splat(s.fill(3)),
            ],
            padding: [s.padding(0), s.padding(1), s.padding(2), s.padding(3)],
            right: if s.fill(1) == b' ' { 0 } else { s.padding(1) },
            plain: s.padding(2) + s.padding(3) == 0
                && (s.padding(1) == 0 || s.fill(1) == b' ')
                && s.horizontal() + s.vertical() == 0
                && s.padding(0) < 16,
            each_line: s.each_line(),
            horizontal: s.horizontal() as usize,
            vertical: s.vertical() as usize,
            left,
        }
    }

    /// n lines of the left mark and w of one byte.
    #[inline(always)]
    unsafe fn rows<const FAST: bool>(
        &self,
        mut p: *mut u8,
        n: usize,
        w: usize,
        v: __m128i,
    ) -> *mut u8 {
        for _ in 0..n {
            *p = self.left;
            fill::<FAST>(p.add(1), v, w);
            p = p.add(self.stride);
        }
        p
    }

    /// The lines between the top and the bottom line, with plain left marks, from `base` (the first one's left mark) on.
    #[inline(always)]
    pub unsafe fn body<const FAST: bool>(
        &self,
        base: *mut u8,
        node: Node,
        feeds: u64,
        w: usize,
        h: usize,
    ) {
        let (start, len) = (node.at as usize, node.len());
        if FAST && self.plain && len <= 64 && start + len + 16 <= self.tree.len() {
            self.plain_body(base, self.tree.as_ptr().add(start), len, feeds, w, h);
        } else {
            self.any_body::<FAST>(base, node, feeds, w, h);
        }
    }

    /// The same of a text of up to 64 bytes at the start of its space, without lines of padding or a right fill, and not near the line's end.
    #[inline(always)]
    unsafe fn plain_body(
        &self,
        base: *mut u8,
        src: *const u8,
        len: usize,
        mut feeds: u64,
        w: usize,
        h: usize,
    ) {
        let (mut p, end, pl) = (base, base.add(h * self.stride), self.padding[0]);
        let mut from = 0;
        loop {
            let to = if feeds == 0 {
                len
            } else {
                feeds.trailing_zeros() as usize
            };
            let n = to - from;
            store16(p, self.left_fill);
            let q = p.add(1 + pl);
            let mut k = 0;
            loop {
                store16(q.add(k), _mm_loadu_si128(src.add(from + k).cast()));
                k += 16;
                if k >= n {
                    break;
                }
            }
            let q = q.add(n);
            let to_end = p.add(1 + w);
            let mut q = q;
            loop {
                store16(q, self.spaces);
                q = q.add(16);
                if q >= to_end {
                    break;
                }
            }
            p = p.add(self.stride);
            if feeds == 0 {
                break;
            }
            from = to + 1;
            feeds &= feeds - 1;
        }
        while p < end {
            store16(p, self.left_space);
            let mut k = 16;
            while k <= w {
                store16(p.add(k), self.spaces);
                k += 16;
            }
            p = p.add(self.stride);
        }
    }

    #[inline(never)]
    unsafe fn any_body<const FAST: bool>(
        &self,
        base: *mut u8,
        node: Node,
        feeds: u64,
        w: usize,
        h: usize,
    ) {
        let [pl, pr, pt, pb] = self.padding;
        let slack = h - node.h as usize;
        let above = (slack * self.vertical) >> 1;
        let mut p = base;
        if above + pt != 0 {
            p = self.rows::<FAST>(p, above, w, self.spaces);
            p = self.rows::<FAST>(p, pt, w, self.fills[2]);
        }
        // The text.
        let (inner, widest) = (w - pl - pr, node.w as usize - pl - pr);
        let covered = inner + pr - self.right;
        let (start, len) = (node.at as usize, node.len());
        let src = self.tree.as_ptr().add(start);
        let (mut mask, mut block, mut from) = (feeds, 0usize, 0usize);
        loop {
            while mask == 0 && block + 64 < len {
                block += 64;
                mask = if start + block + 64 <= self.tree.len() {
                    feeds64(src.add(block))
                } else {
                    feeds64(padded(self.tree, start + block).as_ptr())
                };
                if len - block < 64 {
                    mask &= (1 << (len - block)) - 1;
                }
            }
            let last = mask == 0;
            let end = if last {
                len
            } else {
                block + mask.trailing_zeros() as usize
            };
            let n = end - from;
            let indent = ((inner - if self.each_line { n } else { widest }) * self.horizontal) >> 1;
            let right = covered - indent - n;
            if FAST {
                store16(p, self.left_fill);
                if pl == 16 {
                    store16(p.add(1), self.fills[0]);
                }
                let mut q = p.add(1 + pl);
                if indent != 0 {
                    fill::<FAST>(q, self.spaces, indent);
                    q = q.add(indent);
                }
                if n < LONG && start + from + n + 16 <= self.tree.len() {
                    let mut k = 0;
                    while k < n {
                        store16(q.add(k), _mm_loadu_si128(src.add(from + k).cast()));
                        k += 16;
                    }
                } else {
                    copy_exact(q, src.add(from), n);
                }
                q = q.add(n);
                fill::<FAST>(q, self.spaces, right);
                if self.right != 0 {
                    store16(q.add(right), self.fills[1]);
                }
            } else {
                *p = self.left;
                let mut q = p.add(1);
                fill_exact(q, self.fills[0], pl);
                q = q.add(pl);
                fill_exact(q, self.spaces, indent);
                q = q.add(indent);
                copy_exact(q, src.add(from), n);
                q = q.add(n);
                fill_exact(q, self.spaces, right);
                fill_exact(q.add(right), self.fills[1], self.right);
            }
            p = p.add(self.stride);
            if last {
                break;
            }
            from = end + 1;
            mask &= mask - 1;
        }
        let below = slack - above;
        if below + pb != 0 {
            p = self.rows::<FAST>(p, pb, w, self.fills[3]);
            if FAST && w <= 15 {
                for _ in 0..below {
                    store16(p, self.left_space);
                    p = p.add(self.stride);
                }
            } else {
                self.rows::<FAST>(p, below, w, self.spaces);
            }
        }
    }
}

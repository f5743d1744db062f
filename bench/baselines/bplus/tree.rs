// SPDX-License-Identifier: Apache-2.0
//! A B+-tree whose nodes own their children. Keys are records of an arena; a node caches eight
//! bytes of each.
use crate::arena::*;
use crate::batch::{Question, Range, lcp};
use std::cmp::Ordering::{self, *};

const B: usize = 32;
const LOW: usize = B / 4;
const FULL: usize = B * 3 / 4;

type Keys = Arena;

#[inline(always)]
fn digest(k: &[u8], skip: usize) -> u64 {
    crate::batch::digest(k, skip)
}

struct Node {
    n: u16,
    skip: u16,
    digest: [u64; B],
    val: [i64; B],
    slot: [Slot; B],
    len: [u16; B],
    /// Empty in a leaf.
    kids: Vec<Box<Node>>,
}

#[derive(Clone, Copy)]
struct Entry {
    digest: u64,
    val: i64,
    slot: Slot,
    len: u16,
}

#[derive(Clone, Copy, PartialEq)]
enum Side {
    Below,
    Shares,
    Above,
}

type Begin<'a> = Option<(&'a [u8], Option<usize>)>;

struct Sweep {
    edge: i64,
    left: usize,
    low: bool,
    stop: Option<Slot>,
    gone: usize,
}

impl Node {
    fn new() -> Box<Node> {
        Box::new(Node {
            n: 0,
            skip: 0,
            digest: [0; B],
            val: [0; B],
            slot: [NIL; B],
            len: [0; B],
            kids: Vec::new(),
        })
    }
    #[inline(always)]
    fn n(&self) -> usize {
        (self.n as usize).min(B)
    }
    #[inline(always)]
    fn leaf(&self) -> bool {
        self.kids.is_empty()
    }
    #[inline(always)]
    fn set(&mut self, i: usize, e: Entry) {
        self.digest[i] = e.digest;
        self.val[i] = e.val;
        self.slot[i] = e.slot;
        self.len[i] = e.len;
    }
    #[inline(always)]
    fn get(&self, i: usize) -> Entry {
        Entry { digest: self.digest[i], val: self.val[i], slot: self.slot[i], len: self.len[i] }
    }
    /// Moves the entries from `from` by d.
    #[inline(always)]
    fn open(&mut self, from: usize, d: usize) {
        let n = self.n();
        let mut i = n;
        while i > from {
            i -= 1;
            self.digest[i + d] = self.digest[i];
            self.val[i + d] = self.val[i];
            self.slot[i + d] = self.slot[i];
            self.len[i + d] = self.len[i];
        }
        self.n = (n + d) as u16;
    }
    /// Removes the entries from..to.
    #[inline(always)]
    fn cut(&mut self, from: usize, to: usize) {
        if from == to {
            return;
        }
        let n = self.n();
        let d = to - from;
        for i in to..n {
            self.digest[i - d] = self.digest[i];
            self.val[i - d] = self.val[i];
            self.slot[i - d] = self.slot[i];
            self.len[i - d] = self.len[i];
        }
        self.n = (n - d) as u16;
    }
    #[inline(always)]
    fn most(&self) -> i64 {
        let mut v = i64::MIN;
        for i in 0..self.n() {
            v = v.max(self.val[i]);
        }
        v
    }
    #[inline(always)]
    fn rank(&self, d: u64) -> usize {
        let mut c = 0;
        for x in &self.digest[..self.n()] {
            c += (*x <= d) as usize;
        }
        c
    }
    #[inline(always)]
    fn key<'a>(&self, keys: &'a Keys, i: usize) -> &'a [u8] {
        keys.key(self.slot[i])
    }
    #[inline(always)]
    fn cmp_tie(&self, keys: &Keys, q: &[u8], i: usize) -> Ordering {
        let full = self.skip as usize + 8;
        if q.len() <= full && self.len[i] as usize <= full {
            return q.len().cmp(&(self.len[i] as usize));
        }
        let k = self.key(keys, i);
        let from = full.min(q.len()).min(k.len());
        q[from..].cmp(&k[from..])
    }
    #[inline(always)]
    fn cmp(&self, keys: &Keys, q: &[u8], qd: u64, i: usize) -> Ordering {
        if qd != self.digest[i] { qd.cmp(&self.digest[i]) } else { self.cmp_tie(keys, q, i) }
    }
    #[inline(always)]
    fn floor(&self, keys: &Keys, q: &[u8], l: usize) -> (usize, usize, bool) {
        let skip = self.skip as usize;
        if l < skip {
            return (self.n() - 1, l, false);
        }
        let qd = digest(q, skip);
        let mut i = self.rank(qd).max(1) - 1;
        if self.digest[i] == qd {
            if i > 2 && self.digest[i - 3] == qd {
                let mut lo = self.digest[..i].iter().position(|d| *d == qd).unwrap_or(0);
                let mut hi = i + 1;
                while lo < hi {
                    let m = (lo + hi) / 2;
                    if self.cmp_tie(keys, q, m) != Less { lo = m + 1 } else { hi = m }
                }
                i = lo.max(1) - 1;
            }
            while self.digest[i] == qd {
                let o = self.cmp_tie(keys, q, i);
                if o != Less {
                    let l =
                        if self.leaf() { 0 } else { lcp(q, self.key(keys, i), skip, usize::MAX) };
                    return (i, l, o == Equal);
                }
                if i == 0 {
                    break;
                }
                i -= 1;
            }
        }
        (
            i,
            if i == 0 { l } else { skip + ((qd ^ self.digest[i]).leading_zeros() >> 3) as usize },
            false,
        )
    }
    fn side(&self, keys: &Keys, q: &[u8]) -> Side {
        let k = self.key(keys, 0);
        let skip = self.skip as usize;
        let l = lcp(q, k, 0, skip);
        if l == skip {
            Side::Shares
        } else if l == q.len() || q[l] < k[l] {
            Side::Below
        } else {
            Side::Above
        }
    }
    #[inline(always)]
    fn ceil(&self, keys: &Keys, q: &[u8], side: Side, from: usize) -> (usize, bool) {
        match side {
            Side::Below => (from, false),
            Side::Above => (self.n(), false),
            Side::Shares => {
                let qd = digest(q, self.skip as usize);
                let mut i = from;
                while i < self.n() {
                    match self.cmp(keys, q, qd, i) {
                        Greater => i += 1,
                        Equal => return (i, true),
                        Less => break,
                    }
                }
                (i, false)
            }
        }
    }

    fn exceeds(&self, keys: &Keys, q: &Question, e: usize, l: usize) -> bool {
        let mut node = self;
        let mut l = l;
        loop {
            let (i, m, _) = node.floor(keys, q.begin, l);
            let skip = node.skip as usize;
            if node.leaf() {
                if node.val[i] > q.snapshot {
                    return true;
                }
                if i + 1 == node.n() {
                    return false;
                }
                let d = digest(q.end, skip);
                for j in i + 1..node.n() {
                    if e >= skip && node.cmp(keys, q.end, d, j) != Greater {
                        return false;
                    }
                    if node.val[j] > q.snapshot {
                        return true;
                    }
                }
                return false;
            }
            if i + 1 < node.n()
                && (e < skip || node.cmp(keys, q.end, digest(q.end, skip), i + 1) == Greater)
            {
                return node.above(keys, Some((q.begin, l)), Some(q.end), q.snapshot);
            }
            if node.val[i] <= q.snapshot {
                return false;
            }
            node = &node.kids[i];
            l = m;
        }
    }

    fn above(
        &self,
        keys: &Keys,
        begin: Option<(&[u8], usize)>,
        end: Option<&[u8]>,
        s: i64,
    ) -> bool {
        let (i, l) = match begin {
            Some((q, l)) => {
                let (i, m, _) = self.floor(keys, q, l);
                (i, m)
            }
            None => (0, 0),
        };
        let j = match end {
            Some(q) => self.ceil(keys, q, self.side(keys, q), i + 1).0,
            None => self.n(),
        };
        if self.leaf() {
            return self.val[i..j].iter().any(|v| *v > s);
        }
        let begin = begin.map(|(q, _)| (q, l));
        if j == i + 1 {
            return self.val[i] > s && self.kids[i].above(keys, begin, end, s);
        }
        self.val[i + 1..j - 1].iter().any(|v| *v > s)
            || self.val[j - 1] > s && self.kids[j - 1].above(keys, None, end, s)
            || self.val[i] > s && self.kids[i].above(keys, begin, None, s)
    }

    // ---- writes

    fn reskip(&mut self, keys: &Keys, skip: usize) {
        self.skip = skip as u16;
        for i in 0..self.n() {
            self.digest[i] = digest(keys.key(self.slot[i]), skip);
        }
    }
    fn regrow(&mut self, keys: &Keys) {
        let n = self.n();
        if n > 1 && (self.digest[0] ^ self.digest[n - 1]).leading_zeros() >= 48 {
            let skip =
                lcp(self.key(keys, 0), self.key(keys, n - 1), self.skip as usize, usize::MAX);
            if skip > self.skip as usize {
                self.reskip(keys, skip);
            }
        }
    }
    fn split(&mut self, keys: &Keys) -> Box<Node> {
        let n = self.n();
        let m = n / 2;
        let mut right = Node::new();
        right.skip = self.skip;
        for i in m..n {
            right.set(i - m, self.get(i));
        }
        right.n = (n - m) as u16;
        if !self.leaf() {
            right.kids = self.kids.split_off(m);
            self.kids.reserve(B);
        }
        self.n = m as u16;
        self.regrow(keys);
        right.regrow(keys);
        right
    }
    /// Returns this node's entry for a parent that skips `skip` bytes.
    fn entry(&self, keys: &Keys, skip: usize) -> Entry {
        Entry {
            digest: digest(self.key(keys, 0), skip),
            val: self.most(),
            slot: self.slot[0],
            len: self.len[0],
        }
    }
    fn insert(
        &mut self,
        keys: &Keys,
        i: usize,
        mut e: Entry,
        kid: Option<Box<Node>>,
        shares: bool,
    ) -> Option<Box<Node>> {
        if self.n() == B {
            let mut right = self.split(keys);
            let m = self.n();
            if i > m {
                right.insert(keys, i - m, e, kid, false);
            } else {
                self.insert(keys, i, e, kid, false);
            }
            return Some(right);
        }
        if self.n() == 0 {
            self.skip = 0;
        } else if !shares {
            let skip = self.skip as usize;
            let l = lcp(keys.key(e.slot), self.key(keys, 0), 0, skip);
            if l < skip {
                self.reskip(keys, l);
            }
        }
        e.digest = digest(keys.key(e.slot), self.skip as usize);
        self.open(i, 1);
        self.set(i, e);
        if let Some(kid) = kid {
            self.kids.insert(i, kid);
        }
        None
    }
    /// Releases the keys and returns their number.
    fn drop_all(&mut self, keys: &mut Keys) -> usize {
        let mut n = 0;
        if self.leaf() {
            n = self.n();
            for i in 0..n {
                keys.release(self.slot[i]);
            }
        } else {
            for k in &mut self.kids {
                n += k.drop_all(keys);
            }
        }
        n
    }
    /// Returns the new right neighbour, if any.
    fn put(
        &mut self,
        keys: &mut Keys,
        begin: Begin,
        end: Option<&[u8]>,
        version: i64,
        head: i64,
        count: &mut usize,
    ) -> Option<Box<Node>> {
        let skip = self.skip as usize;
        let (at, l, equal) = match begin {
            Some((q, Some(l))) => self.floor(keys, q, l),
            _ => (0, 0, false),
        };
        let begins = matches!(begin, Some((_, Some(l))) if l >= skip);
        let side = |q: &[u8]| match begin {
            Some((b, _)) if begins => {
                if lcp(b, q, 0, skip) >= skip {
                    Side::Shares
                } else {
                    Side::Above
                }
            }
            _ => self.side(keys, q),
        };
        if self.leaf() {
            let mut a = match begin {
                Some((_, Some(_))) => at + !equal as usize,
                _ => 0,
            };
            let (z, closed) = match end {
                Some(q) if a < self.n() => self.ceil(keys, q, side(q), a),
                _ => (self.n(), end.is_none()),
            };
            let ends = match end {
                Some(q) if begins => side(q) == Side::Shares,
                _ => false,
            };
            let before = if z > 0 { self.val[z - 1] } else { head };
            let mut open = begin.map(|(q, _)| q);
            if equal {
                self.val[a] = version;
                open = None;
                a += 1;
            }
            for i in a..z {
                keys.release(self.slot[i]);
            }
            *count -= z - a;
            self.cut(a, z);
            let close = if closed { None } else { end };
            let left = self.n();
            if let (Some(b), Some(e)) = (open, close) {
                if begins && ends && left > 0 && left + 2 <= B {
                    self.open(a, 2);
                    let slot = keys.place(b);
                    self.set(
                        a,
                        Entry { digest: digest(b, skip), val: version, slot, len: b.len() as u16 },
                    );
                    let slot = keys.place(e);
                    self.set(
                        a + 1,
                        Entry { digest: digest(e, skip), val: before, slot, len: e.len() as u16 },
                    );
                    *count += 2;
                    return None;
                }
            }
            let mut new = None;
            if let Some(q) = close {
                let slot = keys.place(q);
                *count += 1;
                let e = Entry { digest: 0, val: before, slot, len: q.len() as u16 };
                new = self.insert(keys, a, e, None, ends && left > 0);
            }
            if let Some(q) = open {
                let slot = keys.place(q);
                *count += 1;
                let e = Entry { digest: 0, val: version, slot, len: q.len() as u16 };
                let m = self.n();
                match &mut new {
                    Some(right) if a > m => {
                        right.insert(keys, a - m, e, None, false);
                    }
                    Some(_) => {
                        self.insert(keys, a, e, None, false);
                    }
                    None => new = self.insert(keys, a, e, None, begins && left > 0),
                }
            }
            return new;
        }
        let n = self.n();
        let from = if begin.is_some() { at + 1 } else { 0 };
        let (j, closed) = match end {
            Some(q) if from < n => self.ceil(keys, q, side(q), from),
            _ => (n, end.is_none()),
        };
        let end = if closed { None } else { end };
        let first = matches!(begin, Some((_, None)));
        let begin_in = begin.map(|(q, l0)| (q, l0.map(|_| l)));
        if begin.is_some() && j == from {
            let new = self.kids[at].put(keys, begin_in, end, version, head, count);
            return self.fix(keys, at, new, version, first);
        }
        let last = if end.is_some() { j - 1 } else { j };
        for mut kid in self.kids.drain(from..last) {
            *count -= kid.drop_all(keys);
        }
        self.cut(from, last);
        if end.is_some() {
            self.kids[from].put(keys, None, end, version, head, count);
            self.slot[from] = self.kids[from].slot[0];
            let m = lcp(self.key(keys, 0), self.key(keys, self.n() - 1), 0, skip);
            if m < skip || from == 0 {
                self.reskip(keys, m.min(skip));
            }
            let e = self.kids[from].entry(keys, self.skip as usize);
            self.set(from, e);
        }
        let mut new = None;
        if begin.is_some() {
            let more = self.kids[at].put(keys, begin_in, None, version, head, count);
            new = self.fix(keys, at, more, version, first);
        }
        if new.is_none() {
            self.even(keys, at.saturating_sub(1), at + 2);
        }
        new
    }

    fn fix(
        &mut self,
        keys: &Keys,
        i: usize,
        new: Option<Box<Node>>,
        version: i64,
        first: bool,
    ) -> Option<Box<Node>> {
        if first {
            self.slot[0] = self.kids[0].slot[0];
            self.len[0] = self.kids[0].len[0];
            let l = lcp(self.key(keys, 0), self.key(keys, self.n() - 1), 0, usize::MAX);
            let skip = (self.skip as usize).min(l);
            self.reskip(keys, skip);
        }
        match new {
            None => {
                self.val[i] = self.val[i].max(version);
                None
            }
            Some(right) => {
                self.val[i] = self.kids[i].most();
                let e = right.entry(keys, 0);
                self.insert(keys, i + 1, e, Some(right), false)
            }
        }
    }

    fn even(&mut self, keys: &Keys, from: usize, to: usize) {
        let mut i = from;
        let mut to = to.min(self.n());
        while i + 1 < to {
            let (a, b) = (self.kids[i].n(), self.kids[i + 1].n());
            if a + b > FULL || a > LOW && b > LOW {
                i += 1;
                continue;
            }
            let mut right = self.kids.remove(i + 1);
            let left = &mut self.kids[i];
            let skip =
                lcp(left.key(keys, 0), right.key(keys, 0), 0, left.skip.min(right.skip) as usize);
            if skip != left.skip as usize {
                left.reskip(keys, skip);
            }
            if skip != right.skip as usize {
                right.reskip(keys, skip);
            }
            for k in 0..b {
                left.set(a + k, right.get(k));
            }
            left.n = (a + b) as u16;
            left.kids.append(&mut right.kids);
            left.regrow(keys);
            self.val[i] = self.val[i].max(self.val[i + 1]);
            self.cut(i + 1, i + 2);
            to -= 1;
        }
    }

    fn sweep(&mut self, keys: &mut Keys, from: Option<(&[u8], usize)>, s: &mut Sweep) {
        let (at, l, equal) = match from {
            Some((q, l)) => self.floor(keys, q, l),
            None => (0, 0, true),
        };
        if self.leaf() {
            let start = at + !equal as usize;
            let n = self.n();
            let mut to = start;
            let mut i = start;
            while i < n {
                if s.left == 0 {
                    s.stop = Some(self.slot[i]);
                    break;
                }
                s.left -= 1;
                let low = self.val[i] < s.edge;
                if s.low && low {
                    keys.release(self.slot[i]);
                    s.gone += 1;
                } else {
                    if to != i {
                        let e = self.get(i);
                        self.set(to, e);
                    }
                    to += 1;
                }
                s.low = low;
                i += 1;
            }
            self.cut(to, i);
            return;
        }
        let mut i = at;
        let mut from = from.map(|(q, _)| (q, l));
        while i < self.n() && s.stop.is_none() {
            let before = s.gone;
            self.kids[i].sweep(keys, from.take(), s);
            if s.gone != before {
                if self.kids[i].n() == 0 {
                    self.kids.remove(i);
                    self.cut(i, i + 1);
                    continue;
                }
                let e = self.kids[i].entry(keys, self.skip as usize);
                let other = e.slot != self.slot[i];
                self.set(i, e);
                if other && i + 1 == self.n() {
                    let l = lcp(self.key(keys, 0), self.key(keys, i), 0, self.skip as usize);
                    if l < self.skip as usize {
                        self.reskip(keys, l);
                    }
                }
            }
            i += 1;
        }
        self.even(keys, at.saturating_sub(1), i + 1);
    }
}

pub struct Tree {
    keys: Keys,
    root: Box<Node>,
    head: i64,
    count: usize,
    resume: Vec<u8>,
}

impl Tree {
    #[inline(always)]
    fn enter(&self, q: &[u8]) -> Option<usize> {
        let k = self.root.key(&self.keys, 0);
        let l = lcp(q, k, 0, usize::MAX);
        if l == k.len() || l < q.len() && q[l] > k[l] { Some(l) } else { None }
    }

    fn exceeds(&self, q: &Question) -> bool {
        if self.count == 0 {
            return self.head > q.snapshot;
        }
        match self.enter(q.begin) {
            Some(l) => self.root.exceeds(&self.keys, q, lcp(q.begin, q.end, 0, usize::MAX), l),
            None => {
                self.head > q.snapshot
                    || q.end > self.root.key(&self.keys, 0)
                        && self.root.above(&self.keys, None, Some(q.end), q.snapshot)
            }
        }
    }

    fn put(&mut self, begin: Begin, end: Option<&[u8]>, version: i64) {
        let new = self.root.put(&mut self.keys, begin, end, version, self.head, &mut self.count);
        if let Some(right) = new {
            let mut root = Node::new();
            root.kids.reserve(B);
            let left = std::mem::replace(&mut self.root, Node::new());
            let a = left.entry(&self.keys, 0);
            let b = right.entry(&self.keys, 0);
            root.n = 2;
            root.set(0, a);
            root.set(1, b);
            root.kids.push(left);
            root.kids.push(right);
            let skip = lcp(self.keys.key(a.slot), self.keys.key(b.slot), 0, usize::MAX);
            root.reskip(&self.keys, skip);
            self.root = root;
        }
        self.shrink();
    }

    fn shrink(&mut self) {
        while self.root.kids.len() == 1 {
            let kid = self.root.kids.pop().unwrap();
            self.root = kid;
        }
    }

    fn write_one(&mut self, r: &Range, version: i64) {
        if r.begin.is_empty() {
            let before = self.head;
            self.head = version;
            if self.count == 0 {
                self.put(Some((r.end, None)), None, before);
                return;
            }
            let first = self.root.key(&self.keys, 0).to_vec();
            match r.end.cmp(&first[..]) {
                Equal => {}
                Less => self.put(Some((r.end, None)), Some(&first), before),
                Greater => self.put(None, Some(r.end), version),
            }
            return;
        }
        let begin = if self.count == 0 { None } else { self.enter(r.begin) };
        self.put(Some((r.begin, begin)), Some(r.end), version);
    }

    fn version_before(&self, q: &[u8]) -> i64 {
        let Some(mut l) = self.enter(q) else { return self.head };
        let mut node = &self.root;
        let mut left: Option<&Node> = None;
        loop {
            let (i, m, equal) = node.floor(&self.keys, q, l);
            if node.leaf() {
                if !equal {
                    return node.val[i];
                }
                if i > 0 {
                    return node.val[i - 1];
                }
                break;
            }
            if i > 0 {
                left = Some(&node.kids[i - 1]);
            }
            l = m;
            node = &node.kids[i];
        }
        let Some(mut node) = left else { return self.head };
        while !node.leaf() {
            node = &node.kids[node.n() - 1];
        }
        node.val[node.n() - 1]
    }

    pub fn new() -> Self {
        Tree { keys: Arena::new(), root: Node::new(), head: -1, count: 0, resume: Vec::new() }
    }
    pub fn ask(&mut self, questions: &[Question], hit: &mut [bool]) {
        for q in questions {
            if !hit[q.txn as usize] && self.exceeds(q) {
                hit[q.txn as usize] = true;
            }
        }
    }
    pub fn write(&mut self, ranges: &[Range], version: i64) {
        for r in ranges {
            self.write_one(r, version);
        }
    }
    pub fn sweep(&mut self, edge: i64, count: usize) {
        if self.count == 0 {
            return;
        }
        let from = std::mem::take(&mut self.resume);
        let low = self.version_before(&from) < edge;
        let l = self.enter(&from);
        let mut s = Sweep { edge, left: count, low, stop: None, gone: 0 };
        self.root.sweep(&mut self.keys, l.map(|l| (&from[..], l)), &mut s);
        self.count -= s.gone;
        self.shrink();
        self.resume = from;
        self.resume.clear();
        if let Some(slot) = s.stop {
            self.resume.extend_from_slice(self.keys.key(slot));
        }
    }
}

//! The step function of `docs/FOUNDATIONDB.md` over a `BTreeMap`.

use crate::plain::PlainRange;
use std::collections::BTreeMap;
use std::ops::Bound;

/// Boundaries by their keys, each with the version from its key on. The empty key is always one.
#[derive(Clone, Debug)]
pub struct Steps {
    pub boundaries: BTreeMap<Vec<u8>, i64>,
    pub edge: i64,
    limit: usize,
    // The key at which the sweep continues, or empty if a round begins.
    cursor: Vec<u8>,
}

impl Steps {
    pub fn new(limit: usize) -> Self {
        Steps { boundaries: BTreeMap::from([(Vec::new(), -1)]), edge: 0, limit, cursor: Vec::new() }
    }

    /// Returns the version at a key: that of the last boundary at or before it.
    pub fn at(&self, key: &[u8]) -> i64 {
        *self
            .boundaries
            .range::<[u8], _>((Bound::Unbounded, Bound::Included(key)))
            .next_back()
            .expect("the empty key is a boundary")
            .1
    }

    /// Returns the greatest version at a key of the range, or -1 if the range is empty.
    pub fn greatest_in(&self, range: &PlainRange) -> i64 {
        if range.is_empty() {
            return -1;
        }
        let inside = self
            .boundaries
            .range::<[u8], _>((Bound::Excluded(&range.begin[..]), Bound::Excluded(&range.end[..])));
        inside.map(|boundary| *boundary.1).fold(self.at(&range.begin), i64::max)
    }

    /// Sets the version on a range that isn't empty.
    pub fn write(&mut self, range: &PlainRange, version: i64) {
        let at_end = self.at(&range.end);
        self.boundaries.retain(|key, _| *key < range.begin || range.end <= *key);
        self.boundaries.insert(range.begin.clone(), version);
        self.boundaries.entry(range.end.clone()).or_insert(at_end);
    }

    /// Returns whether that many ranges may be written, with two boundaries each. Sweeps a complete
    /// round from the front first if they exceed the limit.
    pub fn prepare(&mut self, ranges: usize) -> bool {
        if self.boundaries.len() + 2 * ranges > self.limit {
            self.cursor.clear();
            self.sweep(usize::MAX);
        }
        self.boundaries.len() + 2 * ranges <= self.limit
    }

    /// Looks at the next `count` boundaries, or at all that are left. Returns whether none is left.
    pub fn sweep(&mut self, count: usize) -> bool {
        let first = if self.cursor.is_empty() {
            Bound::Excluded(Vec::new())
        } else {
            Bound::Included(self.cursor.clone())
        };
        let next: Vec<_> = self
            .boundaries
            .range((first, Bound::Unbounded))
            .take(count.saturating_add(1))
            .map(|(key, version)| (key.clone(), *version))
            .collect();
        let Some((key, _)) = next.first() else {
            self.cursor.clear();
            return true;
        };
        let mut before = *self
            .boundaries
            .range::<Vec<u8>, _>(..key)
            .next_back()
            .expect("the empty key comes before")
            .1;
        for (key, version) in next.iter().take(count) {
            if before < self.edge && *version < self.edge {
                self.boundaries.remove(key);
            }
            before = *version;
        }
        self.cursor = next.get(count).map_or(Vec::new(), |(key, _)| key.clone());
        self.cursor.is_empty()
    }
}

/// Unites ranges that overlap or touch. Returns them in key order, each end strictly below the next
/// begin.
pub fn united(ranges: impl IntoIterator<Item = PlainRange>) -> Vec<PlainRange> {
    let mut sorted: Vec<_> = ranges.into_iter().filter(|range| !range.is_empty()).collect();
    sorted.sort_by(|one, other| one.begin.cmp(&other.begin));
    let mut united: Vec<PlainRange> = Vec::new();
    for range in sorted {
        match united.last_mut().filter(|last| range.begin <= last.end) {
            Some(last) => last.end = range.end.max(std::mem::take(&mut last.end)),
            None => united.push(range),
        }
    }
    united
}

//! The tables in which a batch keeps its transactions. Their keys lie in one buffer, into which
//! each is copied once.

// Conditions of the proved functions that are called here, and after `=>` how each is met:
//
// - `keyspace::Batch::new`
//   - versions
//     => the caller has checked them
//   - `few`: at most 4,096 transactions
//     => `BuildError::TxnCount` of `add` and `append`
// - `keyspace::Txns::from_tables`
//   - `tables`: each span lies in the buffer, each row has its spans
//     => `put_range` and `put_row` append a key before its span, and spans before their row;
//     `append` moves all of them; `cut` keeps the spans of the rows that stay
//   - `tables`: limits of keys and ranges
//     => each `Range` has them
//   - `tables`: snapshots and counts of ranges
//     => `check_txn`
//   - `few`: at most 4,096 rows
//     => `BuildError::TxnCount` of `add` and `append`

use crate::batch::Batch;
use crate::build_error::BuildError;
use crate::range::{Keys, Range};
use crate::txn::Txn;
use crate::{MAX_RANGES, MAX_TXNS};
use keyspace::{Row, Span, Txns};
use rattle_std::alloc::Global;

/// The tables in which a batch keeps its transactions.
#[derive(Clone, Debug, Default)]
pub(crate) struct Tables {
    buffer: Vec<u8>,
    spans: Vec<Span>,
    rows: Vec<Row>,
}

impl Tables {
    /// Returns the number of transactions.
    pub(crate) fn len(&self) -> usize {
        self.rows.len()
    }

    /// Adds a transaction, or reports the limit that it exceeds. Then the tables are as before.
    pub(crate) fn add(&mut self, txn: &Txn<'_>) -> Result<(), BuildError> {
        let (index, bytes) = (self.rows.len(), self.buffer.len());
        if index == MAX_TXNS {
            return Err(BuildError::TxnCount);
        }
        check_txn(index, txn)?;
        let put = self.put_txn(txn);
        if put.is_err() {
            self.cut(index);
            self.buffer.truncate(bytes);
        }
        put
    }

    // Appends a transaction. After an error some of its ranges may be there.
    fn put_txn(&mut self, txn: &Txn<'_>) -> Result<(), BuildError> {
        for range in txn.reads.iter().chain(&txn.writes) {
            self.put_range(range)?;
        }
        self.put_row(txn.snapshot, txn.report, txn.writes.len())
    }

    /// Keeps the first transactions alone. The bytes of the others' keys stay.
    pub(crate) fn cut(&mut self, count: usize) {
        self.rows.truncate(count);
        self.spans.truncate(self.rows.last().map_or(0, |row| row.end as usize));
    }

    /// Appends the transactions of other tables, or reports the limit that is exceeded. Then the
    /// tables are as before.
    pub(crate) fn append(&mut self, other: &Tables) -> Result<(), BuildError> {
        if MAX_TXNS - self.rows.len() < other.rows.len() {
            return Err(BuildError::TxnCount);
        }
        let bytes = self.buffer.len() + other.buffer.len();
        u32::try_from(bytes).map_err(|_| BuildError::KeyBytes)?;
        self.buffer.try_reserve(other.buffer.len()).map_err(memory)?;
        self.spans.try_reserve(other.spans.len()).map_err(memory)?;
        self.rows.try_reserve(other.rows.len()).map_err(memory)?;
        let (byte, span) = (self.buffer.len() as u32, self.spans.len() as u32);
        self.buffer.extend_from_slice(&other.buffer);
        self.spans.extend(other.spans.iter().map(|each| Span {
            begin: byte + each.begin,
            end: byte + each.end,
            ..*each
        }));
        self.rows.extend(other.rows.iter().map(|each| Row { end: span + each.end, ..*each }));
        Ok(())
    }

    /// Appends the keys of a range, and its span. The two keys of a single key share its bytes.
    pub(crate) fn put_range(&mut self, range: &Range<'_>) -> Result<(), BuildError> {
        let span = match range.keys() {
            Keys::Single(key) => {
                let begin = self.put_bytes(&[key, &[0]])?;
                span_of((begin, key.len()), (begin, key.len() + 1))
            }
            Keys::Between(begin, end) => {
                let first = self.put_bytes(&[begin])?;
                span_of((first, begin.len()), (self.put_bytes(&[end])?, end.len()))
            }
        };
        self.spans.try_reserve(1).map_err(memory)?;
        self.spans.push(span);
        Ok(())
    }

    /// Appends the row of the transaction whose ranges were put last, its write ranges at the end.
    pub(crate) fn put_row(
        &mut self,
        snapshot: i64,
        marked: bool,
        writes: usize,
    ) -> Result<(), BuildError> {
        self.rows.try_reserve(1).map_err(memory)?;
        let end = self.spans.len() as u32;
        self.rows.push(Row { snapshot, end, writes: writes as u16, marked });
        Ok(())
    }

    // Appends bytes, and returns the index of the first of them.
    fn put_bytes(&mut self, parts: &[&[u8]]) -> Result<u32, BuildError> {
        let index = u32::try_from(self.buffer.len()).map_err(|_| BuildError::KeyBytes)?;
        let length = parts.iter().map(|part| part.len()).sum();
        self.buffer.try_reserve(length).map_err(memory)?;
        for part in parts {
            self.buffer.extend_from_slice(part);
        }
        Ok(index)
    }

    /// Makes the batch of these versions, which the caller has checked.
    pub(crate) fn batch(
        self,
        previous: i64,
        version: i64,
        received: i64,
    ) -> Result<Batch, BuildError> {
        let Self { buffer, spans, rows } = self;
        let txns =
            Txns::from_tables(Global, buffer.into(), spans.into(), rows.into()).map_err(memory)?;
        Ok(Batch::over(keyspace::Batch::new(previous, version, received, txns)))
    }
}

fn memory<E>(_refused: E) -> BuildError {
    BuildError::Memory
}

// The lengths are those of keys of a range, which fit.
fn span_of((begin, begin_length): (u32, usize), (end, end_length): (u32, usize)) -> Span {
    Span { begin, begin_length: begin_length as u16, end, end_length: end_length as u16 }
}

fn check_txn(index: usize, txn: &Txn<'_>) -> Result<(), BuildError> {
    if txn.snapshot < 0 {
        return Err(BuildError::Snapshot { txn: index, snapshot: txn.snapshot });
    }
    if let Some(error) = txn.error {
        return Err(BuildError::Range { txn: index, error });
    }
    if txn.reads.len() > MAX_RANGES {
        return Err(BuildError::ReadCount { txn: index, count: txn.reads.len() });
    }
    if txn.writes.len() > MAX_RANGES {
        return Err(BuildError::WriteCount { txn: index, count: txn.writes.len() });
    }
    Ok(())
}

#[cfg(test)]
mod tests {
    use super::*;

    // Memory that is zero from the start takes no room until it is written.
    fn tables_with_keys_of(length: usize) -> Tables {
        let mut buffer = vec![0; length + 2];
        buffer.truncate(length);
        Tables { buffer, ..Tables::default() }
    }

    #[test]
    fn keys_begin_below_4_gib() {
        let last = usize::try_from(u32::MAX).expect("addresses have 64 bits");
        let mut tables = tables_with_keys_of(last);
        assert_eq!((tables.add(&Txn::at(0).write_key("k")), tables.spans.len()), (Ok(()), 1));
        let mut tables = tables_with_keys_of(last + 1);
        assert_eq!(tables.add(&Txn::at(0).write_key("k")), Err(BuildError::KeyBytes));
        assert_eq!((tables.len(), tables.spans.len(), tables.buffer.len()), (0, 0, last + 1));
        assert_eq!(BuildError::KeyBytes.to_string(), "keys have more than 4 GiB together");
    }

    #[test]
    fn a_range_that_does_not_fit_leaves_none_of_its_transaction() {
        let last = usize::try_from(u32::MAX).expect("addresses have 64 bits");
        let mut tables = tables_with_keys_of(last);
        let refused = tables.add(&Txn::at(0).read_key("k").write_key("l"));
        assert_eq!(refused, Err(BuildError::KeyBytes));
        assert_eq!((tables.len(), tables.spans.len(), tables.buffer.len()), (0, 0, last));
    }

    #[test]
    fn appended_keys_end_within_4_gib() {
        let last = usize::try_from(u32::MAX).expect("addresses have 64 bits");
        let mut other = Tables::default();
        assert_eq!(other.add(&Txn::at(0).write_key("k")), Ok(()));
        for (length, expected) in [(last - 2, Ok(())), (last - 1, Err(BuildError::KeyBytes))] {
            let mut tables = tables_with_keys_of(length);
            assert_eq!(tables.append(&other), expected);
            let counts = if expected.is_ok() { (1, 1, last) } else { (0, 0, length) };
            assert_eq!((tables.len(), tables.spans.len(), tables.buffer.len()), counts);
        }
    }
}

package archcaraway

/*
#include <stdlib.h>
#include <archcaraway.h>

// Adds a transaction whose keys lie side by side, since what Go gives to C must not contain Go's
// pointers. Each range has two lengths, of which the second one is SIZE_MAX for a single key.
static int add(archcaraway_batch *batch, archcaraway_txn txn, const uint8_t *keys,
		const size_t *lengths) {
	const size_t count = txn.read_count + txn.write_count;
	archcaraway_range *ranges = (archcaraway_range *)calloc(count + 1, sizeof *ranges);
	if (ranges == NULL) return ARCHCARAWAY_FRAME_MEMORY;
	for (size_t i = 0; i < count; i++, lengths += 2) {
		const bool single = lengths[1] == SIZE_MAX;
		const size_t end = single ? 0 : lengths[1];
		const archcaraway_range range = {{keys, lengths[0]}, {keys + lengths[0], end}, single};
		ranges[i] = range;
		keys += lengths[0] + end;
	}
	txn.reads = ranges;
	txn.writes = ranges + txn.read_count;
	const int status = archcaraway_batch_add(batch, &txn);
	free(ranges);
	return status;
}
*/
import "C"

import (
	"fmt"
	"sync"
	"unsafe"
)

// Transactions is a batch without a frame and without versions, which sets and cores may take again
// and again. It has copies of the keys. Goroutines may share it: their calls wait for each other.
//
// After an error it is as before, so a transaction that is bad or doesn't fit spoils nothing.
type Transactions struct {
	mutex  sync.Mutex
	handle C.archcaraway_batch
}

// NewTransactions creates a batch, and adds transactions to it.
func NewTransactions(transactions ...Transaction) (*Transactions, error) {
	batch := new(Transactions)
	status := C.archcaraway_batch_new(&batch.handle)
	if _, err := made(batch, status, (*Transactions).Close); err != nil {
		return nil, err
	}
	for index, each := range transactions {
		if err := batch.Add(each); err != nil {
			batch.Close()
			return nil, fmt.Errorf("transaction %d: %w", index, err)
		}
	}
	return batch, nil
}

// Close frees the batch. Later calls return Argument; closing it again does nothing.
func (t *Transactions) Close() {
	defer lock(&t.mutex)()
	C.archcaraway_batch_free(&t.handle)
}

// Add adds a transaction after the others.
func (t *Transactions) Add(transaction Transaction) error {
	keys, lengths := []byte{}, []C.size_t{}
	for _, ranges := range [][]Range{transaction.Reads, transaction.Writes} {
		for _, each := range ranges {
			end := ^C.size_t(0)
			keys = append(keys, each.Begin...)
			if !each.IsKey {
				end = C.size_t(len(each.End))
				keys = append(keys, each.End...)
			}
			lengths = append(lengths, C.size_t(len(each.Begin)), end)
		}
	}
	txn := C.archcaraway_txn{
		snapshot:    C.int64_t(transaction.Snapshot),
		read_count:  C.size_t(len(transaction.Reads)),
		write_count: C.size_t(len(transaction.Writes)),
		report:      C.bool(transaction.Report),
	}
	// Each has an element more, so that it has a first one.
	keys, lengths = append(keys, 0), append(lengths, 0)
	defer lock(&t.mutex)()
	return check(C.add(&t.handle, txn, pointer(keys), &lengths[0]))
}

// Append appends the transactions of another batch, which another goroutine may have added, and
// which stay there.
func (t *Transactions) Append(other *Transactions) error {
	if t == other {
		return Argument
	}
	// Every goroutine takes the two locks in the same order.
	first, second := t, other
	if uintptr(unsafe.Pointer(first)) > uintptr(unsafe.Pointer(second)) {
		first, second = second, first
	}
	defer lock(&first.mutex)()
	defer lock(&second.mutex)()
	return check(C.archcaraway_batch_append(&t.handle, &other.handle))
}

// DropLast removes the last transaction, if there is one.
func (t *Transactions) DropLast() {
	defer lock(&t.mutex)()
	C.archcaraway_batch_drop_last(&t.handle)
}

// Clear removes all transactions. Their memory is kept for others.
func (t *Transactions) Clear() {
	defer lock(&t.mutex)()
	C.archcaraway_batch_clear(&t.handle)
}

// Room returns how many more transactions may be added; 0 if the batch is closed.
func (t *Transactions) Room() int {
	defer lock(&t.mutex)()
	return int(C.archcaraway_batch_room(&t.handle))
}

// Len returns the number of transactions.
func (t *Transactions) Len() int {
	defer lock(&t.mutex)()
	if t.handle.at == nil {
		return 0
	}
	return C.ARCHCARAWAY_MAX_TRANSACTIONS - int(C.archcaraway_batch_room(&t.handle))
}

// Judge judges the transactions of a batch at a version, and remembers what they commit. It returns
// their verdicts.
//
// After an error that isn't a stop the set is as before.
func (s *Set) Judge(version int64, batch *Transactions) ([]Verdict, error) {
	defer lock(&s.mutex)()
	defer lock(&batch.mutex)()
	numbers := make([]byte, C.ARCHCARAWAY_MAX_TRANSACTIONS-C.archcaraway_batch_room(&batch.handle))
	status := C.archcaraway_set_judge_batch(&s.handle, C.int64_t(version), &batch.handle,
		pointer(numbers), C.size_t(len(numbers)))
	if err := check(status); err != nil {
		return nil, err
	}
	verdicts := make([]Verdict, len(numbers))
	for index, number := range numbers {
		verdicts[index] = Verdict(number)
	}
	return verdicts, nil
}

// AdmitTransactions takes the transactions of a batch from a proxy, as the batch of these versions.
// After a stop the core takes no more; after another error it is as before.
func (c *Core) AdmitTransactions(proxy uint32, batch *Transactions,
	previous, version, received int64) error {
	defer lock(&c.mutex)()
	defer lock(&batch.mutex)()
	return check(C.archcaraway_core_admit_batch(&c.handle, C.uint32_t(proxy), &batch.handle,
		C.int64_t(previous), C.int64_t(version), C.int64_t(received)))
}

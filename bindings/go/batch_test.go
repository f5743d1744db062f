package archcaraway

import (
	"bytes"
	"errors"
	"fmt"
	"reflect"
	"sync"
	"testing"
)

func newTransactions(t *testing.T, transactions ...Transaction) *Transactions {
	t.Helper()
	batch, err := NewTransactions(transactions...)
	if err != nil {
		t.Fatal(err)
	}
	t.Cleanup(batch.Close)
	return batch
}

func judged(t *testing.T, set *Set, version int64, transactions ...Transaction) []Verdict {
	t.Helper()
	verdicts, err := set.Judge(version, newTransactions(t, transactions...))
	if err != nil {
		t.Fatal(err)
	}
	return verdicts
}

func expect(t *testing.T, got []Verdict, want ...Verdict) {
	t.Helper()
	if len(got)+len(want) != 0 && !reflect.DeepEqual(got, want) {
		t.Errorf("%v, not %v", got, want)
	}
}

func writes(keys ...string) Transaction {
	var transaction Transaction
	for _, key := range keys {
		transaction.Writes = append(transaction.Writes, Key([]byte(key)))
	}
	return transaction
}

func reads(snapshot int64, keys ...string) Transaction {
	return Transaction{Snapshot: snapshot, Reads: writes(keys...).Writes}
}

func TestVerdictsWithoutFrames(t *testing.T) {
	set, err := NewSet(150, Limit)
	if err != nil {
		t.Fatal(err)
	}
	defer set.Close()
	first := Transaction{Writes: []Range{span("a", "b"), span("e", "f")}}
	expect(t, judged(t, set, 100, first), Committed)
	ranges := []Range{span("a", "b"), span("c", "d"), Key([]byte("e"))}
	second := Transaction{Snapshot: 100, Reads: ranges, Writes: writes("c").Writes}
	verdicts := judged(t, set, 200, Transaction{Snapshot: 99, Reads: ranges}, second, reads(200, "c"))
	expect(t, verdicts, Conflict, Committed, Conflict)
	expect(t, judged(t, set, 300))
	expect(t, judged(t, set, 400, reads(249, "z"), reads(250, "z")), TooOld, Committed)
}

func TestSingleKeysWithoutFrames(t *testing.T) {
	set := newSet(t)
	judged(t, set, 100, writes("k", "z\x00z"))
	rows := []struct {
		read Range
		want Verdict
	}{
		{Key([]byte("k")), Conflict},
		{span("k", "k\x00"), Conflict},
		{Key([]byte("z\x00z")), Conflict},
		{span("k", "k"), Committed},
		{Key([]byte("k\x00")), Committed},
		{Key(nil), Committed},
		{Range{}, Committed},
	}
	for index, row := range rows {
		read := Transaction{Snapshot: 50, Reads: []Range{row.read}}
		expect(t, judged(t, set, int64(101+index), read), row.want)
	}
}

func TestBadTransactionsAreRefusedAlone(t *testing.T) {
	long := bytes.Repeat([]byte("k"), 10001)
	rows := []struct {
		bad  Transaction
		want Status
	}{
		{Transaction{Snapshot: -1}, 105},
		{Transaction{Reads: make([]Range, 1025)}, 107},
		{Transaction{Reads: []Range{Key(long)}}, 108},
		{Transaction{Writes: []Range{span("b", "a")}}, 109},
	}
	batch := newTransactions(t, writes("a"))
	for index, row := range rows {
		if err := batch.Add(row.bad); !errors.Is(err, row.want) || batch.Len() != 1 {
			t.Errorf("row %d: %v, not %v; %d", index, err, row.want, batch.Len())
		}
		_, err := NewTransactions(Transaction{}, row.bad)
		if !errors.Is(err, row.want) || err.Error()[:14] != "transaction 1:" {
			t.Errorf("row %d: %v", index, err)
		}
	}
	most := Transaction{Reads: make([]Range, 1024), Writes: make([]Range, 1024)}
	for _, fits := range []Transaction{most, {Reads: []Range{{End: long}}}} {
		if err := batch.Add(fits); err != nil {
			t.Error(err)
		}
	}
	verdicts, err := newSet(t).Judge(1, batch)
	if err != nil {
		t.Fatal(err)
	}
	expect(t, verdicts, Committed, Committed, Conflict)
}

func TestRoomDropLastAndClear(t *testing.T) {
	batch := newTransactions(t)
	batch.DropLast()
	for _, key := range []string{"0", "1", "2"} {
		if err := batch.Add(writes(key)); err != nil {
			t.Fatal(err)
		}
	}
	batch.DropLast()
	if batch.Len() != 2 || batch.Room() != 4094 {
		t.Error(batch.Len(), batch.Room())
	}
	set := newSet(t)
	if verdicts, err := set.Judge(1, batch); err != nil || len(verdicts) != 2 {
		t.Error(verdicts, err)
	}
	expect(t, judged(t, set, 2, reads(0, "0"), reads(0, "1"), reads(0, "2")), Conflict, Conflict,
		Committed)
	batch.Clear()
	for batch.Room() > 0 {
		if err := batch.Add(Transaction{}); err != nil {
			t.Fatal(err)
		}
	}
	if err := batch.Add(Transaction{}); !errors.Is(err, Status(107)) || batch.Len() != 4096 {
		t.Error(err, batch.Len())
	}
}

func TestAppend(t *testing.T) {
	batch, other := newTransactions(t, writes("a")), newTransactions(t)
	if err := batch.Append(other); err != nil {
		t.Error(err)
	}
	for i := 0; i < 2; i++ {
		if err := other.Add(reads(0, "a")); err != nil {
			t.Error(err)
		}
	}
	if err := batch.Append(other); err != nil || batch.Len() != 3 || other.Len() != 2 {
		t.Error(err, batch.Len(), other.Len())
	}
	if err := batch.Append(batch); !errors.Is(err, Argument) {
		t.Error(err)
	}
	many := newTransactions(t, make([]Transaction, 4094)...)
	if err := batch.Append(many); !errors.Is(err, Status(107)) || batch.Len() != 3 {
		t.Error(err, batch.Len())
	}
	verdicts, err := newSet(t).Judge(1, batch)
	if err != nil {
		t.Error(err)
	}
	expect(t, verdicts, Committed, Conflict, Conflict)
}

func TestBatchesAreJudgedAgain(t *testing.T) {
	key := writes("k").Writes
	batch, set := newTransactions(t, Transaction{Reads: key, Writes: key}), newSet(t)
	for version, want := range []Verdict{Committed, Conflict} {
		verdicts, err := set.Judge(int64(version+1), batch)
		if err != nil {
			t.Error(err)
		}
		expect(t, verdicts, want)
	}
	for _, version := range []int64{2, -1} {
		if _, err := set.Judge(version, batch); !errors.Is(err, VersionLate) {
			t.Error(version, err)
		}
	}
}

func TestClosedBatchesRefuseCalls(t *testing.T) {
	batch, other, set := newTransactions(t, writes("k")), newTransactions(t), newSet(t)
	core, err := NewCore(1, Window, Limit)
	if err != nil {
		t.Fatal(err)
	}
	defer core.Close()
	for i := 0; i < 2; i++ {
		batch.Close()
	}
	batch.DropLast()
	batch.Clear()
	if batch.Len() != 0 || batch.Room() != 0 {
		t.Error(batch.Len(), batch.Room())
	}
	_, judging := set.Judge(1, batch)
	for index, err := range []error{judging, batch.Add(writes("k")), batch.Append(other),
		other.Append(batch), core.AdmitTransactions(0, batch, -1, 1, -1)} {
		if !errors.Is(err, Argument) {
			t.Error(index, err)
		}
	}
	set.Close()
	if _, err := set.Judge(1, other); !errors.Is(err, Argument) {
		t.Error(err)
	}
}

func TestCoresTakeBatches(t *testing.T) {
	core, err := NewCore(2, Window, Limit)
	if err != nil {
		t.Fatal(err)
	}
	defer core.Close()
	read := reads(0, "a", "k")
	read.Report = true
	batch := newTransactions(t, read)
	if err := core.AdmitTransactions(1, batch, 100, 200, -1); err != nil {
		t.Fatal(err)
	}
	if err := core.Admit(0, encoded(t, Batch{-1, 100, -1, []Transaction{writes("k")}})); err != nil {
		t.Fatal(err)
	}
	if answer, err := core.Give(0); err != nil || answer.Version != 100 {
		t.Error(answer, err)
	}
	answer, err := core.Give(1)
	if err != nil {
		t.Fatal(err)
	}
	reply, err := ReadReply(answer.Frame)
	want := Reply{200, []Entry{{Conflict, []int{1}}}}
	if err != nil || !reflect.DeepEqual(reply, want) {
		t.Errorf("%v, not %v: %v", reply, want, err)
	}
	for _, versions := range [][3]int64{{-2, 5, -1}, {5, 5, -1}, {4, 5, 5}} {
		err := core.AdmitTransactions(0, batch, versions[0], versions[1], versions[2])
		if !errors.Is(err, Argument) {
			t.Error(versions, err)
		}
	}
	if err := core.AdmitTransactions(2, batch, 200, 300, -1); !errors.Is(err, Argument) {
		t.Error(err)
	}
}

// Gives goroutines batches to fill, and the filled ones to others at the same time.
func TestGoroutinesShareBatches(t *testing.T) {
	one, other := newTransactions(t), newTransactions(t)
	var group sync.WaitGroup
	for worker := 0; worker < 8; worker++ {
		from, to := one, other
		if worker%2 == 0 {
			from, to = to, from
		}
		group.Add(1)
		go func() {
			defer group.Done()
			for i := 0; i < 500; i++ {
				full := Status(107)
				if err := to.Add(writes(fmt.Sprint("key ", i))); err != nil && !errors.Is(err, full) {
					t.Error(err)
				}
				if err := to.Append(from); err != nil && !errors.Is(err, full) {
					t.Error(err)
				}
				from.Clear()
			}
		}()
	}
	group.Wait()
	for _, batch := range []*Transactions{one, other} {
		if verdicts, err := newSet(t).Judge(1, batch); err != nil || len(verdicts) != batch.Len() {
			t.Error(verdicts, err)
		}
	}
}

func TestFramesAndBatchesAgree(t *testing.T) {
	seed := uint64(1)
	drawn := func(most uint64) uint64 {
		seed = seed*6364136223846793005 + 1442695040888963407
		return (seed >> 33) % most
	}
	ranges := func() (ranges []Range) {
		for count := drawn(4); count > 0; count-- {
			key := fmt.Sprint("k", drawn(9))
			each := Range{Begin: []byte(key), End: []byte(key + fmt.Sprint(drawn(9)))}
			each.IsKey = drawn(2) == 0
			ranges = append(ranges, each)
		}
		return ranges
	}
	one, two := newSet(t), newSet(t)
	for version := int64(10); version < 400; version++ {
		var transactions []Transaction
		for count := drawn(6); count > 0; count-- {
			snapshot := version - 1 - int64(drawn(5))
			transactions = append(transactions, Transaction{snapshot, ranges(), ranges(), false})
		}
		var want []Verdict
		for _, entry := range resolved(t, one, version, transactions...).Entries {
			want = append(want, entry.Verdict)
		}
		expect(t, judged(t, two, version, transactions...), want...)
	}
	if one.Boundaries() != two.Boundaries() {
		t.Error(one.Boundaries(), two.Boundaries())
	}
}

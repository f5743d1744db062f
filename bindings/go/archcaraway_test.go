package archcaraway

import (
	"bytes"
	"errors"
	"fmt"
	"reflect"
	"sync"
	"testing"
)

func encoded(t *testing.T, batch Batch) []byte {
	t.Helper()
	frame, err := batch.Encode()
	if err != nil {
		t.Fatal(err)
	}
	return frame
}

func resolved(t *testing.T, set *Set, version int64, transactions ...Transaction) Reply {
	t.Helper()
	frame, err := set.Resolve(encoded(t, Batch{-1, version, -1, transactions}))
	if err != nil {
		t.Fatal(err)
	}
	reply, err := ReadReply(frame)
	if err != nil {
		t.Fatal(err)
	}
	return reply
}

func newSet(t *testing.T) *Set {
	t.Helper()
	set, err := NewSet(Window, Limit)
	if err != nil {
		t.Fatal(err)
	}
	t.Cleanup(set.Close)
	return set
}

func span(begin, end string) Range { return Range{Begin: []byte(begin), End: []byte(end)} }

func TestVerdictsAndReports(t *testing.T) {
	set := newSet(t)
	resolved(t, set, 100, Transaction{Writes: []Range{span("a", "b"), span("e", "f")}})
	reads := []Range{span("a", "b"), span("c", "d"), Key([]byte("e"))}
	reply := resolved(t, set, 200, Transaction{Snapshot: 99, Reads: reads, Report: true},
		Transaction{Snapshot: 100, Reads: reads, Writes: []Range{Key([]byte("c"))}})
	want := Reply{200, []Entry{{Conflict, []int{0, 2}}, {Committed, nil}}}
	if !reflect.DeepEqual(reply, want) {
		t.Errorf("%v, not %v", reply, want)
	}
}

func TestSingleKeysAreNoEmptyRanges(t *testing.T) {
	set := newSet(t)
	resolved(t, set, 100, Transaction{Writes: []Range{Key([]byte("k"))}})
	rows := []struct {
		read Range
		want Verdict
	}{
		{Key([]byte("k")), Conflict},
		{span("k", "k\x00"), Conflict},
		{span("k", "k"), Committed},
		{Key([]byte("k\x00")), Committed},
		{Key(nil), Committed},
	}
	for index, row := range rows {
		reply := resolved(t, set, int64(101+index), Transaction{Snapshot: 50, Reads: []Range{row.read}})
		if got := reply.Entries[0].Verdict; got != row.want {
			t.Errorf("row %d: %v, not %v", index, got, row.want)
		}
	}
}

func TestRefusals(t *testing.T) {
	long := bytes.Repeat([]byte("k"), 10001)
	rows := []struct {
		batch Batch
		want  Status
	}{
		{Batch{-1, -1, -1, nil}, 105},
		{Batch{5, 5, -1, nil}, 105},
		{Batch{-1, 5, -1, []Transaction{{Snapshot: -1}}}, 105},
		{Batch{-1, 5, -1, make([]Transaction, 4097)}, 107},
		{Batch{-1, 5, -1, []Transaction{{Reads: make([]Range, 1025)}}}, 107},
		{Batch{-1, 5, -1, []Transaction{{Reads: []Range{Key(long)}}}}, 108},
		{Batch{-1, 5, -1, []Transaction{{Writes: []Range{span("b", "a")}}}}, 109},
	}
	for index, row := range rows {
		if _, err := row.batch.Encode(); !errors.Is(err, row.want) {
			t.Errorf("row %d: %v, not %v", index, err, row.want)
		}
	}
	for _, number := range []int64{0, -1, 1<<40 + 1} {
		if _, err := NewSet(number, Limit); !errors.Is(err, Argument) {
			t.Errorf("window %d: %v", number, err)
		}
	}
	for _, number := range []uint32{0, 65} {
		if _, err := NewCore(number, Window, Limit); !errors.Is(err, Argument) {
			t.Errorf("proxies %d: %v", number, err)
		}
	}
	set := newSet(t)
	resolved(t, set, 100)
	if _, err := set.Resolve(encoded(t, Batch{-1, 100, -1, nil})); !errors.Is(err, VersionLate) {
		t.Error(err)
	}
	if _, err := set.Resolve(nil); !errors.Is(err, Status(101)) {
		t.Error(err)
	}
	if _, err := set.Resolve(append(encoded(t, Batch{-1, 101, -1, nil}), 0)); !errors.Is(err, Behind) {
		t.Error(err)
	}
	if _, err := ReadReply(encoded(t, Batch{-1, 101, -1, nil})); !errors.Is(err, Status(103)) {
		t.Error(err)
	}
}

func TestClosedObjectsRefuseCalls(t *testing.T) {
	set := newSet(t)
	core, err := NewCore(1, Window, Limit)
	if err != nil {
		t.Fatal(err)
	}
	for i := 0; i < 2; i++ {
		set.Close()
		core.Close()
	}
	if _, err := set.Resolve(encoded(t, Batch{-1, 1, -1, nil})); !errors.Is(err, Argument) {
		t.Error(err)
	}
	if err := core.Admit(0, encoded(t, Batch{-1, 1, -1, nil})); !errors.Is(err, Argument) {
		t.Error(err)
	}
	if _, err := core.Give(0); !errors.Is(err, Argument) {
		t.Error(err)
	}
	if set.Boundaries() != 0 || core.Owed() != 0 {
		t.Error("a closed object has boundaries or answers")
	}
}

func TestCoreOrdersBatches(t *testing.T) {
	core, err := NewCore(2, Window, Limit)
	if err != nil {
		t.Fatal(err)
	}
	defer core.Close()
	sent := []struct {
		proxy uint32
		batch Batch
	}{{1, Batch{0, 100, -1, nil}}, {0, Batch{-1, 0, -1, nil}}, {0, Batch{800, 900, -1, nil}}}
	for _, each := range sent {
		if err := core.Admit(each.proxy, encoded(t, each.batch)); err != nil {
			t.Fatal(err)
		}
	}
	if err := core.Finish(); err != nil || core.Owed() != 3 || core.Stop() != nil {
		t.Fatal(err, core.Owed(), core.Stop())
	}
	rows := []struct {
		proxy   uint32
		kind    Kind
		version int64
	}{{1, HasReply, 100}, {0, HasReply, 0}, {0, Held, 900}, {0, Nothing, -1}}
	for _, row := range rows {
		answer, err := core.Give(row.proxy)
		if err != nil || answer.Kind != row.kind || answer.Version != row.version {
			t.Errorf("%v, not %v: %v", answer, row, err)
		}
	}
}

func TestRefusedBatch(t *testing.T) {
	set, err := NewSet(Window, 3)
	if err != nil {
		t.Fatal(err)
	}
	defer set.Close()
	write := func(version int64, key string) []byte {
		writes := Transaction{Writes: []Range{Key([]byte(key))}}
		return encoded(t, Batch{-1, version, -1, []Transaction{writes}})
	}
	for _, row := range []struct {
		version int64
		key     string
		status  error
	}{
		{100, "k", nil}, {200, "m", ArenaFull}, {200, "m", ArenaFull}, {5_000_101, "m", nil},
	} {
		if _, err := set.TryResolve(write(row.version, row.key)); err != row.status {
			t.Errorf("%v: %v", row, err)
		}
	}
	if _, err := set.Resolve(write(5_000_102, "k")); err != ArenaFull {
		t.Error(err)
	}
	if _, err := set.TryResolve(write(20_000_000, "k")); err != ArenaFull {
		t.Error(err)
	}
}

func TestStartAtAVersion(t *testing.T) {
	set, err := NewSetAt(Window, Limit, 1000)
	if err != nil {
		t.Fatal(err)
	}
	defer set.Close()
	read := func(snapshot int64, read Range) Transaction {
		return Transaction{Snapshot: snapshot, Reads: []Range{read}}
	}
	key := Key([]byte("k"))
	reply := resolved(t, set, 1001, read(900, key), read(1000, key), read(900, span("k", "k")))
	want := Reply{1001, []Entry{{Conflict, nil}, {Committed, nil}, {Committed, nil}}}
	if !reflect.DeepEqual(reply, want) {
		t.Errorf("%v, not %v", reply, want)
	}
	if stats, err := set.Stats(); err != nil || stats != (Stats{2, Limit, 1001, 0, 0, 0}) {
		t.Error(stats, err)
	}
	core, err := NewCoreAt(2, Window, Limit, 1_000_000_000)
	if err != nil {
		t.Fatal(err)
	}
	defer core.Close()
	for _, batch := range []Batch{
		{999_999_999, 1_000_000_000, -1, nil},
		{1_000_000_001, 1_000_000_002, -1, nil},
		{1_000_000_000, 1_000_000_001, -1, nil},
		{1_000_000_009, 1_000_000_010, -1, nil},
	} {
		if err := core.Admit(1, encoded(t, batch)); err != nil {
			t.Fatal(err)
		}
	}
	expected := Stats{2, Limit, 1_000_000_002, 995_000_002, 1, 3}
	if stats, err := core.Stats(); err != nil || stats != expected {
		t.Error(stats, err)
	}
	other, err := NewSetAt(Window, Limit, 1_000_000_000)
	if err != nil || core.BytesHeld() == 0 || core.BytesHeld() != other.BytesHeld() {
		t.Error(core.BytesHeld(), err)
	}
	for _, want := range []Kind{Never, HasReply, HasReply} {
		proxy, owed := core.Next()
		answer, err := core.Give(proxy)
		if !owed || proxy != 1 || err != nil || answer.Kind != want {
			t.Error(proxy, owed, answer, err)
		}
	}
	if _, owed := core.Next(); owed {
		t.Error("an answer is owed")
	}
	if _, err := NewSetAt(Window, 2, 0); !errors.Is(err, ArenaFull) {
		t.Error(err)
	}
	if _, err := NewCoreAt(1, Window, Limit, -2); !errors.Is(err, Argument) {
		t.Error(err)
	}
}

func TestStopIsFinal(t *testing.T) {
	set, err := NewSet(Window, 1)
	if err != nil {
		t.Fatal(err)
	}
	defer set.Close()
	write := []Transaction{{Writes: []Range{Key([]byte("k"))}}}
	for version := int64(1); version < 3; version++ {
		_, err := set.Resolve(encoded(t, Batch{-1, version, -1, write}))
		if !errors.Is(err, ArenaFull) || !ArenaFull.IsStop() {
			t.Error(err)
		}
		if err := set.Trim(); err != nil {
			t.Error(err)
		}
	}
}

func TestTrim(t *testing.T) {
	set := newSet(t)
	write := func(version int64, keys ...string) {
		var writes []Transaction
		for _, key := range keys {
			writes = append(writes, Transaction{Writes: []Range{Key([]byte(key))}, Snapshot: version - 1})
		}
		resolved(t, set, version, writes...)
	}
	var keys []string
	for number := 0; number < 1000; number++ {
		keys = append(keys, fmt.Sprintf("%0100d", number))
	}
	write(1, keys...)
	version := int64(Window + 2)
	for ; set.Boundaries() > 3; version++ {
		write(version, "k")
	}
	stats, _ := set.Stats()
	before := set.BytesHeld()
	if err := set.Trim(); err != nil {
		t.Error(err)
	}
	if after, err := set.Stats(); err != nil || after != stats {
		t.Error(after, stats, err)
	}
	if after := set.BytesHeld(); after == 0 || after > before/2 {
		t.Error(after, before)
	}
	key := []Range{Key([]byte("k"))}
	reply := resolved(t, set, version, Transaction{Snapshot: version - 1, Reads: key},
		Transaction{Snapshot: version - 2, Reads: key})
	if reply.Entries[0].Verdict != Committed || reply.Entries[1].Verdict != Conflict {
		t.Error(reply)
	}
	set.Close()
	if err := set.Trim(); !errors.Is(err, Argument) || set.BytesHeld() != 0 {
		t.Error(err, set.BytesHeld())
	}
}

func TestGoroutinesShareASet(t *testing.T) {
	set := newSet(t)
	var mutex sync.Mutex
	var group sync.WaitGroup
	var version int64
	for worker := 0; worker < 8; worker++ {
		group.Add(1)
		go func() {
			defer group.Done()
			for i := 0; i < 500; i++ {
				mutex.Lock()
				version++
				key := []Range{Key([]byte("k"))}
				reply := resolved(t, set, version, Transaction{Snapshot: version - 1, Reads: key, Writes: key})
				if reply.Entries[0].Verdict != Committed {
					t.Error(reply)
				}
				mutex.Unlock()
				set.Boundaries()
			}
		}()
	}
	group.Wait()
}

func TestNextFrameDividesAStream(t *testing.T) {
	first := encoded(t, Batch{-1, 1, -1, nil})
	second := encoded(t, Batch{1, 2, -1, make([]Transaction, 3)})
	frame, rest, err := NextFrame(append(append([]byte(nil), first...), second...))
	if err != nil || !bytes.Equal(frame, first) || !bytes.Equal(rest, second) {
		t.Error(frame, rest, err)
	}
	if _, _, err := NextFrame(first[:30]); !errors.Is(err, Status(101)) {
		t.Error(err)
	}
}

func TestVersion(t *testing.T) {
	if Version() < 2000 {
		t.Error(Version())
	}
}

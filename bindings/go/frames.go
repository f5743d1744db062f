package archcaraway

/*
#include <archcaraway_frames.h>
*/
import "C"

import "unsafe"

// Range is the keys from Begin up to End, and without End; or the single key Begin, if IsKey is
// set.
type Range struct {
	Begin, End []byte
	IsKey      bool
}

// Key returns the range of a single key.
func Key(key []byte) Range { return Range{Begin: key, IsKey: true} }

// Transaction is one to be judged. Snapshot is its read version. With Report, a conflict lists the
// indices of the conflicting reads.
type Transaction struct {
	Snapshot      int64
	Reads, Writes []Range
	Report        bool
}

// Batch is the transactions of one version. A set doesn't use Previous, the version of the batch
// before, and Received, the version of the last reply that the proxy has received: -1 for none.
type Batch struct {
	Previous, Version, Received int64
	Transactions                []Transaction
}

// Encode returns the frame of the batch.
func (b *Batch) Encode() ([]byte, error) {
	writer := C.archcaraway_writer_new(nil, nil)
	defer C.archcaraway_writer_free(&writer)
	// The writer remembers the first refusal.
	C.archcaraway_batch_begin(&writer, C.int64_t(b.Previous), C.int64_t(b.Version),
		C.int64_t(b.Received))
	for _, each := range b.Transactions {
		C.archcaraway_batch_transaction(&writer, C.int64_t(each.Snapshot), C.bool(each.Report))
		for _, read := range each.Reads {
			put(&writer, read, true)
		}
		for _, write := range each.Writes {
			put(&writer, write, false)
		}
	}
	if err := check(C.archcaraway_batch_end(&writer)); err != nil {
		return nil, err
	}
	return C.GoBytes(unsafe.Pointer(writer.bytes), C.int(writer.length)), nil
}

func put(writer *C.archcaraway_writer, r Range, isRead bool) {
	begin, end := C.size_t(len(r.Begin)), C.size_t(len(r.End))
	switch {
	case r.IsKey && isRead:
		C.archcaraway_batch_read_key(writer, pointer(r.Begin), begin)
	case r.IsKey:
		C.archcaraway_batch_write_key(writer, pointer(r.Begin), begin)
	case isRead:
		C.archcaraway_batch_read(writer, pointer(r.Begin), begin, pointer(r.End), end)
	default:
		C.archcaraway_batch_write(writer, pointer(r.Begin), begin, pointer(r.End), end)
	}
}

// Verdict is the verdict on a transaction.
type Verdict int

// The verdicts.
const (
	Conflict  Verdict = C.ARCHCARAWAY_CONFLICT
	TooOld    Verdict = C.ARCHCARAWAY_TOO_OLD
	Committed Verdict = C.ARCHCARAWAY_COMMITTED
)

// Entry is the verdict on a transaction, and the indices of its conflicting reads, if it asks for
// them.
type Entry struct {
	Verdict   Verdict
	Conflicts []int
}

// Reply is the reply to the batch of a version: one entry per transaction, in order.
type Reply struct {
	Version int64
	Entries []Entry
}

// ReadReply reads the frame of a reply at the front of the bytes.
func ReadReply(frame []byte) (Reply, error) {
	// The reader keeps a pointer to the bytes, so they are in C's memory.
	bytes := C.CBytes(frame)
	defer C.free(bytes)
	var reader C.archcaraway_reply
	status := C.archcaraway_reply_read(&reader, (*C.uint8_t)(bytes), C.size_t(len(frame)))
	if err := check(status); err != nil {
		return Reply{}, err
	}
	reply := Reply{int64(reader.version), make([]Entry, 0, int(reader.count))}
	var entry C.archcaraway_entry
	for bool(C.archcaraway_reply_next(&reader, &entry)) {
		read := Entry{Verdict: Verdict(entry.verdict)}
		for index := C.unsigned(0); index < entry.count; index++ {
			read.Conflicts = append(read.Conflicts, int(C.archcaraway_entry_place(&entry, index)))
		}
		reply.Entries = append(reply.Entries, read)
	}
	return reply, nil
}

// NextFrame divides a stream of frames: it returns the frame at the front of the bytes, and the
// bytes after it.
func NextFrame(stream []byte) (frame, rest []byte, err error) {
	var length C.size_t
	status := C.archcaraway_frame_length(pointer(stream), C.size_t(len(stream)), &length)
	if err := check(status); err != nil {
		return nil, stream, err
	}
	return stream[:length], stream[length:], nil
}

// Package archcaraway is a conflict set and a transaction resolver, after FoundationDB 7.1, over
// the library for C.
//
// cgo finds the library by pkg-config: install it, or name the folder that has archcaraway.pc in
// PKG_CONFIG_PATH.
package archcaraway

/*
#cgo pkg-config: archcaraway
#include <archcaraway_frames.h>
*/
import "C"

import (
	"runtime"
	"sync"
	"unsafe"
)

// The window of FoundationDB 7.1 in versions, and a limit that suits most uses, in boundaries.
const (
	Window = 5_000_000
	Limit  = 1_000_000
)

// Status is a refusal, with its number in archcaraway.h.
type Status int

// The statuses that a program may expect. Those of frames are 101 to 115.
const (
	Memory      Status = C.ARCHCARAWAY_MEMORY
	GateFull    Status = C.ARCHCARAWAY_GATE_FULL
	ArenaFull   Status = C.ARCHCARAWAY_ARENA_FULL
	VersionLate Status = C.ARCHCARAWAY_VERSION_LATE
	Argument    Status = C.ARCHCARAWAY_ARGUMENT
	Behind      Status = C.ARCHCARAWAY_BEHIND
	Processor   Status = C.ARCHCARAWAY_PROCESSOR
)

// Error returns the text of the status. The part before the first colon is what `replay` prints.
func (s Status) Error() string { return C.GoString(C.archcaraway_status_text(C.int(s))) }

// IsStop returns whether the object has stopped for good.
func (s Status) IsStop() bool { return s >= Memory && s <= ArenaFull }

func check(status C.int) error {
	if status == C.ARCHCARAWAY_OK {
		return nil
	}
	return Status(status)
}

// Version returns the release of the library as one number: 1,000,000 * major + 1,000 * minor +
// patch.
func Version() int { return int(C.archcaraway_version()) }

// Returns a new object, which is freed with the last pointer to it, or the refusal of the status.
func made[T any](object *T, status C.int, free func(*T)) (*T, error) {
	if err := check(status); err != nil {
		return nil, err
	}
	runtime.SetFinalizer(object, free)
	return object, nil
}

// Takes a lock, and returns what gives it back.
func lock(mutex *sync.Mutex) func() {
	mutex.Lock()
	return mutex.Unlock
}

// The bytes as C sees them. C keeps no pointer to them.
func pointer(bytes []byte) *C.uint8_t {
	if len(bytes) == 0 {
		return nil
	}
	return (*C.uint8_t)(unsafe.Pointer(&bytes[0]))
}

// Calls a function that writes a frame, again if the buffer is too small, and returns the frame.
func fill(call func(buffer *C.uint8_t, size C.size_t, length *C.size_t) C.int) ([]byte, error) {
	frame := make([]byte, 256)
	for {
		var length C.size_t
		status := call(pointer(frame), C.size_t(len(frame)), &length)
		if status != C.ARCHCARAWAY_BUFFER {
			return frame[:length], check(status)
		}
		frame = make([]byte, length)
	}
}

// Set is the committed writes of one chain of batches. Goroutines may share it: their calls wait
// for each other.
type Set struct {
	mutex  sync.Mutex
	handle C.archcaraway_set
}

// NewSet creates a set that remembers the writes of the last `window` versions, in at most `limit`
// boundaries.
func NewSet(window int64, limit uint64) (*Set, error) { return NewSetAt(window, limit, -1) }

// NewSetAt creates a set that starts at a version: what was written up to it isn't known, and reads
// with a snapshot below it conflict.
func NewSetAt(window int64, limit uint64, version int64) (*Set, error) {
	set := new(Set)
	status := C.archcaraway_set_new_at(C.int64_t(window), C.uint64_t(limit), C.int64_t(version),
		&set.handle)
	return made(set, status, (*Set).Close)
}

// Close frees the set. Later calls return Argument; closing it again does nothing.
func (s *Set) Close() {
	defer lock(&s.mutex)()
	C.archcaraway_set_free(&s.handle)
}

// Resolve judges the batch of a frame, and remembers what it commits. It returns the frame of the
// reply.
//
// After an error that isn't a stop the set is as before.
func (s *Set) Resolve(batch []byte) ([]byte, error) { return s.resolve(batch, false) }

// TryResolve judges a batch as Resolve does. But if the batch doesn't fit the limit, it returns
// ArenaFull, and the set is as before: it hasn't stopped.
func (s *Set) TryResolve(batch []byte) ([]byte, error) { return s.resolve(batch, true) }

func (s *Set) resolve(batch []byte, mustFit bool) ([]byte, error) {
	defer lock(&s.mutex)()
	frame, bytes := pointer(batch), C.size_t(len(batch))
	return fill(func(buffer *C.uint8_t, size C.size_t, length *C.size_t) C.int {
		if mustFit {
			return C.archcaraway_set_try_resolve(&s.handle, frame, bytes, buffer, size, length)
		}
		return C.archcaraway_set_resolve(&s.handle, frame, bytes, buffer, size, length)
	})
}

// Boundaries returns the number of boundaries that the set keeps; 0 if it is closed.
func (s *Set) Boundaries() uint64 {
	defer lock(&s.mutex)()
	return uint64(C.archcaraway_set_boundaries(&s.handle))
}

// Stats is what a set or a core reports about itself. A set holds no batches and owes no answers.
type Stats struct {
	Boundaries, Limit uint64
	Version, Edge     int64
	Held, Owed        uint64
}

func statsOf(stats *C.archcaraway_stats, status C.int) (Stats, error) {
	return Stats{uint64(stats.boundaries), uint64(stats.limit), int64(stats.version),
		int64(stats.edge), uint64(stats.held), uint64(stats.owed)}, check(status)
}

// Stats returns the boundaries, the limit, the version and the edge of the set.
func (s *Set) Stats() (Stats, error) {
	defer lock(&s.mutex)()
	var stats C.archcaraway_stats
	return statsOf(&stats, C.archcaraway_set_stats(&s.handle, &stats))
}

// BytesHeld returns about how many bytes of memory the set has used for its boundaries and its
// filter; 0 if it is closed.
func (s *Set) BytesHeld() uint64 {
	defer lock(&s.mutex)()
	return uint64(C.archcaraway_set_bytes_held(&s.handle))
}

// Trim frees memory that the set doesn't need for its boundaries. The error 111 is a failed
// allocation. The set is as before in both cases, and one that has stopped stays stopped.
func (s *Set) Trim() error {
	defer lock(&s.mutex)()
	return check(C.archcaraway_set_trim(&s.handle))
}

// Kind says what a core gives a proxy.
type Kind int

// Kinds of answers.
const (
	Nothing  Kind = C.ARCHCARAWAY_NOTHING // none is owed
	HasReply Kind = C.ARCHCARAWAY_REPLY   // the frame of a reply
	Never    Kind = C.ARCHCARAWAY_NEVER   // a repeat whose reply is no longer kept
	Held     Kind = C.ARCHCARAWAY_HELD    // its previous version hadn't come at the end
)

// Answer is what a core gives a proxy for the batch of a version.
type Answer struct {
	Kind    Kind
	Version int64
	Frame   []byte // of the reply, if there is one
}

// Core is a resolver for the batches of many proxies. Goroutines may share it: their calls wait for
// each other.
type Core struct {
	mutex  sync.Mutex
	handle C.archcaraway_core
}

// NewCore creates a core for proxies that are numbered from 0. Window and limit are those of
// NewSet.
func NewCore(proxies uint32, window int64, limit uint64) (*Core, error) {
	return NewCoreAt(proxies, window, limit, -1)
}

// NewCoreAt creates a core that starts at a version: its first batch follows that version, and what
// was written up to it isn't known.
func NewCoreAt(proxies uint32, window int64, limit uint64, version int64) (*Core, error) {
	core := new(Core)
	status := C.archcaraway_core_new_at(C.uint32_t(proxies), C.int64_t(window), C.uint64_t(limit),
		C.int64_t(version), &core.handle)
	return made(core, status, (*Core).Close)
}

// Close frees the core. Later calls return Argument; closing it again does nothing.
func (c *Core) Close() {
	defer lock(&c.mutex)()
	C.archcaraway_core_free(&c.handle)
}

// Admit takes the batch of a frame from a proxy. After a stop the core takes no more; after another
// error it is as before.
func (c *Core) Admit(proxy uint32, batch []byte) error {
	defer lock(&c.mutex)()
	return check(C.archcaraway_core_admit(&c.handle, C.uint32_t(proxy), pointer(batch),
		C.size_t(len(batch))))
}

// Finish answers every batch that is still held.
func (c *Core) Finish() error {
	defer lock(&c.mutex)()
	return check(C.archcaraway_core_finish(&c.handle))
}

// Give returns the oldest answer owed to a proxy. It continues after a stop.
func (c *Core) Give(proxy uint32) (Answer, error) {
	defer lock(&c.mutex)()
	var kind C.int
	var version C.int64_t
	frame, err := fill(func(buffer *C.uint8_t, size C.size_t, length *C.size_t) C.int {
		return C.archcaraway_core_give(&c.handle, C.uint32_t(proxy), buffer, size, length, &kind,
			&version)
	})
	return Answer{Kind(kind), int64(version), frame}, err
}

// Owed returns the number of answers owed to all proxies; 0 if the core is closed.
func (c *Core) Owed() uint64 {
	defer lock(&c.mutex)()
	return uint64(C.archcaraway_core_owed(&c.handle))
}

// Next returns the lowest proxy that is owed an answer, if any is.
func (c *Core) Next() (proxy uint32, owed bool) {
	defer lock(&c.mutex)()
	var number C.uint32_t
	owed = C.archcaraway_core_next(&c.handle, &number) != 0
	return uint32(number), owed
}

// Stats returns those of the core's set, the batches that it holds, and the answers that it owes.
func (c *Core) Stats() (Stats, error) {
	defer lock(&c.mutex)()
	var stats C.archcaraway_stats
	return statsOf(&stats, C.archcaraway_core_stats(&c.handle, &stats))
}

// BytesHeld returns about how many bytes of memory the core's set has used, as Set.BytesHeld; 0 if
// the core is closed.
func (c *Core) BytesHeld() uint64 {
	defer lock(&c.mutex)()
	return uint64(C.archcaraway_core_bytes_held(&c.handle))
}

// Stop returns the stop that the core has met, or nil.
func (c *Core) Stop() error {
	defer lock(&c.mutex)()
	return check(C.archcaraway_core_stop(&c.handle))
}

package archcaraway

/*
#include <stdlib.h>
#include <archcaraway_shards.h>
*/
import "C"

import (
	"bytes"
	"fmt"
	"sync"
	"unsafe"
)

// The statuses that a program may expect from split points and combined replies.
const (
	PointsTooMany   Status = C.ARCHCARAWAY_POINTS_TOO_MANY
	PointsNotRising Status = C.ARCHCARAWAY_POINTS_NOT_RISING
	MisfitVersion   Status = C.ARCHCARAWAY_MISFIT_VERSION
	MisfitCount     Status = C.ARCHCARAWAY_MISFIT_COUNT
	MisfitPlace     Status = C.ARCHCARAWAY_MISFIT_PLACE
)

// ShardError is a refused key or reply: Index is the first split point, or the first shard, at
// fault, or the number of all.
type ShardError struct {
	Status Status
	Index  int
}

func (e *ShardError) Error() string { return fmt.Sprintf("%v (index %d)", e.Status, e.Index) }

// Unwrap returns the status.
func (e *ShardError) Unwrap() error { return e.Status }

func atShard(err error, bad C.size_t) error {
	if status, ok := err.(Status); ok {
		return &ShardError{status, int(bad)}
	}
	return err
}

// SplitPoints split all keys into shards, with a resolver each. Goroutines may share them: their
// calls wait for each other.
type SplitPoints struct {
	mutex  sync.Mutex
	handle C.archcaraway_split_points
}

// NewSplitPoints copies at most 63 keys, which rise strictly from the empty key on.
func NewSplitPoints(keys [][]byte) (*SplitPoints, error) {
	array := (*C.archcaraway_bytes)(C.calloc(C.size_t(len(keys)+1), C.sizeof_archcaraway_bytes))
	defer C.free(unsafe.Pointer(array))
	given := unsafe.Slice(array, len(keys))
	for index, key := range keys {
		given[index].bytes = (*C.uint8_t)(C.CBytes(key))
		given[index].length = C.size_t(len(key))
		defer C.free(unsafe.Pointer(given[index].bytes))
	}
	points, bad := new(SplitPoints), C.size_t(0)
	status := C.archcaraway_split_points_new(array, C.size_t(len(keys)), &points.handle, &bad)
	points, err := made(points, status, (*SplitPoints).Close)
	return points, atShard(err, bad)
}

// Close frees the split points. Later calls return Argument; closing them again does nothing.
func (p *SplitPoints) Close() {
	defer lock(&p.mutex)()
	C.archcaraway_split_points_free(&p.handle)
}

// Shards returns the number of shards; 0 if the split points are closed.
func (p *SplitPoints) Shards() int {
	defer lock(&p.mutex)()
	return int(C.archcaraway_split_points_shards(&p.handle))
}

// Clip returns the frame of the batch of a shard.
func (p *SplitPoints) Clip(shard int, batch []byte) ([]byte, error) {
	defer lock(&p.mutex)()
	return fill(func(buffer *C.uint8_t, size C.size_t, length *C.size_t) C.int {
		return C.archcaraway_clip(&p.handle, C.size_t(shard), pointer(batch), C.size_t(len(batch)),
			buffer, size, length)
	})
}

// Combine returns the frame of the reply of all shards, given theirs, in order, and the frame of
// the batch as it was before it was clipped.
func (p *SplitPoints) Combine(batch []byte, replies [][]byte) ([]byte, error) {
	defer lock(&p.mutex)()
	stream := bytes.Join(replies, nil)
	var bad C.size_t
	reply, err := fill(func(buffer *C.uint8_t, size C.size_t, length *C.size_t) C.int {
		return C.archcaraway_combine(&p.handle, pointer(batch), C.size_t(len(batch)),
			pointer(stream), C.size_t(len(stream)), buffer, size, length, &bad)
	})
	return reply, atShard(err, bad)
}

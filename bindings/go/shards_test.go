package archcaraway

import (
	"bytes"
	"encoding/binary"
	"errors"
	"os"
	"strconv"
	"strings"
	"testing"
)

func number(t *testing.T, text string) int64 {
	t.Helper()
	value, err := strconv.ParseInt(text, 10, 64)
	if err != nil {
		t.Fatal(err)
	}
	return value
}

// The frame of a batch, as tests/shards.txt writes it.
func rowBatch(t *testing.T, text string) []byte {
	t.Helper()
	parts := strings.Split(text, "; ")
	versions := strings.Split(parts[0], ">")
	batch := Batch{Previous: number(t, versions[0]), Version: number(t, versions[1]), Received: -1}
	for _, part := range parts[1:] {
		var each Transaction
		for _, word := range strings.Split(part, " ") {
			switch word[0] {
			case '@':
				each.Snapshot = number(t, word[1:])
			case 'm':
				each.Report = true
			default:
				keys := strings.Split(word[2:len(word)-1], ",")
				if word[0] == 'R' {
					each.Reads = append(each.Reads, span(keys[0], keys[1]))
				} else {
					each.Writes = append(each.Writes, span(keys[0], keys[1]))
				}
			}
		}
		batch.Transactions = append(batch.Transactions, each)
	}
	return encoded(t, batch)
}

// The frame of a reply, as tests/shards.txt writes it.
func rowReply(t *testing.T, text string) []byte {
	t.Helper()
	words := strings.Split(text, " ")
	var body bytes.Buffer
	put := func(values ...any) {
		for _, value := range values {
			binary.Write(&body, binary.BigEndian, value)
		}
	}
	put(byte(2), number(t, strings.TrimSuffix(words[0], ":")), uint16(len(words)-1))
	for _, word := range words[1:] {
		var places []string
		if len(word) > 1 {
			places = strings.Split(word[1:], ",")
		}
		put(byte(strings.Index("XTC", word[:1])), uint16(len(places)))
		for _, place := range places {
			put(uint16(number(t, place)))
		}
	}
	frame := binary.BigEndian.AppendUint32(nil, uint32(body.Len()))
	return append(frame, body.Bytes()...)
}

func split(words string) (*SplitPoints, error) {
	var keys [][]byte
	for _, word := range strings.Fields(words) {
		keys = append(keys, []byte(word))
	}
	return NewSplitPoints(keys)
}

func TestRowsOfShards(t *testing.T) {
	text, err := os.ReadFile("../../tests/shards.txt")
	if err != nil {
		t.Fatal(err)
	}
	var points *SplitPoints
	var sets []*Set
	var alone *Set
	var frame, clip []byte
	var replies [][]byte
	expect := func(want string, found []byte, err error) {
		t.Helper()
		if err != nil || !bytes.Equal(found, rowReply(t, want)) {
			t.Errorf("%s: %v %v", want, found, err)
		}
	}
	for _, line := range strings.Split(string(text), "\n") {
		word, rest, _ := strings.Cut(line, " ")
		switch word {
		case "points":
			if points, err = split(rest); err != nil {
				t.Fatal(err)
			}
			defer points.Close()
			sets, alone = nil, newSet(t)
			for shard := 0; shard < points.Shards(); shard++ {
				sets = append(sets, newSet(t))
			}
		case "batch":
			frame, replies = rowBatch(t, rest), nil
		case "clip":
			clip, err = points.Clip(len(replies), frame)
			if err != nil || !bytes.Equal(clip, rowBatch(t, rest)) {
				t.Errorf("%s: %v %v", rest, clip, err)
			}
		case "reply":
			found, err := sets[len(replies)].Resolve(clip)
			expect(rest, found, err)
			replies = append(replies, found)
		case "combined":
			found, err := points.Combine(frame, replies)
			expect(rest, found, err)
		case "alone":
			found, err := alone.Resolve(frame)
			expect(rest, found, err)
		}
	}
}

func TestRefusedShards(t *testing.T) {
	_, err := split("h p c")
	var refused *ShardError
	if !errors.Is(err, PointsNotRising) || !errors.As(err, &refused) || refused.Index != 2 {
		t.Error(err)
	}
	if _, err := NewSplitPoints(make([][]byte, 64)); !errors.Is(err, PointsTooMany) {
		t.Error(err)
	}
	points, err := split("m")
	if err != nil {
		t.Fatal(err)
	}
	frame := rowBatch(t, "0>100; @50 m R[a,b) R[c,d) R[x,y)")
	rows := []struct {
		replies []string
		status  Status
		shard   int
	}{
		{[]string{"100: X1", "200: C"}, MisfitVersion, 1},
		{[]string{"100: C C", "100: C"}, MisfitCount, 0},
		{[]string{"100: X1", "100: X1"}, MisfitPlace, 1},
		{[]string{"100: X1"}, Status(101), 1},
		{[]string{"100: C", "100: C", "100: C"}, Behind, 2},
	}
	for _, row := range rows {
		var replies [][]byte
		for _, reply := range row.replies {
			replies = append(replies, rowReply(t, reply))
		}
		_, err := points.Combine(frame, replies)
		if !errors.Is(err, row.status) || !errors.As(err, &refused) || refused.Index != row.shard {
			t.Error(row, err)
		}
	}
	if _, err := points.Clip(2, frame); !errors.Is(err, Argument) {
		t.Error(err)
	}
	points.Close()
	points.Close()
	if _, err := points.Clip(0, frame); !errors.Is(err, Argument) || points.Shards() != 0 {
		t.Error(err)
	}
}

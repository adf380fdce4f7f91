// go_peers DIR tdigest|hdr SETTING STREAM..: influxdata's t-digest (merging) and codahale's HdrHistogram, as Debian packages
// them. The output is records, as those of by_lines. Neither tosses coins. Times are the processor's, with the collector's.
package main

import (
	"encoding/binary"
	"fmt"
	"os"
	"reflect"
	"runtime"
	"strconv"
	"strings"
	"syscall"
	"unsafe"

	"github.com/codahale/hdrhistogram"
	"github.com/influxdata/tdigest"
)

const parts = 168
const rounds = 3
const longest = 3600000000 // an hour in microseconds: the range of HdrHistogram

var percentiles = []float64{0.5, 0.9, 0.99, 0.999, 0.9999, 0.99999}
var refused int

// What is measured of a sketch S.
type peer[S any] struct {
	name   string
	filled func([]int64) S
	joined func([]S) S
	answer func(S, float64) float64
}

func now() float64 {
	var used syscall.Rusage
	syscall.Getrusage(syscall.RUSAGE_SELF, &used)
	return float64(used.Utime.Nano() + used.Stime.Nano())
}

func heap() uint64 {
	runtime.GC()
	runtime.GC()
	var told runtime.MemStats
	runtime.ReadMemStats(&told)
	return told.HeapAlloc
}

func read(path string) []int64 {
	bytes, err := os.ReadFile(path)
	if err != nil {
		panic(err)
	}
	items := make([]int64, len(bytes)/8)
	for i := range items {
		items[i] = int64(binary.LittleEndian.Uint64(bytes[8*i:]))
	}
	return items
}

func (p peer[S]) says(what, stream string, figures ...any) {
	fmt.Println(what, p.name, stream, strings.Trim(fmt.Sprint(figures...), "[]"))
}

func (p peer[S]) answers(stream string, sketch S) {
	told := make([]string, len(percentiles))
	for i, fraction := range percentiles {
		told[i] = strconv.FormatFloat(p.answer(sketch, fraction), 'f', 3, 64)
	}
	p.says("answers", stream, strings.Join(told, " "))
}

func (p peer[S]) measure(stream string, items []int64) {
	var sketch S
	for round := 0; round < rounds; round++ {
		var none S
		sketch = none
		refused = 0
		before, begun := heap(), now()
		sketch = p.filled(items)
		p.says("update_ns", stream, (now()-begun)/float64(len(items)))
		p.says("live", stream, heap()-before)
	}
	p.answers(stream, sketch)
	if refused > 0 {
		p.says("note", stream, fmt.Sprintf("%d items refused", refused))
	}
	if stream != "latency" && stream != "bursts" {
		return
	}
	made := make([]S, parts)
	for i := range made {
		made[i] = p.filled(items[len(items)*i/parts : len(items)*(i+1)/parts])
		p.answer(made[i], 0.5) // takes in what it holds back
	}
	for round := 0; round < rounds; round++ {
		begun := now()
		sketch = p.joined(made)
		p.says("merge_ns", stream, (now()-begun)/parts)
	}
	p.answers(stream+"+merge", sketch)
}

// This version has no call that merges, and keeps its centroids private (later ones don't): so they are reached by reflection.
func centroids(digest *tdigest.TDigest) tdigest.CentroidList {
	field := reflect.ValueOf(digest).Elem().FieldByName("processed")
	return *(*tdigest.CentroidList)(unsafe.Pointer(field.UnsafeAddr()))
}

func digests(setting string) peer[*tdigest.TDigest] {
	compression, _ := strconv.ParseFloat(setting, 64)
	return peer[*tdigest.TDigest]{
		name: "tdigest_go " + setting,
		filled: func(items []int64) *tdigest.TDigest {
			digest := tdigest.NewWithCompression(compression)
			for _, item := range items {
				digest.Add(float64(item), 1)
			}
			return digest
		},
		joined: func(made []*tdigest.TDigest) *tdigest.TDigest {
			all := tdigest.NewWithCompression(compression)
			for _, one := range made {
				for _, centroid := range centroids(one) {
					all.AddCentroid(centroid)
				}
			}
			all.Quantile(0.5)
			return all
		},
		answer: func(digest *tdigest.TDigest, fraction float64) float64 { return digest.Quantile(fraction) },
	}
}

func histograms(setting string) peer[*hdrhistogram.Histogram] {
	digits, _ := strconv.Atoi(setting)
	return peer[*hdrhistogram.Histogram]{
		name: "hdr_go " + setting,
		filled: func(items []int64) *hdrhistogram.Histogram {
			made := hdrhistogram.New(1, longest, digits)
			for _, item := range items {
				if item < 0 || made.RecordValue(item) != nil {
					refused++
				}
			}
			return made
		},
		joined: func(made []*hdrhistogram.Histogram) *hdrhistogram.Histogram {
			all := hdrhistogram.New(1, longest, digits)
			for _, one := range made {
				all.Merge(one)
			}
			return all
		},
		answer: func(made *hdrhistogram.Histogram, fraction float64) float64 {
			return float64(made.ValueAtQuantile(100 * fraction))
		},
	}
}

func main() {
	for _, stream := range os.Args[4:] {
		items := read(os.Args[1] + "/" + stream + ".i64")
		if os.Args[2] == "tdigest" {
			digests(os.Args[3]).measure(stream, items)
		} else {
			histograms(os.Args[3]).measure(stream, items)
		}
	}
}

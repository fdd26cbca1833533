// Measures three packages of groupcache and its nodes, as crates/desk_driver measures ours: a run makes one measurement and prints the
// nanoseconds of all its calls and the sum of their answers.
package main

import (
	"crypto/sha1"
	"errors"
	"fmt"
	"os"
	"strconv"
	"time"

	"github.com/golang/groupcache/consistenthash"
	"github.com/golang/groupcache/lru"
	"github.com/golang/groupcache/singleflight"
)

// keyCount is how many keys are asked for in turn.
const keyCount = 1024

// chunkCount is how many chunks a cache of 64 MiB has, of 64 KiB each.
const (
	chunkCount = 1024
	chunkSize  = 65536
)

// cheap is the hash of both sides.
func cheap(data []byte) uint32 {
	var hash uint32
	for _, b := range data {
		hash = (hash + uint32(b)) * 16777619
	}
	return hash
}

// keys are the digests of the first numbers in decimal.
func keys() []string {
	var keys []string
	for number := 0; number < keyCount; number++ {
		digest := sha1.Sum([]byte(strconv.Itoa(number)))
		keys = append(keys, string(digest[:]))
	}
	return keys
}

// owners asks for the owner of each key in a ring of eight peers, and sums up their numbers.
func owners(keys []string, rounds int) (time.Duration, int) {
	ring := consistenthash.New(50, cheap)
	ring.Add("node0", "node1", "node2", "node3", "node4", "node5", "node6", "node7")
	sum := 0
	begun := time.Now()
	for round := 0; round < rounds; round++ {
		for _, key := range keys {
			sum += int(ring.Get(key)[4] - '0')
		}
	}
	return time.Since(begun), sum
}

// runs makes flights that nobody joins, and sums up their answers.
func runs(keys []string, rounds int) (time.Duration, int) {
	var group singleflight.Group
	sum := 0
	begun := time.Now()
	for round := 0; round < rounds; round++ {
		for _, key := range keys {
			answer, _ := group.Do(key, func() (interface{}, error) { return round, nil })
			sum += answer.(int)
		}
	}
	return time.Since(begun), sum
}

// full is a cache that is full of chunks, each a number in decimal and zeros after it, and their names.
func full() (*lru.Cache, []string) {
	cache := lru.New(chunkCount)
	var names []string
	for number := 0; number < chunkCount; number++ {
		chunk := make([]byte, chunkSize)
		copy(chunk, strconv.Itoa(number))
		digest := sha1.Sum(chunk)
		name := string(digest[:])
		names = append(names, name)
		cache.Add(name, chunk)
	}
	return cache, names
}

// hits looks up each chunk of a full cache, and counts their bytes.
func hits(_ []string, rounds int) (time.Duration, int) {
	cache, names := full()
	sum := 0
	begun := time.Now()
	for round := 0; round < rounds; round++ {
		for _, name := range names {
			if chunk, held := cache.Get(name); held {
				sum += len(chunk.([]byte))
			}
		}
	}
	return time.Since(begun), sum
}

// number is that of a word.
func number(word string) int {
	number, err := strconv.Atoi(word)
	if err != nil {
		fail(err)
	}
	return number
}

// measure makes the measurement of this name: over so many rounds, or by nodes at this port and the next two.
func measure(name string, count int) (time.Duration, int) {
	switch name {
	case "far":
		return far(count)
	case "fill":
		return fills(count)
	case "hit":
		return hits(keys(), count)
	case "owner":
		return owners(keys(), count)
	case "run":
		return runs(keys(), count)
	}
	fail(errors.New("no such measurement"))
	return 0, 0
}

func main() {
	switch words := os.Args[1:]; {
	case len(words) == 3 && words[0] == "serve":
		serve(number(words[1]), number(words[2]))
	case len(words) == 2:
		took, sum := measure(words[0], number(words[1]))
		fmt.Println(took.Nanoseconds(), sum)
	default:
		fail(errors.New("a measurement is wanted: hit, owner or run, and its rounds; or far or fill, and a port"))
	}
}

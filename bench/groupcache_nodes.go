// Reads through the first of three nodes of groupcache, each a process of its own, as crates/desk_driver reads through three of ours.
package main

import (
	"bufio"
	"context"
	"crypto/sha1"
	"encoding/binary"
	"encoding/hex"
	"errors"
	"fmt"
	"net"
	"net/http"
	"os"
	"os/exec"
	"strconv"
	"sync"
	"sync/atomic"
	"time"

	"github.com/golang/groupcache"
)

// How many chunks the nodes read, how many threads read them, and which of them are read again once they are kept.
const (
	nodeCount  = 3
	fillCount  = 3000
	askerCount = 8
	hotCount   = 64
	hotRounds  = 5000
	keySize    = 40
)

// chunkOf is a number in decimal and zeros after it.
func chunkOf(number int) []byte {
	chunk := make([]byte, chunkSize)
	copy(chunk, strconv.Itoa(number))
	return chunk
}

// namesOfChunks are the digests of the chunks, in hexadecimal.
func namesOfChunks() []string {
	var names []string
	for number := 0; number < fillCount; number++ {
		digest := sha1.Sum(chunkOf(number))
		names = append(names, hex.EncodeToString(digest[:]))
	}
	return names
}

// address is that of a node.
func address(port, node int) string {
	return "127.0.0.1:" + strconv.Itoa(port+node)
}

// firstFour is the hash of the ring: the first four bytes of SHA-1.
func firstFour(data []byte) uint32 {
	digest := sha1.Sum(data)
	return binary.BigEndian.Uint32(digest[:4])
}

// node is one of the three.
type node struct {
	group *groupcache.Group
	pool  *groupcache.HTTPPool
	loads int64
}

// newNode makes the node of a place, whose source makes the chunks of these names.
func newNode(port, me int, names []string) *node {
	numbers := map[string]int{}
	for number, name := range names {
		numbers[name] = number
	}
	var peers []string
	for place := 0; place < nodeCount; place++ {
		peers = append(peers, "http://"+address(port, place))
	}
	made := &node{}
	made.pool = groupcache.NewHTTPPoolOpts(peers[me], &groupcache.HTTPPoolOptions{Replicas: 50, HashFn: firstFour})
	made.pool.Set(peers...)
	load := func(_ context.Context, key string, dest groupcache.Sink) error {
		atomic.AddInt64(&made.loads, 1)
		number, known := numbers[key]
		if !known {
			return errors.New("no such chunk")
		}
		return dest.SetBytes(chunkOf(number))
	}
	made.group = groupcache.NewGroup("chunks", fillCount*(chunkSize+keySize), groupcache.GetterFunc(load))
	return made
}

// serve answers the peers of a node until its standard input ends. It says when it begins.
func serve(port, me int) {
	listener, err := net.Listen("tcp", address(port, me))
	if err != nil {
		fail(err)
	}
	made := newNode(port, me, namesOfChunks())
	go http.Serve(listener, made.pool)
	fmt.Println("ready")
	bufio.NewReader(os.Stdin).ReadString('\n')
}

// fail ends the program.
func fail(err error) {
	fmt.Fprintln(os.Stderr, err)
	os.Exit(1)
}

// startPeers starts the nodes but the first, and returns what ends them.
func startPeers(port int) func() {
	var ends []func()
	for me := 1; me < nodeCount; me++ {
		peer := exec.Command(os.Args[0], "serve", strconv.Itoa(port), strconv.Itoa(me))
		input, err := peer.StdinPipe()
		if err != nil {
			fail(err)
		}
		output, err := peer.StdoutPipe()
		if err != nil {
			fail(err)
		}
		if err := peer.Start(); err != nil {
			fail(err)
		}
		if _, err := bufio.NewReader(output).ReadString('\n'); err != nil {
			fail(err)
		}
		ends = append(ends, func() { input.Close(); peer.Wait() })
	}
	return func() {
		for _, end := range ends {
			end()
		}
	}
}

// read reads a chunk, and returns how many bytes it has.
func (made *node) read(name string) int {
	var chunk groupcache.ByteView
	if err := made.group.Get(context.Background(), name, groupcache.ByteViewSink(&chunk)); err != nil {
		fail(err)
	}
	return chunk.Len()
}

// fill reads each chunk once, by all threads, and counts the bytes.
func (made *node) fill(names []string) (time.Duration, int) {
	var taken, sum int64
	var askers sync.WaitGroup
	begun := time.Now()
	for asker := 0; asker < askerCount; asker++ {
		askers.Add(1)
		go func() {
			defer askers.Done()
			for number := atomic.AddInt64(&taken, 1); number <= int64(len(names)); number = atomic.AddInt64(&taken, 1) {
				atomic.AddInt64(&sum, int64(made.read(names[number-1])))
			}
		}()
	}
	askers.Wait()
	return time.Since(begun), int(sum)
}

// hot are the first chunks that other nodes own. Each is read until it is kept.
func (made *node) hot(names []string) []string {
	var hot []string
	for _, name := range names {
		if _, isOther := made.pool.PickPeer(name); !isOther || len(hot) == hotCount {
			continue
		}
		hot = append(hot, name)
		for loads := made.group.Stats.Loads.Get(); ; loads = made.group.Stats.Loads.Get() {
			made.read(name)
			if made.group.Stats.Loads.Get() == loads {
				break
			}
		}
	}
	return hot
}

// fills fills the first of three new nodes. The sum has what it loaded itself, too.
func fills(port int) (time.Duration, int) {
	defer startPeers(port)()
	names := namesOfChunks()
	made := newNode(port, 0, names)
	took, sum := made.fill(names)
	return took, sum + int(atomic.LoadInt64(&made.loads))
}

// far reads chunks that the first of three nodes keeps and another owns.
func far(port int) (time.Duration, int) {
	defer startPeers(port)()
	names := namesOfChunks()
	made := newNode(port, 0, names)
	made.fill(names)
	hot := made.hot(names)
	loads, sum := made.group.Stats.Loads.Get(), 0
	begun := time.Now()
	for round := 0; round < hotRounds; round++ {
		for _, name := range hot {
			sum += made.read(name)
		}
	}
	took := time.Since(begun)
	if made.group.Stats.Loads.Get() != loads {
		fail(errors.New("a chunk was loaded while reads were timed"))
	}
	return took, sum
}

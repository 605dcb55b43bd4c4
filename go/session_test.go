// Sessions with an end in C.

package krbrelay_test

import (
	"bufio"
	"bytes"
	"encoding/binary"
	"fmt"
	"io"
	"net"
	"os"
	"os/exec"
	"path/filepath"
	"reflect"
	"runtime"
	"strings"
	"sync"
	"testing"
	"time"

	"krbrelay"
)

const (
	texts  = 1000
	number = 7 // the client's, whose key has 32 times this byte
)

// compiled is the library's example echo.c, over the library in this package where it is inside, else over the
// installed one.
func compiled(t *testing.T) string {
	program := t.TempDir() + "/echo"
	words := append([]string{"-std=gnu11", "-I.", "-include", "names.h", "testdata/echo.c", "library_" + runtime.GOARCH + ".s"},
		must[[]string](t)(filepath.Glob("library_*.c"))...)
	if _, err := os.Stat("testdata/echo.c"); err != nil {
		flags := must[[]byte](t)(exec.Command("pkg-config", "--cflags", "--libs", "krbrelay").Output())
		words = append([]string{"../c/examples/echo.c"}, strings.Fields(string(flags))...)
	}
	if said, err := exec.Command("cc", append(words, "-o", program)...).CombinedOutput(); err != nil {
		t.Fatal(string(said))
	}
	return program
}

// echo starts it.
func echo(t *testing.T, words ...string) (*exec.Cmd, *bufio.Reader) {
	command := exec.Command(compiled(t), words...)
	out := must[io.ReadCloser](t)(command.StdoutPipe())
	if err := command.Start(); err != nil {
		t.Fatal(err)
	}
	return command, bufio.NewReader(out)
}

func end(t *testing.T, own, other krbrelay.Address) *krbrelay.Peer {
	key := bytes.Repeat([]byte{number}, 32)
	writes := krbrelay.Session{Mode: krbrelay.Priv, Sender: own}
	return must[*krbrelay.Peer](t)(krbrelay.NewPeer(18, key, writes, krbrelay.DemandOf(other)))
}

// put seals the text and sends it after four bytes of its length, in one write.
func put(t *testing.T, to io.Writer, peer *krbrelay.Peer, text string) {
	frame := must[[]byte](t)(peer.Seal([]byte(text)))
	must[int](t)(to.Write(append(binary.BigEndian.AppendUint32(nil, uint32(len(frame))), frame...)))
}

func get(t *testing.T, from io.Reader, peer *krbrelay.Peer) string {
	var head [4]byte
	must[int](t)(io.ReadFull(from, head[:]))
	frame := make([]byte, binary.BigEndian.Uint32(head[:]))
	must[int](t)(io.ReadFull(from, frame))
	return string(must[*krbrelay.Body](t)(peer.Open(frame, time.Now())).UserData)
}

func endsWell(t *testing.T, command *exec.Cmd, out *bufio.Reader, peer *krbrelay.Peer) {
	line := must[string](t)(out.ReadString('\n'))
	if line != fmt.Sprintf("client %d: %d texts, closed\n", number, texts) {
		t.Error(line)
	}
	if err := command.Wait(); err != nil {
		t.Error(err)
	}
	if numbers := must[krbrelay.Numbers](t)(peer.Numbers()); numbers != (krbrelay.Numbers{Next: texts + 1, Expected: texts + 1}) {
		t.Error(numbers)
	}
	peer.Close()
}

func TestTheServerIsInC(t *testing.T) {
	command, out := echo(t, "server", "1")
	port := strings.TrimPrefix(strings.TrimSpace(must[string](t)(out.ReadString('\n'))), "port ")
	stream := must[net.Conn](t)(net.Dial("tcp", "127.0.0.1:"+port))
	must[int](t)(stream.Write([]byte{number}))
	client := end(t, krbrelay.Client, krbrelay.Server)
	for count := 0; count <= texts; count++ {
		text := fmt.Sprint("text ", count)
		if count == texts {
			text = ""
		}
		put(t, stream, client, text)
		if found := get(t, stream, client); found != text {
			t.Fatal(found)
		}
	}
	endsWell(t, command, out, client)
}

func TestTheClientIsInC(t *testing.T) {
	listener := must[net.Listener](t)(net.Listen("tcp", "127.0.0.1:0"))
	port := listener.Addr().(*net.TCPAddr).Port
	command, out := echo(t, "client", fmt.Sprint(port), fmt.Sprint(number), fmt.Sprint(texts))
	stream := must[net.Conn](t)(listener.Accept())
	must[int](t)(io.ReadFull(stream, make([]byte, 1)))
	server := end(t, krbrelay.Server, krbrelay.Client)
	for count := 0; count <= texts; count++ {
		text := get(t, stream, server)
		if wanted := fmt.Sprint("line ", count); text != wanted && (count < texts || text != "") {
			t.Fatal(text)
		}
		put(t, stream, server, text)
	}
	endsWell(t, command, out, server)
}

// Goroutines share a peer: each text has a number of its own.
func TestGoroutinesShareAPeer(t *testing.T) {
	one := end(t, krbrelay.Client, krbrelay.Server)
	var sealed sync.Map
	var group sync.WaitGroup
	for range [8]int{} {
		group.Add(1)
		go func() {
			defer group.Done()
			for count := 0; count < 50; count++ {
				frame, err := one.Seal([]byte("text"))
				if err != nil {
					t.Error(err)
				}
				sealed.Store(string(frame), true)
			}
		}()
	}
	group.Wait()
	waiting := map[uint32]bool{}
	opener := must[*krbrelay.Opener](t)(krbrelay.NewOpener(18, bytes.Repeat([]byte{number}, 32), krbrelay.Expect{Mode: krbrelay.Priv}))
	sealed.Range(func(frame, _ any) bool {
		body := must[*krbrelay.Body](t)(opener.Open([]byte(frame.(string)), krbrelay.Demand{}, time.Now()))
		waiting[*body.Number] = true
		return true
	})
	if numbers := must[krbrelay.Numbers](t)(one.Numbers()); numbers.Next != 400 || len(waiting) != 400 {
		t.Error(numbers, len(waiting))
	}
}

// Each call on a handle waits for the one before it.
func TestCallsWaitForEachOther(t *testing.T) {
	text, key := []byte("text"), bytes.Repeat([]byte{number}, 32)
	expect := krbrelay.NewExpect(krbrelay.Priv, krbrelay.Client, krbrelay.Server)
	sealer := must[*krbrelay.Sealer](t)(krbrelay.NewSealer(18, key, krbrelay.Session{Mode: krbrelay.Priv, Sender: krbrelay.Client}))
	opener := must[*krbrelay.Opener](t)(krbrelay.NewOpener(18, key, expect))
	taker := must[*krbrelay.Receiver](t)(krbrelay.NewReceiver(18, key, expect, krbrelay.State{}))
	peer := end(t, krbrelay.Client, krbrelay.Server)
	frame := must[[]byte](t)(sealer.Seal(text))
	messages := []krbrelay.Message{{UserData: text, Time: then}}
	handles := map[any]map[string]func(){
		sealer: {
			"Seal":         func() { sealer.Seal(text) },
			"SealAt":       func() { sealer.SealAt(text, then, drawn[0]) },
			"SealMany":     func() { sealer.SealMany(messages) },
			"SealManyNow":  func() { sealer.SealManyNow([][]byte{text, text}) },
			"SealRecord":   func() { sealer.SealRecord(krbrelay.Text(text)) },
			"SealRecordAt": func() { sealer.SealRecordAt(krbrelay.Text(text), then, drawn[0]) },
			"Next":         func() { sealer.Next() },
			"FrameSize":    func() { sealer.FrameSize(4, then) },
			"SetMode":      func() { sealer.SetMode(krbrelay.Priv) },
			"Wipe":         func() { sealer.Wipe() },
			"Close":        func() { sealer.Close() },
		},
		opener: {
			"Unseal": func() { opener.Unseal(frame, 0, then) },
			"Open":   func() { opener.Open(frame, krbrelay.Demand{}, then) },
			"Wipe":   func() { opener.Wipe() },
			"Close":  func() { opener.Close() },
		},
		taker: {
			"Take":     func() { taker.Take(frame, then) },
			"TakeMany": func() { taker.TakeMany([][]byte{frame}, then) },
			"State":    func() { taker.State() },
			"Close":    func() { taker.Close() },
		},
		peer: {
			"Seal":        func() { peer.Seal(text) },
			"SealAt":      func() { peer.SealAt(text, then, drawn[0]) },
			"SealMany":    func() { peer.SealMany(messages) },
			"SealManyNow": func() { peer.SealManyNow([][]byte{text, text}) },
			"Open":        func() { peer.Open(frame, then) },
			"Numbers":     func() { peer.Numbers() },
			"Export":      func() { peer.Export() },
			"Close":       func() { peer.Close() },
		},
	}
	for handle, calls := range handles {
		kind := reflect.TypeOf(handle)
		if kind.NumMethod() != len(calls) {
			t.Error(kind, " has other calls than are made here")
		}
		for name, call := range calls {
			release, done := krbrelay.Held(handle), make(chan bool)
			go func() {
				call()
				close(done)
			}()
			select {
			case <-done:
				t.Error(kind, name, "didn't wait")
			case <-time.After(20 * time.Millisecond):
			}
			release()
			<-done
		}
	}
}

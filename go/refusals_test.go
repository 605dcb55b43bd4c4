// Each refusal by its name, and changed messages.

package krbrelay_test

import (
	"errors"
	"net/netip"
	"runtime"
	"strings"
	"testing"
	"time"

	"krbrelay"
)

func changed(frame []byte, at int, value byte) []byte {
	other := append([]byte(nil), frame...)
	other[at] = value
	return other
}

func unsealed(t *testing.T, mode krbrelay.Mode, frame []byte, number uint64, at time.Time) error {
	opener := must[*krbrelay.Opener](t)(krbrelay.NewOpener(17, key128, expect(mode)))
	defer opener.Close()
	_, err := opener.Unseal(frame, number, at)
	return err
}

func taken(t *testing.T, frame []byte, from krbrelay.State) error {
	taker := must[*krbrelay.Receiver](t)(krbrelay.NewReceiver(17, key128, expect(krbrelay.Safe), from))
	defer taker.Close()
	_, err := taker.Take(frame, then)
	return err
}

func TestEachRefusalHasItsName(t *testing.T) {
	known := frames(t)
	safe, priv := known["safe 17"], known["priv 17, first drawn confounder"]
	window := krbrelay.NewWindow(0)
	if err := window.Take(100); err != nil {
		t.Fatal(err)
	}
	elsewhere := must[*krbrelay.Opener](t)(krbrelay.NewOpener(17, key128, krbrelay.NewExpect(krbrelay.Safe, receiver, receiver)))
	_, badAddr := elsewhere.Unseal(safe, 7, then)
	names := map[string]bool{}
	for _, it := range []struct {
		found  error
		wanted krbrelay.Answer
	}{
		{unsealed(t, krbrelay.Safe, make([]byte, krbrelay.FrameLimit+1), 7, then), krbrelay.ErrFieldTooLong},
		{unsealed(t, krbrelay.Safe, nil, 7, then), krbrelay.ErrMalformed},
		{unsealed(t, krbrelay.Safe, changed(safe, 8, 6), 7, then), krbrelay.ErrBadVersion},
		{unsealed(t, krbrelay.Safe, priv, 7, then), krbrelay.ErrMsgType},
		{unsealed(t, krbrelay.Priv, known["priv 18, first drawn confounder"], 7, then), krbrelay.ErrEtypeNoSupp},
		{unsealed(t, krbrelay.Priv, changed(priv, len(priv)-1, 0), 7, then), krbrelay.ErrBadIntegrity},
		{unsealed(t, krbrelay.Safe, known["safe 18"], 7, then), krbrelay.ErrInappCksum},
		{badAddr, krbrelay.ErrBadAddr},
		{unsealed(t, krbrelay.Safe, safe, 7, then.Add(301*time.Second)), krbrelay.ErrSkew},
		{unsealed(t, krbrelay.Safe, safe, 8, then), krbrelay.ErrBadOrder},
		{unsealed(t, krbrelay.Safe, changed(safe, len(safe)-1, 0), 7, then), krbrelay.ErrModified},
		{taken(t, known["safe 17, no record"], krbrelay.State{Expected: 7}), krbrelay.ErrBadRecord},
		{taken(t, safe, krbrelay.State{Expected: 7, Closed: true}), krbrelay.ErrAfterClose},
		{window.Take(100), krbrelay.ErrRepeated},
		{window.Take(36), krbrelay.ErrTooOld},
	} {
		var answer krbrelay.Answer
		if !errors.Is(it.found, it.wanted) || !errors.As(it.found, &answer) || !answer.IsRefusal() {
			t.Errorf("%v, not %s", it.found, it.wanted.Name())
		}
		names[it.wanted.Name()] = true
	}
	refusals := 0
	for answer := krbrelay.Answer(0); answer < 2000; answer++ {
		if answer.IsRefusal() {
			refusals++
			if !names[answer.Name()] {
				t.Errorf("%d isn't tried", answer)
			}
		}
		if has := answer.Name() != ""; answer != 0 && has != (answer.Class() != krbrelay.ClassUnknown) {
			t.Errorf("%d has a name: %v", answer, has)
		}
	}
	if refusals != len(names) {
		t.Error(refusals)
	}
}

func TestAMessageOutOfOrderTellsItsNumber(t *testing.T) {
	known := frames(t)
	var out krbrelay.OutOfOrder
	if err := taken(t, known["safe 17"], krbrelay.State{Expected: 8}); !errors.As(err, &out) || out.Number != 7 ||
		!errors.Is(err, krbrelay.ErrBadOrder) || err.Error() != "the sequence number isn't the expected one" {
		t.Error(err)
	}
	if err := taken(t, known["safe 17, no number"], krbrelay.State{Expected: 7}); err != krbrelay.ErrBadOrder {
		t.Error(err)
	}
	demand := krbrelay.DemandOf(sender)
	demand.Number = krbrelay.Of(uint64(9))
	peer := must[*krbrelay.Peer](t)(krbrelay.NewPeer(17, key128, session(krbrelay.Safe, 0), demand))
	if _, err := peer.Open(known["safe 17"], then); err != (krbrelay.OutOfOrder{Number: 7}) {
		t.Error(err)
	}
	if _, err := peer.Open(known["safe 17, no number"], then); err != krbrelay.ErrBadOrder {
		t.Error(err)
	}
}

// All bits of a number count, and of a time: 2^32 more is another one.
func TestNumbersAndTimesAreWhole(t *testing.T) {
	const more = 1 << 32
	safe := frames(t)["safe 17"]
	opened := func(number uint64) error {
		demand := krbrelay.DemandOf(sender)
		demand.Number = krbrelay.Of(number)
		opener := must[*krbrelay.Opener](t)(krbrelay.NewOpener(17, key128, expect(krbrelay.Safe)))
		defer opener.Close()
		_, err := opener.Open(safe, demand, then)
		return err
	}
	late, early := krbrelay.NewWindow(more), krbrelay.NewWindow(0)
	ends := must[*krbrelay.Receiver](t)(krbrelay.NewReceiver(17, key128, expect(krbrelay.Safe), krbrelay.State{Expected: last}))
	_, err := ends.Take(frames(t)["safe 17, last number"], then)
	for place, it := range []struct{ found, wanted error }{
		{unsealed(t, krbrelay.Safe, safe, 7, then), nil},
		{unsealed(t, krbrelay.Safe, safe, 7+more, then), krbrelay.ErrBadOrder},
		{unsealed(t, krbrelay.Safe, safe, 7, then.Add(more*time.Second)), krbrelay.ErrSkew},
		{opened(7), nil},
		{opened(7 + more), krbrelay.ErrBadOrder},
		{late.Take(5), krbrelay.ErrTooOld},
		{early.Take(5 + more), nil},
		{early.Take(5), krbrelay.ErrTooOld},
		{err, nil},
	} {
		if !errors.Is(it.found, it.wanted) {
			t.Errorf("%d: %v, not %v", place, it.found, it.wanted)
		}
	}
	if state, err := ends.State(); err != nil || state.Expected != more {
		t.Error(state, err)
	}
}

// No change of one bit is taken, and none does anything else than refuse.
func TestEachBitCounts(t *testing.T) {
	frame := frames(t)["priv 17, first drawn confounder"]
	taker := must[*krbrelay.Receiver](t)(krbrelay.NewReceiver(17, key128, expect(krbrelay.Priv), krbrelay.State{Expected: first}))
	for bit := 0; bit < 8*len(frame); bit++ {
		_, err := taker.Take(changed(frame, bit/8, frame[bit/8]^1<<(bit%8)), then)
		var answer krbrelay.Answer
		if !errors.As(err, &answer) || !answer.IsRefusal() {
			t.Error(bit, err)
		}
	}
	if _, err := taker.Take(frame, then); err != nil {
		t.Error(err)
	}
}

func TestErrorsOfACaller(t *testing.T) {
	sealer := must[*krbrelay.Sealer](t)(krbrelay.NewSealer(17, key128, session(krbrelay.Safe, last)))
	seal := func(data []byte, at time.Time) error {
		_, err := sealer.SealAt(data, at, [16]byte{})
		return err
	}
	record := func(record krbrelay.Record) error {
		_, err := sealer.SealRecord(record)
		return err
	}
	make16 := func(etype int32, size int, mode krbrelay.Mode) error {
		_, err := krbrelay.NewSealer(etype, make([]byte, size), session(mode, 0))
		return err
	}
	_, tooLong := krbrelay.NewAddress(2, make([]byte, 41))
	_, past := krbrelay.NewReceiver(17, key128, expect(krbrelay.Safe), krbrelay.State{Expected: 1<<32 + 1})
	if _, err := sealer.FrameSize(krbrelay.UserDataLimit+1, then); err != krbrelay.ErrTooLong {
		t.Error(err)
	}
	for place, it := range []struct{ found, wanted error }{
		{seal(nil, time.Unix(-1, 0)), krbrelay.ErrMoment},
		{seal(nil, time.Date(10000, 1, 1, 0, 0, 0, 0, time.UTC)), krbrelay.ErrMoment},
		{seal(make([]byte, krbrelay.UserDataLimit+1), then), krbrelay.ErrTooLong},
		{record(krbrelay.Text(make([]byte, 1_000_001))), krbrelay.ErrRecord},
		{record(krbrelay.Batch{[]byte("alone")}), krbrelay.ErrRecord},
		{seal(make([]byte, krbrelay.UserDataLimit), then), nil},
		{seal(nil, then), krbrelay.ErrExhausted},
		{make16(17, 32, krbrelay.Safe), krbrelay.ErrKeySize},
		{make16(16, 16, krbrelay.Safe), krbrelay.ErrEtype},
		{make16(18, 32, 22), krbrelay.ErrMode},
		{make16(17, 0, krbrelay.Safe), krbrelay.ErrKeySize},
		{tooLong, krbrelay.ErrAddress},
		{past, krbrelay.ErrArgument},
	} {
		if it.found != it.wanted {
			t.Error(place, it.found)
		}
	}
}

func TestWipedAndClosedHandlesDoNothing(t *testing.T) {
	sealer := must[*krbrelay.Sealer](t)(krbrelay.NewSealer(18, key256, session(krbrelay.Priv, 3)))
	sealer.Wipe()
	if _, err := sealer.Seal(nil); err != krbrelay.ErrWiped {
		t.Error(err)
	}
	for range [2]int{} {
		if err := sealer.Close(); err != nil {
			t.Error(err)
		}
	}
	if _, err := sealer.Seal(nil); err != krbrelay.ErrEmpty {
		t.Error(err)
	}
	if _, err := new(krbrelay.Peer).Seal(nil); err != krbrelay.ErrEmpty {
		t.Error(err)
	}
}

// What is forgotten is closed by the garbage collector; what is held isn't.
func TestForgottenHandles(t *testing.T) {
	held := must[*krbrelay.Sealer](t)(krbrelay.NewSealer(18, key256, session(krbrelay.Priv, 3)))
	for count := 0; count < 10_000; count++ {
		must[*krbrelay.Sealer](t)(krbrelay.NewSealer(18, key256, session(krbrelay.Priv, 3)))
	}
	runtime.GC()
	must[[]byte](t)(held.Seal(nil))
}

func TestEachDemandIsMade(t *testing.T) {
	known := frames(t)
	opener := must[*krbrelay.Opener](t)(krbrelay.NewOpener(17, key128, expect(krbrelay.Safe)))
	five, zero := krbrelay.Of(uint32(5)), krbrelay.Of(uint64(0))
	for place, it := range []struct {
		name   string
		demand krbrelay.Demand
		wanted error
	}{
		{"safe 17", krbrelay.Demand{}, nil},
		{"safe 17", krbrelay.Demand{Sender: &receiver}, krbrelay.ErrBadAddr},
		{"safe 17", krbrelay.Demand{Receiver: &receiver}, krbrelay.ErrBadAddr},
		{"safe 17", krbrelay.Demand{Receiver: &receiver, HowReceiver: krbrelay.IfPresent}, nil},
		{"safe 17, to the receiver", krbrelay.Demand{Receiver: &receiver}, nil},
		{"safe 17, no time", krbrelay.Demand{Skew: five}, krbrelay.ErrSkew},
		{"safe 17, no usec", krbrelay.Demand{Skew: five, HowTime: krbrelay.AbsentIs0}, nil},
		{"safe 17, no number", krbrelay.Demand{Number: zero}, krbrelay.ErrBadOrder},
		{"safe 17, no number", krbrelay.Demand{Number: zero, HowNumber: krbrelay.AbsentIs0}, nil},
		{"safe 17, no number", krbrelay.Demand{NeedsTimeOrNumber: true}, nil},
		{"safe 17, neither time nor number", krbrelay.Demand{NeedsTimeOrNumber: true}, krbrelay.ErrModified},
		{"safe 17", krbrelay.Demand{Receiver: &receiver, HowReceiver: 7}, krbrelay.ErrArgument},
		{"safe 17", krbrelay.Demand{Number: zero, HowNumber: 3}, krbrelay.ErrArgument},
		{"safe 17", krbrelay.Demand{Number: zero, HowNumber: 0xfffffffd}, krbrelay.ErrArgument},
		{"safe 17", krbrelay.Demand{Skew: krbrelay.Of(uint32(0)), HowTime: 0xfffffffd}, krbrelay.ErrArgument},
	} {
		if _, err := opener.Open(known[it.name], it.demand, then); err != it.wanted {
			t.Error(place, it.name, err)
		}
	}
}

func TestALiteralDemandsATime(t *testing.T) {
	for optional, wanted := range map[bool]error{false: krbrelay.ErrSkew, true: nil} {
		literal := krbrelay.Expect{Mode: krbrelay.Safe, Sender: sender, Receiver: receiver, Skew: 300, OptionalTime: optional}
		opener := must[*krbrelay.Opener](t)(krbrelay.NewOpener(17, key128, literal))
		if _, err := opener.Unseal(frames(t)["safe 17, neither"], 7, then); err != wanted {
			t.Error(optional, err)
		}
	}
}

func TestAPeerGoesOnFromItsExport(t *testing.T) {
	ends := func(own, other krbrelay.Address) (krbrelay.Session, krbrelay.Demand) {
		return krbrelay.Session{Mode: krbrelay.Priv, Sender: own}, krbrelay.DemandOf(other)
	}
	writes, demands := ends(krbrelay.Client, krbrelay.Server)
	one := must[*krbrelay.Peer](t)(krbrelay.NewPeer(18, key256, writes, demands))
	other := must[*krbrelay.Peer](t)(krbrelay.NewPeer(18, key256, sessionOf(krbrelay.Server), krbrelay.DemandOf(krbrelay.Client)))
	must[*krbrelay.Body](t)(other.Open(must[[]byte](t)(one.SealAt([]byte("a"), then, drawn[0])), then))
	state := must[[krbrelay.PeerStateSize]byte](t)(one.Export())
	one.Close()
	one = must[*krbrelay.Peer](t)(krbrelay.ResumePeer(18, key256, writes, demands, state))
	if numbers := must[krbrelay.Numbers](t)(one.Numbers()); numbers != (krbrelay.Numbers{Next: 1}) {
		t.Error(numbers)
	}
	second := must[[]byte](t)(one.SealAt([]byte("b"), then, drawn[1]))
	if body := must[*krbrelay.Body](t)(other.Open(second, then)); *body.Number != 1 {
		t.Error(body)
	}
	if _, err := one.Open(second, then); err != krbrelay.ErrBadAddr {
		t.Error(err)
	}
	if _, err := krbrelay.ResumePeer(18, key256, writes, demands, [krbrelay.PeerStateSize]byte{}); err != krbrelay.ErrArgument {
		t.Error(err)
	}
	copy(state[4:], []byte{0, 0, 0, 1, 0, 0, 0, 0})
	if _, err := krbrelay.ResumePeer(18, key256, writes, demands, state); err != krbrelay.ErrExhausted {
		t.Error(err)
	}
}

func sessionOf(own krbrelay.Address) krbrelay.Session {
	return krbrelay.Session{Mode: krbrelay.Priv, Sender: own}
}

func TestAddresses(t *testing.T) {
	for text, wanted := range map[string]krbrelay.Address{
		"10.0.0.1": sender, "::ffff:10.0.0.1": sender,
		"2001:db8::1": address(krbrelay.IPv6, []byte("\x20\x01\x0d\xb8\x00\x00\x00\x00\x00\x00\x00\x00\x00\x00\x00\x01")...),
	} {
		if found := krbrelay.AddressOf(netip.MustParseAddr(text)); found != wanted {
			t.Error(found)
		}
		if strings.TrimPrefix(text, "::ffff:") != wanted.String() {
			t.Error(wanted)
		}
	}
	if krbrelay.Server.String() != "3:00000001" || krbrelay.Server.Kind() != krbrelay.Directional || krbrelay.Server == krbrelay.Client {
		t.Error(krbrelay.Server)
	}
}

// Each text follows where its four bytes and as many as they say are there.
func TestBatchesAtEachBoundary(t *testing.T) {
	const room = 24
	claimed := []uint32{0x100, 0x10000, 0x1000000, 0x7fffffff, 0x80000000, 0xfffffff0, 0xfffffff8, 0xfffffffb, 0xfffffffc,
		0xfffffffd, 0xfffffffe, 0xffffffff}
	for len := uint32(0); len <= room; len++ {
		claimed = append(claimed, len)
	}
	for size := 0; size <= room+4; size++ {
		for _, claims := range claimed {
			bytes := append([]byte{byte(claims >> 24), byte(claims >> 16), byte(claims >> 8), byte(claims)}, make([]byte, room)...)
			text, rest, err := krbrelay.NextText(bytes[:size])
			var wanted error
			switch {
			case size == 0:
				wanted = krbrelay.ErrEmpty
			case 4+uint64(claims) > uint64(size):
				wanted = krbrelay.ErrRecord
			}
			if err != wanted || err == nil && (uint32(len(text)) != claims || len(rest) != size-4-int(claims)) {
				t.Error(size, claims, err)
			}
		}
	}
	var made []byte
	for _, text := range []string{"", "one", strings.Repeat("x", 300)} {
		made = must[[]byte](t)(krbrelay.AppendText(made, []byte(text)))
	}
	texts := must[[][]byte](t)(krbrelay.Texts(made))
	if len(texts) != 3 || string(texts[1]) != "one" || len(texts[2]) != 300 || string(made[:11]) != "\x00\x00\x00\x00\x00\x00\x00\x03one" {
		t.Error(texts)
	}
	if _, err := krbrelay.Texts(append(made, 0)); err != krbrelay.ErrRecord {
		t.Error(err)
	}
}

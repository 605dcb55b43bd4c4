// Frames of the independent sealer: what is sealed is the same, and they are taken.

package krbrelay_test

import (
	"bytes"
	"errors"
	"reflect"
	"testing"
	"time"

	"krbrelay"
)

type row struct {
	names   []string
	mode    krbrelay.Mode
	key     []byte
	number  uint32
	records []krbrelay.Record
}

var (
	hi    = []krbrelay.Record{krbrelay.Text("hi"), krbrelay.Closed{}}
	batch = []krbrelay.Record{krbrelay.Batch{[]byte("a"), []byte("b")}, krbrelay.Text("c"), krbrelay.Closed{}}
	rows  = []row{
		{[]string{"safe 17", "safe 17, the close behind it"}, krbrelay.Safe, key128, first, hi},
		{[]string{"safe 18", "safe 18, the close behind it"}, krbrelay.Safe, key256, first, hi},
		{[]string{"priv 17, first drawn confounder", "priv 17, the close behind it"}, krbrelay.Priv, key128, first, hi},
		{[]string{"priv 18, first drawn confounder", "priv 18, the close behind it"}, krbrelay.Priv, key256, first, hi},
		{[]string{"safe 17, the batch of 61 and 62", "safe 17, the text 63 behind it", "safe 17, the close behind both"},
			krbrelay.Safe, key128, first, batch},
		{[]string{"priv 17, the batch, first drawn confounder", "priv 17, the text 63 behind it",
			"priv 17, the close behind both"}, krbrelay.Priv, key128, first, batch},
		{[]string{"safe 17, the text 61 before the last number"}, krbrelay.Safe, key128, last - 1,
			[]krbrelay.Record{krbrelay.Text("a")}},
		{[]string{"safe 17, the batch before the last number"}, krbrelay.Safe, key128, last - 1, batch[:1]},
		{[]string{"safe 17, last number"}, krbrelay.Safe, key128, last, []krbrelay.Record{krbrelay.Closed{}}},
	}
)

// What is sealed is what the independent sealer makes, byte for byte.
func TestSealingMakesTheseFrames(t *testing.T) {
	known := frames(t)
	for _, row := range rows {
		sealer := must[*krbrelay.Sealer](t)(krbrelay.NewSealer(etypeOf(row.key), row.key, session(row.mode, row.number)))
		for place, record := range row.records {
			frame := must[[]byte](t)(sealer.SealRecordAt(record, then, drawn[place]))
			if !bytes.Equal(frame, known[row.names[place]]) {
				t.Errorf("%s: %x", row.names[place], frame)
			}
			if next := must[uint64](t)(sealer.Next()); next != uint64(row.number)+uint64(place)+1 {
				t.Errorf("%s: then %d", row.names[place], next)
			}
		}
		sealer.Close()
	}
}

func severalMessages() []krbrelay.Message {
	messages := make([]krbrelay.Message, krbrelay.MostMessages)
	for i := range messages {
		messages[i] = krbrelay.Message{UserData: bytes.Repeat([]byte{byte(i)}, 41*i), Time: then, Confounder: [16]byte{byte(i)}}
	}
	return messages
}

// Messages of one call are those of as many calls, which the rows above compare with another sealer's.
func TestMessagesOfOneCall(t *testing.T) {
	messages := severalMessages()
	for _, key := range [][]byte{key128, key256} {
		for _, mode := range []krbrelay.Mode{krbrelay.Safe, krbrelay.Priv} {
			for _, count := range []int{0, 1, 3, 4, 8, 13, krbrelay.MostMessages} {
				single := must[*krbrelay.Sealer](t)(krbrelay.NewSealer(etypeOf(key), key, session(mode, first)))
				many := must[*krbrelay.Sealer](t)(krbrelay.NewSealer(etypeOf(key), key, session(mode, first)))
				made := must[[][]byte](t)(many.SealMany(messages[:count]))
				for i, it := range messages[:count] {
					wanted := must[[]byte](t)(single.SealAt(it.UserData, it.Time, it.Confounder))
					if !bytes.Equal(made[i], wanted) {
						t.Errorf("message %d of %d", i, count)
					}
				}
				if next := must[uint64](t)(many.Next()); len(made) != count || next != uint64(first+count) {
					t.Errorf("%d messages of %d, and then %d", len(made), count, next)
				}
				single.Close()
				many.Close()
			}
		}
	}
}

func TestTheFirstMessageThatFailsIsNamed(t *testing.T) {
	sealer := must[*krbrelay.Sealer](t)(krbrelay.NewSealer(17, key128, session(krbrelay.Priv, last-1)))
	defer sealer.Close()
	var many *krbrelay.ManyError
	if _, err := sealer.SealMany(make3(then)); !errors.As(err, &many) || many.Index != 2 || !errors.Is(err, krbrelay.ErrExhausted) {
		t.Errorf("past the last number: %v", err)
	}
	if _, err := sealer.SealMany(make([]krbrelay.Message, krbrelay.MostMessages+1)); !errors.As(err, &many) || many.Index != -1 {
		t.Errorf("too many: %v", err)
	}
	if made := must[[][]byte](t)(sealer.SealMany(make3(then)[:2])); len(made) != 2 {
		t.Errorf("%d messages", len(made))
	}
}

// Each opens at its number, and no two KRB-PRIV of the same user data are alike.
func TestMessagesOfOneCallAreSealedNow(t *testing.T) {
	for _, key := range [][]byte{key128, key256} {
		sealer := must[*krbrelay.Sealer](t)(krbrelay.NewSealer(etypeOf(key), key, session(krbrelay.Priv, first)))
		peer := peerOf(t, key, krbrelay.Priv, first)
		opener := must[*krbrelay.Opener](t)(krbrelay.NewOpener(etypeOf(key), key, expect(krbrelay.Priv)))
		for _, call := range []func([][]byte) ([][]byte, error){sealer.SealManyNow, peer.SealManyNow} {
			seen := map[string]bool{}
			for i, frame := range must[[][]byte](t)(call(make2(9))) {
				data := must[[]byte](t)(opener.Unseal(frame, uint64(first+i), time.Now()))
				if seen[string(frame[len(frame)-40:])] || !bytes.Equal(data, []byte("hi")) {
					t.Errorf("message %d: %q", i, data)
				}
				seen[string(frame[len(frame)-40:])] = true
			}
			if _, err := call(make2(krbrelay.MostMessages + 1)); !errors.Is(err, krbrelay.ErrArgument) {
				t.Errorf("too many: %v", err)
			}
		}
		sealer.Close()
		peer.Close()
		opener.Close()
	}
}

func make2(count int) [][]byte {
	made := make([][]byte, count)
	for i := range made {
		made[i] = []byte("hi")
	}
	return made
}

func peerOf(t *testing.T, key []byte, mode krbrelay.Mode, number uint32) *krbrelay.Peer {
	demand := krbrelay.DemandOf(receiver)
	demand.Number = krbrelay.Of(uint64(9))
	return must[*krbrelay.Peer](t)(krbrelay.NewPeer(etypeOf(key), key, session(mode, number), demand))
}

// sealedByPeers compares the messages of one call with those of single calls, which the other end opens.
func sealedByPeers(t *testing.T, key []byte, mode krbrelay.Mode, messages []krbrelay.Message) {
	single, many := peerOf(t, key, mode, first), peerOf(t, key, mode, first)
	defer single.Close()
	defer many.Close()
	demand := krbrelay.DemandOf(sender)
	demand.Number = krbrelay.Of(uint64(first))
	other := must[*krbrelay.Peer](t)(krbrelay.NewPeer(etypeOf(key), key, krbrelay.Session{Mode: mode, Sender: receiver}, demand))
	defer other.Close()
	made := must[[][]byte](t)(many.SealMany(messages))
	if len(made) != len(messages) {
		t.Fatalf("%d messages of %d", len(made), len(messages))
	}
	for i, it := range messages {
		if !bytes.Equal(made[i], must[[]byte](t)(single.SealAt(it.UserData, it.Time, it.Confounder))) {
			t.Errorf("message %d of %d", i, len(messages))
		}
		if body := must[*krbrelay.Body](t)(other.Open(made[i], then)); !bytes.Equal(body.UserData, it.UserData) {
			t.Errorf("message %d of %d, opened", i, len(messages))
		}
	}
	if numbers := must[krbrelay.Numbers](t)(many.Numbers()); numbers != (krbrelay.Numbers{Next: uint64(first + len(messages)), Expected: 9}) {
		t.Error(numbers)
	}
}

func TestMessagesOfOneCallOfAPeer(t *testing.T) {
	messages := severalMessages()
	for _, key := range [][]byte{key128, key256} {
		for _, mode := range []krbrelay.Mode{krbrelay.Safe, krbrelay.Priv} {
			for _, count := range []int{0, 1, 3, 4, 8, 13, krbrelay.MostMessages} {
				sealedByPeers(t, key, mode, messages[:count])
			}
		}
	}
}

func TestTheFirstMessageOfAPeerThatFailsIsNamed(t *testing.T) {
	peer := peerOf(t, key256, krbrelay.Priv, last-1)
	var many *krbrelay.ManyError
	if _, err := peer.SealMany(make3(then)); !errors.As(err, &many) || many.Index != 2 || !errors.Is(err, krbrelay.ErrExhausted) {
		t.Errorf("past the last number: %v", err)
	}
	if _, err := peer.SealMany(make([]krbrelay.Message, krbrelay.MostMessages+1)); !errors.As(err, &many) || many.Index != -1 || !errors.Is(err, krbrelay.ErrArgument) {
		t.Errorf("too many: %v", err)
	}
	if _, err := peer.SealMany([]krbrelay.Message{{Time: then}, {Time: time.Unix(-1, 0)}}); !errors.As(err, &many) || many.Index != 1 || !errors.Is(err, krbrelay.ErrMoment) {
		t.Errorf("a time before 1970: %v", err)
	}
	if numbers := must[krbrelay.Numbers](t)(peer.Numbers()); numbers != (krbrelay.Numbers{Next: last - 1, Expected: 9}) {
		t.Error(numbers)
	}
	if made := must[[][]byte](t)(peer.SealMany(make3(then)[:2])); len(made) != 2 {
		t.Errorf("%d messages", len(made))
	}
	peer.Close()
	if _, err := peer.SealMany(make3(then)); !errors.As(err, &many) || many.Index != -1 || !errors.Is(err, krbrelay.ErrEmpty) {
		t.Errorf("closed: %v", err)
	}
}

func make3(at time.Time) []krbrelay.Message {
	return []krbrelay.Message{{UserData: []byte("a"), Time: at}, {UserData: nil, Time: at}, {UserData: []byte("c"), Time: at}}
}

func TestReceiversTakeThem(t *testing.T) {
	known := frames(t)
	for _, row := range rows {
		from := krbrelay.State{Expected: uint64(row.number)}
		taker := must[*krbrelay.Receiver](t)(krbrelay.NewReceiver(etypeOf(row.key), row.key, expect(row.mode), from))
		closed := false
		for place, record := range row.records {
			taken := must[krbrelay.Record](t)(taker.Take(known[row.names[place]], then))
			if !reflect.DeepEqual(taken, record) {
				t.Errorf("%s: %v", row.names[place], taken)
			}
			_, closed = record.(krbrelay.Closed)
		}
		state := must[krbrelay.State](t)(taker.State())
		if state != (krbrelay.State{Expected: uint64(row.number) + uint64(len(row.records)), Closed: closed}) {
			t.Errorf("%s: %v", row.names[0], state)
		}
		taker.Close()
	}
}

// onTheWay is frames of one session, of which one comes again, one is cut off and one is changed.
func onTheWay(t *testing.T, key []byte, mode krbrelay.Mode) [][]byte {
	by := must[*krbrelay.Sealer](t)(krbrelay.NewSealer(etypeOf(key), key, session(mode, first)))
	defer by.Close()
	var sent [][]byte
	for i := 0; len(sent) < krbrelay.MostFrames; i++ {
		frame := must[[]byte](t)(by.SealRecordAt(krbrelay.Text(bytes.Repeat([]byte{byte(i)}, 41*i)), then, [16]byte{1}))
		sent = append(sent, frame)
		switch i {
		case 4:
			sent = append(sent, sent[2])
		case 6:
			sent = append(sent, frame[:20], nil)
		case 11:
			changed := append([]byte(nil), frame...)
			changed[len(changed)-1] ^= 1
			sent[len(sent)-1] = changed
			sent = append(sent, frame)
		}
	}
	return sent[:krbrelay.MostFrames]
}

// What a call takes is what as many calls take, of which the rows above compare with another sealer's frames.
func TestFramesOfOneCall(t *testing.T) {
	from := krbrelay.State{Expected: uint64(first)}
	for _, key := range [][]byte{key128, key256} {
		for _, mode := range []krbrelay.Mode{krbrelay.Safe, krbrelay.Priv} {
			sent := onTheWay(t, key, mode)
			for _, count := range []int{0, 1, 7, 8, 9, 30, krbrelay.MostFrames} {
				single := must[*krbrelay.Receiver](t)(krbrelay.NewReceiver(etypeOf(key), key, expect(mode), from))
				many := must[*krbrelay.Receiver](t)(krbrelay.NewReceiver(etypeOf(key), key, expect(mode), from))
				taken := must[[]krbrelay.Taken](t)(many.TakeMany(sent[:count], then))
				if len(taken) != count {
					t.Fatalf("%d of %d", len(taken), count)
				}
				for i, frame := range sent[:count] {
					record, err := single.Take(frame, then)
					if !reflect.DeepEqual(taken[i], krbrelay.Taken{Record: record, Err: err}) {
						t.Errorf("frame %d of %d: %v", i, count, taken[i])
					}
				}
				if must[krbrelay.State](t)(many.State()) != must[krbrelay.State](t)(single.State()) {
					t.Errorf("%d frames: another state", count)
				}
				single.Close()
				many.Close()
			}
		}
	}
}

func TestWhatACallOfSeveralRefusesAsAWhole(t *testing.T) {
	from := krbrelay.State{Expected: uint64(first)}
	taker := must[*krbrelay.Receiver](t)(krbrelay.NewReceiver(17, key128, expect(krbrelay.Safe), from))
	if _, err := taker.TakeMany(make([][]byte, krbrelay.MostFrames+1), then); !errors.Is(err, krbrelay.ErrArgument) {
		t.Errorf("too many: %v", err)
	}
	if _, err := taker.TakeMany([][]byte{frames(t)["safe 17"]}, time.Unix(-1, 0)); !errors.Is(err, krbrelay.ErrMoment) {
		t.Errorf("no moment: %v", err)
	}
	if state := must[krbrelay.State](t)(taker.State()); state != from {
		t.Errorf("then %v", state)
	}
	taker.Close()
	if _, err := taker.TakeMany(nil, then); !errors.Is(err, krbrelay.ErrEmpty) {
		t.Errorf("closed: %v", err)
	}
}

func TestOpenersOpenThem(t *testing.T) {
	known := frames(t)
	for _, row := range rows {
		opener := must[*krbrelay.Opener](t)(krbrelay.NewOpener(etypeOf(row.key), row.key, expect(row.mode)))
		data := must[[]byte](t)(opener.Unseal(known[row.names[0]], uint64(row.number), then))
		body := must[*krbrelay.Body](t)(opener.Open(known[row.names[0]], krbrelay.Demand{}, then))
		moment, _ := body.Moment()
		if !bytes.Equal(data, body.UserData) || *body.Number != row.number || !moment.Equal(then) ||
			body.Sender != sender || body.Receiver != nil {
			t.Errorf("%s: %+v", row.names[0], body)
		}
		opener.Close()
	}
}

func TestWhatIsGivenAndLeftOut(t *testing.T) {
	known := frames(t)
	to := session(krbrelay.Safe, first)
	to.Receiver = &receiver
	sealer := must[*krbrelay.Sealer](t)(krbrelay.NewSealer(17, key128, to))
	frame := must[[]byte](t)(sealer.SealRecordAt(krbrelay.Text("hi"), then, [16]byte{}))
	if !bytes.Equal(frame, known["safe 17, to the receiver"]) {
		t.Errorf("%x", frame)
	}
	opener := must[*krbrelay.Opener](t)(krbrelay.NewOpener(17, key128, krbrelay.Expect{Mode: krbrelay.Safe}))
	if body := must[*krbrelay.Body](t)(opener.Open(frame, krbrelay.Demand{}, then)); *body.Receiver != receiver {
		t.Error(body.Receiver)
	}
	body := must[*krbrelay.Body](t)(opener.Open(known["safe 17, neither time nor number"], krbrelay.Demand{}, then))
	if _, has := body.Moment(); has || body.Seconds != nil || body.Microseconds != nil || body.Number != nil {
		t.Errorf("%+v", body)
	}
	sealer = must[*krbrelay.Sealer](t)(krbrelay.NewSealer(18, key256, session(krbrelay.Priv, first)))
	confounder := [16]byte{7, 7, 7, 7, 7, 7, 7, 7, 7, 7, 7, 7, 7, 7, 7, 7}
	frame = must[[]byte](t)(sealer.SealAt([]byte("hi"), then, confounder))
	if !bytes.Equal(frame, known["priv 18, the data hi of example_seal"]) {
		t.Errorf("%x", frame)
	}
}

func TestAHeaderSaysWhatStandsInClear(t *testing.T) {
	known := frames(t)
	safe := must[*krbrelay.Header](t)(krbrelay.MessageHeader(known["safe 18"]))
	if safe.Kind != krbrelay.Safe || safe.Etype != nil || *safe.ChecksumType != 16 || *safe.Number != first || safe.KeyVersion != nil {
		t.Errorf("%+v", safe)
	}
	priv := must[*krbrelay.Header](t)(krbrelay.MessageHeader(known["priv 17, first drawn confounder"]))
	if priv.Kind != krbrelay.Priv || *priv.Etype != 17 || priv.ChecksumType != nil || priv.Number != nil {
		t.Errorf("%+v", priv)
	}
	if _, err := krbrelay.MessageHeader(nil); !errors.Is(err, krbrelay.ErrMalformed) {
		t.Error(err)
	}
}

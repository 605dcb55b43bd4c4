// The runner of the Go package krbrelay (README.md has its lines): Opener.Open of single messages, Peer.Open of
// several with a number, Receiver.Take of records.
package main

import (
	"bufio"
	"encoding/hex"
	"errors"
	"fmt"
	"os"
	"strconv"
	"strings"
	"time"

	"krbrelay"
)

// asked is a line: what a reader demands, and the messages that it is given in turn.
type asked []string

func bytesOf(digits string) []byte {
	bytes, err := hex.DecodeString(strings.Trim(digits, "."))
	if err != nil {
		panic(err)
	}
	return bytes
}

func (a asked) number(field int) int64 {
	number, err := strconv.ParseInt(a[field], 10, 64)
	if err != nil {
		panic(err)
	}
	return number
}

// address is nil where none is demanded.
func (a asked) address(field int) (*krbrelay.Address, error) {
	kind, digits, has := strings.Cut(a[field], ":")
	if !has {
		return nil, nil
	}
	number, err := strconv.ParseInt(kind, 10, 32)
	if err != nil {
		panic(err)
	}
	address, err := krbrelay.NewAddress(int32(number), bytesOf(digits))
	return &address, err
}

func (a asked) mode() krbrelay.Mode {
	if a[1] == "safe" {
		return krbrelay.Safe
	}
	return krbrelay.Priv
}

func (a asked) at() time.Time { return time.Unix(a.number(8), a.number(9)*1000) }

func (a asked) demand() (demand krbrelay.Demand, err error) {
	if demand.Sender, err = a.address(4); err != nil {
		return demand, err
	}
	if demand.Receiver, err = a.address(5); err != nil {
		return demand, err
	}
	if a[6] != "1" {
		demand.HowReceiver = krbrelay.IfPresent
	}
	if a[7] != "0" {
		hows := map[string]krbrelay.How{"1": krbrelay.IfPresent, "2": krbrelay.Required, "3": krbrelay.AbsentIs0}
		demand.HowTime, demand.Skew = hows[a[7]], krbrelay.Of(uint32(a.number(10)))
	}
	if a[11] != "-" {
		demand.Number = krbrelay.Of(uint64(a.number(11)))
	}
	demand.NeedsTimeOrNumber = a[12] == "1"
	return demand, nil
}

// taker is what a message is given to: it returns the user data, or why the message is refused.
func (a asked) taker() (func(message []byte) ([]byte, error), error) {
	demand, err := a.demand()
	if err != nil {
		return nil, err
	}
	etype, key := int32(a.number(2)), bytesOf(a[3])
	userData := func(body *krbrelay.Body, err error) ([]byte, error) {
		if err != nil {
			return nil, err
		}
		return body.UserData, nil
	}
	if a[13] == "1" {
		expect := krbrelay.Expect{Mode: a.mode(), Sender: *demand.Sender, Receiver: *demand.Receiver, RequireReceiver: a[6] == "1",
			OptionalTime: a[7] != "2", Skew: uint32(a.number(10))}
		receiver, err := krbrelay.NewReceiver(etype, key, expect, krbrelay.State{Expected: *demand.Number})
		return func(message []byte) ([]byte, error) { return record(receiver.Take(message, a.at())) }, err
	}
	if strings.Contains(a[14], ",") && demand.Number != nil {
		peer, err := krbrelay.NewPeer(etype, key, krbrelay.Session{Mode: a.mode(), Sender: krbrelay.Client}, demand)
		return func(message []byte) ([]byte, error) { return userData(peer.Open(message, a.at())) }, err
	}
	opener, err := krbrelay.NewOpener(etype, key, krbrelay.Expect{Mode: a.mode()})
	return func(message []byte) ([]byte, error) { return userData(opener.Open(message, demand, a.at())) }, err
}

// record is the user data of a record, which begin with its letter.
func record(taken krbrelay.Record, err error) ([]byte, error) {
	switch it := taken.(type) {
	case krbrelay.Text:
		return append([]byte("D"), it...), err
	case krbrelay.Batch:
		data := []byte("B")
		for _, text := range it {
			data, _ = krbrelay.AppendText(data, text)
		}
		return data, err
	}
	return []byte("C"), err
}

func verdict(data []byte, err error) string {
	var refusal krbrelay.Answer
	if errors.As(err, &refusal) {
		return fmt.Sprint("no:", uint32(refusal))
	}
	return "ok:" + hex.EncodeToString(data)
}

func main() {
	lines := bufio.NewScanner(os.Stdin)
	lines.Buffer(nil, 1<<30)
	for lines.Scan() {
		asked := asked(strings.Split(lines.Text(), "\t"))
		take, err := asked.taker()
		var verdicts []string
		for _, message := range strings.Split(asked[14], ",") {
			if err != nil { // an address that is too long, which no demand has
				verdicts = append(verdicts, "na")
			} else {
				verdicts = append(verdicts, verdict(take(bytesOf(message))))
			}
		}
		fmt.Printf("%s\t%s\n", asked[0], strings.Join(verdicts, ","))
	}
}

// What a receiver takes.

//go:build cgo

package krbrelay

import "encoding/binary"

const lengthSize = 4

// Record is what a Receiver takes: a Text, a Batch or a Closed.
type Record interface {
	// parts is the kind, as enum krbrelay_record has it, and the bytes.
	parts() (uint32, []byte, error)
}

// Text is a record of one text, of 1,000,000 bytes at most.
type Text []byte

// Batch is a record of 2 to 1,000 texts. Their bytes, and four more for each text, are 1,000,000 at most.
type Batch [][]byte

// Closed is the record that ends a session: the receiver refuses all that follows.
type Closed struct{}

func (t Text) parts() (uint32, []byte, error) { return 1, t, nil }
func (Closed) parts() (uint32, []byte, error) { return 3, nil, nil }

func (b Batch) parts() (uint32, []byte, error) {
	var bytes []byte
	for _, text := range b {
		var err error
		if bytes, err = AppendText(bytes, text); err != nil {
			return 0, nil, err
		}
	}
	return 2, bytes, nil
}

func recordOf(kind uint32, bytes []byte) (Record, error) {
	switch kind {
	case 1:
		return Text(bytes), nil
	case 2:
		texts, err := Texts(bytes)
		return Batch(texts), err
	}
	return Closed{}, nil
}

// AppendText adds a text to the bytes of a batch: four bytes of its length, the most significant first, and its
// bytes. ErrRecord of one with 2^32 bytes or more.
func AppendText(batch, text []byte) ([]byte, error) {
	if uint64(len(text)) > 0xffffffff {
		return batch, ErrRecord
	}
	return append(binary.BigEndian.AppendUint32(batch, uint32(len(text))), text...), nil
}

// NextText is the text that the bytes of a batch begin with, and what follows it. ErrEmpty where there are no
// bytes, ErrRecord where no text stands there.
func NextText(batch []byte) (text, rest []byte, err error) {
	if len(batch) == 0 {
		return nil, nil, ErrEmpty
	}
	if len(batch) < lengthSize {
		return nil, nil, ErrRecord
	}
	size, rest := uint64(binary.BigEndian.Uint32(batch)), batch[lengthSize:]
	if uint64(len(rest)) < size {
		return nil, nil, ErrRecord
	}
	return rest[:size:size], rest[size:], nil
}

// Texts are the texts of a batch. ErrRecord where its bytes aren't texts one after the other.
func Texts(batch []byte) ([][]byte, error) {
	var texts [][]byte
	for len(batch) > 0 {
		text, rest, err := NextText(batch)
		if err != nil {
			return nil, err
		}
		texts, batch = append(texts, text), rest
	}
	return texts, nil
}

// The runner of gokrb5 (v8): it reads both messages and opens the enciphered part, and compares neither checksums of
// KRB-SAFE, addresses, times nor numbers.
//
// implementations.toml says how it is compiled (Debian: golang-github-jcmturner-gokrb5.v8-dev).
package main

import (
	"bufio"
	"encoding/hex"
	"fmt"
	"os"
	"strconv"
	"strings"

	"github.com/jcmturner/gokrb5/v8/messages"
	"github.com/jcmturner/gokrb5/v8/types"
)

func verdict(f []string, msg []byte) (told string) {
	defer func() {
		if r := recover(); r != nil {
			told = "crash:" + strings.Map(func(c rune) rune {
				if c == ',' || c == '\n' || c == '\t' {
					return ' '
				}
				return c
			}, fmt.Sprint(r))
		}
	}()
	etype, _ := strconv.Atoi(f[2])
	value, _ := hex.DecodeString(f[3])
	key := types.EncryptionKey{KeyType: int32(etype), KeyValue: value}
	if f[1] == "safe" {
		var s messages.KRBSafe
		if err := s.Unmarshal(msg); err != nil {
			return "no:decode"
		}
		return "ok:" + hex.EncodeToString(s.SafeBody.UserData)
	}
	var p messages.KRBPriv
	if err := p.Unmarshal(msg); err != nil {
		return "no:decode"
	}
	if err := p.DecryptEncPart(key); err != nil {
		return "no:decrypt"
	}
	return "ok:" + hex.EncodeToString(p.DecryptedEncPart.UserData)
}

func main() {
	in := bufio.NewReaderSize(os.Stdin, 1<<22)
	for {
		line, err := in.ReadString('\n')
		if err != nil {
			return
		}
		f := strings.Split(strings.TrimSuffix(line, "\n"), "\t")
		var all []string
		for _, m := range strings.Split(f[14], ",") {
			b, _ := hex.DecodeString(strings.Trim(m, "."))
			if strings.Contains(f[14], ",") {
				all = append(all, "na")
			} else {
				all = append(all, verdict(f, b))
			}
		}
		fmt.Printf("%s\t%s\n", f[0], strings.Join(all, ","))
	}
}

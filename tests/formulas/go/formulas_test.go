package rapidhash

import (
	"bufio"
	"encoding/binary"
	"errors"
	"fmt"
	"io"
	"os"
	"sort"
	"strings"
	"testing"
)

// record is a request of tests/formulas/main.rs. The fifth form with option 2 is protected V3.
type record struct {
	Form, Options, Key       uint64
	Secrets                  Secrets
	Offset, Length, Streamed uint64
	Cuts                     [4]uint64
	_                        [2]uint64
}

// forms returns the names of the forms by their numbers, which is the order of the names.
func forms() (names []string) {
	for name := range calls {
		if !strings.HasSuffix(name, "_protected") {
			names = append(names, name)
		}
	}
	sort.Strings(names)
	return names
}

// hash returns the hash of a message, or an error if the package has no such hash.
func (r *record) hash(name string, message []byte) (uint64, error) {
	if r.Options&2 != 0 {
		name += "_protected"
	}
	call, isVersion := calls[name]
	if isVersion && r.Streamed == 0 {
		return call.Sum64WithSecrets(message, &r.Secrets), nil
	}
	version, isStream := streams[name]
	if !isStream {
		return 0, fmt.Errorf("formulas: no %s with options %d, streamed %d", name, r.Options, r.Streamed)
	}
	stream, from := version.NewWithSecrets(&r.Secrets), uint64(0)
	for _, cut := range append(r.Cuts[:], r.Length) {
		stream.Write(message[from:cut])
		from = cut
	}
	return stream.Sum64(), nil
}

func run(in io.Reader, out io.Writer) error {
	var room [32768]byte
	if _, err := io.ReadFull(in, room[:]); err != nil {
		return fmt.Errorf("formulas: the messages: %w", err)
	}
	for names := forms(); ; {
		var r record
		if err := binary.Read(in, binary.LittleEndian, &r); errors.Is(err, io.EOF) {
			return nil
		} else if err != nil {
			return fmt.Errorf("formulas: a record: %w", err)
		}
		formulasKey = r.Key
		value, err := r.hash(names[r.Form], room[r.Offset:][:r.Length])
		if err == nil {
			err = binary.Write(out, binary.LittleEndian, value)
		}
		if err != nil {
			return err
		}
	}
}

// TestMain computes hashes with random functions instead of the loads and the product, and runs no test: it is the
// program that tests/formulas/main.rs compares with the definition.
func TestMain(*testing.M) {
	out := bufio.NewWriter(os.Stdout)
	err := run(bufio.NewReaderSize(os.Stdin, 1<<16), out)
	if flushed := out.Flush(); err == nil {
		err = flushed
	}
	if err != nil {
		fmt.Fprintln(os.Stderr, err)
		os.Exit(1)
	}
}

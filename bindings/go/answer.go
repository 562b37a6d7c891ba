package imaverify

import (
	"bytes"
	"encoding/json"
	"fmt"
	"reflect"
)

const firstCapacity = 64 * 1024 // of the first buffer for a text

// answer is what the library gives to a call: a reply, a text and a next checkpoint.
type answer struct {
	reply
	next, text []byte
}

// ask calls the library with a buffer for a text, and with a longer one while that is too short.
func ask(out []byte, call func(out []byte) reply) (answer, error) {
	return askForBoth(nil, out, func(_, out []byte) reply { return call(out) })
}

// askForBoth calls the library with buffers for a next checkpoint and for a text.
func askForBoth(next, out []byte, call func(next, out []byte) reply) (answer, error) {
	if found := Version(); found < headerVersion {
		err := fmt.Errorf("libima_verify has version %d of the interface, and %d or later is needed", found, headerVersion)
		return answer{}, err
	}
	given, err := repeated(next, out, call)
	if err == nil {
		err = given.failure()
	}
	if err != nil {
		return answer{}, err
	}
	return given, nil
}

// repeated makes a call with longer buffers while they are too short.
func repeated(next, out []byte, call func(next, out []byte) reply) (answer, error) {
	for {
		r := call(next, out)
		if r.status == tooShort {
			longerNext, isNextLonger := lengthened(next, r.nextSize)
			longerOut, isOutLonger := lengthened(out, r.size)
			if isNextLonger || isOutLonger {
				next, out = longerNext, longerOut
				continue
			}
		}
		if r.size > uint64(len(out)) || r.nextSize > uint64(len(next)) {
			return answer{}, &UnexpectedError{Status: r.status, Size: r.size}
		}
		return answer{r, next[:r.nextSize], out[:r.size]}, nil
	}
}

// lengthened is a buffer for a text of this size, and whether it is a new one.
func lengthened(buffer []byte, size uint64) ([]byte, bool) {
	if size <= uint64(len(buffer)) {
		return buffer, false
	}
	return make([]byte, size), true
}

// failure is the error that an answer reports, or nil.
func (a answer) failure() error {
	switch a.status {
	case done, differs, moreLines:
		return nil
	case refused:
		return refusedBy(a.reply)
	case misused: // (the arguments do not belong together: no pointer is null, and all else is of the package)
		return refusedBy(reply{kind: argumentNumber, place: noPlace})
	case outOfMemory:
		return ErrOutOfMemory
	default:
		return a.unexpected()
	}
}

func (a answer) unexpected() error {
	return &UnexpectedError{a.status, a.size, a.text}
}

// settled is a result that claims something, which has to be what the library's status says.
type settled interface {
	settle(isDone bool) (claim bool)
}

// read reads a result from an answer of one line.
func (a answer) read(result any) error {
	isRead := (a.status == done || a.status == differs) && decode(a.text, result)
	if claiming, isClaiming := result.(settled); isRead && isClaiming {
		isRead = claiming.settle(a.status == done) == (a.status == done)
	}
	if !isRead {
		return a.unexpected()
	}
	return nil
}

// resultFor reads a result from the answer to a call.
func resultFor[T any](call func(out []byte) reply) (T, error) {
	result, _, err := resultAndNext[T](nil, func(_, out []byte) reply { return call(out) })
	return result, err
}

// resultAndNext reads a result from the answer to a call, and the next checkpoint, which only a match has.
func resultAndNext[T any](next []byte, call func(next, out []byte) reply) (T, []byte, error) {
	var result, none T
	given, err := askForBoth(next, make([]byte, firstCapacity), call)
	if err == nil {
		err = given.read(&result)
	}
	if err != nil {
		return none, nil, err
	}
	return result, clone(given.next), nil
}

func (r *Report) settle(isDone bool) bool {
	r.Matches = isDone
	return r.Conclusion == ConclusionMatch
}

func (p *Places) settle(bool) bool {
	return p.Located
}

// decode reads a line that is one object of JSON, and says whether it could. A field JSON gets the line.
func decode(line []byte, to any) bool {
	end := bytes.IndexByte(line, '\n')
	if end != len(line)-1 || !bytes.HasPrefix(line, []byte("{")) || json.Unmarshal(line, to) != nil {
		return false
	}
	if raw := reflect.ValueOf(to).Elem().FieldByName("JSON"); raw.IsValid() {
		raw.SetString(string(line[:end]))
	}
	return true
}

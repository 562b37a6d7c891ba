package imaverify

import (
	"errors"
	"fmt"
)

// Kind says what is refused. Words are those of JSON.
type Kind string

const (
	KindArgument   Kind = "command_line" // a selection of PCRs, a nonce, or members of a Quote that do not belong together
	KindLog        Kind = "log"
	KindList       Kind = "list"
	KindReplay     Kind = "replay" // the template digest of an entry is not valid
	KindExpected   Kind = "expected"
	KindCheckpoint Kind = "checkpoint" // the state of a session
	KindQuote      Kind = "quote"      // the message of a quote
	KindKey        Kind = "key"
	KindKnown      Kind = "known" // the known files
	KindSignature  Kind = "signature"
	KindTextList   Kind = "text_list" // what ConvertList takes
	KindLogForm    Kind = "log_form"  // what ConvertLog takes
)

// RefusedError is the error of an input that is refused.
//
// Kind and Number say what is wrong (docs/errors.txt); a later library may have kinds that are empty here. Place is the number of the
// event, the entry or the line where it is, if HasPlace. Text says in words what is wrong and what to do.
type RefusedError struct {
	Kind     Kind
	Number   uint32
	Place    uint64
	HasPlace bool
	Text     string
}

// Error gives Text.
func (r *RefusedError) Error() string {
	return r.Text
}

// refusedBy is the error that a reply reports, with the library's text for it.
func refusedBy(r reply) error {
	err := &RefusedError{Kind: kinds[r.kind], Number: r.number, HasPlace: r.place != noPlace}
	if err.HasPlace {
		err.Place = r.place
	}
	described, failed := repeated(nil, make([]byte, firstCapacity), func(_, out []byte) reply { return callErrorText(r, out) })
	if err.Text = string(described.text); failed != nil || described.status != done {
		err.Text = fmt.Sprintf("libima_verify refused an input: %s error %d", err.Kind, err.Number) // (there is no memory for the text)
	}
	return err
}

// ErrOutOfMemory says that the library got no memory.
var ErrOutOfMemory = errors.New("libima_verify got no memory")

// UnexpectedError is the error of an answer that the library's header does not describe, so nothing is known of the inputs.
type UnexpectedError struct {
	Status int32
	Size   uint64
	Text   []byte
}

func (u *UnexpectedError) Error() string {
	return fmt.Sprintf("libima_verify returned the status %d and the size %d, with a text that begins %.200q", u.Status, u.Size, u.Text)
}

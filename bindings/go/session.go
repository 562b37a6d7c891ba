package imaverify

import (
	"bytes"
	"errors"
	"strconv"
)

// Session gives verdicts on a measurement list that grows: each is on all of the list so far, but only what is new of it is
// given. It is for one goroutine at a time.
type Session struct {
	log, expected []byte
	require       string
	settings      settings
}

// settings are what options ask for, and the state from which the list continues.
type settings struct {
	known     knownFiles
	hcrtm     bool
	oldKernel bool
	prefix    bool
	state     []byte
}

// knownFiles are the texts of Known, one after another, and whether entries are looked up in them.
type knownFiles struct {
	checked bool
	text    []byte
}

// Option is Known, which Verify, Replay, Attest and sessions take; or HCRTM, which Verify, Attest, Locate, Registers and sessions take; or
// OldKernel, which Verify, Attest and sessions take; or Prefix or Resume, which only sessions take.
type Option func(s *settings)

// Known has each entry but the boot aggregate be of a known file: one whose digest these texts have, as sha256sum, sha384sum and sha512sum
// print them. The verdict has the other entries in Unknown. Without a text no file is known. A session copies the texts.
//
// A text with another line, or with a digest by SHA-1, is refused with KindKnown; lines count on from one text to the next. PCRs have to be
// required: with NothingRequired the error has KindArgument. A session does not look up again the entries that its state covers.
func Known(texts ...[]byte) Option {
	return func(s *settings) {
		s.known.checked = true
		for _, text := range texts {
			s.known.text = append(s.known.text, text...)
			if len(text) > 0 && text[len(text)-1] != '\n' {
				s.known.text = append(s.known.text, '\n')
			}
		}
	}
}

// HCRTM has an event EV_EFI_HCRTM_EVENT of the log in PCR 0 tell that PCR 0 began at 4, if no event tells a locality (TPM 2.0 Library,
// part 1, 34.3).
func HCRTM() Option {
	return func(s *settings) { s.hcrtm = true }
}

// OldKernel has a boot aggregate over PCRs 0 to 7 be taken, as kernels before 5.8 make it: BootAggregate is then BootAggregateOldKernel.
// It counts where PCRs are required; with NothingRequired none is taken.
func OldKernel() Option {
	return func(s *settings) { s.oldKernel = true }
}

// Prefix has the verdict be on the confirmed part of the list, if there is one: the list's first entries, as few as make all
// PCRs match. What comes after them may be new since the PCRs were read, or damaged.
func Prefix() Option {
	return func(s *settings) { s.prefix = true }
}

// Resume has the session continue from the State of an earlier one, with a log of the same boot. The expected PCRs may be
// others. More and Attest refuse a state that is not whole, even an empty one or nil. A state is trusted: whoever can write it chooses the
// verdict.
func Resume(state []byte) Option {
	return func(s *settings) { s.state = notEmpty(append([]byte{}, state...)) }
}

func settingsOf(options []Option) settings {
	var s settings
	for _, option := range options {
		option(&s)
	}
	return s
}

// settingsIn are what options ask for of a call that is of no session, and may take Known, HCRTM or OldKernel.
func settingsIn(options []Option, takesKnown, takesHCRTM, takesOldKernel bool) (settings, error) {
	s := settingsOf(options)
	if s.prefix || s.state != nil || (s.known.checked && !takesKnown) || (s.hcrtm && !takesHCRTM) || (s.oldKernel && !takesOldKernel) {
		return settings{}, errors.New("the call does not take this option")
	}
	return s, nil
}

// NewSession gives a session on a list, of which nothing is known unless it is resumed. The arguments are as in Verify; log and
// expected are copied. For a requirement that is not of its form, such as an empty one, More gives the error.
func NewSession(log, expected []byte, require string, options ...Option) *Session {
	return &Session{clone(log), clone(expected), require, settingsOf(options)}
}

// NewQuoteSession gives a session for Attest alone: no PCRs are expected, and More gives an error.
func NewQuoteSession(log []byte, options ...Option) *Session {
	return NewSession(log, nil, "", options...)
}

// More gives the verdict on the list that the state covers, followed by these bytes, which may be none. If it is a match, the
// state then covers the list that it is on: with Prefix the confirmed part, otherwise the whole list.
//
// Numbers of entries, even in an error, are those of the whole list. After an error, and after a verdict that is no match, the
// session is as it was before: give these bytes again.
func (s *Session) More(data []byte) (Verdict, error) {
	verdict, next, err := resultAndNext[Verdict](make([]byte, checkpointCapacity), func(next, out []byte) reply {
		return callMore(s.log, data, s.expected, []byte(s.require), s.settings, next, out)
	})
	if verdict.Matches {
		s.settings.state = next
	}
	return verdict, err
}

// Attest gives the verdict by a quote on the list that the state covers, followed by these bytes, as of More and the function Attest.
//
// A state is continued by a quote only in its boot: Resets and Restarts of the quote's Clock are those of the last quote, and the
// state is that of a session that used Attest last. Another is refused with KindCheckpoint and the number 4. (A suspend counts as a
// restart: then begin a new session with the whole list.)
func (s *Session) Attest(data []byte, quote Quote) (Attestation, error) {
	found, next, err := attestFrom(s.log, data, quote, s.settings)
	if found.Matches {
		s.settings.state = next
	}
	return found, err
}

// attestFrom gives the verdict by a quote on the list of a state followed by these bytes, and the next state.
func attestFrom(log, data []byte, quote Quote, from settings) (Attestation, []byte, error) {
	return resultAndNext[Attestation](make([]byte, checkpointCapacity), func(next, out []byte) reply {
		return callAttest(log, data, quote, from, next, out)
	})
}

// State is what to keep, and to Resume another session from. It is nil before the first match on a list from its start.
func (s *Session) State() []byte {
	return clone(s.settings.state)
}

// Offset is how many bytes of the list the state covers: More takes those that follow.
func (s *Session) Offset() uint64 {
	_, after, _ := bytes.Cut(s.settings.state, []byte("\nbytes "))
	digits, _, _ := bytes.Cut(after, []byte("\n"))
	offset, err := strconv.ParseUint(string(digits), 10, 64)
	if err != nil {
		return 0 // (there is no state, or More refuses it)
	}
	return offset
}

func clone(data []byte) []byte {
	return append([]byte(nil), data...)
}

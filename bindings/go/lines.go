package imaverify

import "bytes"

// lines goes through the lines of entries or of events, which the library gives by pieces.
type lines struct {
	call   func(out []byte) reply // for the next piece
	buffer []byte
	rest   []byte // the lines of the piece that are not read yet
	status int32  // of the last call
	err    error
}

func linesOf(call func(out []byte) reply) *lines {
	return &lines{call: call, buffer: make([]byte, firstCapacity), status: moreLines}
}

// piece gives the lines that the next call gives. After the last ones, and after an error, it gives nil.
func (l *lines) piece() []byte {
	if l.err != nil || l.status == done {
		return nil
	}
	given, err := ask(l.buffer, l.call)
	if err == nil && !isPiece(given) {
		err = given.unexpected()
	}
	if err != nil {
		l.err = err
		return nil
	}
	l.status, l.buffer = given.status, given.text[:cap(given.text)]
	return given.text
}

// isPiece is whether an answer has whole lines: some, if more follow.
func isPiece(given answer) bool {
	if len(given.text) == 0 {
		return given.status == done
	}
	return (given.status == done || given.status == moreLines) && bytes.HasSuffix(given.text, []byte("\n"))
}

// line gives the next line, which is empty after the last one, and after an error.
func (l *lines) line() []byte {
	if len(l.rest) == 0 {
		l.rest = l.piece()
	}
	return l.rest[:bytes.IndexByte(l.rest, '\n')+1]
}

// nextOf reads the next line, and says whether there is one.
func nextOf[T any](l *lines) (item T, isNext bool) {
	line := l.line()
	if len(line) == 0 {
		return item, false
	}
	if !decode(line, &item) {
		l.rest, l.err = nil, answer{reply: reply{status: l.status}, text: line}.unexpected()
		var none T
		return none, false
	}
	l.rest = l.rest[len(line):]
	return item, true
}

// Scanner goes through entries or events, as bufio.Scanner goes through lines.
type Scanner[T Entry | Event] struct {
	lines  *lines
	item   T
	hasEnd bool // whether the last line is no item, but says how many there are
}

// Next reads the next item, which Item then gives. It is false after the last item, and at an error, which Err then gives.
func (s *Scanner[T]) Next() bool {
	line := s.lines.line()
	if isLast := s.lines.status == done && len(line) == len(s.lines.rest); isLast && s.hasEnd {
		s.lines.rest = nil
	}
	var isNext bool
	s.item, isNext = nextOf[T](s.lines)
	return isNext
}

// Item gives what Next read, or the zero value if it read none.
func (s *Scanner[T]) Item() T {
	return s.item
}

// Err gives the error that ended the items: a *RefusedError says where the input is damaged. It is nil after the last item of a
// whole input, and as long as Next is true.
func (s *Scanner[T]) Err() error {
	return s.lines.err
}

// EventScanner goes through the events of a firmware event log.
type EventScanner struct {
	Scanner[Event]
	header       LogHeader
	quoteDiffers bool
}

// Header gives the log's header, with the algorithms that it declares.
func (s *EventScanner) Header() LogHeader {
	return s.header
}

// QuoteDiffers says that a quote which was given as evidence is no match for log and list: no event is confirmed then.
func (s *EventScanner) QuoteDiffers() bool {
	return s.quoteDiffers
}

// Entries goes through the entries of a measurement list. No entry says that the list is the machine's, as Verify does. The list must not
// change before the last call of Next.
//
// For a damaged list Next gives the entries before the error. A loop that ends early does not come to the error.
func Entries(list []byte) *Scanner[Entry] {
	at := new(position)
	return &Scanner[Entry]{lines: linesOf(func(out []byte) reply { return callEntries(list, at, true, out) }), hasEnd: true}
}

// Events goes through the events of a firmware event log after its header, as Entries does. If the header is damaged, there is an error here.
func Events(log []byte) (*EventScanner, error) {
	return eventsBy(log, nil, false)
}

// ConfirmedEvents goes through events as Events does, and each says in Confirmed what the evidence confirms of its data. The evidence is
// read here alone. Its errors are those of Verify and Attest; the zero value is refused with KindArgument.
func ConfirmedEvents(log []byte, evidence Evidence) (*EventScanner, error) {
	matching, err := ask(make([]byte, firstCapacity), func(out []byte) reply { return callMatching(log, evidence, out) })
	if err != nil {
		return nil, err
	}
	events, err := eventsBy(log, matching.text, true)
	if err == nil {
		events.quoteDiffers = matching.status == differs
	}
	return events, err
}

// eventsBy reads the first line, which is the header. The others say what these PCRs confirm, if they are given.
func eventsBy(log, matching []byte, matchingGiven bool) (*EventScanner, error) {
	at := new(position)
	l := linesOf(func(out []byte) reply { return callEvents(log, matching, matchingGiven, at, out) })
	header, isNext := nextOf[LogHeader](l)
	if !isNext && l.err == nil {
		l.err = answer{reply: reply{status: l.status}}.unexpected() // (a log has a header)
	}
	if l.err != nil {
		return nil, l.err
	}
	return &EventScanner{Scanner: Scanner[Event]{lines: l}, header: header}, nil
}

// Show gives the entries of a measurement list as text, each in the kernel's form. Paths are as they are: they may have line
// feeds and control bytes. Entries gives each entry by itself.
func Show(list []byte) ([]byte, error) {
	at := new(position)
	l := linesOf(func(out []byte) reply { return callEntries(list, at, false, out) })
	var text []byte
	for piece := l.piece(); len(piece) > 0; piece = l.piece() {
		text = append(text, piece...)
	}
	if l.err != nil {
		return nil, l.err
	}
	return text, nil
}

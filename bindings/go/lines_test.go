package imaverify

import (
	"bytes"
	"fmt"
	"strings"
	"testing"
)

// The sample's list as the kernel's text.
var ascii = string(sample("real-boot/ima.ascii"))

// drained are all items of a scanner, and its error, which it keeps.
func drained[T Entry | Event](s *Scanner[T]) (items []T, err error) {
	for s.Next() {
		items = append(items, s.Item())
	}
	err = s.Err()
	if s.Next() || s.Err() != err {
		panic("an end that does not last")
	}
	return items, err
}

// eventsIn are the events of a log, and the error after them.
func eventsIn(log []byte) ([]Event, error) {
	return drained(&must(Events(log)).Scanner)
}

func TestEntriesOfTheSampleAreTheKernelsText(t *testing.T) {
	var lines strings.Builder
	for k, e := range must(drained(Entries(bootList))) {
		fmt.Fprintf(&lines, "%2d %x %s %s:%x %s\n", e.Register, e.TemplateDigest, e.TemplateName(), e.Algorithm, e.Digest, e.FilePath())
		equal(t, each(e.Number, e.Genuine, e.Violation), each(uint64(k), true, k == 93 || k == 94 || k == 97))
	}
	equal(t, lines.String(), ascii)
	equal(t, string(must(Show(bootList))), ascii)
	for k, e := range must(drained(Entries(changedList))) {
		equal(t, e.Genuine, k != 5)
	}
	equal(t, each(len(must(drained(Entries(nil)))), len(must(Show(nil)))), each(0, 0))
}

func TestEventsOfTheSample(t *testing.T) {
	events := must(Events(bootLog))
	equal(t, events.Header().Algorithms, []LogAlgorithm{{"sha256", 11, 32}})
	found := must(drained(&events.Scanner))
	text, flag := "", uint8(0)
	// (the first event of the file is after the header of 65 bytes)
	equal(t, found[0], Event{1, 0, "platform-code", "EV_S_CRTM_VERSION", 8, PerBank[Hex]{"sha256": bootLog[79:111]}, bootLog[115:117],
		PerBank[Part]{"sha256": PartData}, "", Content{Text: &text}, found[0].JSON})
	// (the state of Secure Boot, as tpm2_eventlog prints it)
	equal(t, *found[3].Content.Variable, Variable{GUID: "8be4df61-93ca-11d2-aa0d-00e098032b8c", Name: "SecureBoot", Value: Hex{0}, Flag: &flag})
	equal(t, len(found), 24)
}

func TestDamagedInputsGiveWhatComesBeforeTheError(t *testing.T) {
	entries, events := must(drained(Entries(bootList))), must(eventsIn(bootLog))
	for list, count := range map[string]int{string(cutList): 98, string(bootList) + "x": 99, "x": 0} {
		found, err := drained(Entries([]byte(list)))
		checkRefused(t, KindList, 1, uint64(count))(0, err)
		equal(t, append([]Entry{}, found...), entries[:count])
		checkRefused(t, KindList, 1, uint64(count))(Show([]byte(list)))
	}
	for log, count := range map[string]int{string(bootLog[:len(bootLog)-1]): 23, string(bootLog) + "x": 24} {
		found, err := eventsIn([]byte(log))
		checkRefused(t, KindLog, 1, uint64(count+1))(0, err)
		equal(t, found, events[:count])
	}
	_, err := Events(bootLog[:31])
	checkRefused(t, KindLog, 1, 0)(0, err)
}

// What is read from a piece stays as it is while the next ones are read.
func TestItemsOfAllPiecesAreThoseOfTheInput(t *testing.T) {
	const many, header = 40, 65
	events, entries := must(eventsIn(bootLog)), must(drained(Entries(bootList)))
	for k, event := range must(eventsIn(joined(bootLog, bytes.Repeat(bootLog[header:], many)))) {
		event.Number, event.JSON = uint64(k%24+1), events[k%24].JSON
		equal(t, event, events[k%24])
	}
	for k, entry := range must(drained(Entries(bytes.Repeat(bootList, many)))) {
		entry.Number, entry.JSON = uint64(k%99), entries[k%99].JSON
		equal(t, entry, entries[k%99])
	}
	equal(t, string(must(Show(bytes.Repeat(bootList, many)))) == strings.Repeat(ascii, many), true)
}

// entriesBy goes through the entries of a library that gives these answers, one to each call.
func entriesBy(answers ...answer) ([]Entry, error) {
	return drained(&Scanner[Entry]{hasEnd: true, lines: linesOf(func(out []byte) reply {
		given := answers[0]
		answers = answers[1:]
		copy(out, given.text)
		return given.reply
	})})
}

func TestPiecesThatAreNoLines(t *testing.T) {
	line := `{"entry":0,"register":10,"template":"x","template_digest":"00","violation":false,"genuine":true}` + "\n"
	for _, wrong := range []answer{of(moreLines, ""), of(moreLines, line[:20]), of(moreLines, "[]\n"), of(differs, line), of(9, line)} {
		found, err := entriesBy(of(moreLines, line+line), wrong)
		checkUnexpected(t, err, wrong)
		equal(t, len(found), 2)
	}
	found, err := entriesBy(of(moreLines, line), of(outOfMemory, "failed: memory\n"))
	equal(t, each(len(found), err), each(1, ErrOutOfMemory))
}

package imaverify

import (
	"bytes"
	"encoding/json"
	"errors"
	"fmt"
	"math"
	"os"
	"path/filepath"
	"reflect"
	"strings"
	"testing"
)

// What a test reads of docs/schema.json.
type schema struct {
	Ref        string             `json:"$ref"`
	Defs       map[string]*schema `json:"$defs"`
	Properties map[string]*schema
	Items      *schema
	OneOf      []*schema
}

// comparison collects the members that only the schema or a type has.
type comparison struct {
	defs   map[string]*schema
	differ []string
}

// withMembers is what a schema stands for: of several, the one that has members. (A word may be in place of them.)
func (c *comparison) withMembers(s *schema) *schema {
	for s.Ref != "" {
		s = c.defs[strings.TrimPrefix(s.Ref, "#/$defs/")]
	}
	for _, one := range s.OneOf {
		if inner := c.withMembers(one); s.Properties == nil && inner.Properties != nil {
			return inner
		}
	}
	return s
}

func (c *comparison) compare(name string, found reflect.Type, s *schema) {
	s = c.withMembers(s)
	switch {
	case found.Kind() == reflect.Pointer:
		c.compare(name, found.Elem(), s)
	case found.Kind() == reflect.Slice && s.Items != nil: // (bytes have none)
		c.compare(name+"[]", found.Elem(), s.Items)
	case found.Kind() == reflect.Struct:
		count := 0
		for _, field := range reflect.VisibleFields(found) {
			member, _, _ := strings.Cut(field.Tag.Get("json"), ",")
			if inner := s.Properties[member]; inner != nil {
				c.compare(name+"."+member, field.Type, inner)
				count++
			} else if member != "-" && !field.Anonymous {
				c.differ = append(c.differ, name+"."+member)
			}
		}
		if count != len(s.Properties) {
			c.differ = append(c.differ, fmt.Sprintf("%s has %d of %d members", name, count, len(s.Properties)))
		}
	}
}

// Lines that are no results by themselves.
type (
	endLine struct {
		Entries uint64 `json:"entries"`
	}
	errorLine struct {
		Error ErrorInfo `json:"fault"`
	}
	secureBootLine struct {
		State SecureBoot `json:"secure_boot"`
	}
	versionLine struct {
		Version any `json:"firmware_version"`
	}
)

// lineTypes have the type of the lines of each kind.
var lineTypes = map[string]any{
	"verify": Verdict{}, "attest": Attestation{}, "replay": ListVerdict{}, "places": Places{}, "pcrs": PCRs{}, "key": Key{},
	"header": LogHeader{}, "event": Event{}, "entry": Entry{}, "end": endLine{}, "error": errorLine{},
	"secure_boot": secureBootLine{}, "firmware_version": versionLine{}, "image": BootImage{}, "command": BootCommand{},
	"ima_policy": IMAPolicy{}, "boot_variable": BootVariable{}, "claim_data": Claim{}, "alike": ComparedRegister{}, "changed": ChangedEvent{},
}

func TestMembersAreThoseOfTheSchema(t *testing.T) {
	var all schema
	equal(t, json.Unmarshal(must(os.ReadFile(filepath.Join("..", "..", "docs", "schema.json"))), &all), nil)
	c := comparison{defs: all.Defs}
	for kind, line := range lineTypes {
		c.compare(kind, reflect.TypeOf(line), all.Defs[kind])
	}
	equal(t, c.differ, []string(nil))
}

// realAnswer is a line of the table that the tests of all packages read.
type realAnswer struct {
	Kind, Line string
	Status     int32
	Matches    bool
}

func realAnswers() (all []realAnswer) {
	table := must(os.ReadFile(filepath.Join("..", "..", "tests", "bindings", "answers.jsonl")))
	lines := bytes.Split(bytes.TrimSpace(table), []byte("\n"))
	if err := json.Unmarshal(joined([]byte("["), bytes.Join(lines, []byte(",")), []byte("]")), &all); err != nil {
		panic(err)
	}
	return all
}

func of(status int32, text string) answer {
	return answer{reply{status: status, size: uint64(len(text)), place: noPlace}, nil, []byte(text)}
}

// readAs reads a line of this kind, and says whether all matches.
func readAs(kind string, status int32, text string) (any, bool, error) {
	line := reflect.New(reflect.TypeOf(lineTypes[kind]))
	if kind == "error" {
		status = done // (which is read after its status)
	}
	err := of(status, text).read(line.Interface())
	for _, name := range []string{"Matches", "Located"} {
		if matches := line.Elem().FieldByName(name); matches.IsValid() {
			return line.Interface(), matches.Bool(), err
		}
	}
	return line.Interface(), false, err
}

func TestRealAnswersAreRead(t *testing.T) {
	for _, real := range realAnswers() {
		result, matches, err := readAs(real.Kind, real.Status, real.Line+"\n")
		equal(t, each(err, matches), each(nil, real.Matches))
		if real.Matches {
			equal(t, reflect.ValueOf(result).Elem().FieldByName("JSON").String(), real.Line)
		}
	}
}

// checkUnexpected checks that the error is that of an answer which the header does not describe.
func checkUnexpected(t *testing.T, err error, about any) {
	t.Helper()
	var found *UnexpectedError
	if !errors.As(err, &found) {
		t.Errorf("found %v for %v", err, about)
	}
}

// A line that is cut or no object, or a verdict of another status, is no result.
func TestAnswersThatAreNoneAreUnexpected(t *testing.T) {
	for _, real := range realAnswers() {
		for _, text := range []string{"", real.Line, real.Line[:len(real.Line)/2] + "\n", "[" + real.Line + "]\n", "null\n", real.Line + "\n\n"} {
			_, _, err := readAs(real.Kind, real.Status, text)
			checkUnexpected(t, err, text)
		}
		switch real.Kind {
		case "verify", "attest", "replay", "places":
			_, _, err := readAs(real.Kind, 1-real.Status, real.Line+"\n")
			checkUnexpected(t, err, real.Line)
		}
	}
}

// A later library may have members, words, reasons to differ and kinds of errors that the package does not know.
func TestAnswersOfLaterLibrariesAreRead(t *testing.T) {
	for _, real := range realAnswers() {
		_, matches, err := readAs(real.Kind, real.Status, `{"novel":{"a":[1]},`+real.Line[1:]+"\n")
		equal(t, each(err, matches), each(nil, real.Matches))
		if real.Kind != "places" && real.Matches { // (all rows match)
			line := strings.Replace(real.Line, `"verdict":"match"`, `"novel_reason":"later","verdict":"differ"`, 1)
			_, matches, err := readAs(real.Kind, differs, line+"\n")
			equal(t, each(err, matches), each(nil, false))
		}
	}
	var v Verdict
	equal(t, of(differs, `{"boot_aggregate":"later","registers":[{"bank":"sm3","state":"later"}],"verdict":"later"}`+"\n").read(&v), nil)
	equal(t, each(v.Matches, v.BootAggregate, v.Conclusion), each(false, BootAggregate("later"), Conclusion("later")))
	equal(t, v.Registers, []Row{{Bank: "sm3", State: "later"}})
	var e Event
	equal(t, of(done, `{"digests":{"novel":{"a":[1]},"sm3":"01"},"measured":{"novel":{"a":[1]}},"content":{"novel":{"a":[1]}}}`+"\n").read(&e), nil)
	equal(t, each(e.Digests, e.Measured, e.Content), each(PerBank[Hex]{"sm3": {1}}, PerBank[Part]{}, Content{}))
	later := refusedBy(reply{kind: 99, number: 3, place: 4})
	equal(t, later, &RefusedError{Number: 3, Place: 4, HasPlace: true, Text: later.Error()})
}

func TestErrorsAreThoseOfTheStatus(t *testing.T) {
	checkRefused(t, KindList, 1, 2)(0, answer{reply: reply{refused, 0, 5, 3, 1, 2}, text: []byte("text\n")}.failure())
	checkRefused(t, KindArgument, 0)(0, of(misused, "").failure())
	equal(t, of(outOfMemory, "failed: memory\n").failure(), ErrOutOfMemory)
	for _, wrong := range []answer{of(tooShort, "x"), of(9, "x\n"), of(-1, "")} {
		checkUnexpected(t, wrong.failure(), wrong)
	}
	equal(t, of(9, "text\n").failure().Error(), `libima_verify returned the status 9 and the size 5, with a text that begins "text\n"`)
}

func TestCallIsMadeAgainWithAsMuchCapacityAsItNeeds(t *testing.T) {
	var sizes []int
	given, err := ask(make([]byte, 5), func(out []byte) reply {
		sizes = append(sizes, len(out))
		if len(sizes) < 4 { // (the next text may have another size)
			return reply{status: tooShort, size: uint64(10 * len(sizes))}
		}
		return reply{status: done, size: uint64(copy(out, "text\n"))}
	})
	equal(t, each(sizes, string(given.text), err), each([]int{5, 10, 20, 30}, "text\n", nil))
	for _, size := range []uint64{6, 1 << 62, math.MaxUint64} {
		_, err := ask(make([]byte, 5), func(out []byte) reply { return reply{status: done, size: size} })
		checkUnexpected(t, err, size)
	}
	given, err = askForBoth(make([]byte, 1), make([]byte, 1), func(next, out []byte) reply {
		return callMore(bootLog, earlierList(), earlierTPM, []byte("sha256:10"), settings{}, next, out)
	})
	equal(t, each(err, given.next), each(nil, earlierSession().State()))
}

package imaverify

import (
	"bytes"
	"encoding/json"
	"math"
)

// Evidence is what confirms the events of a log: ByExpected or ByQuote. By the zero value nothing is confirmed.
type Evidence struct {
	by             uint32
	hcrtm          bool
	oldKernel      bool
	expected, list []byte
	quote          Quote
}

// ByExpected has events be confirmed by expected PCRs, as Verify takes them. Whoever writes the text chooses what it confirms.
func ByExpected(expected []byte) Evidence {
	return Evidence{by: byExpected, expected: expected}
}

// ByQuote has events of the PCRs in Require be confirmed by a quote, which has to be a match for the log and this list, as Attest gives it.
func ByQuote(list []byte, quote Quote) Evidence {
	return Evidence{by: byQuote, list: list, quote: quote}
}

// HCRTM is the same evidence of a log whose H-CRTM event tells where PCR 0 began, as the option HCRTM has it.
func (e Evidence) HCRTM() Evidence {
	e.hcrtm = true
	return e
}

// OldKernel is the same evidence, by a quote, where a boot aggregate is taken as the option OldKernel has it. It is refused of other evidence.
func (e Evidence) OldKernel() Evidence {
	e.oldKernel = true
	return e
}

// BootReport is what a machine booted (docs/event-data.md). In each field Claimed is what an event's data says without being confirmed.
//
// Of Images, Commands and BootVariables an item whose Event is Unknown says that nothing confirms more. Registers and Changes compare
// the log with an earlier one. Without evidence Claimed has what events claim, and all else is unknown. QuoteDiffers says that a quote is no match for log and list: nothing is confirmed then.
type BootReport struct {
	SecureBoot      SecureBoot
	FirmwareVersion *Content // nil if nothing confirms it
	Images          []BootImage
	Commands        []BootCommand
	IMAPolicy       IMAPolicy
	BootVariables   []BootVariable
	Claimed         []Claim
	Registers       []ComparedRegister
	Changes         []ChangedEvent
	QuoteDiffers    bool
	JSON            string
}

// SecureBoot says whether Secure Boot was on.
type SecureBoot string

const (
	SecureBootOn      SecureBoot = "on"
	SecureBootOff     SecureBoot = "off"
	SecureBootUnknown SecureBoot = "unknown"
)

// Number is the number of an event, from 1, or a count of events, or one of the constants below.
type Number uint64

const (
	All     Number = math.MaxUint64
	Unknown Number = math.MaxUint64 - 1 // nothing confirms a number
)

// UnmarshalJSON reads a number, or a word of JSON. One of a later library is Unknown.
func (n *Number) UnmarshalJSON(text []byte) error {
	switch {
	case string(text) == `"all"`:
		*n = All
	case bytes.HasPrefix(text, []byte(`"`)):
		*n = Unknown
	default:
		return json.Unmarshal(text, (*uint64)(n))
	}
	return nil
}

// BootImage is a program that the firmware started, or may have: its digests may be confirmed, and its path is claimed.
type BootImage struct {
	Event   Number       `json:"image"`
	Digests PerBank[Hex] `json:"digests,omitempty"`
	Claimed *Content     `json:"claimed,omitempty"`
}

// BootCommand is a text that a boot loader measured into PCR 8 or 12, such as the command line of a kernel. If the Event
// is Unknown, texts of the PCR from the event From on are not reported; if From is 0, none is.
type BootCommand struct {
	Event        Number          `json:"command"`
	Register     int             `json:"register"`
	RegisterName string          `json:"register_name,omitempty"`
	Text         string          `json:"text,omitempty"`
	TextHex      Hex             `json:"text_hex,omitempty"` // in place of Text, if that is not valid in its encoding
	Claimed      *ClaimedCommand `json:"claimed,omitempty"`
	From         uint64          `json:"event,omitempty"`
}

// ClaimedCommand is what an event claims of a command of GRUB.
type ClaimedCommand struct {
	Kind string `json:"kind"`
}

// IMAPolicy says whether a command asked Linux to measure files, in the words of docs/event-data.md. Event is the first whose text does, or 0.
type IMAPolicy struct {
	State string `json:"ima_policy"`
	Event uint64 `json:"event,omitempty"`
}

// BootVariable is a variable of UEFI that says what to start: the value is confirmed, and which variable has it is claimed.
type BootVariable struct {
	Event   Number   `json:"boot_variable"`
	Content *Content `json:"content,omitempty"`
}

// ComparedRegister is a PCR that one of two logs extends. Alike is how many first events have the same digests in both, or All, or Unknown.
// Bank is the first in which the logs differ, or empty.
type ComparedRegister struct {
	Register     int       `json:"register"`
	RegisterName string    `json:"register_name,omitempty"`
	Bank         Algorithm `json:"bank,omitempty"`
	Alike        Number    `json:"alike"`
}

// ChangedEvent is an event that only one of two logs has: Now is its number in the log, or Before that in the earlier log. Digest is that
// in the Bank of its ComparedRegister.
type ChangedEvent struct {
	Register     int     `json:"register"`
	RegisterName string  `json:"register_name,omitempty"`
	Now          uint64  `json:"now,omitempty"`
	Before       uint64  `json:"before,omitempty"`
	Digest       Hex     `json:"digest,omitempty"`
	Claimed      Content `json:"claimed"`
}

// Claim is what the event of the number Event claims, which nothing confirms: of the other fields those of one kind.
type Claim struct {
	Event           uint64       `json:"event"`
	SecureBoot      SecureBoot   `json:"secure_boot,omitempty"`
	FirmwareVersion *Content     `json:"firmware_version,omitempty"`
	Digests         PerBank[Hex] `json:"digests,omitempty"`
	Image           *Content     `json:"image,omitempty"`
	Register        int          `json:"register,omitempty"`
	RegisterName    string       `json:"register_name,omitempty"`
	Command         *Content     `json:"command,omitempty"`
	BootVariable    *Content     `json:"boot_variable,omitempty"`
}

// Boot says what a machine booted, as far as the evidence confirms the events of its log.
//
// Errors are those of the log, and of what the evidence has, as Verify and Attest give them.
func Boot(log []byte, evidence Evidence) (BootReport, error) {
	return bootIn(ask(make([]byte, firstCapacity), func(out []byte) reply { return callBoot(log, nil, false, evidence, out) }))
}

// CompareBoots also says how the log differs from that of an earlier boot, which nothing confirms.
func CompareBoots(log, before []byte, evidence Evidence) (BootReport, error) {
	return bootIn(ask(make([]byte, firstCapacity), func(out []byte) reply { return callBoot(log, before, true, evidence, out) }))
}

func bootIn(given answer, err error) (BootReport, error) {
	if err != nil {
		return BootReport{}, err
	}
	report := BootReport{QuoteDiffers: given.status == differs, JSON: string(given.text)}
	isRead := given.status != moreLines && bytes.HasSuffix(given.text, []byte("\n"))
	for _, line := range bytes.SplitAfter(given.text, []byte("\n")) {
		isRead = isRead && (len(line) == 0 || report.add(line))
	}
	if !isRead {
		return BootReport{}, given.unexpected()
	}
	return report, nil
}

// add reads a line, whose kind is known by a member that only it has. A line of a later library's kind is in JSON alone.
func (b *BootReport) add(line []byte) bool {
	var members map[string]json.RawMessage
	if json.Unmarshal(line, &members) != nil || members == nil {
		return false
	}
	has := func(name string) bool {
		_, isThere := members[name]
		return isThere
	}
	switch {
	case has("secure_boot"):
		return json.Unmarshal(members["secure_boot"], &b.SecureBoot) == nil
	case has("firmware_version"):
		version := members["firmware_version"]
		return !bytes.HasPrefix(version, []byte("{")) || json.Unmarshal(version, &b.FirmwareVersion) == nil
	case has("image"):
		return addTo(&b.Images, line)
	case has("command"):
		return addTo(&b.Commands, line)
	case has("ima_policy"):
		return json.Unmarshal(line, &b.IMAPolicy) == nil
	case has("boot_variable"):
		return addTo(&b.BootVariables, line)
	case has("alike"):
		return addTo(&b.Registers, line)
	case has("now"), has("before"):
		return addTo(&b.Changes, line)
	case string(members["claimed"]) == `"all"`:
		b.SecureBoot, b.IMAPolicy.State = SecureBootUnknown, string(SecureBootUnknown)
		return true
	case has("claimed"):
		return addTo(&b.Claimed, members["claimed"])
	default:
		return true
	}
}

func addTo[T any](items *[]T, line []byte) bool {
	var item T
	isRead := json.Unmarshal(line, &item) == nil
	*items = append(*items, item)
	return isRead
}

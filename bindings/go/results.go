package imaverify

import (
	"encoding/hex"
	"encoding/json"
)

// Hex is bytes that a line of JSON has in hexadecimal. It prints as any bytes do: with %x in hexadecimal.
type Hex []byte

// UnmarshalText reads hexadecimal digits.
func (h *Hex) UnmarshalText(text []byte) error {
	data := make([]byte, hex.DecodedLen(len(text)))
	_, err := hex.Decode(data, text)
	*h = data
	return err
}

// MarshalText writes hexadecimal digits.
func (h Hex) MarshalText() ([]byte, error) {
	return []byte(hex.EncodeToString(h)), nil
}

// Algorithm is a hash algorithm, such as that of a bank of PCRs. A later library may have more words of it, and of each type
// below that is a string: they are kept as they are.
type Algorithm string

const (
	AlgorithmSHA1   Algorithm = "sha1"
	AlgorithmSHA256 Algorithm = "sha256"
	AlgorithmSHA384 Algorithm = "sha384"
	AlgorithmSHA512 Algorithm = "sha512"
)

// PerBank has something of each bank, by its algorithm.
type PerBank[T any] map[Algorithm]T

// UnmarshalJSON reads an object. It leaves out what is of another form, since a later library may have members of other kinds.
func (p *PerBank[T]) UnmarshalJSON(text []byte) error {
	var members map[Algorithm]json.RawMessage
	err := json.Unmarshal(text, &members)
	*p = PerBank[T]{}
	for name, member := range members {
		var value T
		if json.Unmarshal(member, &value) == nil {
			(*p)[name] = value
		}
	}
	return err
}

// Conclusion is a report's word on all that it has, or on the quote alone.
type Conclusion string

const (
	ConclusionMatch  Conclusion = "match"
	ConclusionDiffer Conclusion = "differ"
	// Nobody verified the quote's signature.
	ConclusionSignatureNotChecked Conclusion = "signature not checked"
)

// BootAggregate says how the list's first entry compares with the PCRs after the log.
type BootAggregate string

const (
	BootAggregateGood      BootAggregate = "good"       // it is the boot aggregate of these PCRs
	BootAggregateOldKernel BootAggregate = "old_kernel" // it is that of PCRs 0 to 7, as OldKernel takes it
	BootAggregateWrong     BootAggregate = "wrong"      // it is a boot aggregate, of other values
	BootAggregateNoBank    BootAggregate = "nobank"     // it is one of a bank that the log lacks
	BootAggregateMissing   BootAggregate = "missing"    // the list is empty, or its first entry is something else
)

// State says how a PCR compares with its expected value.
type State string

const (
	StateMatch   State = "match"
	StateDiffer  State = "differ"
	StateAbsent  State = "absent"  // the log has no such bank
	StateMissing State = "missing" // it is required, and not among the expected PCRs
)

// Row is an expected PCR, compared, or a required one that is missing. Expected is nil with StateMissing. Value is what the PCR
// has instead: nil except with StateDiffer.
type Row struct {
	Bank     Algorithm `json:"bank"`
	Register int       `json:"register"`
	Expected Hex       `json:"expected,omitempty"`
	State    State     `json:"state"`
	Value    Hex       `json:"value,omitempty"`
}

// Stray is an event of the log that extends PCR 10, or an entry of the list that extends another. Event is the event's number,
// from 1, or 0 for an entry; then Entry is the entry's, from 0. Register is the PCR that it extends.
type Stray struct {
	Event    uint64 `json:"event,omitempty"`
	Entry    uint64 `json:"entry,omitempty"`
	Register int    `json:"register"`
}

// ErrorInfo is an error as JSON has it: Message is its line. Event, Entry and Number are absent where it has none.
type ErrorInfo struct {
	Kind    Kind    `json:"kind"`
	Number  uint32  `json:"number,omitempty"`
	Event   *uint64 `json:"event,omitempty"`
	Entry   *uint64 `json:"entry,omitempty"`
	Message string  `json:"message"`
}

// Report is what all verdicts have in common.
//
// Matches is the answer. Registers are the expected PCRs, and after them required ones that are not expected. If PCRs are required,
// Extends has the first event that extends PCR 10, and the first entry that extends another.
//
// With the option Known, KnownFrom is the first entry that was looked up: 0, or in a session with a state the number of entries
// that it covers. Unknown has the numbers of the entries from there on that are of no known file. Without the option both are nil.
type Report struct {
	Entries    uint64     `json:"entries"`
	Registers  []Row      `json:"registers,omitempty"`
	Extends    []Stray    `json:"extends,omitempty"`
	KnownFrom  *uint64    `json:"known_from,omitempty"`
	Unknown    []uint64   `json:"unknown,omitempty"`
	Conclusion Conclusion `json:"verdict"`
	Matches    bool       `json:"-"`
	JSON       string     `json:"-"`
}

// Verdict is the verdict on a log, a list and expected PCRs. It covers the Compared PCRs.
//
// Only a Session with Prefix gives a Confirmed other than 0: then the verdict is on that many first entries, of all Entries, with
// which the PCRs match. Unconfirmed is the first error after these, or nil.
type Verdict struct {
	Report
	Events        uint64        `json:"events"`
	Locality      uint8         `json:"locality"`
	Confirmed     uint64        `json:"confirmed,omitempty"`
	Unconfirmed   *ErrorInfo    `json:"unconfirmed,omitempty"`
	Compared      uint64        `json:"compared"`
	BootAggregate BootAggregate `json:"boot_aggregate"`
}

// SignatureState says what is known of a quote's signature.
type SignatureState string

const (
	SignatureNotChecked SignatureState = "not checked" // nobody verified it
	SignatureChecked    SignatureState = "checked"     // the caller says that it was verified
	SignatureValid      SignatureState = "valid"       // it is by the key of the Quote
)

// QuotedBank has the PCRs of a bank that a quote selects.
type QuotedBank struct {
	Bank      Algorithm `json:"bank"`
	Registers []int     `json:"registers"`
}

// Clock is a TPM's clock and its counts when it made a quote. Each boot is one of the Resets, and Safe says that the clock never had a later
// value. For a key outside the endorsement and platform hierarchies the TPM adds a constant to Resets, to Restarts and to the version of its
// firmware: only differences between two quotes by one key mean something.
type Clock struct {
	Milliseconds uint64 `json:"milliseconds"`
	Resets       uint32 `json:"resets"`
	Restarts     uint32 `json:"restarts"`
	Safe         bool   `json:"safe"`
}

// Attestation is the verdict on a log and a list by a quote. It covers the PCRs in Quoted.
//
// Quote says whether the quote is of the values to which log and list replay. Signer is the qualified name of the key that signed.
// Expected and Registers are absent: nothing is expected beside a quote. The other fields are as in Verdict.
type Attestation struct {
	Report
	Quoted        []QuotedBank   `json:"quoted"`
	Signer        Hex            `json:"signer"`
	Clock         Clock          `json:"clock"`
	Firmware      uint64         `json:"firmware"`
	Events        uint64         `json:"events"`
	Locality      uint8          `json:"locality"`
	Confirmed     uint64         `json:"confirmed,omitempty"`
	Unconfirmed   *ErrorInfo     `json:"unconfirmed,omitempty"`
	BootAggregate BootAggregate  `json:"boot_aggregate"`
	Expected      string         `json:"expected,omitempty"`
	Quote         Conclusion     `json:"quote"`
	Signature     SignatureState `json:"signature"`
}

// ListVerdict is the verdict on a list without a log, and expected PCRs. It covers the Compared PCRs.
type ListVerdict struct {
	Report
	Compared uint64 `json:"compared"`
}

// Place is the earliest point at which a PCR has its expected value.
type Place string

const (
	PlaceReset   Place = "reset" // before the events
	PlaceEvent   Place = "event" // after an event of the log; events count from 1
	PlaceEntry   Place = "entry" // after an entry of the list; entries count from 0
	PlaceNowhere Place = "nowhere"
	PlaceAbsent  Place = "absent"  // the log has no such bank
	PlaceMissing Place = "missing" // the PCR is required, and not among the expected ones
)

// PlaceRow says where an expected PCR first has its value, or that a required one is missing. Number is that of the event or the
// entry, and otherwise 0. Expected is nil with PlaceMissing.
type PlaceRow struct {
	Bank     Algorithm `json:"bank"`
	Register int       `json:"register"`
	Expected Hex       `json:"expected,omitempty"`
	Place    Place     `json:"place"`
	Number   uint64    `json:"number,omitempty"`
}

// Places says where each expected PCR first has its value. Located says that each value was reached, that there is one, and that
// no required PCR is missing.
type Places struct {
	Registers []PlaceRow `json:"registers"`
	Located   bool       `json:"located"`
	JSON      string     `json:"-"`
}

// Register is a PCR and its value.
type Register struct {
	Bank     Algorithm `json:"bank"`
	Register int       `json:"register"`
	Value    Hex       `json:"value"`
}

// PCRs are PCRs and their values.
type PCRs struct {
	Registers []Register `json:"registers"`
	JSON      string     `json:"-"`
}

// Key is what the public area of a key states. Whose TPM the key is in, it does not say.
//
// Name is the name by which TPMs know the key. (The Signer of an Attestation is the key's qualified name, which is another.) Type is "rsa" or
// "ecc". Hash is that of the Scheme, or empty if it has none. PEM is the public key as `openssl pkey -pubin` writes it, which Attest takes.
type Key struct {
	Name   Hex       `json:"name"`
	Type   string    `json:"type"`
	Bits   int       `json:"bits"`
	Scheme string    `json:"scheme"`
	Hash   Algorithm `json:"hash,omitempty"`
	PEM    string    `json:"pem"`
	JSON   string    `json:"-"`
}

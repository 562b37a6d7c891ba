package imaverify

// Entry is one of a measurement list; entries count from 0.
//
// If the payload has the fields of its template, Algorithm, Digest and Path or PathHex have them, and Signature for ima-sig, where it may
// be empty. Otherwise these are absent, and Payload is the whole; Fields is what it says if it has the fields of another of the kernel's
// templates. An entry is Genuine if its template digest is valid, or if it is a Violation, whose file's digest may be anything.
//
// A member whose name ends in Hex is in place of the one without, if that is not UTF-8: FilePath and TemplateName have either.
type Entry struct {
	Number         uint64    `json:"entry"`
	Register       int       `json:"register"`
	Template       string    `json:"template,omitempty"`
	TemplateHex    Hex       `json:"template_hex,omitempty"`
	TemplateDigest Hex       `json:"template_digest"`
	Violation      bool      `json:"violation"`
	Genuine        bool      `json:"genuine"`
	Algorithm      Algorithm `json:"algorithm,omitempty"`
	Digest         Hex       `json:"digest,omitempty"`
	Path           string    `json:"path,omitempty"`
	PathHex        Hex       `json:"path_hex,omitempty"`
	Signature      Hex       `json:"signature,omitempty"`
	Payload        Hex       `json:"payload,omitempty"`
	Fields         *Fields   `json:"fields,omitempty"`
	JSON           string    `json:"-"`
}

// FilePath is the path of the entry's file, of any bytes without a NUL, or empty if the payload states none.
func (e Entry) FilePath() string {
	if e.Fields != nil {
		return e.Fields.Path + string(e.Fields.PathHex)
	}
	return e.Path + string(e.PathHex)
}

// TemplateName is the name of the entry's template, of any bytes.
func (e Entry) TemplateName() string {
	return e.Template + string(e.TemplateHex)
}

// Fields are what the payload of ima-ngv2, ima-sigv2, ima-buf, ima-modsig or evm-sig says, as docs/formats.md has them. A field that
// the template lacks is absent.
type Fields struct {
	DigestType      string    `json:"digest_type,omitempty"` // of "ima", the file, or "verity", its hash tree
	Algorithm       Algorithm `json:"algorithm"`
	Digest          Hex       `json:"digest"`
	Path            string    `json:"path,omitempty"`
	PathHex         Hex       `json:"path_hex,omitempty"`
	Signature       Hex       `json:"signature,omitempty"`
	ModsigAlgorithm Algorithm `json:"modsig_algorithm,omitempty"`
	ModsigDigest    Hex       `json:"modsig_digest,omitempty"`
	Modsig          Hex       `json:"modsig,omitempty"`
	Buffer          Hex       `json:"buffer,omitempty"`
	EVMSignature    Hex       `json:"evm_signature,omitempty"`
	XattrNames      string    `json:"xattr_names,omitempty"`
	XattrNamesHex   Hex       `json:"xattr_names_hex,omitempty"`
	XattrLengths    []uint32  `json:"xattr_lengths,omitempty"`
	XattrValues     Hex       `json:"xattr_values,omitempty"`
	UID             *uint32   `json:"uid,omitempty"`
	GID             *uint32   `json:"gid,omitempty"`
	Mode            *uint16   `json:"mode,omitempty"`
}

// LogHeader is the header of a firmware event log: the algorithms that it declares, and what else it says. JSON is its line.
type LogHeader struct {
	Algorithms    []LogAlgorithm `json:"algorithms"`
	Specification Specification  `json:"specification"`
	JSON          string         `json:"-"`
}

// LogAlgorithm is an algorithm of a log's header. Name is empty if it is unknown here; Size is that of its digests, in bytes.
type LogAlgorithm struct {
	Name Algorithm `json:"name,omitempty"`
	ID   uint16    `json:"id"`
	Size uint16    `json:"size"`
}

// Specification says by which version of the Firmware Profile a log was written.
type Specification struct {
	PlatformClass uint32 `json:"platform_class"`
	Major         uint8  `json:"major"`
	Minor         uint8  `json:"minor"`
	Errata        uint8  `json:"errata"`
	UintnSize     uint8  `json:"uintn_size"`
	Vendor        Hex    `json:"vendor"`
}

// Event is one of a firmware event log; events count from 1. Register is the PCR that it names: one of the type EV_NO_ACTION extends none, so
// no PCR confirms it. Measured has the part of the data whose hash is the digest, for each bank of which there is one. Confirmed is the part
// that the evidence of ConfirmedEvents confirms, and otherwise empty. What is not confirmed is only what the log claims, and so is the type.
type Event struct {
	Number       uint64        `json:"event"`
	Register     uint32        `json:"register"`
	RegisterName string        `json:"register_name,omitempty"` // what systemd calls that PCR
	Type         string        `json:"type,omitempty"`
	TypeNumber   uint32        `json:"type_number"`
	Digests      PerBank[Hex]  `json:"digests"`
	Data         Hex           `json:"data"`
	Measured     PerBank[Part] `json:"measured"`
	Confirmed    Part          `json:"confirmed,omitempty"`
	Content      Content       `json:"content"`
	JSON         string        `json:"-"`
}

// Part is a part of an event's data.
type Part string

const (
	PartData    Part = "data"    // all of it
	PartValue   Part = "value"   // the value of a variable, in PCR 1; its name and its vendor are only claimed
	PartCommand Part = "command" // the text of a command of GRUB, in PCR 8; its kind is only claimed
	PartNone    Part = "none"    // nothing is confirmed
)

// Content is what an event's data says. It has one member, by the form of the data, which docs/event-data.md describes. Unknown says
// that the data has no form of the event's type.
type Content struct {
	Separator *uint32 `json:"separator,omitempty"`
	Text      *string `json:"text,omitempty"`
	TextHex   Hex     `json:"text_hex,omitempty"`
	GUID      string  `json:"guid,omitempty"`
	Locality  *uint8  `json:"locality,omitempty"`
	// Technology is how a host keeps its guests apart, which docs/schema.json has by number.
	Technology *uint8    `json:"technology,omitempty"`
	Command    *Command  `json:"command,omitempty"`
	Variable   *Variable `json:"variable,omitempty"`
	Image      *Image    `json:"image,omitempty"`
	GPT        *GPT      `json:"gpt,omitempty"`
	Blob       *Blob     `json:"blob,omitempty"`
	Tagged     *Tagged   `json:"tagged,omitempty"`
	Handoff    *Handoff  `json:"handoff,omitempty"`
	Unknown    bool      `json:"unknown,omitempty"`
}

// Command is a command of GRUB. By what precedes its text, Kind is "grub", "kernel" for the command line of a kernel, or "module" for that
// of a module, such as an initrd.
type Command struct {
	Kind    string `json:"kind"`
	Text    string `json:"text,omitempty"`
	TextHex Hex    `json:"text_hex,omitempty"`
}

// Variable is a variable of UEFI, and the bytes behind it. What its value says is in one of the fields after Rest, or in none.
type Variable struct {
	GUID        string          `json:"guid"`
	Name        string          `json:"name,omitempty"`
	NameHex     Hex             `json:"name_hex,omitempty"`
	Value       Hex             `json:"value"`
	Rest        Hex             `json:"rest,omitempty"`
	Flag        *uint8          `json:"flag,omitempty"`
	Order       []string        `json:"order,omitempty"`
	Option      *LoadOption     `json:"option,omitempty"`
	Certificate *Certificate    `json:"certificate,omitempty"`
	Signature   *UEFISignature  `json:"signature,omitempty"`
	Level       *string         `json:"level,omitempty"`
	Lists       []SignatureList `json:"lists,omitempty"`
}

// LoadOption is a load option of UEFI.
type LoadOption struct {
	Attributes     uint32 `json:"attributes"`
	Description    string `json:"description,omitempty"`
	DescriptionHex Hex    `json:"description_hex,omitempty"`
	Path           string `json:"path,omitempty"`
	PathHex        Hex    `json:"path_hex,omitempty"`
	Data           Hex    `json:"data"`
}

// UEFISignature is a certificate or a hash, and who put it there.
type UEFISignature struct {
	Owner       string       `json:"owner"`
	Data        Hex          `json:"data"`
	Certificate *Certificate `json:"certificate,omitempty"`
}

// Certificate is a certificate by its bytes alone: their SHA-256, and how many they are.
type Certificate struct {
	SHA256 Hex    `json:"sha256"`
	Size   uint64 `json:"size"`
}

// SignatureList is a list of signatures of UEFI. Owners has each owner that differs from the one before.
type SignatureList struct {
	Type         string        `json:"type"`
	Count        uint32        `json:"count"`
	Owners       []string      `json:"owners"`
	Certificates []Certificate `json:"certificates,omitempty"`
}

// Image is an image that the firmware loaded, and the bytes behind its form. Numbers such as Location are as JSON has them: `0x` and hexadecimal digits.
type Image struct {
	Location    string `json:"location"`
	Size        string `json:"size"`
	LinkAddress string `json:"link_address"`
	Path        string `json:"path,omitempty"`
	PathHex     Hex    `json:"path_hex,omitempty"`
	Rest        Hex    `json:"rest,omitempty"`
}

// GPT is a partition table.
type GPT struct {
	Disk       string      `json:"disk"`
	Partitions []Partition `json:"partitions"`
}

// Partition is a partition of a GPT.
type Partition struct {
	Type       string `json:"type"`
	GUID       string `json:"guid"`
	First      string `json:"first"`
	Last       string `json:"last"`
	Attributes string `json:"attributes"`
	Name       string `json:"name,omitempty"`
	NameHex    Hex    `json:"name_hex,omitempty"`
}

// Blob is a part of the firmware in memory.
type Blob struct {
	Description    string `json:"description,omitempty"`
	DescriptionHex Hex    `json:"description_hex,omitempty"`
	Base           string `json:"base"`
	Length         string `json:"length"`
}

// Tagged is a tagged event: its text, or its data if that is not text.
type Tagged struct {
	ID   uint32 `json:"id"`
	Text string `json:"text,omitempty"`
	Data Hex    `json:"data,omitempty"`
}

// Handoff has vendor tables that firmware hands over, and what it calls them, if it does.
type Handoff struct {
	Description    string        `json:"description,omitempty"`
	DescriptionHex Hex           `json:"description_hex,omitempty"`
	Tables         []VendorTable `json:"tables"`
}

// VendorTable is a vendor table. Name is what Linux or EDK2 calls its GUID, if that is a known one.
type VendorTable struct {
	GUID    string `json:"guid"`
	Name    string `json:"name,omitempty"`
	Address string `json:"address"`
}

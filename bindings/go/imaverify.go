// Package imaverify says whether a machine's boot log and measurement list account for the PCRs of its TPM 2.0.
//
// A firmware event log (TCG, crypto-agile) and a binary measurement list of Linux IMA are replayed, and the resulting PCRs are
// compared with expected ones. On the machine the files are /sys/kernel/security/tpm0/binary_bios_measurements and
// /sys/kernel/security/ima/binary_runtime_measurements. The expected PCRs are text, a line for each, such as
// `sha256 10 <64 hexadecimal digits>`.
//
// A verdict covers only the boot aggregate and the PCRs in the expected text. So each call says which PCRs it must cover:
// Verify(log, list, expected, "sha256:0-10"). With such a requirement a verdict is a match only if no event of the log extends PCR
// 10 and each entry of the list names it. A Session is for a list that grows, and for one that grew after the expected PCRs were read.
// Attest compares a log and a list with a quote in place of expected PCRs. docs/library.md has examples.
//
// If an input or an argument is refused, the error is a *RefusedError. If memory runs out, it is ErrOutOfMemory. If the
// library's answer is not as its header describes, it is an *UnexpectedError. With any error the result is the zero value, whose
// Matches and Located are false.
//
// Results have the members of the library's JSON (docs/schema.json), and in JSON the line itself. Matches is the library's status.
//
// Any number of goroutines may call at once. No input may change during a call.
package imaverify

// Quote is a quote with its signature, and what a verdict by it needs.
//
// Key is the machine's attestation key: the public area for which a credential was activated, or the PEM that ReadKey gives for it. It is of
// RSA with 2048 to 4096 bits, or of the curve P-256 or P-384. Message is what the TPM signed: the file that `tpm2_quote -m` writes. Signature
// is the file that `tpm2_quote -s` writes, with `-f plain` or without: RSASSA, RSAPSS or ECDSA, by SHA-256, SHA-384 or SHA-512. Require names
// the PCRs that must be quoted, at least 0 to 10, such as "sha256:0-10"; one of the SHA-1 bank alone is refused unless AllowSHA1.
//
// The nonce is the verifier's own for this quote, used once, of 16 bytes or more: NonceHex in hexadecimal, as `openssl rand -hex 20` writes
// it, or Nonce as bytes. SignatureChecked, in place of Key and Signature, says that the caller has verified the signature of this same
// Message, for a key that is not taken, such as one of the curve P-521. Without any of these there is no match.
type Quote struct {
	Key              []byte
	Nonce            []byte
	NonceHex         string
	Message          []byte
	Signature        []byte
	Require          string
	AllowSHA1        bool
	SignatureChecked bool
}

// notEmpty is a file as the library takes it, to which no bytes are no file: an empty one has a zero, which ends too early as well. Nil
// stays none.
func notEmpty(file []byte) []byte {
	if file != nil && len(file) == 0 {
		return []byte{0}
	}
	return file
}

// NothingRequired is a requirement that names no PCR: a verdict then covers only what the expected text names, and is no match if
// that is nothing.
const NothingRequired = "none"

// Verify gives the verdict on a firmware event log, a measurement list and the expected PCRs that a text states.
//
// require names the PCRs that must be among the expected ones, such as "sha256:0-10" or "sha256:0-7,sha1:10". Each that is not has
// a row whose state is StateMissing. A requirement without PCR 10 is refused, except NothingRequired. Options are Known, HCRTM and OldKernel.
func Verify(log, list, expected []byte, require string, options ...Option) (Verdict, error) {
	with, err := settingsIn(options, true, true, true)
	if err != nil {
		return Verdict{}, err
	}
	return resultFor[Verdict](func(out []byte) reply { return callVerdict(log, list, expected, []byte(require), with, out) })
}

// Attest gives the verdict on a firmware event log and a measurement list by a quote with its signature. No file of PCR values is needed.
//
// A quote is refused with KindSignature, KindKey or KindQuote, or with KindArgument if it requires less than PCRs 0 to 10, its nonce is too
// short or not hexadecimal, or its members do not belong together. Options are Known, HCRTM and OldKernel.
func Attest(log, list []byte, quote Quote, options ...Option) (Attestation, error) {
	with, err := settingsIn(options, true, true, true)
	if err != nil {
		return Attestation{}, err
	}
	found, _, err := attestFrom(log, list, quote, with)
	return found, err
}

// Locate says where each expected PCR first has its value. The arguments and the errors are those of Verify. The one option is HCRTM.
func Locate(log, list, expected []byte, require string, options ...Option) (Places, error) {
	with, err := settingsIn(options, false, true, false)
	if err != nil {
		return Places{}, err
	}
	return resultFor[Places](func(out []byte) reply { return callLocate(log, list, expected, []byte(require), with.hcrtm, out) })
}

// Replay gives the verdict on a measurement list without a log. The list is replayed from the PCRs' reset values, so a PCR that the
// firmware extends too differs. The arguments are as in Verify, and the one option is Known. A list without entries is no match.
func Replay(list, expected []byte, require string, options ...Option) (ListVerdict, error) {
	with, err := settingsIn(options, true, false, false)
	if err != nil {
		return ListVerdict{}, err
	}
	return resultFor[ListVerdict](func(out []byte) reply { return callReplay(list, expected, []byte(require), with.known, out) })
}

// ExpectedFrom gives the lines of expected PCRs, as Verify takes them, that a text which tpm2_pcrread or tpm2_checkquote printed states:
// of the PCRs that a selection has, such as "sha256:0-10" or "0-7,10", or of all, if that is empty. A text with none of them is refused.
// Nothing says who wrote the text, nor whether a quote holds: take the values of a quote that was checked, or of a trusted machine.
func ExpectedFrom(printed []byte, registers string) ([]byte, error) {
	given, err := ask(make([]byte, firstCapacity), func(out []byte) reply { return callExpected(printed, []byte(registers), out) })
	return clone(given.text), err
}

// ConvertList gives the binary list of a measurement list as text, such as the kernel's ascii_runtime_measurements. Only a text is taken that
// has exactly the lines of genuine entries; another is refused with KindTextList.
func ConvertList(text []byte) ([]byte, error) {
	list, _, err := convertedBy(text, convertList)
	return list, err
}

// ConvertLog gives the crypto-agile log of a log in the SHA-1 form of TPM 1.2, or of one with zeros or bytes 0xFF behind its last event, and
// how many these were. Another is refused with KindLogForm. A log by SHA-1 is worth nothing against whoever can make collisions.
func ConvertLog(log []byte) (agile []byte, padding uint64, err error) {
	return convertedBy(log, convertLog)
}

func convertedBy(data []byte, conversion uint32) ([]byte, uint64, error) {
	var padding uint64
	given, err := ask(make([]byte, len(data)+firstCapacity), func(out []byte) (r reply) {
		r, padding = callConvert(data, conversion, out)
		return r
	})
	if err == nil && (given.status != done || padding > uint64(len(data))) {
		err = given.unexpected()
	}
	if err != nil {
		return nil, 0, err
	}
	return clone(given.text), padding, nil
}

// Registers gives the PCRs that differ from their reset values after a firmware event log. The one option is HCRTM.
func Registers(log []byte, options ...Option) (PCRs, error) {
	with, err := settingsIn(options, false, true, false)
	if err != nil {
		return PCRs{}, err
	}
	return resultFor[PCRs](func(out []byte) reply { return callRegisters(log, false, with.hcrtm, out) })
}

// ListRegisters gives the PCRs, in banks of all algorithms, that differ from their reset values after a measurement list without a log.
func ListRegisters(list []byte) (PCRs, error) {
	return resultFor[PCRs](func(out []byte) reply { return callRegisters(list, true, false, out) })
}

// ReadKey gives the attestation key of a public area: a TPM2B_PUBLIC, the file that `tpm2_createak -u` writes, or a bare TPMT_PUBLIC.
//
// The key is restricted, never leaves the TPM that made it, signs, and does not decrypt; any other is refused with KindKey. Whose TPM it is
// in, the area does not say, and anyone can write one. Take the area, or its PEM, for Attest only after a credential for its Name was
// activated, as `ima-enroll` does.
func ReadKey(area []byte) (Key, error) {
	return resultFor[Key](func(out []byte) reply { return callKey(area, false, out) })
}

// ReadEndorsementKey gives the endorsement key of a public area, to which credentials are made: the file that `tpm2_createek -u` writes.
//
// The key is restricted, never leaves the TPM that made it, decrypts, and does not sign; any other is refused with KindKey. Nor does
// its area say whose it is: compare the PEM with the key of a certificate by the TPM's manufacturer.
func ReadEndorsementKey(area []byte) (Key, error) {
	return resultFor[Key](func(out []byte) reply { return callKey(area, true, out) })
}

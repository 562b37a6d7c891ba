package imaverify

/*
#cgo LDFLAGS: -lima_verify
#include <ima_verify.h>
*/
import "C"

import "unsafe"

// What a call returns.
const (
	done        = C.IMA_VERIFY_DONE
	differs     = C.IMA_VERIFY_DIFFERS
	refused     = C.IMA_VERIFY_REFUSED
	outOfMemory = C.IMA_VERIFY_OUT_OF_MEMORY
	tooShort    = C.IMA_VERIFY_TOO_SHORT
	moreLines   = C.IMA_VERIFY_MORE
	misused     = C.IMA_VERIFY_MISUSED
)

const (
	headerVersion      = C.IMA_VERIFY_VERSION
	noPlace            = C.IMA_VERIFY_NO_PLACE // the place of an error that names none
	checkpointCapacity = C.IMA_VERIFY_CHECKPOINT_CAPACITY
	argumentNumber     = C.IMA_VERIFY_ARGUMENT
)

// The kinds of errors for which an input is refused.
var kinds = map[uint32]Kind{
	argumentNumber:          KindArgument,
	C.IMA_VERIFY_LOG:        KindLog,
	C.IMA_VERIFY_LIST:       KindList,
	C.IMA_VERIFY_REPLAY:     KindReplay,
	C.IMA_VERIFY_EXPECTED:   KindExpected,
	C.IMA_VERIFY_CHECKPOINT: KindCheckpoint,
	C.IMA_VERIFY_QUOTE:      KindQuote,
	C.IMA_VERIFY_KEY:        KindKey,
	C.IMA_VERIFY_KNOWN:      KindKnown,
	C.IMA_VERIFY_SIGNATURE:  KindSignature,
	C.IMA_VERIFY_TEXT_LIST:  KindTextList,
	C.IMA_VERIFY_LOG_FORM:   KindLogForm,
}

// What says which PCRs match after a log.
const (
	byExpected = C.IMA_VERIFY_BY_EXPECTED
	byQuote    = C.IMA_VERIFY_BY_QUOTE
)

// What callConvert takes.
const (
	convertList = C.IMA_VERIFY_CONVERT_LIST
	convertLog  = C.IMA_VERIFY_CONVERT_LOG
)

// reply is what a call returns: its status, the size of a next checkpoint, and that of its text with the error that it is the line of.
type reply struct {
	status         int32
	nextSize, size uint64
	kind, number   uint32
	place          uint64
}

func reported(status C.int32_t, nextSize C.size_t, info *C.struct_ima_verify_info) reply {
	return reply{int32(status), uint64(nextSize), uint64(info.size), uint32(info.error_kind), uint32(info.error_number), uint64(info.error_place)}
}

// position is where the lines of entries or events continue.
type position struct {
	offset, number C.size_t
}

// nothing is where an input without bytes points, since no pointer may be null.
var nothing [1]byte

// start is the address of the bytes, which the library has only during the call that this is an argument of.
func start(data []byte) *C.uint8_t {
	if len(data) == 0 {
		return (*C.uint8_t)(unsafe.Pointer(&nothing[0]))
	}
	return (*C.uint8_t)(unsafe.Pointer(&data[0]))
}

func size(data []byte) C.size_t {
	return C.size_t(len(data))
}

// Version is the version of the library's interface.
func Version() uint32 {
	return uint32(C.ima_verify_version())
}

// (The numbers of a verdict are for programs that read no JSON: none are asked for.)

func callVerdict(log, list, expected, require []byte, with settings, out []byte) reply {
	var info C.struct_ima_verify_info
	var numbers C.uint64_t
	return reported(C.ima_verify_raw_verdict(start(log), size(log), C.bool(with.hcrtm), C.bool(with.oldKernel), start(list), size(list),
		start(expected), size(expected), start(require), size(require), start(with.known.text), size(with.known.text), C.bool(with.known.checked), true,
		&numbers, 0, start(out), size(out), &info), 0, &info)
}

func callLocate(log, list, expected, require []byte, hcrtm bool, out []byte) reply {
	var info C.struct_ima_verify_info
	return reported(C.ima_verify_raw_locate(start(log), size(log), C.bool(hcrtm), start(list), size(list), start(expected), size(expected),
		start(require), size(require), true, start(out), size(out), &info), 0, &info)
}

func callReplay(list, expected, require []byte, known knownFiles, out []byte) reply {
	var info C.struct_ima_verify_info
	var numbers C.uint64_t
	return reported(C.ima_verify_raw_replay(start(list), size(list), start(expected), size(expected),
		start(require), size(require), start(known.text), size(known.text), C.bool(known.checked), true,
		&numbers, 0, start(out), size(out), &info), 0, &info)
}

func callMore(log, data, expected, require []byte, from settings, next, out []byte) reply {
	var info C.struct_ima_verify_info
	var numbers C.uint64_t
	var nextSize C.size_t
	status := C.ima_verify_raw_more(start(log), size(log), C.bool(from.hcrtm), C.bool(from.oldKernel), start(from.state), size(from.state),
		start(data), size(data),
		start(expected), size(expected), start(require), size(require),
		start(from.known.text), size(from.known.text), C.bool(from.known.checked), C.bool(from.prefix), true,
		&numbers, 0, start(next), size(next), &nextSize, start(out), size(out), &info)
	return reported(status, nextSize, &info)
}

func callAttest(log, data []byte, quote Quote, from settings, next, out []byte) reply {
	var info C.struct_ima_verify_info
	var numbers C.uint64_t
	var nextSize C.size_t
	key, signature, nonceHex, require := quote.parts()
	status := C.ima_verify_raw_attest(start(log), size(log), C.bool(from.hcrtm), C.bool(from.oldKernel), start(from.state), size(from.state),
		start(data), size(data),
		start(quote.Message), size(quote.Message), start(key), size(key), start(signature), size(signature),
		start(quote.Nonce), size(quote.Nonce), start(nonceHex), size(nonceHex), start(require), size(require),
		start(from.known.text), size(from.known.text), C.bool(from.known.checked),
		C.bool(quote.AllowSHA1), C.bool(quote.SignatureChecked), C.bool(from.prefix), true,
		&numbers, 0, start(next), size(next), &nextSize, start(out), size(out), &info)
	return reported(status, nextSize, &info)
}

// parts are what the library takes in another form than a quote has.
func (q Quote) parts() (key, signature, nonceHex, require []byte) {
	return notEmpty(q.Key), notEmpty(q.Signature), []byte(q.NonceHex), []byte(q.Require)
}

func callMatching(log []byte, evidence Evidence, out []byte) reply {
	var info C.struct_ima_verify_info
	quote := evidence.quote
	key, signature, nonceHex, require := quote.parts()
	return reported(C.ima_verify_raw_matching(start(log), size(log), C.bool(evidence.hcrtm), C.bool(evidence.oldKernel), C.uint32_t(evidence.by),
		start(evidence.expected), size(evidence.expected), start(evidence.list), size(evidence.list),
		start(quote.Message), size(quote.Message), start(key), size(key), start(signature), size(signature),
		start(quote.Nonce), size(quote.Nonce), start(nonceHex), size(nonceHex), start(require), size(require),
		C.bool(quote.AllowSHA1), C.bool(quote.SignatureChecked), start(out), size(out), &info), 0, &info)
}

func callBoot(log, before []byte, compares bool, evidence Evidence, out []byte) reply {
	var info C.struct_ima_verify_info
	quote := evidence.quote
	key, signature, nonceHex, require := quote.parts()
	return reported(C.ima_verify_raw_boot(start(log), size(log), C.bool(evidence.hcrtm), C.bool(evidence.oldKernel),
		start(before), size(before), C.bool(compares),
		C.uint32_t(evidence.by), start(evidence.expected), size(evidence.expected), start(evidence.list), size(evidence.list),
		start(quote.Message), size(quote.Message), start(key), size(key), start(signature), size(signature),
		start(quote.Nonce), size(quote.Nonce), start(nonceHex), size(nonceHex), start(require), size(require),
		C.bool(quote.AllowSHA1), C.bool(quote.SignatureChecked), true, start(out), size(out), &info), 0, &info)
}

func callExpected(printed, registers, out []byte) reply {
	var info C.struct_ima_verify_info
	return reported(C.ima_verify_raw_expected(start(printed), size(printed), start(registers), size(registers), false,
		start(out), size(out), &info), 0, &info)
}

func callRegisters(data []byte, ofList, hcrtm bool, out []byte) reply {
	var info C.struct_ima_verify_info
	return reported(C.ima_verify_raw_registers(start(data), size(data), C.bool(ofList), C.bool(hcrtm), true,
		start(out), size(out), &info), 0, &info)
}

// callConvert also gives how many bytes of padding were left out.
func callConvert(data []byte, conversion uint32, out []byte) (reply, uint64) {
	var info C.struct_ima_verify_info
	var padding C.size_t
	status := C.ima_verify_raw_convert(start(data), size(data), C.uint32_t(conversion), &padding, start(out), size(out), &info)
	return reported(status, 0, &info), uint64(padding)
}

func callKey(area []byte, isEndorsement bool, out []byte) reply {
	var info C.struct_ima_verify_info
	return reported(C.ima_verify_raw_key(start(area), size(area), C.bool(isEndorsement), true, start(out), size(out), &info), 0, &info)
}

func callEntries(list []byte, at *position, isJSON bool, out []byte) reply {
	var info C.struct_ima_verify_info
	return reported(C.ima_verify_raw_entries(start(list), size(list), &at.offset, &at.number, C.bool(isJSON),
		start(out), size(out), &info), 0, &info)
}

// callEvents has each event say what these PCRs confirm of it, if they are given.
func callEvents(log, matching []byte, matchingGiven bool, at *position, out []byte) reply {
	var info C.struct_ima_verify_info
	return reported(C.ima_verify_raw_events(start(log), size(log), start(matching), size(matching), C.bool(matchingGiven),
		&at.offset, &at.number, start(out), size(out), &info), 0, &info)
}

func callErrorText(of reply, out []byte) reply {
	var info C.struct_ima_verify_info
	return reported(C.ima_verify_raw_error_text(C.uint32_t(of.kind), C.uint32_t(of.number), C.uint64_t(of.place),
		start(out), size(out), &info), 0, &info)
}

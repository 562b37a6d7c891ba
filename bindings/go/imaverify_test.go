package imaverify

import (
	"bytes"
	"crypto/sha1"
	"crypto/sha256"
	"encoding/hex"
	"errors"
	"fmt"
	"os"
	"path/filepath"
	"reflect"
	"strings"
	"sync"
	"testing"
)

// The sample, one boot whose PCRs were read from the TPM after the list; changes of the list; and what README gives for PCR 10 after
// the longer one.
var (
	bootLog     = sample("real-boot/firmware.log")
	bootList    = sample("real-boot/ima.list")
	bootTPM     = sample("real-boot/expected.txt")
	changedList = bytes.ReplaceAll(bootList, []byte("/bin/helper"), []byte("/bin/helpex"))
	cutList     = bootList[:len(bootList)-1]
	longerList  = joined(bootList, bootList[len(bootList)-95:])
	afterLonger = hexOf("a2bcf779880ae33077f9e7992851299f30cea5f6cffc6512de6cd10aa457a7f3")
)

func sample(name string) []byte {
	return must(os.ReadFile(filepath.Join("..", "..", "samples", name)))
}

func joined(parts ...[]byte) []byte { return bytes.Join(parts, nil) }

func hexOf(digits string) Hex { return must(hex.DecodeString(digits)) }

// must gives the result of a call that is not refused.
func must[T any](result T, err error) T {
	if err != nil {
		panic(err)
	}
	return result
}

func each(values ...any) []any { return values }

func equal(t *testing.T, found, wanted any) {
	t.Helper()
	if !reflect.DeepEqual(found, wanted) {
		t.Errorf("found %+v, wanted %+v", found, wanted)
	}
}

// checkRefused checks what a call gives: an error of this kind, number and place, in words, and no result.
func checkRefused(t *testing.T, kind Kind, number uint32, place ...uint64) func(result any, err error) {
	t.Helper()
	return func(result any, err error) {
		t.Helper()
		var found *RefusedError
		if !errors.As(err, &found) {
			t.Fatalf("found %v, wanted an error of kind %s", err, kind)
		}
		wanted := RefusedError{Kind: kind, Number: number, Text: err.Error()}
		if len(place) > 0 {
			wanted.Place, wanted.HasPlace = place[0], true
			equal(t, strings.Contains(found.Text, fmt.Sprint(place[0])), true)
		}
		equal(t, *found, wanted)
		equal(t, strings.HasSuffix(found.Text, "."), true)
		equal(t, reflect.ValueOf(result).IsZero(), true)
	}
}

// registersIn are the PCRs of lines such as `sha256 10 <value>`.
func registersIn(text []byte) (registers []Register) {
	for _, line := range strings.Split(strings.TrimSpace(string(text)), "\n") {
		var r Register
		if _, err := fmt.Sscanf(line, "%s %d %x", &r.Bank, &r.Register, (*[]byte)(&r.Value)); err != nil {
			panic(err)
		}
		registers = append(registers, r)
	}
	return registers
}

// matchingReport is the report on the sample's list by which these PCRs match.
func matchingReport(expected []byte, line string) Report {
	report := Report{Entries: 99, Conclusion: ConclusionMatch, Matches: true, JSON: line}
	for _, r := range registersIn(expected) {
		report.Registers = append(report.Registers, Row{r.Bank, r.Register, r.Value, StateMatch, nil})
	}
	return report
}

func TestVerdictOnTheSampleIsAMatch(t *testing.T) {
	for _, require := range []string{NothingRequired, "sha256:0-10"} {
		found := must(Verify(bootLog, bootList, bootTPM, require))
		equal(t, found, Verdict{Report: matchingReport(bootTPM, found.JSON), Events: 24, Compared: 24, BootAggregate: BootAggregateGood})
	}
	equal(t, must(Registers(bootLog)).Registers, registersIn(sample("real-boot/registers.txt")))
}

func TestListThatGrewDiffersInPCR10(t *testing.T) {
	verdict := must(Verify(bootLog, longerList, bootTPM, "sha256:0-23,sha1:10"))
	wanted := append(matchingReport(bootTPM, "").Registers, Row{Bank: "sha1", Register: 10, State: StateMissing})
	wanted[10].State, wanted[10].Value = StateDiffer, afterLonger
	equal(t, each(verdict.Matches, verdict.Conclusion, verdict.Registers), each(false, ConclusionDiffer, wanted))
	places := must(Locate(bootLog, longerList, bootTPM, "sha256:10"))
	equal(t, each(places.Located, places.Registers[10]), each(true, PlaceRow{"sha256", 10, wanted[10].Expected, PlaceEntry, 98}))
	equal(t, must(Locate(bootLog, bootList, bootTPM, "sha1:10")).Located, false)
}

func TestListAlone(t *testing.T) {
	tenth := []byte(strings.SplitAfter(string(bootTPM), "\n")[10])
	found := must(Replay(bootList, tenth, "sha256:10"))
	equal(t, found, ListVerdict{matchingReport(tenth, found.JSON), 1})
	equal(t, must(Replay(longerList, tenth, "sha256:10")).Registers[0].Value, afterLonger)
	registers := must(ListRegisters(bootList)).Registers
	equal(t, each(len(registers), registers[1]), each(4, registersIn(tenth)[0]))
}

func TestExpectedPCRsAreThoseThatWerePrinted(t *testing.T) {
	printed := sample("real-boot/tpm2_pcrread.txt")
	equal(t, string(must(ExpectedFrom(printed, ""))), string(bootTPM))
	equal(t, registersIn(must(ExpectedFrom(printed, "0-10"))), registersIn(bootTPM)[:11])
	checkRefused(t, KindArgument, 0)(ExpectedFrom(printed, "sha256"))
	checkRefused(t, KindExpected, 6)(ExpectedFrom(nil, ""))
}

func TestKeysOfTheSamples(t *testing.T) {
	for name, read := range map[string]func(area []byte) (Key, error){"ak-p256": ReadKey, "ek-rsa": ReadEndorsementKey} {
		found := must(read(sample("keys/" + name + ".pub")))
		equal(t, found.PEM, string(sample("keys/"+name+".pem")))
		equal(t, strings.Contains(string(sample("keys/names")), fmt.Sprintf("%x %s.pub\n", found.Name, name)), true) // (by tpm2_readpublic)
	}
	checkRefused(t, KindKey, 17)(ReadKey(sample("keys/ek-rsa.pub")))
	checkRefused(t, KindKey, 21)(ReadEndorsementKey(sample("keys/ak-p256.pub")))
}

func TestInputsAreConverted(t *testing.T) {
	equal(t, must(ConvertList(sample("real-boot/ima.ascii"))), bootList)
	found, padding, err := ConvertLog(joined(bootLog, make([]byte, 70000)))
	equal(t, each(found, padding, err), each(bootLog, uint64(70000), nil))
	checkRefused(t, KindTextList, 1, 1)(ConvertList([]byte("x")))
	none, _, err := ConvertLog(bootList)
	checkRefused(t, KindLogForm, 13)(none, err)
}

// The log with an event of an H-CRTM, and with what then tells where PCR 0 began.
var (
	hcrtmLog = joined(bootLog, []byte{0, 0, 0, 0, 0x10, 0, 0, 0x80, 1, 0, 0, 0, 11, 0}, make([]byte, 36))
	toldLog  = joined(hcrtmLog, []byte{0, 0, 0, 0, 3, 0, 0, 0, 0, 0, 0, 0, 17, 0, 0, 0}, []byte("StartupLocality\x00\x04"))
)

func TestEventOfAnHCRTMTellsWherePCR0Began(t *testing.T) {
	call := func(log []byte, options ...Option) []any {
		session := NewSession(log, bootTPM, "sha256:0-10", options...)
		return each(must(Verify(log, bootList, bootTPM, "sha256:0-10", options...)), must(Locate(log, bootList, bootTPM, "sha256:0-10", options...)),
			must(Attest(log, bootList, sampleQuote, options...)), must(Registers(log, options...)), must(session.More(bootList)))
	}
	found, told, plain := call(hcrtmLog, HCRTM()), call(toldLog), call(hcrtmLog)
	equal(t, each(found, call(bootLog, HCRTM())), each(told, call(bootLog)))
	equal(t, reflect.DeepEqual(plain[0], told[0]) || reflect.DeepEqual(plain[3], told[3]), false)
	by := ByExpected(bootTPM)
	equal(t, must(Boot(hcrtmLog, by.HCRTM())), must(Boot(toldLog, by)))
	_, err := Replay(bootList, bootTPM, "sha256:10", HCRTM())
	equal(t, err != nil, true)
}

// olderBoot gives a list whose boot aggregate is of PCRs 0 to 7 alone, as kernels before 5.8 make it, the PCRs after it, and a quote of these.
func olderBoot() (list, expected []byte, quote Quote) {
	var values, payload []byte
	for _, row := range registersIn(bootTPM)[:11] {
		values = append(values, row.Value...)
	}
	aggregate := sha256.Sum256(values[:8*32])
	for _, part := range []string{"sha256:\x00" + string(aggregate[:]), "boot_aggregate\x00"} {
		payload = joined(payload, []byte{byte(len(part)), 0, 0, 0}, []byte(part))
	}
	digest, extended := sha1.Sum(payload), sha256.Sum256(payload)
	list = joined([]byte{10, 0, 0, 0}, digest[:], []byte("\x06\x00\x00\x00ima-ng"), []byte{byte(len(payload)), 0, 0, 0}, payload)
	tenth := sha256.Sum256(joined(make([]byte, 32), extended[:]))
	quoted := sha256.Sum256(joined(values[:10*32], tenth[:]))
	expected = []byte(strings.Join(strings.SplitAfter(string(bootTPM), "\n")[:10], "") + fmt.Sprintf("sha256 10 %x\n", tenth))
	quote = sampleQuote
	quote.Key, quote.Signature, quote.SignatureChecked = nil, nil, true
	quote.Message = joined(quote.Message[:len(quote.Message)-32], quoted[:])
	return list, expected, quote
}

func TestBootAggregateOfAnOlderKernelIsTakenIfAskedFor(t *testing.T) {
	list, expected, quote := olderBoot()
	for _, options := range [][]Option{nil, {OldKernel()}} {
		isTaken, wanted := options != nil, BootAggregateWrong
		evidence := ByQuote(list, quote)
		if isTaken {
			wanted, evidence = BootAggregateOldKernel, evidence.OldKernel()
		}
		verdict := must(Verify(bootLog, list, expected, "sha256:0-10", options...))
		more := must(NewSession(bootLog, expected, "sha256:0-10", options...).More(list))
		found, next := must(Attest(bootLog, list, quote, options...)), must(NewQuoteSession(bootLog, options...).Attest(list, quote))
		equal(t, each(verdict.Matches, more.Matches, found.Matches, next.Matches), each(isTaken, isTaken, isTaken, isTaken))
		equal(t, each(verdict.BootAggregate, more.BootAggregate, found.BootAggregate, next.BootAggregate), each(wanted, wanted, wanted, wanted))
		equal(t, must(Boot(bootLog, evidence)).QuoteDiffers, !isTaken)
	}
	equal(t, must(Verify(bootLog, list, expected, NothingRequired, OldKernel())).BootAggregate, BootAggregateWrong)
	checkRefused(t, KindArgument, 0)(Boot(bootLog, ByExpected(expected).OldKernel()))
	_, ofPlaces := Locate(bootLog, list, expected, "sha256:10", OldKernel())
	_, ofList := Replay(list, expected, "sha256:10", OldKernel())
	equal(t, each(ofPlaces != nil, ofList != nil), each(true, true))
}

func TestWrongInputsAreRefused(t *testing.T) {
	twice := joined(bootTPM, bootTPM[:75])
	checkRefused(t, KindReplay, 1, 5)(Verify(bootLog, changedList, bootTPM, "sha256:10"))
	checkRefused(t, KindExpected, 2, 25)(Verify(bootLog, bootList, twice, "sha256:10"))
	checkRefused(t, KindLog, 1, 0)(Verify(nil, nil, nil, NothingRequired))
	checkRefused(t, KindLog, 2)(Locate(make([]byte, 32), bootList, bootTPM, "sha256:10"))
	checkRefused(t, KindList, 1, 98)(Replay(cutList, bootTPM, "sha256:10"))
	checkRefused(t, KindLog, 1, 24)(Registers(bootLog[:len(bootLog)-1]))
	checkRefused(t, KindReplay, 1, 5)(ListRegisters(changedList))
	checkRefused(t, KindArgument, 0)(Verify(bootLog, bootList, bootTPM, ""))
}

func TestCallsAtOnceGiveWhatTheyGiveAlone(t *testing.T) {
	calls := func() []any {
		_, err := Verify(bootLog, changedList, bootTPM, "sha256:10")
		return each(must(Locate(bootLog, longerList, bootTPM, "sha256:10")), must(Show(bootList)), err.Error(),
			must(NewSession(bootLog, bootTPM, "sha256:0-10").More(bootList)))
	}
	wanted := calls()
	var group sync.WaitGroup
	for thread := 0; thread < 8; thread++ {
		group.Add(1)
		go func() {
			defer group.Done()
			for round := 0; round < 50; round++ {
				equal(t, calls(), wanted)
			}
		}()
	}
	group.Wait()
}

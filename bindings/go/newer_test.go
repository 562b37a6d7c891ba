package imaverify

import (
	"os"
	"strings"
	"testing"
)

// A library that is newer than the package has one more member in each object of JSON, and with `differ` one more reason to differ.
// (tests/bindings/test makes it, and sets IMA_VERIFY_SHIM.)
func TestNewerLibraryIsRead(t *testing.T) {
	shim := os.Getenv("IMA_VERIFY_SHIM")
	if shim == "" {
		t.Skip("no newer library: IMA_VERIFY_SHIM is not set")
	}
	verdict := must(Verify(bootLog, bootList, bootTPM, "sha256:0-10"))
	wanted := matchingReport(bootTPM, verdict.JSON)
	if shim == "differ" {
		wanted.Matches, wanted.Conclusion = false, ConclusionDiffer
	}
	equal(t, verdict.Report, wanted)
	equal(t, each(strings.Contains(verdict.JSON, `"novel":{"a":[1]}`), strings.Contains(verdict.JSON, `"novel_reason":`)), each(true, shim == "differ"))
	attested := must(Attest(bootLog, bootList, sampleQuote))
	equal(t, each(attested.Matches, attested.Conclusion, attested.Quote), each(wanted.Matches, wanted.Conclusion, ConclusionMatch))
	s := NewSession(bootLog, bootTPM, "sha256:0-10")
	equal(t, must(s.More(bootList)).Matches, wanted.Matches)
	equal(t, len(must(drained(Entries(bootList)))), 99)
	events := must(ConfirmedEvents(bootLog, ByExpected(bootTPM)))
	equal(t, each(len(must(drained(&events.Scanner))), events.Header().Algorithms[0].Name), each(24, AlgorithmSHA256))
	equal(t, must(Boot(secureLog, ByExpected(secureTPM))).SecureBoot, SecureBootOn)
	checkRefused(t, KindList, 1, 98)(Verify(bootLog, cutList, bootTPM, "sha256:0-10"))
}

package imaverify

import (
	"bytes"
	"strings"
	"testing"
)

// The quote of the sample's PCRs 0 to 10 in the SHA-256 bank, and its nonce as bytes and as `openssl rand -hex` writes it.
var (
	nonceHex    = string(sample("quoted/nonce"))
	nonce       = hexOf(strings.TrimSpace(nonceHex))
	sampleQuote = Quote{Key: sample("quoted/AK.pem"), Nonce: nonce, Message: sample("quoted/quote.msg"),
		Signature: sample("quoted/quote.sig"), Require: "sha256:0-10"}
)

// quoteWith is the sample's quote with a change.
func quoteWith(change func(q *Quote)) Quote {
	quote := sampleQuote
	change(&quote)
	return quote
}

// uncheckedQuote is the sample's quote without key and signature.
func uncheckedQuote(isChecked bool) Quote {
	return quoteWith(func(q *Quote) { q.Key, q.Signature, q.SignatureChecked = nil, nil, isChecked })
}

func TestQuoteOfTheSampleMatches(t *testing.T) {
	for _, c := range []struct {
		quote     Quote
		signature SignatureState
	}{
		{sampleQuote, SignatureValid},
		{quoteWith(func(q *Quote) { q.Signature = sample("quoted/quote.tpmt") }), SignatureValid},
		{quoteWith(func(q *Quote) { q.Nonce, q.NonceHex = nil, nonceHex }), SignatureValid},
		{quoteWith(func(q *Quote) { q.Nonce, q.NonceHex = nil, strings.ToUpper(strings.TrimSpace(nonceHex)) }), SignatureValid},
		{uncheckedQuote(true), SignatureChecked},
	} {
		found := must(Attest(bootLog, bootList, c.quote))
		equal(t, found, Attestation{Report: Report{Entries: 99, Conclusion: ConclusionMatch, Matches: true, JSON: found.JSON},
			Quoted: []QuotedBank{{"sha256", []int{0, 1, 2, 3, 4, 5, 6, 7, 8, 9, 10}}}, Signer: sampleQuote.Message[8:42],
			Clock: Clock{626, 1, 0, true}, Firmware: 2312897626142815798, Events: 24, BootAggregate: BootAggregateGood,
			Quote: ConclusionMatch, Signature: c.signature})
	}
}

func TestOtherQuotesAreRefused(t *testing.T) {
	for _, c := range []struct {
		change func(q *Quote)
		kind   Kind
		number uint32
	}{
		{func(q *Quote) { q.Nonce = nonce[:15] }, KindArgument, 0},
		{func(q *Quote) { q.NonceHex = nonceHex }, KindArgument, 0}, // (beside the bytes)
		{func(q *Quote) { q.Nonce, q.NonceHex = nil, "0x"+nonceHex }, KindArgument, 0},
		{func(q *Quote) { q.Require = "sha1:0-10" }, KindArgument, 0},
		{func(q *Quote) { q.Key = nil }, KindArgument, 0},
		{func(q *Quote) { q.Signature = nil }, KindArgument, 0},
		{func(q *Quote) { q.SignatureChecked = true }, KindArgument, 0},
		{func(q *Quote) { q.Key = []byte{} }, KindKey, 1},
		{func(q *Quote) { q.Signature = []byte{} }, KindSignature, 1},
		{func(q *Quote) { q.Signature = bytes.Repeat([]byte{1}, 256) }, KindSignature, 7},
		{func(q *Quote) { q.Nonce = []byte(nonceHex) }, KindQuote, 11}, // (its digits are another)
		{func(q *Quote) { q.Require, q.AllowSHA1 = "sha1:0-10", true }, KindQuote, 12},
	} {
		checkRefused(t, c.kind, c.number)(Attest(bootLog, bootList, quoteWith(c.change)))
		checkRefused(t, c.kind, c.number)(Boot(bootLog, ByQuote(bootList, quoteWith(c.change))))
		_, err := ConfirmedEvents(bootLog, ByQuote(bootList, quoteWith(c.change)))
		checkRefused(t, c.kind, c.number)(0, err)
	}
}

func TestEntriesOfNoKnownFileAreGiven(t *testing.T) {
	sums := sample("known/SHA256SUMS")
	half := bytes.IndexByte(sums[len(sums)/2:], '\n') + len(sums)/2
	known := Known(sums[:half], nil, sums[half+1:]) // (a text may lack its last line feed)
	for _, found := range []Report{
		must(Verify(bootLog, bootList, bootTPM, "sha256:0-10", known)).Report,
		must(Replay(bootList, bootTPM, "sha256:0-10", known)).Report,
		must(Attest(bootLog, bootList, sampleQuote, known)).Report,
		must(NewSession(bootLog, bootTPM, "sha256:0-10", known).More(bootList)).Report,
		must(NewQuoteSession(bootLog, known).Attest(bootList, sampleQuote)).Report,
	} {
		equal(t, each(found.Matches, *found.KnownFrom, found.Unknown), each(false, uint64(0), []uint64{93, 94, 97})) // (violations have no file)
	}
	equal(t, len(must(Verify(bootLog, bootList, bootTPM, "sha256:0-10", Known())).Unknown), 98)
	checkRefused(t, KindKnown, 2, 94)(Verify(bootLog, bootList, bootTPM, "sha256:0-10", Known(sums, []byte("x"))))
	checkRefused(t, KindArgument, 0)(Verify(bootLog, bootList, bootTPM, NothingRequired, known))
	for _, option := range []Option{Prefix(), Resume(nil)} {
		_, err := Verify(bootLog, bootList, bootTPM, "sha256:0-10", option)
		equal(t, err.Error(), "the call does not take this option")
	}
}

package imaverify

import (
	"bytes"
	"strings"
	"testing"
)

// The PCRs after the log and the entries before the first violation.
var earlierTPM = sample("known/before-violations.expected")

// earlierSession is a session whose state covers the entries before the first violation.
func earlierSession() *Session {
	s := NewSession(bootLog, earlierTPM, "sha256:0-10", Prefix())
	verdict := must(s.More(bootList))
	if !verdict.Matches || verdict.Confirmed != 93 {
		panic(verdict.JSON)
	}
	return s
}

// earlierList are these entries.
func earlierList() []byte { return bootList[:earlierSession().Offset()] }

func TestListInTwoPartsIsJudgedAsTheWhole(t *testing.T) {
	equal(t, len(must(drained(Entries(earlierList())))), 93)
	s := NewSession(bootLog, earlierTPM, "sha256:0-10")
	equal(t, each(s.State() == nil, s.Offset()), each(true, uint64(0)))
	equal(t, must(s.More(earlierList())), must(Verify(bootLog, earlierList(), earlierTPM, "sha256:0-10")))
	equal(t, s.State(), earlierSession().State())
	later := NewSession(bootLog, bootTPM, "sha256:0-10", Resume(s.State()))
	equal(t, must(later.More(bootList[later.Offset():])), must(Verify(bootLog, bootList, bootTPM, "sha256:0-10")))
	equal(t, later.Offset(), uint64(len(bootList)))
}

func TestOnlyAMatchMovesTheSession(t *testing.T) {
	state, rest := earlierSession().State(), bootList[len(earlierList()):]
	s := NewSession(bootLog, bootTPM, "sha256:0-10", Resume(state))
	check := func(matches bool) {
		t.Helper()
		equal(t, each(matches, s.State(), s.Offset()), each(false, state, uint64(len(earlierList()))))
	}
	check(must(s.More(nil)).Matches)
	check(must(s.More(bootList)).Matches)
	checkRefused(t, KindList, 1, 98)(s.More(rest[:len(rest)-1]))
	check(false)
	equal(t, each(must(s.More(rest)).Matches, s.Offset()), each(true, uint64(len(bootList))))
}

func TestPrefixThatThePCRsConfirm(t *testing.T) {
	state, damaged := earlierSession().State(), uint64(98)
	for _, c := range []struct {
		list        []byte
		entries     uint64
		unconfirmed *ErrorInfo
	}{
		{longerList, 100, nil},
		{cutList, 98, &ErrorInfo{Kind: KindList, Number: 1, Entry: &damaged, Message: "unconfirmed: list fault 1 at entry 98"}},
	} {
		whole := must(NewSession(bootLog, earlierTPM, "sha256:0-10", Prefix()).More(c.list))
		equal(t, each(whole.Matches, whole.Confirmed, whole.Entries, whole.Unconfirmed), each(true, uint64(93), c.entries, c.unconfirmed))
		equal(t, must(NewSession(bootLog, earlierTPM, "sha256:0-10", Prefix(), Resume(state)).More(c.list[len(earlierList()):])), whole)
	}
}

func TestStatesThatDoNotFitAreRefused(t *testing.T) {
	state := earlierSession().State()
	for _, wrong := range [][]byte{nil, {}, state[:len(state)-1], joined(state, []byte("\n")), bootTPM, bytes.ToUpper(state)} {
		checkRefused(t, KindCheckpoint, 1)(NewSession(bootLog, bootTPM, "sha256:0-10", Resume(wrong)).More(nil))
	}
	other := sample("ovmf-boot/systemd-boot.log")
	checkRefused(t, KindCheckpoint, 3)(NewSession(other, bootTPM, "sha256:0-10", Resume(state)).More(nil))
	checkRefused(t, KindCheckpoint, 4)(NewQuoteSession(bootLog, Resume(state)).Attest(bootList[len(earlierList()):], sampleQuote))
	checkRefused(t, KindArgument, 0)(NewSession(bootLog, bootTPM, "").More(bootList))
}

func TestInputsOfASessionAreCopied(t *testing.T) {
	log, expected, state, sums := clone(bootLog), clone(earlierTPM), earlierSession().State(), sample("known/SHA256SUMS")
	s := NewSession(log, expected, "sha256:10", Resume(state), Known(sums))
	for _, data := range [][]byte{log, expected, state, sums, s.State()} {
		copy(data, make([]byte, len(data)))
	}
	equal(t, must(s.More(nil)).Matches, true)
}

func TestSessionsByQuotes(t *testing.T) {
	s := NewQuoteSession(bootLog, Prefix())
	checkRefused(t, KindArgument, 0)(s.More(bootList))
	found := must(s.Attest(longerList, sampleQuote))
	equal(t, each(found.Matches, found.Confirmed, found.Entries, s.Offset()), each(true, uint64(99), uint64(100), uint64(len(bootList))))
	equal(t, strings.Contains(string(s.State()), "\nresets 1\nrestarts 0\n"), true)
	later := NewQuoteSession(bootLog, Resume(s.State()))
	equal(t, each(must(later.Attest(nil, sampleQuote)).Matches, later.State()), each(true, s.State()))
	both := NewSession(bootLog, bootTPM, "sha256:0-10", Resume(s.State())) // (expected PCRs continue from any state)
	equal(t, must(both.More(nil)).Matches, true)
	checkRefused(t, KindCheckpoint, 4)(both.Attest(nil, sampleQuote))
}

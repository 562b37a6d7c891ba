package imaverify

import (
	"crypto/sha256"
	"crypto/x509"
	"testing"
)

// Two boots: by shim and GRUB with Secure Boot, and by systemd-boot without. (tests/cases/boot has what each booted.)
var (
	secureLog, secureTPM   = sample("ovmf-boot/secure-boot.log"), sample("ovmf-boot/secure-boot.expected")
	systemdLog, systemdTPM = sample("ovmf-boot/systemd-boot.log"), sample("ovmf-boot/systemd-boot.expected")
)

func TestBootOfTheSample(t *testing.T) {
	report := must(Boot(secureLog, ByExpected(secureTPM)))
	equal(t, each(report.SecureBoot, *report.FirmwareVersion.Text, report.QuoteDiffers), each(SecureBootOn, "", false))
	grub := report.Images[1]
	equal(t, each(len(report.Images), grub.Event, grub.Claimed.Image.Path), each(4, Number(31), `\EFI\debian\grubx64.efi`))
	equal(t, grub.Digests, PerBank[Hex]{"sha256": hexOf("a68f6d71ebddaa19751ff8d729f67d11b0df8e4c49400c3e7e90de16119e1265")})
	equal(t, report.Commands[6:], []BootCommand{
		{Event: 42, Register: 8, Text: "/vmlinuz console=ttyS0 quiet ima_policy=tcb ima_template=ima-ng", Claimed: &ClaimedCommand{"kernel"}},
		{Event: 43, Register: 8, Text: "initrd /initrd.gz", Claimed: &ClaimedCommand{"grub"}},
		{Event: 45, Register: 8, Text: "boot", Claimed: &ClaimedCommand{"grub"}},
		{Event: Unknown, Register: 12, RegisterName: "kernel-config"},
	})
	equal(t, report.IMAPolicy, IMAPolicy{"asked", 38})
	equal(t, each(len(report.BootVariables), report.BootVariables[0].Content.Variable.Order), each(5, []string{"0003", "0000", "0001", "0002"}))
	equal(t, each(report.Registers, report.Changes), each([]ComparedRegister(nil), []ChangedEvent(nil)))
}

func TestBootsAreCompared(t *testing.T) {
	report := must(CompareBoots(systemdLog, secureLog, ByExpected(systemdTPM)))
	alone := must(Boot(systemdLog, ByExpected(systemdTPM)))
	equal(t, report.Registers[:3], []ComparedRegister{
		{0, "platform-code", "sha256", 1}, {1, "platform-config", "sha256", 0}, {2, "external-code", "", All}})
	equal(t, each(report.Changes[0].Now, report.Changes[0].Before, report.Changes[0].Claimed.Blob.Base), each(uint64(2), uint64(0), "0x820000"))
	equal(t, report.Changes[2].Before, uint64(2))
	report.Registers, report.Changes, report.JSON = nil, nil, alone.JSON
	equal(t, report, alone)
	equal(t, must(CompareBoots(systemdLog, secureLog, Evidence{})).Registers[0], ComparedRegister{0, "platform-code", "", Unknown})
	checkRefused(t, KindLog, 1, 0)(CompareBoots(systemdLog, nil, ByExpected(systemdTPM)))
}

func TestBootByAQuote(t *testing.T) {
	found, expected := must(Boot(bootLog, ByQuote(bootList, sampleQuote))), must(Boot(bootLog, ByExpected(bootTPM)))
	equal(t, found, expected)
	equal(t, each(found.SecureBoot, found.Images[0].Event, found.QuoteDiffers), each(SecureBootOff, Number(10), false))
	equal(t, found.Images[0].Claimed.Image.Path, "VenMedia(1428f772-b64a-441e-b8c3-9ebdd7f893c7)/kernel")
	nothing := BootReport{SecureBoot: SecureBootUnknown, Images: []BootImage{{Event: Unknown}}, IMAPolicy: IMAPolicy{State: "unknown"},
		Commands: []BootCommand{{Event: Unknown, Register: 8}, {Event: Unknown, Register: 12, RegisterName: "kernel-config"}}, BootVariables: []BootVariable{{Event: Unknown}}}
	for _, c := range []struct {
		evidence Evidence
		differs  bool
	}{
		{ByExpected(secureTPM), false},
		{ByQuote(longerList, sampleQuote), true},
		{ByQuote(bootList, uncheckedQuote(false)), true},
	} {
		found := must(Boot(bootLog, c.evidence))
		nothing.QuoteDiffers, nothing.JSON = c.differs, found.JSON
		equal(t, found, nothing)
	}
}

func TestBootByNothingIsWhatTheLogClaims(t *testing.T) {
	found := must(Boot(secureLog, Evidence{}))
	equal(t, each(found.SecureBoot, found.IMAPolicy.State, found.Images), each(SecureBootUnknown, "unknown", []BootImage(nil)))
	secure, command := found.Claimed[1], found.Claimed[len(found.Claimed)-1]
	equal(t, each(secure.SecureBoot, command.Event > secure.Event), each(SecureBootOn, true))
}

func TestCertificates(t *testing.T) {
	count := 0
	for _, event := range must(eventsIn(secureLog)) {
		found := must(event.X509())
		for k, each := range event.Certificates() {
			hash := sha256.Sum256(found[k].Raw)
			equal(t, Hex(hash[:]), each.SHA256)
			count++
		}
		if len(found) > 0 {
			event.Content.Variable.Value = nil
			none, err := event.X509()
			equal(t, each(none, err == nil), each([]*x509.Certificate(nil), false))
		}
	}
	equal(t, count > 3, true)
}

func TestConfirmedEvents(t *testing.T) {
	plain := must(eventsIn(bootLog))
	for _, c := range []struct {
		evidence        Evidence
		differs         bool
		first, eleventh Part // (the data of event 1 is measured, and of event 11 the value of a variable)
	}{
		{ByExpected(bootTPM), false, PartData, PartValue},
		{ByQuote(bootList, sampleQuote), false, PartData, PartValue},
		{ByExpected(secureTPM), false, PartNone, PartNone},
		{ByQuote(longerList, sampleQuote), true, PartNone, PartNone},
	} {
		events := must(ConfirmedEvents(bootLog, c.evidence))
		equal(t, events.QuoteDiffers(), c.differs)
		found := must(drained(&events.Scanner))
		equal(t, each(found[0].Confirmed, found[10].Confirmed), each(c.first, c.eleventh))
		for k := range found {
			found[k].Confirmed, found[k].JSON = "", plain[k].JSON
		}
		equal(t, found, plain)
	}
	_, err := ConfirmedEvents(bootLog, Evidence{})
	checkRefused(t, KindArgument, 0)(0, err)
	_, err = ConfirmedEvents(bootLog, ByExpected(bootTPM[:20]))
	checkRefused(t, KindExpected, 1, 1)(0, err)
}

// Lines of a later library may be of other kinds, have words in place of numbers, and say more.
func TestBootLinesOfLaterLibrariesAreRead(t *testing.T) {
	report, err := bootIn(of(done, `{"novel":{"a":[1]},"secure_boot":"sometimes"}`+"\n"+`{"novel":1}`+"\n"+
		`{"image":"later","novel":2}`+"\n"+`{"register":1,"alike":"later"}`+"\n"), nil)
	equal(t, err, nil)
	report.JSON = ""
	equal(t, report, BootReport{SecureBoot: "sometimes", Images: []BootImage{{Event: Unknown}}, Registers: []ComparedRegister{{Register: 1, Alike: Unknown}}})
	for _, text := range []string{"", "{}", "null\n", "[]\n", `{"image":{}}` + "\n", "{}\n{\n", "{}\n\nx"} {
		_, err := bootIn(of(done, text), nil)
		checkUnexpected(t, err, text)
	}
}

package imaverify

import (
	"crypto/sha256"
	"crypto/x509"
	"encoding/binary"
	"fmt"
)

// Certificates are those in the value of a variable.
func (e Event) Certificates() (found []Certificate) {
	v := e.Content.Variable
	if v == nil {
		return nil
	}
	alone := v.Certificate
	if v.Signature != nil {
		alone = v.Signature.Certificate
	}
	if alone != nil {
		found = append(found, *alone)
	}
	for _, list := range v.Lists {
		found = append(found, list.Certificates...)
	}
	return found
}

// X509 are these certificates as crypto/x509 reads them. Whom one names it says itself: nothing checks that, nor its signature. The error is
// that of the first that is damaged.
func (e Event) X509() (found []*x509.Certificate, err error) {
	data := map[string][]byte{}
	for number, each := range e.Certificates() {
		if number == 0 {
			e.Content.Variable.each(func(part []byte) { hash := sha256.Sum256(part); data[string(hash[:])] = part })
		}
		read, err := x509.ParseCertificate(data[string(each.SHA256)])
		if err != nil {
			return nil, fmt.Errorf("certificate %d of the event is damaged: %w", number, err)
		}
		found = append(found, read)
	}
	return found, nil
}

// each takes what may be a certificate: the value, all behind its owner, and each in lists of signatures (UEFI, EFI_SIGNATURE_LIST: a GUID and
// three sizes; then a GUID before each).
func (v *Variable) each(take func([]byte)) {
	const guid, head = 16, 28
	take(v.Value)
	if len(v.Value) > guid {
		take(v.Value[guid:])
	}
	for rest := []byte(v.Value); v.Lists != nil && len(rest) >= head; {
		size := func(at int) uint64 { return uint64(binary.LittleEndian.Uint32(rest[at:])) }
		all, start, each := size(guid), head+size(guid+4), size(guid+8)
		if all < head || all > uint64(len(rest)) || each < guid {
			return
		}
		for ; start+each <= all; start += each {
			take(rest[start+guid : start+each])
		}
		rest = rest[all:]
	}
}

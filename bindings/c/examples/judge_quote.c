/* Judges a machine's boot by a quote that its TPM signed.
 *
 *     cc judge_quote.c -o judge_quote $(pkg-config --cflags --libs ima_verify)
 *     ./judge_quote LOG LIST QUOTE SIGNATURE KEY NONCE
 *
 * All are files. KEY is the machine's attestation key, whose credential was activated: its public area. NONCE is what `openssl rand -hex 20` wrote.
 * With -DWITH_EVP and -lcrypto a further argument names a hash, such as SHA512: then libcrypto verifies the signature, and KEY is a PEM. The status
 * is 0 only if the verdict is `match`. */
#include <ima_verify.h>
#ifdef WITH_EVP
#include <ima_verify_evp.h>
#endif

#include <inttypes.h>
#include <stdio.h>
#include <stdlib.h>

static const char *const verdicts[] = {"none", "match", "differ"};
static const char *const reasons[] = {
    "",
    "the signature was not checked",
    "a PCR has another value",
    "a required PCR is not expected",
    "the quote is of other PCR values: was the list read before the quote, or is it of another boot?",
    "the boot aggregate is not that of the log",
    "log and list extend each other's PCRs",
    "a file is not known",
    "no PCR was compared",
};
static const char *const banks[] = {"", "sha1", "sha256", "sha384", "sha512"};

static void fail(const char *what) {
    perror(what);
    exit(IMA_VERIFY_OUT_OF_MEMORY);
}

/* Files of securityfs do not tell their size, so the bytes are read until there are no more. */
static struct ima_verify_bytes read_file(const char *name) {
    uint8_t *bytes = NULL;
    size_t size = 0, capacity = 64 * 1024;
    FILE *stream = fopen(name, "rb");
    if (stream == NULL) fail(name);
    do {
        capacity *= 2;
        bytes = realloc(bytes, capacity);
        if (bytes == NULL) fail(name);
        size += fread(bytes + size, 1, capacity - size, stream);
    } while (size == capacity);
    if (ferror(stream)) fail(name);
    fclose(stream);
    return (struct ima_verify_bytes){.data = bytes, .size = size};
}

/* Verifies the signature here, so that the library need not. */
static void check_signature(struct ima_verify_quoted *quoted, const char *hash) {
#ifdef WITH_EVP
    quoted->signature_checked = ima_verify_evp_signed(quoted->key, hash, quoted->signature, quoted->message);
#else
    (void)hash;
#endif
    quoted->key = quoted->signature = ima_verify_text("");
}

int main(int count, char **names) {
    if (count < 7 || count > 8) {
        fprintf(stderr, "usage: %s LOG LIST QUOTE SIGNATURE KEY NONCE [HASH]\n", names[0]);
        return IMA_VERIFY_REFUSED;
    }
    struct ima_verify_quoted quoted = {
        .log = read_file(names[1]),       .list = read_file(names[2]), .message = read_file(names[3]),
        .signature = read_file(names[4]), .key = read_file(names[5]),  .nonce_hex = read_file(names[6]),
        .require = ima_verify_text("sha256:0-10"),
    };
    uint8_t text[16384]; /* (no report without known files is longer) */
    struct ima_verify_output report = {.data = text, .capacity = sizeof text};
    struct ima_verify_summary summary = {.size = sizeof summary};
    if (count == 8) check_signature(&quoted, names[7]);

    enum ima_verify_result result = ima_verify_attest(&quoted, IMA_VERIFY_TEXT, &summary, &report);
    if (result > IMA_VERIFY_DIFFERS) {
        int size = ima_verify_error_text(&report.error, &report) == IMA_VERIFY_DONE ? (int)report.size : 0;
        fprintf(stderr, "%.*s\n", size, (const char *)text);
        return (int)result;
    }
    /* (a newer library may have more reasons and banks) */
    printf("verdict %s: %" PRIu64 " of %" PRIu64 " PCRs, %" PRIu64 " entries\n", summary.verdict < 3 ? verdicts[summary.verdict] : "none", summary.matching, summary.compared,
           summary.entries);
    if (summary.reason > 0 && summary.reason < sizeof reasons / sizeof reasons[0]) printf("%s\n", reasons[summary.reason]);
    if (summary.bank > 0 && summary.bank < sizeof banks / sizeof banks[0]) printf("the first is %s %" PRIu64 "\n", banks[summary.bank], summary.pcr);
    return (int)result;
}

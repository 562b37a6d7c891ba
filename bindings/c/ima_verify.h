/* Do a machine's boot log and measurement list make the PCR values of its TPM 2.0?
 *
 * A firmware event log (TCG, crypto-agile) and a binary measurement list of Linux IMA are replayed. The PCR values that
 * they make are compared with expected ones, or with a quote that the TPM signed. On the machine the files are
 * /sys/kernel/security/tpm0/binary_bios_measurements and /sys/kernel/security/ima/binary_runtime_measurements. Expected
 * PCR values are text, with a line for each, such as `sha256 10 <64 hexadecimal digits>`.
 *
 *     struct ima_verify_evidence evidence = {
 *         .log = {log, log_size}, .list = {list, list_size}, .expected = {text, text_size},
 *         .require = ima_verify_text("sha256:0-10"),
 *     };
 *     struct ima_verify_summary summary = {.size = sizeof summary};
 *     uint8_t report[16384];  // no report without known files is longer
 *     struct ima_verify_output output = {.data = report, .capacity = sizeof report};
 *     if (ima_verify_verdict(&evidence, IMA_VERIFY_TEXT, &summary, &output) == IMA_VERIFY_DONE) ..
 *
 * Most functions give the text that the program `ima-agent` prints for the command of the same name (ima_verify(3) has
 * the exceptions), or with IMA_VERIFY_JSON the lines that it prints with --json. Inputs may also be longer than 64 MiB.
 * The pages formats.md, event-data.md and json.md describe the formats, verdict.md what a verdict means, and errors.txt
 * what each error number means.
 *
 * ima_verify_convert converts inputs in other forms, such as the kernel's list as text.
 *
 * A verdict covers only the boot aggregate and the expected PCRs: `require` says which PCRs these must include. A
 * verdict that compares no PCR is never a match. With a requirement a verdict is `match` only if no event of the log
 * extends PCR 10 and every entry of the list extends PCR 10; otherwise the report has a line such as `event 31 extends
 * 10` or `entry 17 extends 11`. With `checks_known` the entries must also be for known files.
 *
 * Pointers. A NULL pointer must have the size 0; otherwise the function returns IMA_VERIFY_MISUSED. Nothing may change
 * an input during a call, as another process may change a mapped file: otherwise the bytes whose signature is verified
 * might not be those that are judged. Inputs may overlap each other, and calls may share them. Outputs may overlap
 * nothing else that a call is given.
 *
 * Memory. A call allocates with malloc and realloc, and frees everything before it returns. If you replace one of
 * malloc, realloc and free, replace all three. A call keeps no events or entries except in the text that it gives. It
 * takes less than 512 KiB of stack.
 *
 * Threads. Nothing is kept between calls, so any number of threads may call at once, each with its own outputs. Do not
 * call from a signal handler, nor in the forked child of a process with threads.
 *
 * Link with libima_verify.a or libima_verify.so (`pkg-config --cflags --libs ima_verify`). */
#ifndef IMA_VERIFY_H
#define IMA_VERIFY_H

#include <stdbool.h>
#include <stddef.h>
#include <stdint.h>
#include <string.h>

#ifdef __cplusplus
extern "C" {
#endif

/* The version of the interface that this header describes, and the release that it belongs to. */
#define IMA_VERIFY_VERSION 1
#define IMA_VERIFY_PACKAGE_VERSION "1.0.0"

#if defined __GNUC__
#define IMA_VERIFY_USE_RESULT __attribute__((warn_unused_result))
#else
#define IMA_VERIFY_USE_RESULT
#endif

/* What a function returns. */
enum ima_verify_result {
    /* The text is complete. A verdict is `match`, and with a quote its signature is valid, or the caller checked it.
     * For ima_verify_locate, some PCR is expected, every value was reached, and none is missing. For entries or events,
     * these are the last. */
    IMA_VERIFY_DONE = 0,
    /* The text is complete. A verdict is `differ`, or a quote's signature was not checked. For ima_verify_locate, no
     * PCR is expected, a value was not reached, or one is missing. For a boot and for the last events, the verdict by
     * the quote is not `match`, and nothing is confirmed. */
    IMA_VERIFY_DIFFERS = 1,
    /* An input is refused: `error` says why, and the text is the line that says so, such as `refused: log fault 1 at
     * event 0`. As JSON it is an object with the member `fault`, which no other line has. */
    IMA_VERIFY_REFUSED = 2,
    /* Memory ran out: the text is the line `failed: memory`, or that line as JSON. */
    IMA_VERIFY_OUT_OF_MEMORY = 3,
    /* The capacity is too small for the text, and nothing was written: `size` says how much is needed. Call again in a
     * loop, since the next text may need more. */
    IMA_VERIFY_TOO_SHORT = 4,
    /* The text has whole lines of entries or events, and there are more: call again. */
    IMA_VERIFY_MORE = 5,
    /* Nothing was read or written, because of one of these mistakes:
     *
     * - A pointer is NULL although its size is not 0.
     * - A form, origin, purpose, conversion, position, error or size of a summary is invalid.
     * - Known files are given without `checks_known`, or to a function that checks no entry.
     * - Only one of key and signature is given, or one of them together with `signature_checked`.
     * - A nonce is given twice, or expected PCRs together with a quote. */
    IMA_VERIFY_MISUSED = 6
};

/* The form of a text. */
enum ima_verify_form {
    /* Lines of text. */
    IMA_VERIFY_TEXT = 0,
    /* Lines of JSON (RFC 8259): one for each entry, event or answer on a boot, otherwise only one. */
    IMA_VERIFY_JSON = 1
};

/* What an error is about. ima_verify_error_text says it in words. */
enum ima_verify_error_kind {
    IMA_VERIFY_NO_ERROR = 0,
    /* `require`, `registers` or `nonce_hex` is malformed, or `require` is `none` although files must be known. For a
     * quote also: `require` lacks one of the PCRs 0 to 10, or names one only in the SHA-1 bank, or the nonce is too
     * short. */
    IMA_VERIFY_ARGUMENT = 1,
    /* The firmware event log. The place is an event; the header is event 0. */
    IMA_VERIFY_LOG = 2,
    /* The measurement list. The place is an entry; the first is 0. */
    IMA_VERIFY_LIST = 3,
    /* The template digest of an entry does not match. The place is that entry. */
    IMA_VERIFY_REPLAY = 4,
    /* The expected PCR values, or what tpm2-tools printed. The place is a line; the first is 1. */
    IMA_VERIFY_EXPECTED = 5,
    /* The checkpoint. */
    IMA_VERIFY_CHECKPOINT = 6,
    /* Memory ran out. */
    IMA_VERIFY_MEMORY = 7,
    /* The message of the quote: it is not a quote (1 to 10), has another nonce (11), or lacks a required PCR (12). */
    IMA_VERIFY_QUOTE = 8,
    /* The public area of a key: it is invalid (1 to 10), or the key is not fit for its purpose (11 to 22). */
    IMA_VERIFY_KEY = 9,
    /* The known files: a line has a SHA-1 digest (1), or is not a digest and a name (2). The place is that line; the
     * first is 1. */
    IMA_VERIFY_KNOWN = 10,
    /* The signature of the quote's message: it is invalid (1 to 4), its scheme (5) or its hash (6) is not the key's, or
     * the key did not sign this message (7). Or the library verifies no signatures by such a key (8), or a PEM is not
     * the text that ima_verify_key gives for a key that it accepts (9). */
    IMA_VERIFY_SIGNATURE = 11,
    /* The text of a measurement list, for ima_verify_convert. The place is a line; the first is 1. */
    IMA_VERIFY_TEXT_LIST = 12,
    /* The firmware event log, for ima_verify_convert. The place is an event; the header is event 0. */
    IMA_VERIFY_LOG_FORM = 13
};

/* Stands for no place in an error, and for no PCR in a summary. */
#define IMA_VERIFY_NO_PLACE UINT64_MAX

/* A checkpoint has fewer bytes than the first, and the text of matching PCRs has fewer than the second. */
#define IMA_VERIFY_CHECKPOINT_CAPACITY 20000
#define IMA_VERIFY_MATCHING_CAPACITY 2048

/* An error. After IMA_VERIFY_REFUSED and IMA_VERIFY_OUT_OF_MEMORY it is the one that the text states; otherwise there
 * is none. */
struct ima_verify_error {
    /* One of ima_verify_error_kind. */
    uint32_t kind;
    /* Its number among the errors of its kind, as in errors.txt, or 0 without one. */
    uint32_t number;
    /* The number of the event, entry or line, or IMA_VERIFY_NO_PLACE. */
    uint64_t place;
};

/* Bytes that a call reads. */
struct ima_verify_bytes {
    const uint8_t *data;
    size_t size;
};

/* A text that a call gives, without a zero byte at its end. */
struct ima_verify_output {
    /* Where the text goes, and how many bytes fit there. */
    uint8_t *data;
    size_t capacity;
    /* Set by the call: the size of the text, and the error. */
    size_t size;
    struct ima_verify_error error;
};

/* What a list is judged by. */
struct ima_verify_evidence {
    /* The firmware event log. */
    struct ima_verify_bytes log;
    /* The measurement list. */
    struct ima_verify_bytes list;
    /* The text of expected PCR values. */
    struct ima_verify_bytes expected;
    /* The PCRs that must be among them, such as `sha256:0-10` or `sha256:0-7,sha1:10`. For each that is not, the report
     * has a row such as `sha256 4 missing`, and the verdict is `differ`. The word `none` (ima_verify_none) requires no
     * PCR. Without bytes it is refused, and so is a selection without PCR 10 in any bank. */
    struct ima_verify_bytes require;
    /* The known files, with `checks_known`: a line for each, as sha256sum, sha384sum and sha512sum print them. Join
     * several texts, each with a line feed at its end. */
    struct ima_verify_bytes known;
    /* Whether each entry must be for a known file, except the boot aggregate, with which a list begins. For each that
     * is not, the report has a line such as `unknown entry 17`, and the verdict is `differ`. Without bytes in `known`
     * no file is known. */
    bool checks_known;
    /* Whether PCR 0 starts at 4 if the log has an event of type EV_EFI_HCRTM_EVENT in PCR 0 and none with a locality:
     * an H-CRTM measured before the TPM was started (TPM 2.0 Library, part 1, 34.3). If it is `false` (the default),
     * only a locality counts. For a boot and its events this is a parameter, and the member of a quote is ignored. */
    bool hcrtm;
    /* Whether a boot aggregate over PCRs 0 to 7 is accepted, as kernels before 5.8 make it; the report then says
     * `boot_aggregate old_kernel`. It counts for ima_verify_verdict and ima_verify_more, if `require` names PCRs, and
     * is ignored by the others. If it is `false` (the default), no such aggregate is accepted. */
    bool old_kernel;
};

/* What a quote is judged by. No file of PCR values is needed: the message has a digest of them. */
struct ima_verify_quoted {
    /* The firmware event log. */
    struct ima_verify_bytes log;
    /* The measurement list; with a checkpoint, what follows it. */
    struct ima_verify_bytes list;
    /* The message that the TPM signed, a TPMS_ATTEST: the file that `tpm2_quote -m` writes. */
    struct ima_verify_bytes message;
    /* The machine's attestation key: its public area, a TPM2B_PUBLIC or bare, whose credential was activated, or its
     * PEM, as ima_verify_key gives it. */
    struct ima_verify_bytes key;
    /* The signature of the message by this key: the file that `tpm2_quote -s` writes, with or without `-f plain`. */
    struct ima_verify_bytes signature;
    /* The verifier's own nonce for this quote, used once, of 16 bytes or more. Give either its bytes, or in `nonce_hex`
     * its hexadecimal digits, as `openssl rand -hex 20` writes them (a line feed may end them). */
    struct ima_verify_bytes nonce, nonce_hex;
    /* The PCRs that must be quoted, at least 0 to 10, such as `sha256:0-10`. */
    struct ima_verify_bytes require;
    /* Whether a PCR may be required only in the SHA-1 bank. */
    bool allow_sha1;
    /* Whether the caller has verified the message's signature by the machine's attestation key, because the library
     * cannot (ima_verify_evp.h verifies some). `key` and `signature` then have no bytes. If they have none and this is
     * `false` (the default), nothing is attested, and the report ends in `signature not checked`. */
    bool signature_checked;
    /* As in struct ima_verify_evidence; for a quote `old_kernel` always counts. */
    struct ima_verify_bytes known;
    bool checks_known, hcrtm, old_kernel;
};

/* The verdict of a summary. */
enum ima_verify_verdict_kind {
    /* No verdict: a quote's signature was not checked, an input is refused, or memory ran out. */
    IMA_VERIFY_VERDICT_NONE = 0,
    IMA_VERIFY_VERDICT_MATCH = 1,
    IMA_VERIFY_VERDICT_DIFFER = 2
};

/* Why a verdict is not `match`: the first reason that holds. A later library may have more. */
enum ima_verify_reason {
    IMA_VERIFY_REASON_NONE = 0,
    /* The signature of the quote was not checked. */
    IMA_VERIFY_REASON_SIGNATURE = 1,
    /* An expected PCR has another value, or the log lacks its bank. */
    IMA_VERIFY_REASON_VALUE = 2,
    /* A required PCR is not expected. */
    IMA_VERIFY_REASON_MISSING = 3,
    /* The quote has the hash of other PCR values. */
    IMA_VERIFY_REASON_QUOTE = 4,
    /* The boot aggregate is wrong, missing, or by an algorithm for which the log has no bank; or a list without a log
     * is empty. */
    IMA_VERIFY_REASON_BOOT_AGGREGATE = 5,
    /* An event extends PCR 10, or an entry another PCR. */
    IMA_VERIFY_REASON_EXTENDS = 6,
    /* An entry is not for a known file. */
    IMA_VERIFY_REASON_UNKNOWN = 7,
    /* No PCR was compared. */
    IMA_VERIFY_REASON_NOTHING = 8
};

/* The bank of a PCR. */
enum ima_verify_bank {
    IMA_VERIFY_BANK_NONE = 0,
    IMA_VERIFY_BANK_SHA1 = 1,
    IMA_VERIFY_BANK_SHA256 = 2,
    IMA_VERIFY_BANK_SHA384 = 3,
    IMA_VERIFY_BANK_SHA512 = 4
};

/* A verdict as numbers. After any result except IMA_VERIFY_DONE, IMA_VERIFY_DIFFERS and IMA_VERIFY_MISUSED they are
 * those of no verdict. */
struct ima_verify_summary {
    /* Set by the caller: sizeof (struct ima_verify_summary). A later header may add members at the end. */
    uint64_t size;
    /* One of ima_verify_verdict_kind, and one of ima_verify_reason. */
    uint64_t verdict, reason;
    /* How many expected PCRs were compared, and how many match. For a quote, how many PCRs it selects: all of them
     * match, or none. */
    uint64_t compared, matching;
    /* The first expected PCR that differs or is missing: one of ima_verify_bank, and the PCR's number, or
     * IMA_VERIFY_NO_PLACE. */
    uint64_t bank, pcr;
    /* How many required PCRs are not expected. */
    uint64_t missing;
    /* How many entries the list has, how many of them were judged (all, or the confirmed prefix), and how many are not
     * for known files. */
    uint64_t entries, judged, unknown;
};

/* The bytes of a string, without its zero byte. */
static inline struct ima_verify_bytes ima_verify_text(const char *text) {
    struct ima_verify_bytes bytes = {(const uint8_t *)text, strlen(text)};
    return bytes;
}

/* For `require`: any PCR will do, but some PCR must be compared. */
static inline struct ima_verify_bytes ima_verify_none(void) {
    return ima_verify_text("none");
}

/* The version of the library's interface. A library of this header's version, or of a later one, has all functions
 * below. */
uint32_t ima_verify_version(void);

/* ---- what the library exports, for foreign function interfaces of other languages. A program in C uses the functions
 * further down, which call these. Names, parameters and meanings stay the same in each library named
 * libima_verify.so.1. The rules are:
 *
 * - Bytes are passed as a pointer and a size. No pointer is NULL, even if the size is 0. The pointer `numbers` is
 *   aligned.
 * - A `bool` is a byte, 0 or 1. `json` requests JSON. Other parameters, such as `prefix`, are those of the functions
 *   further down.
 * - The result is one of ima_verify_result. `info` is always set: it has the members of struct ima_verify_output.
 * - `numbers` are those of struct ima_verify_summary, and `numbers_count` is how many there are. The first is not
 *   changed, and those that the library does not know are set to 0.
 * - `next` is a second text, the checkpoint, whose size is always set.
 * - `by` says how matching PCRs are determined; the inputs for other ways have no bytes. `matching` lists these PCRs as
 *   a selection, such as `sha256:0,sha256:1`, with IMA_VERIFY_DONE. It has no bytes, with IMA_VERIFY_DIFFERS, if the
 *   verdict by the quote is not `match`. The line of an error is JSON. Give the selection to each call of `events` for
 *   the same log, with `matching_given`.
 * - `known` is ignored without `checks_known`, `before` without `compares`, `matching` without `matching_given`,
 *   `hcrtm` with `of_list`, and `old_kernel` with the word `none`. `padding` is always set.
 * - A later library may add members to lines of JSON. */

struct ima_verify_info {
    size_t size;
    uint32_t error_kind;
    uint32_t error_number;
    uint64_t error_place;
};

enum ima_verify_by {
    IMA_VERIFY_BY_NOTHING = 0,
    IMA_VERIFY_BY_EXPECTED = 1,
    IMA_VERIFY_BY_QUOTE = 2
};

int32_t ima_verify_raw_verdict(const uint8_t *log, size_t log_size, bool hcrtm, bool old_kernel, const uint8_t *list,
                               size_t list_size, const uint8_t *expected, size_t expected_size, const uint8_t *require,
                               size_t require_size, const uint8_t *known, size_t known_size, bool checks_known,
                               bool json, uint64_t *numbers, size_t numbers_count, uint8_t *out, size_t capacity,
                               struct ima_verify_info *info);
int32_t ima_verify_raw_locate(const uint8_t *log, size_t log_size, bool hcrtm, const uint8_t *list, size_t list_size,
                              const uint8_t *expected, size_t expected_size, const uint8_t *require,
                              size_t require_size, bool json, uint8_t *out, size_t capacity,
                              struct ima_verify_info *info);
int32_t ima_verify_raw_replay(const uint8_t *list, size_t list_size, const uint8_t *expected, size_t expected_size,
                              const uint8_t *require, size_t require_size, const uint8_t *known, size_t known_size,
                              bool checks_known, bool json, uint64_t *numbers, size_t numbers_count, uint8_t *out,
                              size_t capacity, struct ima_verify_info *info);
int32_t ima_verify_raw_more(const uint8_t *log, size_t log_size, bool hcrtm, bool old_kernel, const uint8_t *state,
                            size_t state_size, const uint8_t *more, size_t more_size, const uint8_t *expected,
                            size_t expected_size, const uint8_t *require, size_t require_size, const uint8_t *known,
                            size_t known_size, bool checks_known, bool prefix, bool json, uint64_t *numbers,
                            size_t numbers_count, uint8_t *next, size_t next_capacity, size_t *next_size, uint8_t *out,
                            size_t capacity, struct ima_verify_info *info);
int32_t ima_verify_raw_attest(const uint8_t *log, size_t log_size, bool hcrtm, bool old_kernel, const uint8_t *state,
                              size_t state_size, const uint8_t *more, size_t more_size, const uint8_t *message,
                              size_t message_size, const uint8_t *key, size_t key_size, const uint8_t *signature,
                              size_t signature_size, const uint8_t *nonce, size_t nonce_size, const uint8_t *nonce_hex,
                              size_t nonce_hex_size, const uint8_t *require, size_t require_size, const uint8_t *known,
                              size_t known_size, bool checks_known, bool allow_sha1, bool signature_checked,
                              bool prefix, bool json, uint64_t *numbers, size_t numbers_count, uint8_t *next,
                              size_t next_capacity, size_t *next_size, uint8_t *out, size_t capacity,
                              struct ima_verify_info *info);
int32_t ima_verify_raw_expected(const uint8_t *printed, size_t printed_size, const uint8_t *registers,
                                size_t registers_size, bool json, uint8_t *out, size_t capacity,
                                struct ima_verify_info *info);
int32_t ima_verify_raw_registers(const uint8_t *bytes, size_t size, bool of_list, bool hcrtm, bool json, uint8_t *out,
                                 size_t capacity, struct ima_verify_info *info);
int32_t ima_verify_raw_key(const uint8_t *area, size_t area_size, bool endorsement, bool json, uint8_t *out,
                           size_t capacity, struct ima_verify_info *info);
int32_t ima_verify_raw_entries(const uint8_t *list, size_t list_size, size_t *offset, size_t *number, bool json,
                               uint8_t *out, size_t capacity, struct ima_verify_info *info);
int32_t ima_verify_raw_matching(const uint8_t *log, size_t log_size, bool hcrtm, bool old_kernel, uint32_t by,
                                const uint8_t *expected, size_t expected_size, const uint8_t *list, size_t list_size,
                                const uint8_t *message, size_t message_size, const uint8_t *key, size_t key_size,
                                const uint8_t *signature, size_t signature_size, const uint8_t *nonce,
                                size_t nonce_size, const uint8_t *nonce_hex, size_t nonce_hex_size,
                                const uint8_t *require, size_t require_size, bool allow_sha1, bool signature_checked,
                                uint8_t *out, size_t capacity, struct ima_verify_info *info);
int32_t ima_verify_raw_boot(const uint8_t *log, size_t log_size, bool hcrtm, bool old_kernel, const uint8_t *before,
                            size_t before_size, bool compares, uint32_t by, const uint8_t *expected,
                            size_t expected_size, const uint8_t *list, size_t list_size, const uint8_t *message,
                            size_t message_size, const uint8_t *key, size_t key_size, const uint8_t *signature,
                            size_t signature_size, const uint8_t *nonce, size_t nonce_size, const uint8_t *nonce_hex,
                            size_t nonce_hex_size, const uint8_t *require, size_t require_size, bool allow_sha1,
                            bool signature_checked, bool json, uint8_t *out, size_t capacity,
                            struct ima_verify_info *info);
int32_t ima_verify_raw_events(const uint8_t *log, size_t log_size, const uint8_t *matching, size_t matching_size,
                              bool matching_given, size_t *offset, size_t *number, uint8_t *out, size_t capacity,
                              struct ima_verify_info *info);
int32_t ima_verify_raw_convert(const uint8_t *bytes, size_t size, uint32_t conversion, size_t *padding, uint8_t *out,
                               size_t capacity, struct ima_verify_info *info);
int32_t ima_verify_raw_error_text(uint32_t kind, uint32_t number, uint64_t place, uint8_t *out, size_t capacity,
                                  struct ima_verify_info *info);

/* ---- what the functions below have in common */

/* Bytes for the library, which takes no NULL; and whether the caller may give these bytes. */
static inline const uint8_t *ima_verify_data(struct ima_verify_bytes bytes) {
    return bytes.data ? bytes.data : (const uint8_t *)"";
}

static inline bool ima_verify_is_given(struct ima_verify_bytes bytes) {
    return bytes.data || !bytes.size;
}

/* Where a text goes: any place that is not NULL, if nothing fits there. */
static inline uint8_t *ima_verify_start(struct ima_verify_output *output) {
    return output->data ? output->data : (uint8_t *)output;
}

static inline uint64_t *ima_verify_numbers(struct ima_verify_summary *summary) {
    static uint64_t none;
    return summary ? &summary->size : &none;
}

/* Bytes, an output and a summary as the library takes them: a pointer and a number. */
#define IMA_VERIFY_IN(bytes) ima_verify_data(bytes), (bytes).size
#define IMA_VERIFY_OUT(output) ima_verify_start(output), (output)->capacity
#define IMA_VERIFY_NUMBERS(summary) \
    ima_verify_numbers(summary), (summary) ? (size_t)(summary)->size / sizeof(uint64_t) : 0

static inline bool ima_verify_is_output(enum ima_verify_form form, const struct ima_verify_output *output) {
    return output && (output->data || !output->capacity) && (form == IMA_VERIFY_TEXT || form == IMA_VERIFY_JSON);
}

static inline bool ima_verify_is_summary(const struct ima_verify_summary *summary) {
    return !summary || (summary->size && summary->size % sizeof summary->size == 0 && summary->size <= 512);
}

static inline bool ima_verify_are_known(struct ima_verify_bytes known, bool checks_known) {
    return ima_verify_is_given(known) && (checks_known || !known.size);
}

static inline bool ima_verify_is_evidence(const struct ima_verify_evidence *evidence) {
    return evidence && ima_verify_is_given(evidence->log) && ima_verify_is_given(evidence->list)
           && ima_verify_is_given(evidence->expected) && ima_verify_is_given(evidence->require)
           && ima_verify_are_known(evidence->known, evidence->checks_known);
}

/* A key or signature without bytes, as from an empty file, while the other has some: one byte that is neither, since to
 * the library no bytes mean that nothing is given. */
static inline struct ima_verify_bytes ima_verify_beside(struct ima_verify_bytes bytes, struct ima_verify_bytes other) {
    struct ima_verify_bytes neither = {(const uint8_t *)"", 1};
    return bytes.size || !other.size ? bytes : neither;
}

/* A nonce is given once. Key and signature are given both or neither, and not together with `signature_checked`. */
static inline bool ima_verify_is_quoted(const struct ima_verify_quoted *quoted) {
    return quoted && ima_verify_is_given(quoted->log) && ima_verify_is_given(quoted->list)
           && ima_verify_is_given(quoted->message) && ima_verify_is_given(quoted->nonce)
           && ima_verify_is_given(quoted->nonce_hex) && !(quoted->nonce.size && quoted->nonce_hex.size)
           && ima_verify_is_given(quoted->require) && ima_verify_are_known(quoted->known, quoted->checks_known)
           && ima_verify_is_given(quoted->key) && ima_verify_is_given(quoted->signature)
           && (!quoted->key.size == !quoted->signature.size || (quoted->key.data && quoted->signature.data))
           && !(quoted->signature_checked && (quoted->key.size || quoted->signature.size));
}

/* Puts into the output what a call says about its text. */
static inline enum ima_verify_result
ima_verify_end(struct ima_verify_output *output, const struct ima_verify_info *info, int32_t result) {
    if (result == IMA_VERIFY_MISUSED) return IMA_VERIFY_MISUSED;
    output->size = info->size;
    output->error.kind = info->error_kind;
    output->error.number = info->error_number;
    output->error.place = info->error_place;
    return (enum ima_verify_result)result;
}

/* ---- verdicts */

/* The verdict on a log, a list and expected PCRs. IMA_VERIFY_DONE if the boot aggregate is good, a PCR was compared,
 * each expected PCR has its value, `require` is met and no entry is unknown; otherwise IMA_VERIFY_DIFFERS. The text is
 * the report, and `summary`, if it is not NULL, has its numbers. The first error is reported, in this order: `require`,
 * the expected PCRs, the known files, the log, the list, whether each template digest matches. */
IMA_VERIFY_USE_RESULT static inline enum ima_verify_result
ima_verify_verdict(const struct ima_verify_evidence *evidence, enum ima_verify_form form,
                   struct ima_verify_summary *summary, struct ima_verify_output *output) {
    struct ima_verify_info info;
    if (!ima_verify_is_evidence(evidence) || !ima_verify_is_summary(summary) || !ima_verify_is_output(form, output))
        return IMA_VERIFY_MISUSED;
    return ima_verify_end(output, &info, ima_verify_raw_verdict(
        IMA_VERIFY_IN(evidence->log), evidence->hcrtm, evidence->old_kernel, IMA_VERIFY_IN(evidence->list),
        IMA_VERIFY_IN(evidence->expected), IMA_VERIFY_IN(evidence->require), IMA_VERIFY_IN(evidence->known),
        evidence->checks_known, form == IMA_VERIFY_JSON, IMA_VERIFY_NUMBERS(summary), IMA_VERIFY_OUT(output), &info));
}

/* Where each expected PCR first has its value, such as `sha256 10 after entry 98`. IMA_VERIFY_DONE if a PCR is
 * expected, every value was reached and none of `require` is missing; otherwise IMA_VERIFY_DIFFERS. The text has the
 * places. It takes no known files: with `checks_known` it returns IMA_VERIFY_MISUSED. Errors are those of
 * ima_verify_verdict. */
IMA_VERIFY_USE_RESULT static inline enum ima_verify_result
ima_verify_locate(const struct ima_verify_evidence *evidence, enum ima_verify_form form,
                  struct ima_verify_output *output) {
    struct ima_verify_info info;
    if (!ima_verify_is_evidence(evidence) || evidence->checks_known || !ima_verify_is_output(form, output))
        return IMA_VERIFY_MISUSED;
    return ima_verify_end(output, &info, ima_verify_raw_locate(
        IMA_VERIFY_IN(evidence->log), evidence->hcrtm, IMA_VERIFY_IN(evidence->list), IMA_VERIFY_IN(evidence->expected),
        IMA_VERIFY_IN(evidence->require), form == IMA_VERIFY_JSON, IMA_VERIFY_OUT(output), &info));
}

/* The verdict on a list without a log. It is replayed into banks of all algorithms from the reset values of their PCRs,
 * so a PCR that the firmware also extends differs. The log is ignored. IMA_VERIFY_DONE if the list has an entry, a PCR
 * was compared, each expected PCR has its value, `require` is met and no entry is unknown; otherwise
 * IMA_VERIFY_DIFFERS. The text is the report. The first error is reported, in this order: `require`, the expected PCRs,
 * the known files, the list, whether each template digest matches. */
IMA_VERIFY_USE_RESULT static inline enum ima_verify_result
ima_verify_replay(const struct ima_verify_evidence *evidence, enum ima_verify_form form,
                  struct ima_verify_summary *summary, struct ima_verify_output *output) {
    struct ima_verify_info info;
    if (!ima_verify_is_evidence(evidence) || !ima_verify_is_summary(summary) || !ima_verify_is_output(form, output))
        return IMA_VERIFY_MISUSED;
    return ima_verify_end(output, &info, ima_verify_raw_replay(
        IMA_VERIFY_IN(evidence->list), IMA_VERIFY_IN(evidence->expected), IMA_VERIFY_IN(evidence->require),
        IMA_VERIFY_IN(evidence->known), evidence->checks_known, form == IMA_VERIFY_JSON,
        IMA_VERIFY_NUMBERS(summary), IMA_VERIFY_OUT(output), &info));
}

/* The verdict on a list that grows, and in `next` the checkpoint from which the next call continues.
 *
 * Without bytes in `state`, the list begins with its first entry. Otherwise `state` is a checkpoint that an earlier
 * call gave, and the list has only the bytes that follow what the checkpoint covers. The verdict is on the whole list,
 * and errors number its entries from the first. With `prefix` the report covers the confirmed prefix, if there is one:
 * the shortest prefix of the list, with at least the checkpoint's entries, whose template digests match, whose boot
 * aggregate is good, and with which each expected PCR has its value and none of `require` is missing. What comes after
 * it is not refused, and the report says how many entries it has.
 *
 * Known files are compared only with entries that the report covers and `state` does not. If the known files change,
 * start again without a checkpoint: entries that it covers may be unknown now.
 *
 * After IMA_VERIFY_DONE `next` has the checkpoint of what the report covers, with less than
 * IMA_VERIFY_CHECKPOINT_CAPACITY bytes. If the capacity of either output is too small, the function returns
 * IMA_VERIFY_TOO_SHORT, sets both sizes, and writes to neither. With any other result there is no checkpoint: its size
 * is 0, and the bytes of `next` stay as they were. Keep the checkpoint that you have until a call has given the next
 * one.
 *
 * The first error is reported, in this order: `require`, the expected PCRs, the text of the checkpoint (`refused:
 * checkpoint fault 1` or `2`), the known files, the log, whether the checkpoint is from this boot (`refused: checkpoint
 * fault 3`), the list, whether each template digest matches. (If 64 MiB would not fit between the list and 2^63 bytes,
 * it is IMA_VERIFY_OUT_OF_MEMORY.) A checkpoint is trusted: whoever can write it can choose the verdict. Give only what
 * this function gave. */
IMA_VERIFY_USE_RESULT static inline enum ima_verify_result
ima_verify_more(const struct ima_verify_evidence *evidence, struct ima_verify_bytes state, bool prefix,
                enum ima_verify_form form, struct ima_verify_summary *summary, struct ima_verify_output *next,
                struct ima_verify_output *output) {
    struct ima_verify_info info, next_info = {0, IMA_VERIFY_NO_ERROR, 0, IMA_VERIFY_NO_PLACE};
    int32_t result;
    if (!ima_verify_is_evidence(evidence) || !ima_verify_is_given(state) || !ima_verify_is_summary(summary)
        || !ima_verify_is_output(form, next) || !ima_verify_is_output(form, output))
        return IMA_VERIFY_MISUSED;
    result = ima_verify_raw_more(
        IMA_VERIFY_IN(evidence->log), evidence->hcrtm, evidence->old_kernel, IMA_VERIFY_IN(state),
        IMA_VERIFY_IN(evidence->list), IMA_VERIFY_IN(evidence->expected), IMA_VERIFY_IN(evidence->require),
        IMA_VERIFY_IN(evidence->known), evidence->checks_known, prefix, form == IMA_VERIFY_JSON,
        IMA_VERIFY_NUMBERS(summary), IMA_VERIFY_OUT(next), &next_info.size, IMA_VERIFY_OUT(output), &info);
    (void)ima_verify_end(next, &next_info, result);
    return ima_verify_end(output, &info, result);
}

/* The verdict by a quote on a log and a list that grows, and in `next` the checkpoint from which the next call
 * continues. `state`, `prefix` and `next` are as for ima_verify_more, and the two functions take each other's
 * checkpoints. But a quote continues only from a checkpoint that a quote confirmed, with the same counts of resets and
 * restarts as the new quote: otherwise it is from another boot (`refused: checkpoint fault 4`). After a suspend the
 * count of restarts differs, so start again with the whole list.
 *
 * The key must have signed the message, which must have the nonce and select each PCR in `require`. IMA_VERIFY_DONE if
 * the message has the digest of the values to which log and list replay, the boot aggregate is good, no event of the
 * log extends PCR 10, every entry of the list extends PCR 10, no entry is unknown, and the signature is valid or the
 * caller checked it; otherwise IMA_VERIFY_DIFFERS. The text is the report. The verdict covers the PCRs that the quote
 * selects, and the report names them. With `prefix` it covers the confirmed prefix, if there is one: the shortest with
 * the quote's PCR values.
 *
 * The library verifies signatures by RSA keys of 2048 to 4096 bits (RSASSA and RSAPSS) and by keys on P-256 and P-384
 * (ECDSA), with SHA-256, SHA-384 and SHA-512. A key's public area states its scheme and hash; a PEM does not, and any
 * is accepted. A key that is not restricted, or that was imported into the TPM, also signs messages that no TPM made.
 * Its public area is refused, but a PEM does not show this.
 *
 * The first error is reported, in this order: `require` and the nonce, the key (`refused: key fault 1` to `20`,
 * `refused: signature fault 8` or `9`), the signature (`refused: signature fault 1` to `7`), the message (`refused:
 * quote fault 1` to `12`), the text of the checkpoint (`refused: checkpoint fault 1` or `2`), whether it is from the
 * quote's boot (`refused: checkpoint fault 4`), the known files, the log, whether the log is that of the checkpoint
 * (`refused: checkpoint fault 3`), the list, whether each template digest matches. */
IMA_VERIFY_USE_RESULT static inline enum ima_verify_result
ima_verify_attest_more(const struct ima_verify_quoted *quoted, struct ima_verify_bytes state, bool prefix,
                       enum ima_verify_form form, struct ima_verify_summary *summary, struct ima_verify_output *next,
                       struct ima_verify_output *output) {
    struct ima_verify_info info, next_info = {0, IMA_VERIFY_NO_ERROR, 0, IMA_VERIFY_NO_PLACE};
    int32_t result;
    if (!ima_verify_is_quoted(quoted) || !ima_verify_is_given(state) || !ima_verify_is_summary(summary)
        || !ima_verify_is_output(form, next) || !ima_verify_is_output(form, output))
        return IMA_VERIFY_MISUSED;
    result = ima_verify_raw_attest(
        IMA_VERIFY_IN(quoted->log), quoted->hcrtm, quoted->old_kernel, IMA_VERIFY_IN(state),
        IMA_VERIFY_IN(quoted->list), IMA_VERIFY_IN(quoted->message),
        IMA_VERIFY_IN(ima_verify_beside(quoted->key, quoted->signature)),
        IMA_VERIFY_IN(ima_verify_beside(quoted->signature, quoted->key)),
        IMA_VERIFY_IN(quoted->nonce), IMA_VERIFY_IN(quoted->nonce_hex), IMA_VERIFY_IN(quoted->require),
        IMA_VERIFY_IN(quoted->known), quoted->checks_known, quoted->allow_sha1, quoted->signature_checked, prefix,
        form == IMA_VERIFY_JSON, IMA_VERIFY_NUMBERS(summary), IMA_VERIFY_OUT(next), &next_info.size,
        IMA_VERIFY_OUT(output), &info);
    (void)ima_verify_end(next, &next_info, result);
    return ima_verify_end(output, &info, result);
}

/* The verdict by a quote on a log and a whole list: ima_verify_attest_more without a checkpoint. */
IMA_VERIFY_USE_RESULT static inline enum ima_verify_result
ima_verify_attest(const struct ima_verify_quoted *quoted, enum ima_verify_form form,
                  struct ima_verify_summary *summary, struct ima_verify_output *output) {
    uint8_t checkpoint[IMA_VERIFY_CHECKPOINT_CAPACITY];
    struct ima_verify_bytes start = {NULL, 0};
    struct ima_verify_output next = {checkpoint, sizeof checkpoint, 0, {IMA_VERIFY_NO_ERROR, 0, IMA_VERIFY_NO_PLACE}};
    return ima_verify_attest_more(quoted, start, false, form, summary, &next, output);
}

/* ---- PCR values and keys */

/* The expected PCR values in a text that tpm2_pcrread or tpm2_checkquote printed: those of the selection `registers`,
 * such as `sha256:0-10` or `0-7,10`, or all if it has no bytes. A text without any such value is refused. A wrong
 * selection is refused before the text. Nothing says who wrote the text, nor whether a quote is valid: tpm2_checkquote
 * prints the same for a quote that it refuses. */
IMA_VERIFY_USE_RESULT static inline enum ima_verify_result
ima_verify_expected(struct ima_verify_bytes printed, struct ima_verify_bytes registers, enum ima_verify_form form,
                    struct ima_verify_output *output) {
    struct ima_verify_info info;
    if (!ima_verify_is_given(printed) || !ima_verify_is_given(registers) || !ima_verify_is_output(form, output))
        return IMA_VERIFY_MISUSED;
    return ima_verify_end(output, &info, ima_verify_raw_expected(
        IMA_VERIFY_IN(printed), IMA_VERIFY_IN(registers), form == IMA_VERIFY_JSON, IMA_VERIFY_OUT(output), &info));
}

/* What PCR values are computed from. */
enum ima_verify_origin {
    /* A firmware event log. */
    IMA_VERIFY_OF_LOG = 0,
    /* A measurement list without a log, from the reset values of all PCRs. This is not a verdict. */
    IMA_VERIFY_OF_LIST = 1,
    /* A firmware event log, with `hcrtm` as in struct ima_verify_evidence. */
    IMA_VERIFY_OF_HCRTM_LOG = 2
};

/* The PCR values after a log, or after a list without one, that differ from the reset values, as lines of expected
 * PCRs. */
IMA_VERIFY_USE_RESULT static inline enum ima_verify_result
ima_verify_registers(enum ima_verify_origin origin, struct ima_verify_bytes bytes, enum ima_verify_form form,
                     struct ima_verify_output *output) {
    struct ima_verify_info info;
    if ((origin != IMA_VERIFY_OF_LOG && origin != IMA_VERIFY_OF_LIST && origin != IMA_VERIFY_OF_HCRTM_LOG)
        || !ima_verify_is_given(bytes) || !ima_verify_is_output(form, output))
        return IMA_VERIFY_MISUSED;
    return ima_verify_end(output, &info, ima_verify_raw_registers(
        IMA_VERIFY_IN(bytes), origin == IMA_VERIFY_OF_LIST, origin == IMA_VERIFY_OF_HCRTM_LOG, form == IMA_VERIFY_JSON,
        IMA_VERIFY_OUT(output), &info));
}

/* What a TPM's key is for. */
enum ima_verify_purpose {
    /* It signs quotes: it is restricted, does not decrypt, and has a signing scheme by SHA-256, SHA-384 or SHA-512. */
    IMA_VERIFY_ATTESTATION = 0,
    /* Credentials are made for it: it is restricted, decrypts, and does not sign. */
    IMA_VERIFY_ENDORSEMENT = 1
};

/* The name, type, size, scheme and PEM of a key, from its public area: a TPM2B_PUBLIC, the file that `tpm2_createak -u`
 * and `tpm2_createek -u` write, or a bare TPMT_PUBLIC. IMA_VERIFY_DONE if the key never leaves the TPM that made it, is
 * restricted and strong, and is fit for its purpose; the text is what `ima-agent key` prints. Otherwise it is refused
 * (`refused: key fault 1` to `22`).
 *
 * A public area does not say whose TPM the key is in, and anyone can write one. Accept the PEM of an attestation key
 * only after activating a credential that was made for this name and for the machine's endorsement key, as `ima-enroll`
 * does. */
IMA_VERIFY_USE_RESULT static inline enum ima_verify_result
ima_verify_key(struct ima_verify_bytes area, enum ima_verify_purpose purpose, enum ima_verify_form form,
               struct ima_verify_output *output) {
    struct ima_verify_info info;
    if (!ima_verify_is_given(area) || (purpose != IMA_VERIFY_ATTESTATION && purpose != IMA_VERIFY_ENDORSEMENT)
        || !ima_verify_is_output(form, output))
        return IMA_VERIFY_MISUSED;
    return ima_verify_end(output, &info, ima_verify_raw_key(
        IMA_VERIFY_IN(area), purpose == IMA_VERIFY_ENDORSEMENT, form == IMA_VERIFY_JSON,
        IMA_VERIFY_OUT(output), &info));
}

/* ---- inputs in other forms */

/* What ima_verify_convert takes. */
enum ima_verify_conversion {
    /* A measurement list as text, as the kernel's ascii_runtime_measurements has it; it gives the binary list. */
    IMA_VERIFY_CONVERT_LIST = 1,
    /* A firmware event log in the SHA-1 form (TCG, for TPM 1.2), or one with zeros or bytes 0xFF after its last event;
     * it gives a crypto-agile log without these. */
    IMA_VERIFY_CONVERT_LOG = 2
};

/* The input in the form that the other functions read. IMA_VERIFY_DONE if the result's entries have exactly these lines
 * and valid template digests, or if its events are those of the input. `padding`, if it is not NULL, then has how many
 * bytes after the last event were left out. Otherwise the input is refused (IMA_VERIFY_TEXT_LIST, IMA_VERIFY_LOG_FORM),
 * and `padding` is 0. Only SHA-1 protects a log in the SHA-1 form: whoever can make collisions can change it. */
IMA_VERIFY_USE_RESULT static inline enum ima_verify_result
ima_verify_convert(struct ima_verify_bytes bytes, enum ima_verify_conversion conversion, size_t *padding,
                   struct ima_verify_output *output) {
    struct ima_verify_info info;
    size_t unasked;
    if (!ima_verify_is_given(bytes) || !ima_verify_is_output(IMA_VERIFY_TEXT, output)
        || (conversion != IMA_VERIFY_CONVERT_LIST && conversion != IMA_VERIFY_CONVERT_LOG))
        return IMA_VERIFY_MISUSED;
    return ima_verify_end(output, &info, ima_verify_raw_convert(
        IMA_VERIFY_IN(bytes), conversion, padding ? padding : &unasked, IMA_VERIFY_OUT(output), &info));
}

/* ---- what was booted, entries and events
 *
 * `expected` or `quoted`, of which one or both are NULL, says which PCRs match, and so which data of a log is
 * confirmed: the text of expected PCR values, or a quote with the list. A quote confirms the PCRs that `require` names,
 * and nothing unless ima_verify_attest would return IMA_VERIFY_DONE. Its member `log` is ignored, and it has no known
 * files. */

static inline bool ima_verify_is_confirming(const struct ima_verify_bytes *expected,
                                            const struct ima_verify_quoted *quoted) {
    return !(expected && quoted) && (!expected || ima_verify_is_given(*expected))
           && (!quoted || (ima_verify_is_quoted(quoted) && !quoted->checks_known));
}

/* What confirms data, in the library's form. */
struct ima_verify_confirming {
    uint32_t by;
    struct ima_verify_bytes expected;
    struct ima_verify_quoted quoted;
};

static inline struct ima_verify_confirming ima_verify_confirming_by(const struct ima_verify_bytes *expected,
                                                                    const struct ima_verify_quoted *quoted) {
    struct ima_verify_confirming confirming;
    memset(&confirming, 0, sizeof confirming);
    confirming.by = expected ? IMA_VERIFY_BY_EXPECTED : quoted ? IMA_VERIFY_BY_QUOTE : IMA_VERIFY_BY_NOTHING;
    if (expected) confirming.expected = *expected;
    if (quoted) confirming.quoted = *quoted;
    if (quoted) confirming.quoted.key = ima_verify_beside(quoted->key, quoted->signature);
    if (quoted) confirming.quoted.signature = ima_verify_beside(quoted->signature, quoted->key);
    return confirming;
}

#define IMA_VERIFY_BY(confirming) \
    (confirming).by, IMA_VERIFY_IN((confirming).expected), IMA_VERIFY_IN((confirming).quoted.list), \
        IMA_VERIFY_IN((confirming).quoted.message), IMA_VERIFY_IN((confirming).quoted.key), \
        IMA_VERIFY_IN((confirming).quoted.signature), IMA_VERIFY_IN((confirming).quoted.nonce), \
        IMA_VERIFY_IN((confirming).quoted.nonce_hex), IMA_VERIFY_IN((confirming).quoted.require), \
        (confirming).quoted.allow_sha1, (confirming).quoted.signature_checked

/* What a machine booted, by its log, as `ima-agent boot` prints it: Secure Boot, firmware, images, commands and
 * variables, each confirmed or unknown. With neither `expected` nor `quoted` the lines have what the log claims, each
 * marked `claimed`. `before`, if it is not NULL, is the log of an earlier boot to compare with; an error of a log may
 * be about either. IMA_VERIFY_DONE, or IMA_VERIFY_DIFFERS if the verdict by the quote is not `match`. */
IMA_VERIFY_USE_RESULT static inline enum ima_verify_result
ima_verify_boot(struct ima_verify_bytes log, bool hcrtm, const struct ima_verify_bytes *before,
                const struct ima_verify_bytes *expected, const struct ima_verify_quoted *quoted,
                enum ima_verify_form form, struct ima_verify_output *output) {
    struct ima_verify_info info;
    struct ima_verify_bytes earlier = before ? *before : ima_verify_text("");
    struct ima_verify_confirming confirming = ima_verify_confirming_by(expected, quoted);
    if (!ima_verify_is_given(log) || !ima_verify_is_given(earlier) || !ima_verify_is_confirming(expected, quoted)
        || !ima_verify_is_output(form, output))
        return IMA_VERIFY_MISUSED;
    return ima_verify_end(output, &info, ima_verify_raw_boot(
        IMA_VERIFY_IN(log), hcrtm, confirming.quoted.old_kernel, IMA_VERIFY_IN(earlier), before != NULL,
        IMA_VERIFY_BY(confirming), form == IMA_VERIFY_JSON, IMA_VERIFY_OUT(output), &info));
}

/* Where lines of entries or events continue: all zero at first, and then what the last call set. With any other
 * position the lines say nothing about the bytes. */
struct ima_verify_position {
    /* How many bytes come before it, and how many entries or events. After the last line of entries as JSON, `offset`
     * is one more than the size of the list. */
    size_t offset;
    size_t number;
    /* For events: which PCRs match. `asked` is one more than the result, and 0 before the first call. */
    int asked;
    size_t matching_size;
    uint8_t matching[IMA_VERIFY_MATCHING_CAPACITY];
};

/* The entries of a list from this position on: as many whole lines as fit. The position is set to where the next call
 * continues. As text the lines are the kernel's, in which paths are as they are, and may have line feeds and control
 * bytes. As JSON they have the member `genuine`, and the last line, `{"entries":N}`, has the number of entries: without
 * it the list was not read to its end. IMA_VERIFY_MORE if there are more lines, otherwise IMA_VERIFY_DONE. The line of
 * an error is given by a call of its own, after the lines before it, with IMA_VERIFY_REFUSED. With IMA_VERIFY_TOO_SHORT
 * `size` is that of one line. */
IMA_VERIFY_USE_RESULT static inline enum ima_verify_result
ima_verify_entries(struct ima_verify_bytes list, struct ima_verify_position *position, enum ima_verify_form form,
                   struct ima_verify_output *output) {
    struct ima_verify_info info;
    if (!ima_verify_is_given(list) || !position || !ima_verify_is_output(form, output)
        || position->offset > list.size + (form == IMA_VERIFY_JSON))
        return IMA_VERIFY_MISUSED;
    return ima_verify_end(output, &info, ima_verify_raw_entries(
        IMA_VERIFY_IN(list), &position->offset, &position->number, form == IMA_VERIFY_JSON,
        IMA_VERIFY_OUT(output), &info));
}

/* Finds which PCRs match, and keeps the answer in the position. The line of an error goes to the output. */
static inline enum ima_verify_result
ima_verify_ask_matching(struct ima_verify_bytes log, bool hcrtm, struct ima_verify_confirming by,
                        struct ima_verify_position *position, struct ima_verify_output *output) {
    struct ima_verify_info info, none = {0, IMA_VERIFY_NO_ERROR, 0, IMA_VERIFY_NO_PLACE};
    int32_t result = ima_verify_raw_matching(IMA_VERIFY_IN(log), hcrtm, by.quoted.old_kernel, IMA_VERIFY_BY(by),
                                             position->matching, sizeof position->matching, &info);
    if (result == IMA_VERIFY_DONE || result == IMA_VERIFY_DIFFERS) {
        position->asked = 1 + result;
        position->matching_size = info.size;
        return (enum ima_verify_result)result;
    }
    none.size = info.size;
    if (result == IMA_VERIFY_TOO_SHORT || info.size > output->capacity)
        return ima_verify_end(output, &none, IMA_VERIFY_TOO_SHORT);
    if (info.size) memcpy(output->data, position->matching, info.size);
    return ima_verify_end(output, &info, result);
}

/* The algorithms that a log declares, and its events with their data, each as a line of JSON, from this position on, as
 * ima_verify_entries gives entries. With expected PCRs or a quote, which must be the same in each call, events have the
 * member `confirmed`. The first call then judges them, and gives the line of an error (those of ima_verify_boot); the
 * last call returns IMA_VERIFY_DIFFERS if the verdict by the quote is not `match`. */
IMA_VERIFY_USE_RESULT static inline enum ima_verify_result
ima_verify_events(struct ima_verify_bytes log, bool hcrtm, const struct ima_verify_bytes *expected,
                  const struct ima_verify_quoted *quoted, struct ima_verify_position *position,
                  struct ima_verify_output *output) {
    struct ima_verify_info info;
    int32_t result;
    bool asks = expected || quoted;
    if (!ima_verify_is_given(log) || !ima_verify_is_confirming(expected, quoted) || !position
        || position->offset > log.size || position->matching_size > sizeof position->matching
        || !ima_verify_is_output(IMA_VERIFY_JSON, output))
        return IMA_VERIFY_MISUSED;
    if (!asks && position->asked) return IMA_VERIFY_MISUSED;
    if (asks && (!position->asked || !position->offset)) {
        struct ima_verify_confirming by = ima_verify_confirming_by(expected, quoted);
        enum ima_verify_result asked = ima_verify_ask_matching(log, hcrtm, by, position, output);
        if (asked > IMA_VERIFY_DIFFERS) return asked;
    }
    result = ima_verify_raw_events(IMA_VERIFY_IN(log), position->matching, asks ? position->matching_size : 0, asks,
                                   &position->offset, &position->number, IMA_VERIFY_OUT(output), &info);
    if (result == IMA_VERIFY_DONE && asks && position->asked == 1 + IMA_VERIFY_DIFFERS) result = IMA_VERIFY_DIFFERS;
    return ima_verify_end(output, &info, result);
}

/* ---- errors */

/* What an error means and what to do about it, in one or two English sentences. The error may be that of the output.
 * IMA_VERIFY_MISUSED if it is not an error of a call, such as IMA_VERIFY_NO_ERROR. */
IMA_VERIFY_USE_RESULT static inline enum ima_verify_result
ima_verify_error_text(const struct ima_verify_error *error, struct ima_verify_output *output) {
    struct ima_verify_info info;
    if (!error || !ima_verify_is_output(IMA_VERIFY_TEXT, output)) return IMA_VERIFY_MISUSED;
    return ima_verify_end(output, &info, ima_verify_raw_error_text(
        error->kind, error->number, error->place, IMA_VERIFY_OUT(output), &info));
}

#undef IMA_VERIFY_IN
#undef IMA_VERIFY_OUT
#undef IMA_VERIFY_NUMBERS
#undef IMA_VERIFY_BY

#ifdef __cplusplus
}
#endif

#endif

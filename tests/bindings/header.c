/* Holds the library to what ima_verify.h promises of wrong calls, capacity, errors, verdicts, numbers, quotes, signatures, sessions, keys, boots and
 * pieces, with the stack that it promises to need.
 *
 *     header FOLDER
 *
 * FOLDER has the sample boot and what its inputs are changed to, in files with the names below (`header_files` of pages.py). Checkpoints are kept there
 * too. Prints a line for each check that fails, and last 'N passed, M failed'. The status is 1 if one failed. */
#define _GNU_SOURCE
#include <ima_verify.h>

#include <pthread.h>
#include <stdio.h>
#include <stdlib.h>
#include <unistd.h>

enum { SPACE = 1 << 16, FILL = 0xa7, STACK = 512 * 1024, GUARD = 1 << 24, UNSET = 77, SHOWN = 60, WORDS = 300, LONG = 17000 };
#define NONE IMA_VERIFY_NO_PLACE
#define DONE IMA_VERIFY_DONE
#define DIFFERS IMA_VERIFY_DIFFERS
#define TEXT IMA_VERIFY_TEXT
/* The inputs of the functions. */
enum { LOG, LIST, EXPECTED, PRINTED, MESSAGE, NONCE, AREA, REQUIRE, KNOWN, STATE, SELECTION, KEY, SIGNATURE, NONCE_HEX, BEFORE, INPUTS };
static const char *const input_names[INPUTS] = {"log",   "list",  "expected",  "printed", "message",   "nonce",     "area",  "require",
                                                "known", "state", "selection", "key",     "signature", "nonce_hex", "before"};

/* All that a function may be given. */
struct given {
    struct ima_verify_bytes in[INPUTS];
    enum ima_verify_origin origin;
    enum ima_verify_purpose purpose;
    struct ima_verify_position position;
    struct ima_verify_error error;
    bool checks_known, prefix, allow_sha1, signature_checked, hcrtm, old_kernel, is_absent;
};
static struct given sample;
static const struct ima_verify_bytes none = {NULL, 0};
static const char *const signers[] = {"rsassa", "rsapss", "rsa3072", "p256", "p384"};
#define COUNT(array) (sizeof(array) / sizeof(array)[0])

/* The bytes of a file of the folder, and a file with these bytes. */
static struct ima_verify_bytes kept(const char *name) {
    uint8_t *bytes = malloc(SPACE);
    FILE *stream = fopen(name, "rb");
    size_t size = stream && bytes ? fread(bytes, 1, SPACE, stream) : SPACE;
    if (size == SPACE || fclose(stream) != 0) exit(2);
    return (struct ima_verify_bytes){bytes, size};
}
static void keep(const char *name, const uint8_t *bytes, size_t size) {
    FILE *stream = fopen(name, "wb");
    if (!stream || fwrite(bytes, 1, size, stream) != size || fclose(stream) != 0) exit(2);
}

static struct ima_verify_bytes joined(struct ima_verify_bytes bytes, struct ima_verify_bytes others) {
    uint8_t *both = malloc(bytes.size + others.size + 1);
    if (!both) abort();
    if (bytes.size) memcpy(both, bytes.data, bytes.size);
    if (others.size) memcpy(both + bytes.size, others.data, others.size);
    return (struct ima_verify_bytes){both, bytes.size + others.size};
}
static struct ima_verify_bytes turned(struct ima_verify_bytes bytes, size_t place, int bits) {
    struct ima_verify_bytes changed = joined(bytes, none);
    ((uint8_t *)changed.data)[place] ^= (uint8_t)bits;
    return changed;
}

/* Sets a flag, or changes an input: `NAME=TEXT`, in which `_` is a space, `NAME@FILE`, `NAME+FILE` after it, its first bytes (`NAME:COUNT`), all but
 * the last (`NAME-COUNT`), or a bit turned (`NAME~PLACE`, `NAME~PLACE^BITS`; the last byte's place is -1). */
static void change(struct given *given, char *word) {
    size_t length = strcspn(word, "=@:-+~");
    char how = word[length], *value = word + length + (how != 0);
    int number = 0;
    word[length] = 0;
    while (number < INPUTS && strcmp(input_names[number], word) != 0) number++;
    struct ima_verify_bytes *input = &given->in[number];
    long count = strtol(value, &value, 10);
    if (strcmp(word, "checked") == 0) given->checks_known = true;
    else if (strcmp(word, "prefix") == 0) given->prefix = true;
    else if (strcmp(word, "absent") == 0) given->is_absent = true;
    else if (strcmp(word, "sha1") == 0) given->allow_sha1 = true;
    else if (strcmp(word, "hcrtm") == 0) given->hcrtm = true, given->origin = IMA_VERIFY_OF_HCRTM_LOG;
    else if (strcmp(word, "older") == 0) given->old_kernel = true;
    else if (strcmp(word, "unsigned") == 0) given->signature_checked = false;
    else if (strcmp(word, "endorsement") == 0) given->purpose = IMA_VERIFY_ENDORSEMENT;
    else if (strcmp(word, "of_list") == 0) given->origin = IMA_VERIFY_OF_LIST;
    else if (number == INPUTS) exit(2);
    else if (how == '@') *input = kept(word + length + 1);
    else if (how == '+') *input = joined(*input, kept(word + length + 1));
    else if (how == ':') input->size = (size_t)count;
    else if (how == '-') input->size -= (size_t)count;
    else if (how == '~') *input = turned(*input, count < 0 ? input->size - 1 : (size_t)count, *value ? (int)strtol(value + 1, NULL, 10) : 1);
    else {
        for (char *at = word + length + 1; *at; at++)
            if (*at == '_') *at = ' ';
        *input = joined(ima_verify_text(word + length + 1), none);
    }
}

/* The sample with changes, one after another. */
static struct given changed(const char *changes) {
    struct given given = sample;
    char words[2 * WORDS], *rest = words;
    snprintf(words, sizeof words, "%s", changes);
    for (char *word; (word = strsep(&rest, " "));)
        if (*word) change(&given, word);
    return given;
}

/* Changes with a word after a name, or with a number. */
static const char *with(const char *changes, const char *word) {
    static char words[WORDS];
    snprintf(words, sizeof words, "%s%s", changes, word);
    return words;
}
static const char *sized(const char *changes, size_t size) {
    char digits[SHOWN];
    snprintf(digits, sizeof digits, "%zu", size);
    return with(changes, digits);
}

/* The changes to another quote, of which nobody says that its signature was checked. */
static const char *signed_by(const char *name, const char *key, const char *signature, const char *changes) {
    static char words[2 * WORDS];
    snprintf(words, sizeof words, "unsigned message@%s.msg key@%s.%s signature@%s.%s %s", name, name, key, name, signature, changes);
    return words;
}

static uint8_t text[SPACE], checkpoint[SPACE];
static struct ima_verify_output out, next, *to = &out, *to_next = &next;
static struct ima_verify_position position, *at = &position;
static struct ima_verify_summary summary, *summed = &summary;
static enum ima_verify_result result;
static long passed, failed;

static struct ima_verify_evidence evidence_of(const struct given *given) {
    return (struct ima_verify_evidence){.log = given->in[LOG], .list = given->in[LIST], .expected = given->in[EXPECTED],
                                        .require = given->in[REQUIRE], .known = given->in[KNOWN], .checks_known = given->checks_known,
                                        .hcrtm = given->hcrtm, .old_kernel = given->old_kernel};
}
static struct ima_verify_quoted quoted_of(const struct given *given) {
    return (struct ima_verify_quoted){
        .log = given->in[LOG], .list = given->in[LIST], .message = given->in[MESSAGE], .key = given->in[KEY], .signature = given->in[SIGNATURE],
        .nonce = given->in[NONCE], .nonce_hex = given->in[NONCE_HEX], .require = given->in[REQUIRE], .allow_sha1 = given->allow_sha1,
        .signature_checked = given->signature_checked, .known = given->in[KNOWN], .checks_known = given->checks_known,
        .hcrtm = given->hcrtm, .old_kernel = given->old_kernel};
}

/* A set of numbers, of functions or of inputs. */
#define ONE(number) (1u << (number))
enum {
    BY_PCRS = ONE(LOG) | ONE(EXPECTED),
    COMPARED = BY_PCRS | ONE(LIST) | ONE(REQUIRE) | ONE(KNOWN),
    QUOTED = ONE(LOG) | ONE(LIST) | ONE(REQUIRE) | ONE(MESSAGE) | ONE(KEY) | ONE(SIGNATURE) | ONE(NONCE) | ONE(NONCE_HEX) | ONE(KNOWN)
};

/* Each function: its number and name, which inputs it looks at, and its call with what it needs of them. */
#define ALL_FUNCTIONS(F)                                                                                                    \
    F(VERDICT, "verdict", COMPARED, ima_verify_verdict(evidence, form, summed, to))                                         \
    F(LOCATE, "locate", COMPARED, ima_verify_locate(evidence, form, to))                                                    \
    F(REPLAY, "replay", COMPARED, ima_verify_replay(evidence, form, summed, to))                                            \
    F(MORE, "more", COMPARED | ONE(STATE), ima_verify_more(evidence, in[STATE], given->prefix, form, summed, to_next, to))  \
    F(ATTEST, "attest", QUOTED, ima_verify_attest(attested, form, summed, to))                                        \
    F(ATTEST_MORE, "attest_more", QUOTED | ONE(STATE),                                                                      \
      ima_verify_attest_more(attested, in[STATE], given->prefix, form, summed, to_next, to))                          \
    F(READ_EXPECTED, "expected", ONE(PRINTED) | ONE(SELECTION), ima_verify_expected(in[PRINTED], in[SELECTION], form, to))  \
    F(REGISTERS, "registers", ONE(LOG), ima_verify_registers(given->origin, in[of_list ? LIST : LOG], form, to))            \
    F(READ_KEY, "key", ONE(AREA), ima_verify_key(in[AREA], given->purpose, form, to))                                       \
    F(ERROR_TEXT, "error_text", 0, ima_verify_error_text(given->is_absent ? NULL : &given->error, to))                      \
    F(BOOT, "boot", ONE(LOG), ima_verify_boot(in[LOG], hcrtm, before, NULL, NULL, form, to))                                \
    F(BOOT_BY_PCRS, "boot by PCRs", BY_PCRS, ima_verify_boot(in[LOG], hcrtm, before, &in[EXPECTED], NULL, form, to))        \
    F(BOOT_BY_QUOTE, "boot by a quote", QUOTED, ima_verify_boot(in[LOG], hcrtm, before, NULL, &quoted, form, to))           \
    F(ENTRIES, "entries", ONE(LIST), ima_verify_entries(in[LIST], at, form, to))                                            \
    F(EVENTS, "events", ONE(LOG), ima_verify_events(in[LOG], hcrtm, NULL, NULL, at, to))                                    \
    F(EVENTS_BY_PCRS, "events by PCRs", BY_PCRS, ima_verify_events(in[LOG], hcrtm, &in[EXPECTED], NULL, at, to))            \
    F(EVENTS_BY_QUOTE, "events by a quote", QUOTED, ima_verify_events(in[LOG], hcrtm, NULL, &quoted, at, to))
#define NUMBER(number, name, inputs, call) number,
#define ROW(number, name, inputs, call) {name, inputs, call_##number},
#define CALL(number, name, inputs, call)                                                                                     \
    static enum ima_verify_result call_##number(const struct given *given, enum ima_verify_form form) {                      \
        struct ima_verify_evidence compared = evidence_of(given), *evidence = given->is_absent ? NULL : &compared;           \
        struct ima_verify_quoted quoted = quoted_of(given), *attested = given->is_absent ? NULL : &quoted;                   \
        const struct ima_verify_bytes *in = given->in, *before = in[BEFORE].data ? &in[BEFORE] : NULL;                       \
        bool hcrtm = given->hcrtm, of_list = given->origin == IMA_VERIFY_OF_LIST;                                            \
        return (void)form, (void)evidence, (void)attested, (void)before, (void)hcrtm, (void)of_list, call;                   \
    }

enum { ALL_FUNCTIONS(NUMBER) FUNCTIONS };
ALL_FUNCTIONS(CALL)
typedef enum ima_verify_result called(const struct given *given, enum ima_verify_form form);
static const struct { const char *name; unsigned inputs; called *call; } functions[FUNCTIONS] = {ALL_FUNCTIONS(ROW)};

enum {
    ALL = ONE(FUNCTIONS) - 1, WHOLE = ONE(VERDICT) | ONE(MORE),
    COMPARING = WHOLE | ONE(LOCATE) | ONE(REPLAY), ATTESTING = ONE(ATTEST) | ONE(ATTEST_MORE),
    SESSIONS = ONE(MORE) | ONE(ATTEST_MORE), JUDGING = WHOLE | ONE(REPLAY) | ATTESTING,
    BOOTS = ONE(BOOT) | ONE(BOOT_BY_PCRS) | ONE(BOOT_BY_QUOTE), EVENTS_ALL = ONE(EVENTS) | ONE(EVENTS_BY_PCRS) | ONE(EVENTS_BY_QUOTE),
    CONFIRMING = ONE(BOOT_BY_QUOTE) | ONE(EVENTS_BY_QUOTE), BY_A_QUOTE = ATTESTING | CONFIRMING, PIECES = ONE(ENTRIES) | EVENTS_ALL
};

static bool is_in(int which, unsigned set) { return set >> which & 1; }
#define EACH(which, set) for (int which = 0; which < FUNCTIONS; which++) if (is_in(which, set))

/* Counts a check of the last call. */
static void check(bool holds, int which, const char *what) {
    passed += holds;
    failed += !holds;
    if (holds) return;
    printf("WRONG: %s, %s: result %d, %zu bytes '%.*s', error %u %u %lld, verdict %d for %d\n", functions[which].name, what, (int)result, out.size,
           out.size < SHOWN ? (int)out.size : SHOWN, (char *)text, out.error.kind, out.error.number, (long long)out.error.place,
           (int)summary.verdict, (int)summary.reason);
}

static const struct ima_verify_error no_error = {IMA_VERIFY_NO_ERROR, 0, IMA_VERIFY_NO_PLACE}, unset = {UNSET, UNSET, UNSET};

/* Gives each output this capacity, where nothing is set yet. */
static void prepare(const struct given *given, size_t capacity) {
    memset(text, FILL, sizeof text);
    memset(checkpoint, FILL, sizeof checkpoint);
    out = (struct ima_verify_output){text, capacity, UNSET, unset};
    next = (struct ima_verify_output){checkpoint, capacity, UNSET, unset};
    summary = (struct ima_verify_summary){sizeof summary, UNSET, UNSET, UNSET, UNSET, UNSET, UNSET, UNSET, UNSET, UNSET, UNSET};
    position = given->position;
}

static enum ima_verify_result ask(int which, const struct given *given, enum ima_verify_form form, size_t capacity) {
    prepare(given, capacity);
    return result = functions[which].call(given, form);
}
static enum ima_verify_result ask_text(int which, const char *changes) {
    struct given given = changed(changes);
    return ask(which, &given, TEXT, SPACE);
}

static bool is_filled(const uint8_t *bytes, size_t from) {
    while (from < SPACE && bytes[from] == FILL) from++;
    return from == SPACE;
}
static bool is_error(const struct ima_verify_output *output, struct ima_verify_error error) {
    return output->error.kind == error.kind && output->error.number == error.number && output->error.place == error.place;
}

/* Whether an output is as it was, or both texts. */
static bool is_unset(const struct ima_verify_output *output) { return output->size == UNSET && is_error(output, unset); }
static bool is_left(void) { return is_filled(text, 0) && is_filled(checkpoint, 0); }

/* The numbers of a summary, after the first. */
#define SUM(...) (&(const struct ima_verify_summary){sizeof summary, __VA_ARGS__})
static bool is_sum(const struct ima_verify_summary *wanted) { return memcmp(&summary, wanted, sizeof summary) == 0; }
static const struct ima_verify_summary no_verdict = {sizeof summary, 0, 0, 0, 0, 0, NONE, 0, 0, 0, 0};

static bool has_no_checkpoint(int which) {
    return is_filled(checkpoint, 0) && (is_in(which, SESSIONS) ? next.size == 0 && is_error(&next, no_error) : is_unset(&next));
}

static bool has_text(const char *part) { return memmem(text, out.size, part, strlen(part)) != NULL; }
static bool is_same(const uint8_t *at, size_t size, struct ima_verify_bytes as) { return size == as.size && memcmp(at, as.data, size) == 0; }

/* Nothing was read or written. */
static void misused(int which, enum ima_verify_result of, const char *what) {
    result = of;
    bool is_summary_left = summary.verdict == UNSET && summary.unknown == UNSET;
    check(result == IMA_VERIFY_MISUSED && is_unset(&out) && is_unset(&next) && is_left() && is_summary_left, which, what);
}
static void misuse(unsigned set, const char *changes) {
    EACH(which, set) misused(which, ask_text(which, changes), changes);
}

static void check_inputs(int which) {
    for (int number = 0; number < INPUTS; number++) {
        struct given given = sample;
        if (!is_in(number, functions[which].inputs)) continue;
        given.in[number] = (struct ima_verify_bytes){NULL, 1};
        misused(which, ask(which, &given, TEXT, SPACE), "NULL as an input with a size");
        given.in[number] = none;
        enum ima_verify_result of_null = ask(which, &given, TEXT, SPACE);
        size_t size = out.size;
        check(result <= IMA_VERIFY_REFUSED, which, "NULL as an empty input");
        given.in[number] = ima_verify_text("");
        check(ask(which, &given, TEXT, SPACE) == of_null && out.size == size, which, "an empty input");
    }
}

static void check_wrong_calls(void) {
    volatile int no_form = 3;
    struct given given = sample;
    EACH(which, ALL) {
        check_inputs(which);
        if (!is_in(which, EVENTS_ALL | ONE(ERROR_TEXT)))
            misused(which, ask(which, &sample, (enum ima_verify_form)no_form, SPACE), "a form that is none");
    }
    given.origin = (enum ima_verify_origin)no_form;
    given.purpose = (enum ima_verify_purpose)no_form;
    EACH(which, ONE(REGISTERS) | ONE(READ_KEY)) misused(which, ask(which, &given, TEXT, SPACE), "an origin or a purpose that is none");
    misuse(ONE(LOCATE) | CONFIRMING, "checked");
    misuse(COMPARING | BY_A_QUOTE, "known@files");
    misuse(COMPARING | ATTESTING | ONE(ERROR_TEXT), "absent");
    misuse(BY_A_QUOTE, "nonce_hex=00");
    misuse(BY_A_QUOTE, "key@rsassa.pub signature@rsassa.sig");
    misuse(BY_A_QUOTE, "key@rsassa.pub");
    misuse(BY_A_QUOTE, "signature@rsassa.sig");
    misuse(BY_A_QUOTE, "key@rsassa.pub unsigned");
    misuse(BY_A_QUOTE, "signature@rsassa.sig unsigned");
    EACH(which, PIECES)
        for (size_t more = 1; more <= 2; more++) {
            given.position.offset = sample.in[which == ENTRIES ? LIST : LOG].size + more;
            misused(which, ask(which, &given, more == 1 ? TEXT : IMA_VERIFY_JSON, SPACE), "a position behind the input");
        }
    const struct ima_verify_error errors[] = {no_error, {99, 1, NONE}, {IMA_VERIFY_LOG, 99, NONE}};
    for (int i = 0; i < 3; i++) given.error = errors[i], misused(ERROR_TEXT, ask(ERROR_TEXT, &given, TEXT, SPACE), "no error");
}

/* An output is none, or has its capacity at NULL, or none at all. */
static void check_output(int which, struct ima_verify_output **pointer, struct ima_verify_output *output) {
    *pointer = NULL;
    misused(which, ask(which, &sample, TEXT, SPACE), "no output");
    *pointer = output;
    prepare(&sample, SPACE);
    output->data = NULL;
    misused(which, functions[which].call(&sample, TEXT), "an output with capacity at NULL");
    output->capacity = 0;
    result = functions[which].call(&sample, TEXT);
    check(result == IMA_VERIFY_TOO_SHORT && output->size > 0 && out.size > 0 && is_filled(text, 0), which, "no capacity at NULL");
}

static void check_wrong_outputs(void) {
    struct ima_verify_quoted quoted = quoted_of(&sample);
    const struct ima_verify_bytes log = sample.in[LOG], *expected = &sample.in[EXPECTED];
    EACH(which, ALL) check_output(which, &to, &out);
    EACH(which, SESSIONS) check_output(which, &to_next, &next);
    at = NULL;
    EACH(which, PIECES) misused(which, ask(which, &sample, TEXT, SPACE), "no position");
    at = &position;
    prepare(&sample, SPACE);
    misused(BOOT, ima_verify_boot(log, false, NULL, expected, &quoted, TEXT, to), "expected PCRs and a quote");
    misused(BOOT, ima_verify_boot(log, false, &(struct ima_verify_bytes){NULL, 1}, NULL, NULL, TEXT, to), "an earlier boot at NULL");
    misused(EVENTS, ima_verify_events(log, false, expected, &quoted, at, to), "expected PCRs and a quote");
}

/* A summary may be left out, be that of a newer header, or have less numbers. */
static void check_summaries(void) {
    struct { struct ima_verify_summary summary; uint64_t more[2]; } newer;
    EACH(which, JUDGING) {
        summed = NULL;
        enum ima_verify_result of = ask(which, &sample, TEXT, SPACE);
        check(result <= DIFFERS && summary.verdict == UNSET, which, "no summary");
        summed = &newer.summary;
        memset(&newer, FILL, sizeof newer);
        newer.summary.size = sizeof newer;
        ask(which, &sample, TEXT, SPACE);
        check(result == of && newer.summary.entries == 99 && newer.more[0] == 0 && newer.more[1] == 0, which, "a newer summary");
        newer.summary.size = 2 * sizeof newer.summary.size;
        newer.summary.reason = UNSET;
        ask(which, &sample, TEXT, SPACE);
        check(result == of && newer.summary.verdict == (of ? 2 : 1) && newer.summary.reason == UNSET, which, "one number");
        for (newer.summary.size = 0; newer.summary.size < 16; newer.summary.size += 15)
            misused(which, ask(which, &sample, TEXT, SPACE), "a size that no summary has");
        summed = &summary;
    }
}

/* With too little capacity nothing is written, and with what the call asks for there is enough. */
static void check_capacities(void) {
    for (int i = 0; i < FUNCTIONS * 2; i++) {
        int which = i / 2;
        enum ima_verify_form form = i % 2 ? IMA_VERIFY_JSON : TEXT;
        bool is_session = is_in(which, SESSIONS);
        ask(which, &sample, form, 0);
        size_t size = out.size, next_size = next.size;
        check(result == IMA_VERIFY_TOO_SHORT && is_left() && is_error(&out, no_error) && size > 0, which, "no capacity");
        check(position.offset == 0 && position.number == 0 && (!is_in(which, JUDGING) || is_sum(&no_verdict)), which, "what no capacity leaves");
        ask(which, &sample, form, size - 1);
        check(result == IMA_VERIFY_TOO_SHORT && is_left() && is_error(&out, no_error) && out.size == size, which, "a byte too few");
        if (is_session) {
            check(next_size > 0 && next_size < IMA_VERIFY_CHECKPOINT_CAPACITY && is_error(&next, no_error), which, "the size of a checkpoint");
            size = size > next_size ? size : next_size;
        }
        ask(which, &sample, form, size);
        check(result <= DIFFERS || result == IMA_VERIFY_MORE, which, "enough capacity");
        check(is_error(&out, no_error) && is_filled(text, out.size) && is_filled(checkpoint, is_session ? next.size : 0), which, "after the text");
    }
    for (int i = 0; i < 4; i++) {
        int which = i & 2 ? ATTEST_MORE : MORE;
        ask(which, &sample, TEXT, SPACE);
        size_t size = out.size, next_size = next.size;
        prepare(&sample, i & 1 ? SPACE : size - 1);
        next.capacity = i & 1 ? next_size - 1 : SPACE;
        result = functions[which].call(&sample, TEXT);
        check(result == IMA_VERIFY_TOO_SHORT && is_left() && out.size == size && next.size == next_size && is_sum(&no_verdict), which, "one of two");
    }
}

/* The error that a line says after `refused: `. */
static struct ima_verify_error error_in(const char *line) {
    static const char *const kinds[] = {"", "command", "log", "list", "replay", "expected", "checkpoint", "", "quote", "key", "known", "signature"};
    struct ima_verify_error error = no_error;
    unsigned long long place;
    char kind[SHOWN];
    if (sscanf(line, "%s fault %u at %*s %llu", kind, &error.number, &place) == 3) error.place = place;
    while (strcmp(kinds[error.kind], kind) != 0) error.kind++;
    return error;
}

/* Each of these functions refuses an input, with this line, in both forms, and sentences; there is neither a checkpoint nor a verdict. */
static void refuses(unsigned set, const char *changes, const char *line) {
    struct ima_verify_error error = error_in(line);
    struct given given = changed(changes);
    char whole[2 * SHOWN], place[SHOWN];
    snprintf(whole, sizeof whole, "refused: %s\n", line);
    EACH(which, set) {
        ask(which, &given, TEXT, SPACE);
        check(is_in(which, EVENTS_ALL) || is_same(text, out.size, ima_verify_text(whole)), which, line);
        check(result == IMA_VERIFY_REFUSED && is_error(&out, error), which, line);
        check(has_no_checkpoint(which) && (!is_in(which, JUDGING) || is_sum(&no_verdict)), which, "no checkpoint and no verdict");
        ask(which, &given, IMA_VERIFY_JSON, SPACE);
        check(result == IMA_VERIFY_REFUSED && is_error(&out, error) && has_text("{\"fault\":{") && has_text(line), which, "an error as JSON");
        size_t size = out.size;
        ask(which, &given, IMA_VERIFY_JSON, size - 1);
        check(result == IMA_VERIFY_TOO_SHORT && is_left() && out.size == size && is_error(&out, no_error), which, "a byte too few for an error");
        prepare(&given, SPACE);
        result = ima_verify_error_text(&error, to);
        snprintf(place, sizeof place, error.place == NONE ? "." : " %llu", (unsigned long long)error.place);
        check(result == DONE && is_error(&out, no_error) && out.size > 10 && text[out.size - 1] == '.' && has_text(place), which, "words");
    }
}

/* Each of these functions gives a text with these lines, or as JSON these members, and these numbers; a checkpoint only with a match. */
static void gives(unsigned set, const char *changes, enum ima_verify_result wanted, const char *lines, const char *members,
                  const struct ima_verify_summary *numbers) {
    struct given given = changed(changes);
    EACH(which, set)
        for (int form = 0; form < 2; form++) {
            ask(which, &given, form ? IMA_VERIFY_JSON : TEXT, SPACE);
            check(result == wanted && is_error(&out, no_error) && has_text(form || is_in(which, EVENTS_ALL) ? members : lines), which, changes);
            check(wanted == DONE || has_no_checkpoint(which), which, "no checkpoint");
            check(!numbers || is_sum(numbers), which, changes);
        }
}

static void check_refusals(void) {
    static const char *const unquoted[] = {"sha256:0-9", "sha256:1-10", "sha1:0-10", "sha256:0-9,sha1:10", "none", "", "sha256:0-24"};
    static const char *const no_digits[] = {"", "\n", "5a0f1", "5a0f1d3c7b2e48690123456789abcdefg0", "5a0f1d3c7b2e48690123456789abcdef\n\n",
                                            "_5a0f1d3c7b2e48690123456789abcdef", "5a0f1d3c7b2e48690123456789abcd", "0x5a0f1d3c7b2e48690123456789abcdef"};
    unsigned lists = COMPARING | BY_A_QUOTE, logs = (COMPARING & ~ONE(REPLAY)) | ATTESTING | ONE(REGISTERS) | BOOTS | EVENTS_ALL;
    refuses(COMPARING, "require=", "command line");
    refuses(COMPARING, "require=sha256:0-24", "command line");
    refuses(COMPARING, "require=sha256:0-9", "command line");
    refuses(ONE(READ_EXPECTED), "selection=x", "command line");
    refuses(COMPARING | ONE(BOOT_BY_PCRS) | ONE(EVENTS_BY_PCRS), "expected=sha256_24_00\n", "expected fault 1 at line 1");
    refuses(lists, "list-1", "list fault 1 at entry 98");
    refuses(lists, "list~4", "replay fault 1 at entry 0");
    refuses(logs, "log=none", "log fault 1 at event 0");
    refuses(logs, "log~32", "log fault 2"); /* (the signature of the header) */
    refuses(ONE(BOOT) | ONE(BOOT_BY_PCRS), "before=none", "log fault 1 at event 0");
    refuses(ONE(MORE), "state=x", "checkpoint fault 1");
    for (size_t i = 0; i < COUNT(unquoted); i++) refuses(BY_A_QUOTE, with("require=", unquoted[i]), "command line");
    for (size_t i = 0; i < COUNT(no_digits); i++) refuses(BY_A_QUOTE, with("nonce= nonce_hex=", no_digits[i]), "command line");
    refuses(BY_A_QUOTE, "nonce:15", "command line");
    refuses(BY_A_QUOTE, "nonce:16", "quote fault 11");
    refuses(BY_A_QUOTE, "nonce~0", "quote fault 11");
    refuses(BY_A_QUOTE, "nonce= nonce_hex=5a0f1d3c7b2e48690123456789abcdef", "quote fault 11");
    refuses(BY_A_QUOTE, "require=sha256:0-11", "quote fault 12");
    refuses(BY_A_QUOTE, "require=sha1:0-10 sha1", "quote fault 12");
    refuses(BY_A_QUOTE, "message@log", "quote fault 2");
    for (size_t size = 0; size < sample.in[MESSAGE].size; size++) refuses(ONE(ATTEST), sized("message:", size), "quote fault 1");
    /* (the message is refused before the log, and the log before the list) */
    refuses(BY_A_QUOTE, "log=none list-1", "log fault 1 at event 0");
    refuses(ATTESTING, "log=none list-1 message=", "quote fault 1");
    /* (known files are refused after the other inputs that are not the log and the list, and before these) */
    refuses(JUDGING, "checked known=x log=none", "known fault 2 at line 1");
    refuses(JUDGING, "checked known@files known+weak log=none", "known fault 1 at line 94");
    refuses(JUDGING, "checked known@files known+weak log=none require=none", "command line");
    refuses(SESSIONS, "checked known=x state=x", "checkpoint fault 1");
    refuses(JUDGING & ~ATTESTING, "checked known=x state=x expected=sha256_24_00\n", "expected fault 1 at line 1");
    refuses(ATTESTING, "checked known=x state=x message=", "quote fault 1");
}

/* By expected PCRs. After the list alone the PCRs 8 and 10 to 23 have their values, which neither firmware nor kernel extends, or the list does. */
static void check_verdicts(void) {
    const uint64_t SHA256 = IMA_VERIFY_BANK_SHA256, SHA512 = IMA_VERIFY_BANK_SHA512;
    const char *match = "\nverdict match\n", *differ = "\nverdict differ\n", *place = "sha256 10 after entry 98\n";
    const char *match_json = ",\"verdict\":\"match\"}\n", *differ_json = ",\"verdict\":\"differ\"}\n", *place_json = "\"number\":98}";
    gives(WHOLE, "", DONE, match, match_json, SUM(1, 0, 24, 24, 0, NONE, 0, 99, 99, 0));
    gives(ONE(REPLAY), "", DIFFERS, differ, differ_json, SUM(2, 2, 24, 15, SHA256, 0, 0, 99, 99, 0));
    gives(ONE(LOCATE), "", DONE, place, place_json, NULL);
    gives(ONE(REGISTERS), "", DONE, "sha256 9 fa3fce78", "\"register\":9,\"value\":\"fa3fce78", NULL);
    gives(ONE(REGISTERS), "of_list", DONE, "sha256 10 e8ed95b9", "\"register\":10,\"value\":\"e8ed95b9", NULL);
    gives(ONE(READ_EXPECTED), "", DONE, "sha256 10 e8ed95b9", "\"register\":10,\"value\":\"e8ed95b9", NULL);
    gives(WHOLE, "require=sha1:0-23,sha256:0-23,sha384:0-23,sha512:0-23", DIFFERS, "\nsha512 23 missing\n", differ_json, NULL);
    gives(WHOLE, "require=none", DONE, match, match_json, SUM(1, 0, 24, 24, 0, NONE, 0, 99, 99, 0));
    gives(ONE(LOCATE), "require=none", DONE, place, place_json, NULL);
    gives(WHOLE, "require=sha512:10", DIFFERS, "\nsha512 10 missing\n", differ_json, SUM(2, 3, 24, 24, SHA512, 10, 1, 99, 99, 0));
    gives(ONE(LOCATE) | ONE(REPLAY), "require=sha512:10", DIFFERS, "sha512 10 missing\n", "\"sha512\"", NULL);
    gives(WHOLE | ONE(REPLAY), "require=none expected=", DIFFERS, differ, ",\"compared\":0,", SUM(2, 8, 0, 0, 0, NONE, 0, 99, 99, 0));
    gives(ONE(LOCATE), "require=none expected=", DIFFERS, "", "\"located\":false", NULL);
    gives(WHOLE, "list= require=none expected@first", DIFFERS, differ, differ_json, SUM(2, 5, 1, 1, 0, NONE, 0, 0, 0, 0));
    /* (entry 98 of 100 extends PCR 11, which counts only with a requirement, and never for `locate`; and an event extends PCR 10) */
    gives(COMPARING, "list@strayed expected@tenth require=none", DONE, "sha256 10 ", "\"register\":10", NULL);
    gives(ONE(MORE), "list@strayed expected@tenth require=none prefix", DONE, match, match_json, SUM(1, 0, 1, 1, 0, NONE, 0, 100, 100, 0));
    gives(ONE(LOCATE), "list@strayed expected@tenth require=sha256:10", DONE, "sha256 10 after entry 99\n", "\"number\":99}", NULL);
    gives(WHOLE | ONE(REPLAY), "list@strayed expected@tenth require=sha256:10", DIFFERS, "\nentry 98 extends 11\n", "\"entry\":98,",
          SUM(2, 6, 1, 1, 0, NONE, 0, 100, 100, 0));
    gives(ONE(MORE), "list@strayed expected@tenth require=sha256:10 prefix", DIFFERS, "\nentry 98 extends 11\n", "\"entry\":98,", NULL);
    gives(ONE(VERDICT), "log@log10", DIFFERS, "\nevent 25 extends 10\n", "\"event\":25,", NULL);
    /* (98 entries follow the boot aggregate, of which the violations 93, 94 and 97 are of no known file) */
    const char *unknown = "\nknown_from 0\nunknown entry 93\nunknown entry 94\nunknown entry 97\n", *json = ",\"known_from\":0,\"unknown\":[93,94,97],";
    gives(WHOLE, "checked known@files", DIFFERS, unknown, json, SUM(2, 7, 24, 24, 0, NONE, 0, 99, 99, 3));
    gives(ONE(REPLAY), "checked known@files", DIFFERS, unknown, json, SUM(2, 2, 24, 15, SHA256, 0, 0, 99, 99, 3));
    gives(ATTESTING, "checked known@files", DIFFERS, unknown, json, SUM(2, 7, 11, 11, 0, NONE, 0, 99, 99, 3));
    gives(JUDGING, "checked", DIFFERS, "\nknown_from 0\nunknown entry 1\nunknown entry 2\n", "\"known_from\":0,\"unknown\":[1,2,3,4,", NULL);
    EACH(which, JUDGING) check(ask_text(which, "") <= DIFFERS && !has_text("known"), which, "no known files");
}

/* A match with this checkpoint, which is kept if it is the first by its name. */
static void continues(int which, const char *changes, const char *name) {
    ask_text(which, changes);
    if (access(name, F_OK) != 0) keep(name, checkpoint, next.size);
    check(result == DONE && next.size > 0 && is_same(checkpoint, next.size, kept(name)) && has_text("\nverdict match\n"), which, changes);
}

/* A match of the entries before the first violation, and the entries after them, from its checkpoint on. */
static void check_known_prefix(void) {
    continues(MORE, "checked known@files expected@earlier prefix", "by_prefix");
    const uint8_t *bytes = memmem(checkpoint, next.size, "\nbytes ", 7);
    size_t covered = bytes ? strtoul((const char *)bytes + 7, NULL, 10) : 0, size = sample.in[LIST].size;
    check(0 < covered && covered < size && has_text("\nconfirmed 93 of 99 entries\n"), MORE, "the bytes of a checkpoint");
    keep("rest", sample.in[LIST].data + covered, size - covered);
    gives(ONE(MORE), "checked known@files expected@earlier prefix", DONE, "\nknown_from 0\nverdict match\n", "\"known_from\":0,\"unknown\":[]",
          SUM(1, 0, 11, 11, 0, NONE, 0, 99, 93, 0));
    gives(ONE(MORE), "checked known@files state@by_prefix list@rest", DIFFERS,
          "\nknown_from 93\nunknown entry 93\nunknown entry 94\nunknown entry 97\nverdict differ\n", ",\"known_from\":93,\"unknown\":[93,94,97],", NULL);
}

/* The verdict by a quote whose signature the caller checked, and that there is none without its signature; and that it confirms only if it matches. */
static void quotes(const char *changes, const struct ima_verify_summary *numbers) {
    bool is_match = numbers->verdict == IMA_VERIFY_VERDICT_MATCH, is_quoted = numbers->matching > 0;
    char lines[3 * SHOWN], members[3 * SHOWN], unsigned_one[WORDS];
    struct ima_verify_summary unchecked = *numbers;
    unchecked.verdict = IMA_VERIFY_VERDICT_NONE;
    unchecked.reason = IMA_VERIFY_REASON_SIGNATURE;
    const char *quote = is_quoted ? "match" : "differ", *verdict = is_match ? "match" : "differ";
    snprintf(lines, sizeof lines, "\nquote %s\nverdict %s\n", quote, verdict);
    snprintf(members, sizeof members, ",\"quote\":\"%s\",\"signature\":\"checked\",\"verdict\":\"%s\"}\n", quote, verdict);
    gives(ATTESTING, changes, is_match ? DONE : DIFFERS, lines, members, numbers);
    gives(CONFIRMING, changes, is_match ? DONE : DIFFERS, "secure_boot ", "", NULL);
    snprintf(unsigned_one, sizeof unsigned_one, "%s unsigned", changes);
    snprintf(lines, sizeof lines, "\nquote %s\nsignature not checked\n", is_quoted ? "match" : "differ");
    gives(ATTESTING, unsigned_one, DIFFERS, lines, "\"signature\":\"not checked\",\"verdict\":\"signature not checked\"}\n", &unchecked);
    check(!has_text("\"verdict\":\"match\""), ATTEST, unsigned_one);
    gives(CONFIRMING, unsigned_one, DIFFERS, "secure_boot unknown\n", "", NULL);
}

/* The sample's quote is of its log and its list, and of no other ones. */
static void check_quotes(void) {
    const struct ima_verify_summary *match = SUM(1, 0, 11, 11, 0, NONE, 0, 99, 99, 0), *differ = SUM(2, 4, 11, 0, 0, NONE, 0, 99, 99, 0);
    quotes("", match);
    gives(ATTESTING, "", DONE, "quoted sha256 0 1 2 3 4 5 6 7 8 9 10\nsigner 000b", "{\"quoted\":[", match);
    gives(ATTESTING, "", DONE, "\nevents 24 locality 0\nentries 99\nboot_aggregate good\n", ",\"entries\":99,", match);
    quotes("sha1", match);
    quotes("nonce= nonce_hex=5a0f1d3c7b2e48690123456789abcdef00112233", match);
    quotes("nonce= nonce_hex=5A0F1D3C7B2E48690123456789abcdef00112233\n", match);
    quotes("list-95", SUM(2, 4, 11, 0, 0, NONE, 0, 98, 98, 0));
    quotes("list+last", SUM(2, 4, 11, 0, 0, NONE, 0, 100, 100, 0));
    quotes("list@strayed", SUM(2, 6, 11, 11, 0, NONE, 0, 100, 100, 0));
    gives(ATTESTING, "list@strayed", DIFFERS, "\nentry 98 extends 11\nquote match\n", "\"entry\":98,", NULL);
    quotes("log@log9", differ);
    quotes("log@log10", differ);
    quotes("message@other_message", differ);
    /* (a boot with banks of all algorithms, whose checkpoint, which attest does not give, is about as long as one can be) */
    ask_text(ATTEST_MORE, "log@banks_log list@banks_list message@banks_message");
    check(result == DONE && next.size > LONG && next.size < IMA_VERIFY_CHECKPOINT_CAPACITY, ATTEST_MORE, "banks of all algorithms");
    quotes("log@banks_log list@banks_list message@banks_message", SUM(1, 0, 11, 11, 0, NONE, 0, summary.entries, summary.entries, 0));
}

/* Sessions by a quote continue from what a quote confirmed, in its boot, and from nothing else. */
static void check_sessions(void) {
    continues(ATTEST_MORE, "", "by_quote");
    struct ima_verify_bytes report = joined((struct ima_verify_bytes){text, out.size}, none);
    ask_text(ATTEST, "");
    check(is_same(text, out.size, report), ATTEST, "as attest_more without a checkpoint");
    continues(ATTEST_MORE, "state@by_quote list=", "by_quote");
    continues(ATTEST_MORE, "state@by_quote list@last prefix", "by_quote");
    check(has_text("\nconfirmed 99 of 100 entries\n"), ATTEST_MORE, "an entry that is not quoted");
    continues(ATTEST_MORE, "list+last prefix", "by_quote");
    gives(ONE(ATTEST_MORE), "state@by_quote list@last", DIFFERS, "\nentries 100\n", "\"entries\":100,", NULL);
    /* (expected PCRs tell no boot) */
    continues(MORE, "", "by_pcrs");
    continues(MORE, "state@by_quote list=", "by_pcrs");
    refuses(ONE(ATTEST_MORE), "state@by_pcrs list=", "checkpoint fault 4");
    /* (the message has the clock's eight bytes and then the counts, after the header, the signer and the nonce) */
    size_t clock = 6 + 2 + (size_t)sample.in[MESSAGE].data[7] + 2 + sample.in[NONCE].size;
    refuses(ONE(ATTEST_MORE), sized("state@by_quote message~", clock + 8 + 3), "checkpoint fault 4");
    refuses(ONE(ATTEST_MORE), sized("state@by_quote message~", clock + 12 + 3), "checkpoint fault 4");
    refuses(ONE(ATTEST_MORE), "state@by_quote log@log9", "checkpoint fault 3");
    refuses(ONE(ATTEST_MORE), "state@by_quote state-1 log@log9", "checkpoint fault 1");
    refuses(ONE(ATTEST_MORE), "state@by_quote state-1 message=", "quote fault 1");
    /* (a key and a signature count as the caller's word) */
    continues(ATTEST_MORE, "message@p256.msg", "by_p256");
    continues(ATTEST_MORE, signed_by("p256", "pem", "tpmt", ""), "by_p256");
    continues(ATTEST_MORE, signed_by("p256", "pem", "tpmt", "state@by_p256 list="), "by_p256");
}

/* A signature by a key of each kind is valid, by the key's area and its PEM, in both forms; the verdict is that on log and list. */
static void check_signatures(void) {
    static const char *const keys[] = {"pub", "pem"}, *const ends[] = {"sig", "tpmt"};
    for (size_t i = 0; i < COUNT(signers) * 4; i++) {
        const char *name = signers[i / 4], *key = keys[i % 2], *end = ends[i / 2 % 2], *by = signed_by(name, key, end, "");
        gives(ATTESTING, by, DONE, "\nquote match\nsignature valid\nverdict match\n", "\"signature\":\"valid\",\"verdict\":\"match\"}\n",
              SUM(1, 0, 11, 11, 0, NONE, 0, 99, 99, 0));
        check(!has_text("checked"), ATTEST_MORE, "no word of the caller");
        gives(ONE(BOOT_BY_QUOTE), by, DONE, "secure_boot off\n", "\"secure_boot\":\"off\"", NULL);
        gives(ONE(EVENTS_BY_QUOTE), by, DONE, "", "\"confirmed\":\"data\"", NULL);
        gives(ATTESTING, signed_by(name, key, end, "list-95"), DIFFERS, "\nquote differ\nsignature valid\nverdict differ\n",
              "\"differ\",\"signature\":\"valid\",\"verdict\":\"differ\"}\n", SUM(2, 4, 11, 0, 0, NONE, 0, 98, 98, 0));
    }
}

/* A signature is refused by each number of its errors. */
static void check_refused_signatures(void) {
    for (size_t i = 0; i < COUNT(signers); i++) {
        refuses(ATTESTING, signed_by(signers[i], "pub", "tpmt", "signature~-1"), "signature fault 7");
        refuses(ATTESTING, signed_by(signers[i], "pub", "sig", "message~-1"), "signature fault 7");
        refuses(ATTESTING, signed_by(signers[i], "pem", "sig", "signature~-1"), "signature fault 7");
        refuses(ATTESTING, signed_by(signers[i], "pub", "sig", i == 1 ? "signature@rsassa.tpmt" : "signature@rsapss.tpmt"), "signature fault 5");
    }
    for (size_t size = 1; size < kept("rsassa.tpmt").size; size += size == 255 ? 2 : 1) /* (with 256 bytes it is a plain one) */
        refuses(ATTESTING, signed_by("rsassa", "pem", "tpmt", sized("signature:", size)), "signature fault 1");
    for (size_t size = 10; size < kept("rsassa.pem").size; size++)
        refuses(ATTESTING, signed_by("rsassa", "pem", "sig", sized("key:", size)), "signature fault 9");
    refuses(ATTESTING, signed_by("rsassa", "pem", "tpmt", "signature+x"), "signature fault 4");
    refuses(ATTESTING, signed_by("p384", "pub", "tpmt", "key@p256.pub"), "signature fault 6");
    refuses(ATTESTING, signed_by("p521", "pub", "tpmt", ""), "signature fault 8");
    refuses(ATTESTING, signed_by("p521", "pem", "tpmt", ""), "signature fault 9");
    /* (the key's area must lack nothing; it is refused before the signature, this before the message, and the message before log and list) */
    static const char *const order[][2] = {{"key~7 key-1 require=sha256:0-9", "command line"}, {"key~7 key-1 signature=x message=", "key fault 1"},
                                           {"key~7 signature=x message=", "key fault 15"},     {"signature=x message=", "signature fault 1"},
                                           {"message=", "signature fault 7"},                  {"nonce-1", "quote fault 11"},
                                           {"", "checkpoint fault 1"},                         {"state=", "log fault 1 at event 0"}};
    for (size_t i = 0; i < COUNT(order); i++)
        refuses(ONE(ATTEST_MORE), signed_by("rsassa", "pub", "sig", with("log= list= state=x ", order[i][0])), order[i][1]);
}

/* The function that the library exports reads and writes nothing, and tells of no text. */
static void check_misused_raw(void) {
    static const char *const wrong[] = {"unsigned key@rsassa.pub", "unsigned signature@rsassa.sig", "key@rsassa.pub signature@rsassa.sig", "nonce_hex=00"};
#define IN(number) ima_verify_data(given.in[number]), given.in[number].size
    for (int i = 0; i < 4; i++) {
        struct given given = changed(wrong[i]);
        struct ima_verify_info info = {UNSET, UNSET, UNSET, UNSET};
        size_t next_size = UNSET;
        prepare(&given, SPACE);
        result = (enum ima_verify_result)ima_verify_raw_attest(
            IN(LOG), false, false, IN(STATE), IN(LIST), IN(MESSAGE), IN(KEY), IN(SIGNATURE), IN(NONCE), IN(NONCE_HEX), IN(REQUIRE), IN(KNOWN), false,
            false, given.signature_checked, false, false, &summary.size, sizeof summary / 8, checkpoint, SPACE, &next_size, text, SPACE, &info);
        bool is_set = info.size == 0 && info.error_kind == IMA_VERIFY_NO_ERROR && info.error_number == 0 && info.error_place == NONE;
        check(result == IMA_VERIFY_MISUSED && is_set && next_size == 0 && is_left() && summary.verdict == UNSET, ATTEST, wrong[i]);
    }
}

/* The text of a key has its name, type, size, scheme and PEM, and JSON the same as members. A key is refused if its area is cut or longer, if it lacks
 * an attribute (after the size, the type and the hash of the name, the last byte of the attributes has the bits 0 to 7), or for another purpose. */
static void check_keys(void) {
    static const char second[] = "\nkey rsa 2048\nscheme rsassa sha256\n";
    static const char *const refused[][2] = {{"area~9^2", "key fault 12"}, {"area~9^16", "key fault 13"}, {"area~9^32", "key fault 14"},
                                             {"area~7^1", "key fault 15"}, {"area~7^4", "key fault 17"},  {"area~7^2", "key fault 18"},
                                             {"area~3^32", "key fault 2"}, {"area+x", "key fault 10"},    {"endorsement", "key fault 21"}};
    enum { NAME = 5, HEX = 2 * (2 + 32) };
    char member[HEX + 80];
    size_t size = NAME + HEX + strlen(second);
    ask_text(READ_KEY, "");
    check(result == DONE && has_text("name 000b") && is_same(text + size, out.size - size, kept("pem")), READ_KEY, "the name and the PEM");
    snprintf(member, sizeof member, "{\"name\":\"%.*s\",\"type\":\"rsa\",\"bits\":2048,\"scheme\":\"rsassa\",\"hash\":\"sha256\",\"pem\":\"", HEX,
             (char *)text + NAME);
    gives(ONE(READ_KEY), "", DONE, second, member, NULL);
    gives(ONE(READ_KEY), "", DONE, "-----END PUBLIC KEY-----\n", "-----END PUBLIC KEY-----\\n\"}\n", NULL);
    for (size_t i = 0; i < COUNT(refused); i++) refuses(ONE(READ_KEY), refused[i][0], refused[i][1]);
    for (size = 0; size < sample.in[AREA].size; size++) refuses(ONE(READ_KEY), sized("area:", size), "key fault 1");
}

/* What was booted, and which data of an event is confirmed, by expected PCRs, by a quote that matches, and by nothing. */
static void check_boots(void) {
    enum { PCRS = ONE(BOOT_BY_PCRS), QUOTE = ONE(BOOT_BY_QUOTE) };
    static const char off[] = "secure_boot off\nfirmware_version {\"text\":\"\"}\nimage 10 sha256 7302", off_json[] = "{\"secure_boot\":\"off\"}\n";
    static const char unknown[] = "secure_boot unknown\nfirmware_version unknown\nimage unknown\n", unknown_json[] = "{\"secure_boot\":\"unknown\"}\n";
    static const char claims[] = "claimed all\nclaimed 1 firmware_version {\"text\":\"\"}\nclaimed 4 secure_boot off\n", claims_json[] = "{\"claimed\":\"all\"}\n";
    static const char event[] = "\"measured\":{\"sha256\":\"data\"},\"content\":{\"text\":\"\"}}\n";
    static const char confirmed[] = "\"measured\":{\"sha256\":\"data\"},\"confirmed\":\"data\",\"content\":{\"text\":\"\"}}\n";
    gives(PCRS | QUOTE, "", DONE, off, off_json, NULL);
    check(!has_text("alike"), BOOT_BY_QUOTE, "no earlier boot");
    gives(ONE(BOOT), "", DONE, claims, claims_json, NULL);
    gives(PCRS, "expected=", DONE, unknown, unknown_json, NULL);
    gives(QUOTE, "unsigned", DIFFERS, unknown, unknown_json, NULL);
    gives(QUOTE, "list-95", DIFFERS, unknown, unknown_json, NULL);
    gives(PCRS | QUOTE, "before@log", DONE, "\nregister 0 (platform-code) alike all\nregister 1 (",
          "\"register_name\":\"platform-code\",\"alike\":\"all\"}\n", NULL);
    gives(ONE(BOOT), "before@log", DONE, "\nregister 0 (platform-code) alike unknown\n", "\"alike\":\"unknown\"}\n", NULL);
    gives(ONE(EVENTS_BY_PCRS) | ONE(EVENTS_BY_QUOTE), "", DONE, confirmed, confirmed, NULL);
    gives(ONE(EVENTS), "", DONE, event, event, NULL);
    check(!has_text("confirmed"), EVENTS, "by nothing");
    gives(ONE(EVENTS_BY_QUOTE), "unsigned", DIFFERS, "", "\"confirmed\":\"none\"", NULL);
    check(!has_text("\"confirmed\":\"data\""), EVENTS_BY_QUOTE, "without a signature");
}

/* The event of an H-CRTM tells where PCR 0 began, if that is asked for: the answers are those to a log that tells it. */
static void check_hcrtm(void) {
    enum { REPLAYING = (COMPARING & ~ONE(REPLAY)) | ATTESTING | ONE(REGISTERS) | BOOTS };
    EACH(which, REPLAYING) {
        enum ima_verify_result of = ask_text(which, "log@told_log expected@told_pcrs");
        struct ima_verify_bytes told = joined((struct ima_verify_bytes){text, out.size}, none);
        check(ask_text(which, "log@hcrtm_log expected@told_pcrs hcrtm") == of && is_same(text, out.size, told), which, "an H-CRTM");
        ask_text(which, "");
        struct ima_verify_bytes plain = joined((struct ima_verify_bytes){text, out.size}, none);
        check(ask_text(which, "hcrtm") <= DIFFERS && is_same(text, out.size, plain), which, "a log without the event");
    }
    gives(WHOLE, "log@hcrtm_log expected@told_pcrs hcrtm", DIFFERS, "\nsha256 0 match\n", "\"state\":\"match\"", NULL);
    gives(WHOLE, "log@hcrtm_log expected@told_pcrs", DIFFERS, "\nsha256 0 differ ", "\"state\":\"differ\"", NULL);
    gives(ONE(EVENTS_BY_PCRS), "log@hcrtm_log expected@told_pcrs hcrtm", DONE, "", "\"confirmed\":\"data\"", NULL);
    gives(ONE(EVENTS_BY_PCRS), "log@hcrtm_log expected@told_pcrs", DONE, "", "\"confirmed\":\"none\"", NULL);
    check(!has_text("\"confirmed\":\"data\""), EVENTS_BY_PCRS, "an H-CRTM that nobody asked for");
}

/* The boot aggregate of a kernel before 5.8 is taken, if that is asked for: by PCRs, where some are required, and by a quote. */
static void check_old_kernel(void) {
    enum { BY_A_BOOT = ONE(BOOT_BY_QUOTE) | ONE(EVENTS_BY_QUOTE) };
    const char *older = "list@older_list expected@older_pcrs message@older_message require=sha256:0-10 older";
    const char *plain = "list@older_list expected@older_pcrs message@older_message require=sha256:0-10";
    gives(WHOLE | ATTESTING, older, DONE, "\nboot_aggregate old_kernel\n", "\"boot_aggregate\":\"old_kernel\"", NULL);
    gives(WHOLE | ATTESTING, plain, DIFFERS, "\nboot_aggregate wrong\n", "\"boot_aggregate\":\"wrong\"", NULL);
    EACH(which, BY_A_BOOT) {
        check(ask_text(which, older) == DONE, which, "an older kernel");
        check(ask_text(which, plain) == DIFFERS, which, "an older kernel that nobody asked for");
    }
    gives(WHOLE, "list@older_list expected@older_pcrs require=none older", DIFFERS, "\nboot_aggregate wrong\n", "\"boot_aggregate\":\"wrong\"", NULL);
    EACH(which, WHOLE | ATTESTING) {
        ask_text(which, "");
        struct ima_verify_bytes wanted = joined((struct ima_verify_bytes){text, out.size}, none);
        check(ask_text(which, "older") == DONE && is_same(text, out.size, wanted), which, "a newer kernel");
    }
}

/* A conversion gives these bytes, and reports this padding; with too little capacity it writes nothing. */
static void converts(enum ima_verify_conversion conversion, const char *from, const char *into, size_t wanted_padding) {
    struct ima_verify_bytes wanted = kept(into);
    for (size_t lack = 0; lack < 2; lack++) {
        size_t padding = UNSET;
        prepare(&sample, wanted.size - lack);
        result = ima_verify_convert(kept(from), conversion, &padding, to);
        check(out.size == wanted.size && is_error(&out, no_error) && is_filled(text, lack ? 0 : wanted.size), VERDICT, from);
        check(lack ? result == IMA_VERIFY_TOO_SHORT : result == DONE && is_same(text, out.size, wanted) && padding == wanted_padding, VERDICT, from);
    }
    prepare(&sample, SPACE);
    check((result = ima_verify_convert(kept(from), conversion, NULL, to)) == DONE && is_same(text, out.size, wanted), VERDICT, "no padding asked for");
}
static void refuses_to_convert(enum ima_verify_conversion conversion, struct ima_verify_bytes bytes, const char *line, struct ima_verify_error error) {
    size_t padding = UNSET;
    prepare(&sample, SPACE);
    result = ima_verify_convert(bytes, conversion, &padding, to);
    check(result == IMA_VERIFY_REFUSED && is_error(&out, error) && has_text(line) && padding == 0, VERDICT, line);
    check(ima_verify_error_text(&error, to) == DONE && text[out.size - 1] == '.', VERDICT, line);
}

static void check_conversions(void) {
    const enum ima_verify_conversion of_list = IMA_VERIFY_CONVERT_LIST, of_log = IMA_VERIFY_CONVERT_LOG;
    volatile int none_of_these = 3;
    converts(of_list, "ascii", "list", 0);
    converts(of_log, "log", "log", 0);
    converts(of_log, "padded_log", "log", 5);
    converts(of_log, "sha1_log", "from_sha1_log", 0);
    refuses_to_convert(of_list, kept("x"), "refused: text list fault 1 at line 1\n", (struct ima_verify_error){IMA_VERIFY_TEXT_LIST, 1, 1});
    refuses_to_convert(of_list, turned(kept("ascii"), 4, 1), "refused: text list fault 3 at line 1\n", (struct ima_verify_error){IMA_VERIFY_TEXT_LIST, 3, 1});
    refuses_to_convert(of_log, kept("x"), "refused: log form fault 1 at event 0\n", (struct ima_verify_error){IMA_VERIFY_LOG_FORM, 1, 0});
    refuses_to_convert(of_log, kept("list"), "refused: log form fault 13\n", (struct ima_verify_error){IMA_VERIFY_LOG_FORM, 13, NONE});
    prepare(&sample, SPACE);
    misused(VERDICT, ima_verify_convert(sample.in[LOG], (enum ima_verify_conversion)none_of_these, NULL, to), "a conversion that is none");
    misused(VERDICT, ima_verify_convert((struct ima_verify_bytes){NULL, 1}, of_log, NULL, to), "NULL to convert");
    misused(VERDICT, ima_verify_convert(sample.in[LOG], of_log, NULL, NULL), "no output");
}

/* Lines one by one, and all at once; and there is nothing after the last. */
static void check_pieces(void) {
    static uint8_t whole[SPACE];
    for (int i = ENTRIES * 2; i < FUNCTIONS * 2; i++) {
        int which = i / 2;
        enum ima_verify_form form = i % 2 ? IMA_VERIFY_JSON : TEXT;
        struct given given = sample;
        /* (as JSON the position after the number of entries is one further than the list) */
        size_t size = 0, end = which == ENTRIES ? sample.in[LIST].size + (size_t)(i % 2) : sample.in[LOG].size;
        ask(which, &sample, form, SPACE);
        size_t whole_size = out.size;
        memcpy(whole, text, whole_size);
        check(result == DONE && position.offset == end, which, "all at once");
        bool is_next = true;
        do {
            ask(which, &given, form, 0);
            size_t line = out.size;
            ask(which, &given, form, line);
            is_next = (result == DONE || result == IMA_VERIFY_MORE) && position.offset > given.position.offset
                      && out.size == line && size + line <= whole_size && memcmp(whole + size, text, line) == 0;
            check(is_next, which, "the next line");
            given.position = position;
            size += line;
        } while (is_next && result == IMA_VERIFY_MORE);
        check(result == DONE && size == whole_size && position.offset == end, which, "line by line");
        ask(which, &given, form, SPACE);
        check(result == DONE && out.size == 0 && position.offset == end, which, "nothing after the last line");
    }
}

/* Runs the checks in a thread with the stack of the header: if a call took more, the program would end. */
static void *run(void *nothing) {
    static void (*const checks[])(void) = {
        check_wrong_calls, check_wrong_outputs, check_summaries, check_capacities, check_refusals, check_verdicts, check_known_prefix, check_quotes,
        check_sessions, check_signatures, check_refused_signatures, check_misused_raw, check_keys, check_boots, check_hcrtm, check_old_kernel,
        check_conversions, check_pieces};
    check(ima_verify_version() >= IMA_VERIFY_VERSION, VERDICT, "a version older than the header");
    for (size_t i = 0; i < COUNT(checks); i++) checks[i]();
    return nothing;
}

int main(int count, char **names) {
    pthread_attr_t attributes;
    pthread_t thread;
    if (count != 2 || chdir(names[1]) != 0) return 2;
    for (int i = 0; i <= AREA; i++) sample.in[i] = kept(input_names[i]);
    sample.in[REQUIRE] = ima_verify_text("sha256:0-10");
    sample.in[SELECTION] = ima_verify_text("0-10");
    sample.error = (struct ima_verify_error){IMA_VERIFY_QUOTE, 11, NONE};
    sample.signature_checked = true;
    pthread_attr_init(&attributes);
    pthread_attr_setguardsize(&attributes, GUARD);
    if (pthread_attr_setstacksize(&attributes, STACK) != 0 || pthread_create(&thread, &attributes, run, NULL) != 0) return 2;
    pthread_join(thread, NULL);
    printf("%ld passed, %ld failed\n", passed, failed);
    return failed != 0;
}

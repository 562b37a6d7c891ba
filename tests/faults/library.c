/* Calls one function of the verifier's library again and again, with another of its allocations refused each time.
 *
 *     library FUNCTION RESULT TEXT ROOM NEXT NEXT_ROOM INPUT..
 *
 * FUNCTION is the name of a function without ima_verify_. After it can stand :json for that form, :prefix if the confirmed prefix is asked
 * for, :list for the registers of a list, :signed if a quote's signature was checked, :by_key if it is given with a key, :known for known files,
 * :endorsement for a key of that purpose, :before for the log of an earlier boot, and :expected or :quote for what confirms a boot or events.
 * INPUT are its files, and ROOM is the size of its buffer. RESULT and the file TEXT are the answer that it has with ample memory, and the file
 * NEXT is the checkpoint that it gives in a buffer of NEXT_ROOM bytes; a function that gives none has no such buffer. In the Nth turn the Nth
 * allocation is refused, until a turn ends with none refused. Each turn calls twice: the call whose allocation is refused has the answer, or says
 * that memory ran out, and then leaves the checkpoint's buffer as it was; the next one has the answer. The error that a call tells must be that
 * of its text, and the verdict of its summary that of its result.
 *
 * Of entries and events a turn calls until the last line has come: by pieces for which there is ROOM, or, if that is too short for a line,
 * by single lines. What comes must be TEXT, also where a call in between says that memory ran out.
 *
 * Prints how many allocations were refused; or what is wrong, with status 1. tests/faults/library.py builds and runs it. */
#define _POSIX_C_SOURCE 200809L
#include "ima_verify.h"

#include <fcntl.h>
#include <stdarg.h>
#include <stdbool.h>
#include <stdio.h>
#include <stdlib.h>
#include <string.h>
#include <sys/mman.h>
#include <sys/stat.h>
#include <unistd.h>

enum { MOST_BLOCKS = 1 << 16, MOST_TURNS = 100000, MOST_INPUTS = 9, MARGIN = 64, FREED = 0xdd, UNUSED = 0xa7, LINE = 256 };

struct answer {
    enum ima_verify_result result;
    struct ima_verify_bytes text, next;
};

/* A buffer with a margin at both ends, as the output of a call. */
struct room {
    uint8_t *buffer;
    struct ima_verify_output output;
};

/* A block that the library was given. Given back, it is filled with FREED, and stays here until the call has ended. */
struct block {
    uint8_t *at;
    size_t size;
    int is_held;
};

/* What an allocation function returns: whether there is memory, and where. */
struct tried {
    uint8_t is_there;
    void *at;
};

static struct block blocks[MOST_BLOCKS];
static size_t block_count, held_count, held_bytes;
static long refused, allocations;
static uint8_t nothing;

static void fail(const char *form, ...) {
    va_list parts;
    va_start(parts, form);
    vprintf(form, parts);
    va_end(parts);
    printf(" (allocation %ld of the call is refused)\n", refused);
    exit(1);
}

static int is_filled(const uint8_t *at, size_t size, int with) {
    for (size_t i = 0; i < size; i++)
        if (at[i] != with)
            return 0;
    return 1;
}

/* The block that begins here and that the library holds. */
static struct block *held(const void *at) {
    for (size_t i = block_count; i > 0; i--) {
        struct block *block = &blocks[i - 1];
        if (block->at != at)
            continue;
        if (!block->is_held)
            fail("a block of %zu bytes is given back twice", block->size);
        return block;
    }
    fail("what is given back is no block");
    return NULL;
}

static void give_back(struct block *block) {
    if (!is_filled(block->at + block->size, MARGIN, UNUSED))
        fail("bytes after a block of %zu bytes are written", block->size);
    memset(block->at, FREED, block->size);
    block->is_held = 0;
    held_count--;
    held_bytes -= block->size;
}

/* A malloc aligns for every type of C, so to 16 bytes on the machines that the toolchain knows. */
static struct tried take(size_t size, size_t alignment) {
    if (alignment > _Alignof(max_align_t))
        fail("a block is to be aligned to %zu bytes", alignment);
    if (block_count == MOST_BLOCKS)
        fail("a call takes more than %d blocks", (int)MOST_BLOCKS);
    uint8_t *at = malloc(size + MARGIN);
    if (at == NULL)
        fail("there is no memory for this test");
    memset(at, UNUSED, size + MARGIN);
    blocks[block_count++] = (struct block){at, size, 1};
    held_count++;
    held_bytes += size;
    return (struct tried){1, at};
}

/* The library's allocation functions, in place of the toolchain's. */
struct tried rattle_alloc(size_t size, size_t alignment);
struct tried rattle_realloc(void *old, size_t kept, size_t size, size_t alignment);
void rattle_dealloc(void *at);

struct tried rattle_alloc(size_t size, size_t alignment) {
    if (++allocations == refused)
        return (struct tried){0, &nothing};
    return take(size, alignment);
}

/* Moves each time and keeps no more than is asked for, so that neither a block's old place nor its other bytes are ever right. */
struct tried rattle_realloc(void *old, size_t kept, size_t size, size_t alignment) {
    struct block *block = held(old);
    if (kept > block->size || kept > size)
        fail("%zu bytes are to be kept when a block of %zu bytes gets %zu", kept, block->size, size);
    if (++allocations == refused)
        return (struct tried){0, &nothing};
    struct tried tried = take(size, alignment);
    memcpy(tried.at, old, kept);
    give_back(block);
    return tried;
}

void rattle_dealloc(void *at) {
    give_back(held(at));
}

/* After a call: all is given back, and was left alone since. */
static void settle(void) {
    if (held_count != 0 || held_bytes != 0)
        fail("%zu blocks with %zu bytes are not given back", held_count, held_bytes);
    for (size_t i = 0; i < block_count; i++) {
        if (!is_filled(blocks[i].at, blocks[i].size, FREED))
            fail("a block of %zu bytes is written after it was given back", blocks[i].size);
        free(blocks[i].at);
    }
    block_count = 0;
}

/* A file's bytes, which nothing can write to. */
static struct ima_verify_bytes load(const char *name) {
    struct stat about;
    int file = open(name, O_RDONLY);
    if (file < 0 || fstat(file, &about) != 0)
        fail("%s cannot be read", name);
    size_t size = (size_t)about.st_size;
    void *at = size == 0 ? &nothing : mmap(NULL, size, PROT_READ, MAP_PRIVATE, file, 0);
    if (at == MAP_FAILED)
        fail("%s cannot be read", name);
    close(file);
    return (struct ima_verify_bytes){at, size};
}

static bool has(const char *function, const char *word) {
    return strstr(function, word) != NULL;
}

static enum ima_verify_form form_of(const char *function) {
    return has(function, ":json") ? IMA_VERIFY_JSON : IMA_VERIFY_TEXT;
}

/* Whether the name, without what stands after it, is this. */
static bool is(const char *function, const char *name) {
    size_t size = strcspn(function, ":");
    return size == strlen(name) && memcmp(function, name, size) == 0;
}

/* How many inputs a function takes, or 0 if there is no such function. */
static int inputs_of(const char *function) {
    static const struct {
        const char *name;
        int inputs;
    } functions[] = {{"verdict", 4},     {"locate", 4},   {"replay", 3},    {"more", 5},    {"attest", 5},
                     {"attest_more", 6}, {"expected", 2}, {"registers", 1}, {"entries", 1}, {"events", 1},
                     {"boot", 1},        {"key", 1},      {"convert", 1}};
    for (size_t i = 0; i < sizeof functions / sizeof functions[0]; i++)
        if (is(function, functions[i].name))
            return functions[i].inputs + 2 * has(function, ":by_key") + has(function, ":known") + has(function, ":before")
                   + has(function, ":expected") + 4 * has(function, ":quote");
    return 0;
}

/* Gives a quote what comes after its requirement: a key and a signature, and known files. */
static void add_last(const char *function, const struct ima_verify_bytes *last, struct ima_verify_quoted *quoted) {
    quoted->signature_checked = has(function, ":signed");
    quoted->hcrtm = has(function, ":hcrtm");
    quoted->old_kernel = has(function, ":old_kernel");
    if (has(function, ":by_key")) {
        quoted->key = *last++;
        quoted->signature = *last++;
    }
    if ((quoted->checks_known = has(function, ":known")))
        quoted->known = *last;
}

static bool gives_checkpoint(const char *function) {
    return is(function, "more") || is(function, "attest_more");
}

static bool is_by_pieces(const char *function) {
    return is(function, "entries") || is(function, "events");
}

/* Whether a summary has the verdict of a result, and its size as it was. */
static enum ima_verify_result summed(const struct ima_verify_summary *summary, enum ima_verify_result result) {
    bool is_match = summary->verdict == IMA_VERIFY_VERDICT_MATCH, is_any = summary->verdict != IMA_VERIFY_VERDICT_NONE;
    bool is_one = result == IMA_VERIFY_DONE || result == IMA_VERIFY_DIFFERS;
    if (summary->size != sizeof *summary || is_match != (result == IMA_VERIFY_DONE) || (is_any && !is_one))
        fail("result %d, and the verdict %llu", (int)result, (unsigned long long)summary->verdict);
    return result;
}

/* A boot, or events from a position on, by what confirms them. */
static enum ima_verify_result call_confirmed(const char *function, const struct ima_verify_bytes *in, struct ima_verify_position *position,
                                             struct ima_verify_output *out) {
    const struct ima_verify_bytes *before = has(function, ":before") ? &in[1] : NULL;
    const struct ima_verify_bytes *expected = has(function, ":expected") ? &in[1 + (before != NULL)] : NULL;
    struct ima_verify_quoted quoted = {.list = in[1], .message = in[2], .nonce = in[3], .require = in[4]};
    const struct ima_verify_quoted *quote = has(function, ":quote") ? &quoted : NULL;
    quoted.signature_checked = has(function, ":signed");
    quoted.old_kernel = has(function, ":old_kernel");
    bool hcrtm = has(function, ":hcrtm");
    return position ? ima_verify_events(in[0], hcrtm, expected, quote, position, out)
                    : ima_verify_boot(in[0], hcrtm, before, expected, quote, form_of(function), out);
}

static enum ima_verify_result call(const char *function, const struct ima_verify_bytes *in, struct ima_verify_position *position,
                                   struct ima_verify_output *next, struct ima_verify_output *out) {
    enum ima_verify_form form = form_of(function);
    struct ima_verify_summary summary = {.size = sizeof summary};
    if (is(function, "entries"))
        return ima_verify_entries(in[0], position, form, out);
    if (is(function, "events") || is(function, "boot"))
        return call_confirmed(function, in, position, out);
    bool hcrtm = has(function, ":hcrtm"), old_kernel = has(function, ":old_kernel");
    if (is(function, "convert"))
        return ima_verify_convert(in[0], has(function, ":list") ? IMA_VERIFY_CONVERT_LIST : IMA_VERIFY_CONVERT_LOG, NULL, out);
    if (is(function, "registers")) {
        enum ima_verify_origin of_log = hcrtm ? IMA_VERIFY_OF_HCRTM_LOG : IMA_VERIFY_OF_LOG;
        return ima_verify_registers(has(function, ":list") ? IMA_VERIFY_OF_LIST : of_log, in[0], form, out);
    }
    if (is(function, "key"))
        return ima_verify_key(in[0], has(function, ":endorsement") ? IMA_VERIFY_ENDORSEMENT : IMA_VERIFY_ATTESTATION, form, out);
    if (is(function, "expected"))
        return ima_verify_expected(in[0], in[1], form, out);
    if (is(function, "replay")) {
        struct ima_verify_evidence evidence = {.list = in[0], .expected = in[1], .require = in[2]};
        if ((evidence.checks_known = has(function, ":known")))
            evidence.known = in[3];
        return summed(&summary, ima_verify_replay(&evidence, form, &summary, out));
    }
    if (is(function, "more")) {
        struct ima_verify_evidence evidence = {.log = in[0], .list = in[2], .expected = in[3], .require = in[4], .hcrtm = hcrtm,
                                               .old_kernel = old_kernel};
        if ((evidence.checks_known = has(function, ":known")))
            evidence.known = in[5];
        return summed(&summary, ima_verify_more(&evidence, in[1], has(function, ":prefix"), form, &summary, next, out));
    }
    if (is(function, "attest")) {
        struct ima_verify_quoted quoted = {.log = in[0], .list = in[1], .message = in[2], .nonce = in[3], .require = in[4]};
        add_last(function, in + 5, &quoted);
        return summed(&summary, ima_verify_attest(&quoted, form, &summary, out));
    }
    if (is(function, "attest_more")) {
        struct ima_verify_quoted quoted = {.log = in[0], .list = in[2], .message = in[3], .nonce = in[4], .require = in[5]};
        add_last(function, in + 6, &quoted);
        return summed(&summary, ima_verify_attest_more(&quoted, in[1], has(function, ":prefix"), form, &summary, next, out));
    }
    struct ima_verify_evidence evidence = {.log = in[0], .list = in[1], .expected = in[2], .require = in[3], .hcrtm = hcrtm,
                                           .old_kernel = old_kernel};
    if ((evidence.checks_known = has(function, ":known")))
        evidence.known = in[4];
    if (is(function, "locate"))
        return ima_verify_locate(&evidence, form, out);
    return summed(&summary, ima_verify_verdict(&evidence, form, &summary, out));
}

/* What the byte at a place of the buffer is before a call. */
static uint8_t before(size_t place) {
    return (uint8_t)(place * 37 + 129);
}

/* A buffer of this size. What a call has to set is something else before it. */
static struct room room_of(size_t size) {
    uint8_t *buffer = malloc(size + 2 * MARGIN);
    if (buffer == NULL)
        fail("there is no memory for this test");
    for (size_t i = 0; i < size + 2 * MARGIN; i++)
        buffer[i] = before(i);
    return (struct room){buffer, {buffer + MARGIN, size, SIZE_MAX, {UINT32_MAX, UINT32_MAX, 0}}};
}

/* Whether a text is at the start of a buffer, if it is `written`, and all other bytes are as before. */
static bool has_text(struct ima_verify_bytes text, const struct room *room, bool written) {
    size_t size = written ? text.size : 0;
    if (room->output.size != text.size || memcmp(room->buffer + MARGIN, text.data, size) != 0)
        return false;
    for (size_t i = 0; i < room->output.capacity + 2 * MARGIN; i++)
        if ((i < MARGIN || i >= MARGIN + size) && room->buffer[i] != before(i))
            return false;
    return true;
}

/* The error that a line says. */
static struct ima_verify_error error_in(struct ima_verify_bytes line) {
    static const char *const kinds[] = {"", "command", "log", "list", "replay", "expected", "checkpoint", "", "quote", "key",
                                        "known", "signature", "text list", "log form"};
    struct ima_verify_error error = {IMA_VERIFY_NO_ERROR, 0, IMA_VERIFY_NO_PLACE};
    char text[LINE] = "", kind[LINE] = "";
    unsigned number = 0;
    unsigned long long place = 0;
    memcpy(text, line.data, line.size < LINE ? line.size : LINE - 1);
    const char *said = strstr(text, "refused: ");
    if (said == NULL) {
        error.kind = has(text, "failed: memory") ? IMA_VERIFY_MEMORY : IMA_VERIFY_NO_ERROR;
        return error;
    }
    said += strlen("refused: ");
    const char *end = strstr(said, " fault ");
    memcpy(kind, said, end == NULL ? strcspn(said, " \n") : (size_t)(end - said));
    int found = end == NULL ? 0 : sscanf(end, " fault %u at %*s %llu", &number, &place);
    for (uint32_t i = 1; i < sizeof kinds / sizeof kinds[0]; i++)
        if (strcmp(kind, kinds[i]) == 0)
            error.kind = i;
    error.number = number;
    if (found == 2)
        error.place = place;
    return error;
}

/* Whether a call tells the error of its text, if that is the line of one. */
static bool has_error(enum ima_verify_result result, struct ima_verify_bytes text, const struct ima_verify_output *output) {
    bool is_one = result == IMA_VERIFY_REFUSED || result == IMA_VERIFY_OUT_OF_MEMORY;
    struct ima_verify_bytes line = is_one ? text : ima_verify_none();
    struct ima_verify_error error = error_in(line);
    return output->error.kind == error.kind && output->error.number == error.number && output->error.place == error.place
           && is_one == (error.kind != IMA_VERIFY_NO_ERROR);
}

/* The answer of a call that gets no memory. */
static struct answer memory_answer(const char *function) {
    bool is_json = form_of(function) == IMA_VERIFY_JSON || is(function, "events");
    const char *line = is_json ? "{\"fault\":{\"kind\":\"memory\",\"message\":\"failed: memory\"}}\n" : "failed: memory\n";
    return (struct answer){IMA_VERIFY_OUT_OF_MEMORY, ima_verify_text(line), {&nothing, 0}};
}

/* Whether an answer is given as the header says: each text at the start of its buffer and all other bytes as before; or, if a
 * buffer is too short for its text, all bytes as before. */
static bool is_given(const char *function, struct answer answer, enum ima_verify_result result, const struct room *next,
                     const struct room *out) {
    bool fits = answer.text.size <= out->output.capacity && (!gives_checkpoint(function) || answer.next.size <= next->output.capacity);
    if (result != (fits ? answer.result : IMA_VERIFY_TOO_SHORT) || !has_text(answer.text, out, fits)
        || !has_error(result, answer.text, &out->output))
        return false;
    return !gives_checkpoint(function) || (has_text(answer.next, next, fits) && has_error(IMA_VERIFY_DONE, answer.next, &next->output));
}

static void fail_of(const struct room *next, const struct room *out, enum ima_verify_result result) {
    fail("result %d, %zu and %zu bytes, error %u %u %llu, and the buffer has '%.40s'", (int)result, out->output.size, next->output.size,
         out->output.error.kind, out->output.error.number, (unsigned long long)out->output.error.place, (char *)out->buffer + MARGIN);
}

/* Calls once. The answer is the right one or, if an allocation was refused, that memory ran out. */
static void turn_whole(const char *function, const struct ima_verify_bytes *in, size_t size, size_t next_size, struct answer right) {
    struct room out = room_of(size), next = room_of(next_size);
    enum ima_verify_result result = call(function, in, NULL, &next.output, &out.output);
    bool is_refused = refused > 0 && allocations >= refused;
    if (!is_given(function, right, result, &next, &out)
        && !(is_refused && is_given(function, memory_answer(function), result, &next, &out)))
        fail_of(&next, &out, result);
    settle();
    free(out.buffer);
    free(next.buffer);
}

static bool begins_with(const uint8_t *at, const uint8_t *end, const char *word) {
    return (size_t)(end - at) >= strlen(word) && memcmp(at, word, strlen(word)) == 0;
}

/* The line at the start of a text, or nothing. (A path may have line feeds; all entries of the sample are of register 10.) */
static struct ima_verify_bytes line_of(struct ima_verify_bytes text) {
    const uint8_t *at = text.data, *end = text.data + text.size;
    while (at < end)
        if (*at++ == '\n' && (begins_with(at, end, "10 ") || begins_with(at, end, "{") || begins_with(at, end, "refused: ")))
            break;
    return (struct ima_verify_bytes){text.data, (size_t)(at - text.data)};
}

/* How many bytes of a text a call has to give: as many whole lines as there is room for, and the line of a fault by itself. */
static size_t piece_of(struct answer right, size_t room) {
    size_t size = 0;
    for (;;) {
        struct ima_verify_bytes rest = {right.text.data + size, right.text.size - size}, line = line_of(rest);
        bool is_fault = right.result == IMA_VERIFY_REFUSED && line.size == rest.size;
        if (line.size == 0 || line.size > room - size || (is_fault && size > 0))
            return size;
        size += line.size;
    }
}

/* The position behind the last piece: the end of the input, and as JSON one more behind the line that counts a list's entries. */
static size_t end_of(const char *function, struct ima_verify_bytes input) {
    return input.size + (is(function, "entries") && form_of(function) == IMA_VERIFY_JSON);
}

/* Calls for one piece of what is still to come, and returns how many of its bytes came. */
static size_t take_piece(const char *function, const struct ima_verify_bytes *in, struct ima_verify_position *position, size_t *size,
                         struct answer rest, bool *is_last) {
    long before_it = allocations;
    struct ima_verify_position at = *position;
    struct room out = room_of(*size), none = room_of(0);
    enum ima_verify_result result = call(function, in, position, NULL, &out.output);
    bool is_refused = before_it < refused && allocations >= refused;
    size_t piece = piece_of(rest, *size);
    bool is_end = piece == rest.text.size;
    struct answer right = {is_end ? rest.result : IMA_VERIFY_MORE, {rest.text.data, piece}, {&nothing, 0}};
    if (piece == 0 && rest.text.size > 0)
        right = (struct answer){IMA_VERIFY_TOO_SHORT, line_of(rest.text), {&nothing, 0}};
    bool is_right = is_given(function, right, result, &none, &out);
    if (is_refused && result == IMA_VERIFY_MORE && !is_right) {
        /* (the lines that came before that) */
        piece = out.output.size < rest.text.size ? out.output.size : 0;
        is_end = false;
        right = (struct answer){IMA_VERIFY_MORE, {rest.text.data, piece}, {&nothing, 0}};
        is_right = piece > 0 && rest.text.data[piece - 1] == '\n' && is_given(function, right, result, &none, &out);
    }
    if (!is_right && !(is_refused && is_given(function, memory_answer(function), result, &none, &out)))
        fail_of(&none, &out, result);
    if (result == IMA_VERIFY_TOO_SHORT)
        *size = out.output.size;
    if (result == IMA_VERIFY_TOO_SHORT && (position->offset != at.offset || position->number != at.number))
        fail("a piece that is too short moves the position from %zu to %zu", at.offset, position->offset);
    *is_last = is_right && is_end && result != IMA_VERIFY_TOO_SHORT;
    if (*is_last && result == IMA_VERIFY_DONE && position->offset != end_of(function, in[0]))
        fail("the last position is %zu of %zu bytes", position->offset, in[0].size);
    settle();
    free(out.buffer);
    free(none.buffer);
    return result == IMA_VERIFY_MORE ? piece : 0;
}

/* Calls until the last piece has come. */
static void turn_by_pieces(const char *function, const struct ima_verify_bytes *in, size_t size, struct answer right) {
    struct ima_verify_position position = {0};
    bool is_last = false;
    while (!is_last) {
        size_t room = size;
        /* (a line for which there is too little room is asked for alone) */
        do {
            size_t came = take_piece(function, in, &position, &room, right, &is_last);
            right.text.data += came;
            right.text.size -= came;
            if (came > 0)
                break;
        } while (!is_last);
    }
}

/* Calls for the whole answer. Returns whether an allocation was refused. */
static bool turn(const char *function, const struct ima_verify_bytes *in, size_t size, size_t next_size, struct answer right) {
    allocations = 0;
    if (is_by_pieces(function))
        turn_by_pieces(function, in, size, right);
    else
        turn_whole(function, in, size, next_size, right);
    return refused > 0 && allocations >= refused;
}

int main(int count, char **words) {
    struct ima_verify_bytes in[MOST_INPUTS] = {{&nothing, 0}};
    if (count < 8 || count != 7 + inputs_of(words[1]))
        fail("library FUNCTION RESULT TEXT ROOM NEXT NEXT_ROOM INPUT..");
    struct answer right = {(enum ima_verify_result)strtol(words[2], NULL, 10), load(words[3]), load(words[5])};
    size_t room = strtoul(words[4], NULL, 10), next_room = strtoul(words[6], NULL, 10);
    for (int i = 7; i < count; i++)
        in[i - 7] = load(words[i]);
    if (ima_verify_version() != IMA_VERIFY_VERSION || allocations != 0)
        fail("the library's version is %u, and it took memory %ld times to say so", ima_verify_version(), allocations);
    for (long number = 1; number < MOST_TURNS; number++) {
        refused = number;
        bool is_refused = turn(words[1], in, room, next_room, right);
        refused = 0;
        turn(words[1], in, room, next_room, right);
        if (!is_refused) {
            printf("%ld\n", number - 1);
            return 0;
        }
    }
    fail("there is no end to it");
}

/* Stands for a newer libima_verify, with the functions that build.py writes: each forwards to the library whose path REAL is, and changes its JSON.
 *
 * Each object has one more member at its start, "novel":{"a":[1]}. With IMA_VERIFY_SHIM_DIFFER in the environment no verdict matches: one that
 * does has the status 1, "verdict":"differ" and the member "novel_reason", although all else says that all PCRs match. */
#define _GNU_SOURCE
#include <ima_verify.h>

#include <dlfcn.h>
#include <stdlib.h>

enum { NEW_REASON = 99 };

static const char MEMBER[] = "\"novel\":{\"a\":[1]}";
static const char MATCH[] = "\"verdict\":\"match\"}\n";
static const char DIFFER[] = "\"verdict\":\"differ\",\"novel_reason\":\"the moon is full\"}\n";

/* What the caller gave, as far as a function has it, and what the real library answers. */
struct call {
    bool json;
    uint64_t *numbers;
    size_t numbers_count;
    uint8_t *next;
    size_t next_capacity, *next_size, *offset, *number;
    uint8_t *text, state[IMA_VERIFY_CHECKPOINT_CAPACITY];
    size_t space, state_size, moved_offset, moved_number;
    struct ima_verify_info told;
    int32_t result;
};

static void *renewed(void *old, size_t size) {
    void *at = realloc(old, size + 1);
    if (!at) abort();
    return at;
}

/* A function of the real library. */
static void *real(const char *name) {
    void *library = dlopen(REAL, RTLD_NOW | RTLD_LOCAL | RTLD_DEEPBIND), *found = library ? dlsym(library, name) : NULL;
    if (!found) abort();
    return found;
}

/* Whether the text did not fit, and now will. At first nothing fits, so that of several lines one comes. */
static bool grows(struct call *call) {
    if (call->result != IMA_VERIFY_TOO_SHORT || call->told.size <= call->space) return false;
    call->space = call->told.size;
    call->text = renewed(call->text, call->space);
    return true;
}

/* Puts the member at the start of each object of lines of JSON. */
static void add_members(struct call *call) {
    size_t size = call->told.size, end = 0;
    uint8_t *text = renewed(NULL, size * (sizeof MEMBER + 1));
    bool in_string = false;
    for (size_t i = 0; i < size; i++) {
        uint8_t byte = text[end++] = call->text[i];
        if (in_string && byte == '\\') text[end++] = call->text[++i];
        if (byte == '"') in_string = !in_string;
        if (byte != '{' || in_string) continue;
        memcpy(text + end, MEMBER, sizeof MEMBER - 1);
        end += sizeof MEMBER - 1;
        if (call->text[i + 1] != '}') text[end++] = ',';
    }
    free(call->text);
    call->text = text;
    call->told.size = end;
}

/* Makes a verdict that matches differ, for a reason of its own; there is no checkpoint then. */
static void differ(struct call *call) {
    size_t size = call->told.size, kept = size - (sizeof MATCH - 1);
    if (!getenv("IMA_VERIFY_SHIM_DIFFER") || call->result != IMA_VERIFY_DONE || size < sizeof MATCH || memcmp(call->text + kept, MATCH, size - kept) != 0)
        return;
    call->text = renewed(call->text, kept + sizeof DIFFER);
    memcpy(call->text + kept, DIFFER, sizeof DIFFER - 1);
    call->told.size = kept + sizeof DIFFER - 1;
    call->result = IMA_VERIFY_DIFFERS;
    call->state_size = 0;
    if (call->numbers_count > 1) call->numbers[1] = IMA_VERIFY_VERDICT_DIFFER;
    if (call->numbers_count > 2) call->numbers[2] = NEW_REASON;
}

/* Gives the changed answer to the caller, if both texts fit. */
static int32_t given(struct call *call, uint8_t *out, size_t capacity, struct ima_verify_info *info) {
    int32_t result = call->result;
    if (call->json) {
        differ(call);
        result = call->result;
        add_members(call);
    }
    *info = call->told;
    if (call->next_size) *call->next_size = call->state_size;
    if (info->size > capacity || call->state_size > call->next_capacity) {
        *info = (struct ima_verify_info){info->size, IMA_VERIFY_NO_ERROR, 0, IMA_VERIFY_NO_PLACE};
        result = IMA_VERIFY_TOO_SHORT;
    } else {
        memcpy(out, call->text, info->size);
        if (call->next) memcpy(call->next, call->state, call->state_size);
        if (call->offset) *call->offset = call->moved_offset, *call->number = call->moved_number;
    }
    free(call->text);
    return result;
}

/* Gives the verifier's static library allocation functions of its own, and shows that the library uses them.
 *
 *     memory LOG
 *
 * Prints the registers after the log. The status is 0 if the library took memory here alone, and gave all of it back. */
#include <ima_verify.h>

#include <stdio.h>
#include <stdlib.h>

struct tried {
    uint8_t is_there;
    void *at;
};

struct tried rattle_alloc(size_t size, size_t alignment);
struct tried rattle_realloc(void *old, size_t kept, size_t size, size_t alignment);
void rattle_dealloc(void *at);

static long taken, given_back;

struct tried rattle_alloc(size_t size, size_t alignment) {
    void *at = malloc(size ? size : alignment);
    taken += at != NULL;
    return (struct tried){at != NULL, at};
}

struct tried rattle_realloc(void *old, size_t kept, size_t size, size_t alignment) {
    (void)kept;
    void *at = realloc(old, size ? size : alignment);
    return (struct tried){at != NULL, at};
}

void rattle_dealloc(void *at) {
    given_back++;
    free(at);
}

int main(int count, char **words) {
    static uint8_t log[1 << 20], text[1 << 16];
    struct ima_verify_output registers = {.data = text, .capacity = sizeof text};
    FILE *stream = count == 2 ? fopen(words[1], "rb") : NULL;
    if (stream == NULL)
        return 3;
    struct ima_verify_bytes bytes = {log, fread(log, 1, sizeof log, stream)};
    fclose(stream);
    enum ima_verify_result result = ima_verify_registers(IMA_VERIFY_OF_LOG, bytes, IMA_VERIFY_TEXT, &registers);
    fwrite(text, 1, registers.size, stdout);
    return result != IMA_VERIFY_DONE || taken == 0 || taken != given_back;
}

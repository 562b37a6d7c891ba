/* Prints the verdict on a firmware event log, a measurement list and expected registers, as `ima-agent verify --require` does.
 *
 *     cc example.c -o example $(pkg-config --cflags --libs ima_verify)
 *     ./example LOG LIST EXPECTED REQUIRE
 *
 * REQUIRE names the registers that must be among the expected ones, as sha256:0-10.
 * The exit status is what the library returns: 0 for the verdict `match`, 1 for `differ`, 2 if an input is refused, and 3 if
 * memory ran out. It is also 3 if a file cannot be read, or the output fails. */
#include <ima_verify.h>

#include <stdio.h>
#include <stdlib.h>

static void fail(const char *what) {
    perror(what);
    exit(IMA_VERIFY_OUT_OF_MEMORY);
}

/* Files of securityfs do not tell their size, so the bytes are read until there are no more. */
static struct ima_verify_bytes read_file(const char *name) {
    uint8_t *bytes = NULL;
    size_t size = 0, capacity = 64 * 1024;
    FILE *stream = fopen(name, "rb");
    if (stream == NULL)
        fail(name);
    do {
        capacity *= 2;
        bytes = realloc(bytes, capacity);
        if (bytes == NULL)
            fail(name);
        size += fread(bytes + size, 1, capacity - size, stream);
    } while (size == capacity);
    if (ferror(stream))
        fail(name);
    fclose(stream);
    return (struct ima_verify_bytes){.data = bytes, .size = size};
}

int main(int count, char **words) {
    if (count != 5) {
        fprintf(stderr, "usage: %s LOG LIST EXPECTED REQUIRE\n", words[0]);
        return IMA_VERIFY_REFUSED;
    }
    struct ima_verify_evidence evidence = {
        .log = read_file(words[1]),
        .list = read_file(words[2]),
        .expected = read_file(words[3]),
        .require = ima_verify_text(words[4]),
    };

    /* A report has a line for each expected register, so it may be longer than this. Then the first call says how long it is. */
    struct ima_verify_output report = {.capacity = 256};
    enum ima_verify_result result;
    for (;;) {
        report.data = realloc(report.data, report.capacity);
        if (report.data == NULL)
            fail("the report");
        result = ima_verify_verdict(&evidence, IMA_VERIFY_TEXT, NULL, &report);
        if (result != IMA_VERIFY_TOO_SHORT)
            break;
        report.capacity = report.size;
    }

    if (fwrite(report.data, 1, report.size, stdout) != report.size || fflush(stdout) != 0)
        fail("the output");
    free(report.data);
    free((void *)evidence.log.data);
    free((void *)evidence.list.data);
    free((void *)evidence.expected.data);
    return (int)result;
}

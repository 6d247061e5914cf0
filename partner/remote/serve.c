/*
 * Makes the calls of Sangolid's C interface that standard input asks for, and writes what each gives to standard output.
 * For 64-bit little-endian processors, as the archive is: numbers stand as they lie in memory.
 */
#include <stdio.h>
#include <stdlib.h>

#include "sangolid.h"

/*
 * What precedes a call's areas: the words (state or answer), the code or text, the constants (of a run only), the bytes
 * (data, marks or code).
 */
struct request {
    uint64_t function; /* 0: sangolid_run, 1: sangolid_check, 2: sangolid_hex */
    uint64_t words_len;
    uint64_t code_len;
    uint64_t constants_len;
    uint64_t bytes_len;
    uint64_t budget;
};

/* Ends the program where the input or the output ends inside a call. */
static void need(int done) {
    if (!done) exit(1);
}

/* An area of this size, read from the input. */
static void *area(size_t size) {
    void *place = malloc(size + !size);
    need(place != NULL && fread(place, 1, size, stdin) == size);
    return place;
}

/* Makes one call on its areas, and gives back its number. */
static uint32_t answer(const struct request *request, uint32_t *words, const uint8_t *code, const uint8_t *constants,
                       uint8_t *bytes) {
    switch (request->function) {
    case 0:
        return sangolid_run(words, request->words_len, code, request->code_len, constants, request->constants_len,
                            bytes, request->bytes_len, request->budget);
    case 1:
        return sangolid_check(code, request->code_len, bytes, request->bytes_len, words, request->words_len);
    default:
        return sangolid_hex(code, request->code_len, bytes, request->bytes_len, words, request->words_len);
    }
}

/* Makes one call: reads its areas, writes its number, words and bytes. */
static void call(const struct request *request) {
    uint32_t *words = area(request->words_len * sizeof *words);
    uint8_t *code = area(request->code_len);
    uint8_t *constants = area(request->constants_len);
    uint8_t *bytes = area(request->bytes_len);
    uint32_t number = answer(request, words, code, constants, bytes);
    need(fwrite(&number, sizeof number, 1, stdout) == 1);
    need(fwrite(words, sizeof *words, request->words_len, stdout) == request->words_len);
    need(fwrite(bytes, 1, request->bytes_len, stdout) == request->bytes_len);
    need(fflush(stdout) == 0);
    free(words);
    free(code);
    free(constants);
    free(bytes);
}

int main(void) {
    struct request request;
    while (fread(&request, sizeof request, 1, stdin) == 1) call(&request);
    return 0;
}

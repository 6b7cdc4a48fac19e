/*
 * loader IMAGE [FUNCTION BUDGET ARG...]
 *
 * Reads an image from a file, prints what its calls violate, lowers every function
 * in turn, each in the image that came of the one before, and runs one of them.
 *
 * loader --pages IMAGE
 *
 * Prints what its calls violate on pages.
 *
 * C99, and C++17 as well.
 */
#include "rl_contracts.h"

#include <ctype.h>
#include <errno.h>
#include <inttypes.h>
#include <stdio.h>
#include <stdlib.h>
#include <string.h>

/* The exit status. */
enum { DONE = 0, REFUSED = 1, WRONG = 2 };

struct image {
    const uint8_t *bytes;
    size_t length;
};

/* What the command line asks to be run. */
struct request {
    int wanted;
    uint32_t function;
    uint32_t budget;
    uint64_t values[RL_VALUE * RL_VALUES];
    size_t words;
};

/* All calls lend the same; each writes it anew. */
static uint16_t work[RL_WORK];

static int usage(void)
{
    fputs("usage: loader IMAGE [FUNCTION BUDGET ARG...]\n"
          "       loader --pages IMAGE\n"
          "  FUNCTION  the number of a function in the image, from 0\n"
          "  BUDGET    the most steps of its run\n"
          "  ARG       null, true, false, int:N, float:X, str:N (text N of the image),\n"
          "            or one of these behind ok: or err:; at most 16\n",
          stderr);
    return WRONG;
}

/* ---- the command line */

static int only_digits(const char *text)
{
    return *text != '\0' && text[strspn(text, "0123456789")] == '\0';
}

static int parse_count(const char *text, uint32_t *count)
{
    unsigned long long number;
    if (!only_digits(text)) {
        return 0;
    }
    errno = 0;
    number = strtoull(text, NULL, 10);
    if (errno != 0 || number > UINT32_MAX) {
        return 0;
    }
    *count = (uint32_t)number;
    return 1;
}

static int parse_int(const char *text, uint64_t *word)
{
    long long number;
    if (!only_digits(text + (*text == '-'))) {
        return 0;
    }
    errno = 0;
    number = strtoll(text, NULL, 10);
    if (errno != 0) {
        return 0;
    }
    *word = (uint64_t)number;
    return 1;
}

static int parse_float(const char *text, uint64_t *word)
{
    char *end;
    double number;
    if (isspace((unsigned char)*text)) {
        return 0;
    }
    errno = 0;
    number = strtod(text, &end);
    /* what is too small becomes the nearest there is */
    if (end == text || *end != '\0' || (errno == ERANGE && (number > 1 || number < -1))) {
        return 0;
    }
    memcpy(word, &number, sizeof *word);
    return 1;
}

/* A value that is no Ok or Err. */
static int parse_plain(const char *text, uint64_t words[RL_VALUE])
{
    uint32_t number;
    words[0] = RL_NULL;
    words[1] = 0;
    if (strcmp(text, "null") == 0) {
        return 1;
    }
    if (strcmp(text, "true") == 0 || strcmp(text, "false") == 0) {
        words[0] = RL_BOOL;
        words[1] = *text == 't';
        return 1;
    }
    if (strncmp(text, "int:", 4) == 0) {
        words[0] = RL_INT;
        return parse_int(text + 4, &words[1]);
    }
    if (strncmp(text, "float:", 6) == 0) {
        words[0] = RL_FLOAT;
        return parse_float(text + 6, &words[1]);
    }
    if (strncmp(text, "str:", 4) == 0 && parse_count(text + 4, &number)) {
        words[0] = RL_STR;
        words[1] = number;
        return 1;
    }
    return 0;
}

static int parse_value(const char *text, uint64_t words[RL_VALUE])
{
    uint64_t holder = 0;
    if (strncmp(text, "ok:", 3) == 0) {
        holder = RL_OK;
        text += 3;
    } else if (strncmp(text, "err:", 4) == 0) {
        holder = RL_ERR;
        text += 4;
    }
    if (!parse_plain(text, words)) {
        return 0;
    }
    words[0] += holder;
    return 1;
}

/* FUNCTION BUDGET ARG..., or nothing at all. */
static int parse_request(int count, char **words, struct request *request)
{
    int i;
    request->wanted = count > 0;
    request->words = 0;
    if (count == 0) {
        return 1;
    }
    if (count < 2 || count > 2 + RL_VALUES || !parse_count(words[0], &request->function) ||
        !parse_count(words[1], &request->budget)) {
        return 0;
    }
    for (i = 2; i < count; i++) {
        if (!parse_value(words[i], &request->values[request->words])) {
            fprintf(stderr, "%s is no argument\n", words[i]);
            return 0;
        }
        request->words += RL_VALUE;
    }
    return 1;
}

/* ---- the image */

/* At most one byte more than an image may have: then it is refused by 1. */
static int read_file(const char *path, struct image *image)
{
    static uint8_t bytes[RL_IMAGE + 1];
    FILE *file = fopen(path, "rb");
    if (file == NULL) {
        fprintf(stderr, "%s: %s\n", path, strerror(errno));
        return WRONG;
    }
    image->bytes = bytes;
    image->length = fread(bytes, 1, sizeof bytes, file);
    if (ferror(file)) {
        fprintf(stderr, "%s: cannot be read\n", path);
        fclose(file);
        return WRONG;
    }
    fclose(file);
    return DONE;
}

static int refused(uint64_t answer)
{
    printf("refused %" PRIu32 " at %" PRIu32 "\n", RL_NUMBER(answer), RL_PLACE(answer));
    return REFUSED;
}

/* ---- what calls violate */

static int print_report(const struct image *image, uint32_t call, uint32_t report, uint32_t span)
{
    static uint8_t message[RL_MESSAGE];
    uint64_t answer =
        rl_message(image->bytes, image->length, work, RL_WORK, call, report, message);
    if (RL_NUMBER(answer) != 0) {
        return refused(answer);
    }
    printf("%" PRIu32 " %" PRIu32 " ", call, span);
    fwrite(message, 1, RL_LENGTH(answer), stdout);
    putchar('\n');
    return DONE;
}

static int print_reports(const struct image *image)
{
    static uint32_t reports[RL_REPORT * RL_CALL_REPORTS];
    const size_t room = sizeof reports / sizeof *reports;
    uint32_t call, report;
    for (call = 0;; call++) {
        uint64_t answer =
            rl_prove(image->bytes, image->length, work, RL_WORK, call, reports, room);
        if (RL_NUMBER(answer) == RL_NO_SUCH_CALL) {
            return DONE;
        }
        if (RL_NUMBER(answer) != 0) {
            return refused(answer);
        }
        for (report = 0; report < RL_REPORTS(answer); report++) {
            uint32_t span = reports[RL_REPORT * report + 1];
            int status = print_report(image, call, report, span);
            if (status != DONE) {
                return status;
            }
        }
    }
}

/*
 * The reports are counted first: a slice that is too short does not tell how long
 * the pages are.
 */
static int print_pages(const struct image *image)
{
    static uint32_t reports[RL_REPORT * RL_ALL_REPORTS];
    const size_t most = sizeof reports / sizeof *reports;
    uint64_t answer = rl_prove_all(image->bytes, image->length, work, RL_WORK, reports, most);
    size_t room;
    uint8_t *pages;
    if (RL_NUMBER(answer) != 0) {
        return refused(answer);
    }
    room = ((size_t)RL_REPORTS(answer) + RL_PAGE_LINES - 1) / RL_PAGE_LINES * RL_PAGE;
    if (room == 0) {
        return DONE;
    }
    pages = (uint8_t *)malloc(room);
    if (pages == NULL) {
        fputs("no memory for the pages\n", stderr);
        return WRONG;
    }
    answer = rl_pages(image->bytes, image->length, work, RL_WORK, pages, room);
    if (RL_NUMBER(answer) != 0) {
        free(pages);
        return refused(answer);
    }
    fwrite(pages, 1, RL_LENGTH(answer), stdout);
    free(pages);
    return DONE;
}

/* ---- lowering */

/*
 * Each lowering starts from the image that the last one made. Where one is refused
 * (12, 14) the image stays as it was, and unlowered tells whether it was that of
 * the function asked for.
 */
static int lower_all(struct image *image, uint32_t function, int *unlowered)
{
    static uint8_t out[2][RL_OUT];
    int status = DONE, free_one = 0;
    uint32_t f;
    *unlowered = 0;
    for (f = 0;; f++) {
        uint64_t answer =
            rl_lower(image->bytes, image->length, work, RL_WORK, f, out[free_one], RL_OUT);
        switch (RL_NUMBER(answer)) {
        case 0:
            printf("function %" PRIu32 ": lowered to %" PRIu32 " bytes\n", f, RL_LENGTH(answer));
            image->bytes = out[free_one];
            image->length = RL_LENGTH(answer);
            free_one = 1 - free_one;
            break;
        case RL_NO_SUCH_FUNCTION:
            return status;
        case RL_HEIGHT_OVER_LIMIT:
        case RL_LIMIT_PASSED:
            printf("function %" PRIu32 ": lowering ", f);
            status = refused(answer);
            *unlowered = *unlowered || f == function;
            break;
        default:
            *unlowered = *unlowered || f <= function;
            return refused(answer);
        }
    }
}

/* ---- running */

/* In quotes; quotes, backslashes and control characters (C0, DEL, C1) escaped. */
static int print_text(const struct image *image, uint32_t text)
{
    uint64_t answer = rl_text(image->bytes, image->length, work, RL_WORK, text);
    const uint8_t *bytes;
    uint32_t i, length;
    if (RL_NUMBER(answer) != 0) {
        return refused(answer);
    }
    bytes = image->bytes + RL_TEXT_AT(answer);
    length = RL_TEXT_LENGTH(answer);
    putchar('"');
    for (i = 0; i < length; i++) {
        if (bytes[i] == '"' || bytes[i] == '\\') {
            printf("\\%c", bytes[i]);
        } else if (bytes[i] < 0x20 || bytes[i] == 0x7f) {
            printf("\\x%02x", bytes[i]);
        } else if (bytes[i] == 0xc2 && i + 1 < length && bytes[i + 1] < 0xa0) {
            printf("\\x%02x\\x%02x", bytes[i], bytes[i + 1]);
            i++;
        } else {
            putchar(bytes[i]);
        }
    }
    putchar('"');
    return DONE;
}

/* With a point where it would look like an Int. */
static void print_float(uint64_t bits)
{
    char digits[64];
    double number;
    memcpy(&number, &bits, sizeof number);
    snprintf(digits, sizeof digits, "%.17g", number);
    printf("%s%s", digits, strpbrk(digits, ".eni") == NULL ? ".0" : "");
}

static int print_plain(const struct image *image, uint64_t sort, uint64_t payload)
{
    int64_t number;
    switch (sort) {
    case RL_NULL:
        fputs("null", stdout);
        return DONE;
    case RL_INT:
        memcpy(&number, &payload, sizeof number);
        printf("%" PRId64, number);
        return DONE;
    case RL_FLOAT:
        print_float(payload);
        return DONE;
    case RL_STR:
        return print_text(image, (uint32_t)payload);
    case RL_BOOL:
        fputs(payload != 0 ? "true" : "false", stdout);
        return DONE;
    default:
        fprintf(stderr, "unknown sort %" PRIu64 "\n", sort);
        return WRONG;
    }
}

static int print_value(const struct image *image, uint64_t sort, uint64_t payload)
{
    int status;
    if (sort < RL_OK) {
        return print_plain(image, sort, payload);
    }
    fputs(sort < RL_ERR ? "Ok(" : "Err(", stdout);
    status = print_plain(image, sort % RL_OK, payload);
    putchar(')');
    return status;
}

static int print_outcome(const struct image *image, const uint64_t outcome[RL_OUTCOME])
{
    int status = DONE;
    switch (outcome[0]) {
    case RL_RETURNED:
        fputs("returned ", stdout);
        status = print_value(image, outcome[2], outcome[3]);
        break;
    case RL_STOPPED:
        fputs("stopped with ", stdout);
        status = print_value(image, outcome[2], outcome[3]);
        break;
    case RL_FAULT:
        printf("fault %" PRIu64, outcome[2]);
        break;
    case RL_SPENT:
        fputs("spent", stdout);
        break;
    default:
        fprintf(stderr, "unknown outcome %" PRIu64 "\n", outcome[0]);
        return WRONG;
    }
    printf(outcome[0] == RL_RETURNED ? " in %" PRIu64 " steps\n" : " after %" PRIu64 " steps\n",
           outcome[1]);
    return status;
}

/*
 * The texts among the values are to be those of the image as it came; lowering adds
 * some. So its own run, within no step, says first whether it takes the values.
 */
static int run(const struct image *original, const struct image *lowered,
               const struct request *request)
{
    uint64_t outcome[RL_OUTCOME];
    uint64_t answer = rl_run(original->bytes, original->length, work, RL_WORK, request->function,
                             request->values, request->words, 0, outcome);
    if (RL_NUMBER(answer) == 0) {
        answer = rl_run(lowered->bytes, lowered->length, work, RL_WORK, request->function,
                        request->values, request->words, request->budget, outcome);
    }
    if (RL_NUMBER(answer) != 0) {
        printf("function %" PRIu32 ": run ", request->function);
        return refused(answer);
    }
    return print_outcome(lowered, outcome);
}

static int load(const struct image *image, const struct request *request)
{
    struct image lowered = *image;
    int unlowered, status, ran;
    uint64_t answer = rl_read(image->bytes, image->length, work, RL_WORK);
    if (RL_NUMBER(answer) != 0) {
        return refused(answer);
    }
    status = print_reports(image);
    if (status != DONE) {
        return status;
    }
    status = lower_all(&lowered, request->function, &unlowered);
    if (!request->wanted) {
        return status;
    }
    if (unlowered) {
        printf("function %" PRIu32 ": not run\n", request->function);
        return status;
    }
    ran = run(image, &lowered, request);
    return ran != DONE ? ran : status;
}

int main(int argc, char **argv)
{
    struct request request;
    struct image image;
    int status, on_pages = argc > 1 && strcmp(argv[1], "--pages") == 0;
    memset(&request, 0, sizeof request);
    if (on_pages ? argc != 3 : argc < 2 || !parse_request(argc - 2, argv + 2, &request)) {
        return usage();
    }
    status = read_file(argv[1 + on_pages], &image);
    if (status == DONE) {
        status = on_pages ? print_pages(&image) : load(&image, &request);
    }
    if (fflush(stdout) != 0 || ferror(stdout)) {
        fputs("cannot write\n", stderr);
        return WRONG;
    }
    return status;
}

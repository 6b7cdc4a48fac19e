/*
 * The functions of librl_abi.a: rule images are read, folded, proved, run and
 * lowered, and reports printed on pages. C99 or later, C++ too.
 *
 * Pointers, for all functions: a slice is a pointer and then its length in
 * entries, an array of a fixed size a pointer alone. Each is aligned for its type
 * and valid for all of its entries, for writing too where it is not const, and
 * none overlaps another one of the same call. NULL is taken for a slice of length
 * 0, not for an array. Whatever the entries and the lengths are, there is an
 * answer. Nothing is allocated, and nothing kept from one call to the next.
 *
 * Stack, for all functions: what each needs at the most, in KiB. On x86-64 the
 * test measures each on the largest and the deepest images (stack_limits,
 * run_limits and lower_limits of tools/README.md) and fails where it is more.
 *
 *     rl_read        16
 *     rl_fold       128
 *     rl_prove      160
 *     rl_prove_all  160
 *     rl_run        896
 *     rl_lower      384
 *     rl_text        16
 *     rl_message    144
 *     rl_pages      144
 *
 * Answers, for all functions: the high 32 bits are the refusal's number, 0 where
 * nothing is refused. The low 32 bits are the refusal's place, and else what is
 * said at the function, or 0. Each call reads the whole image anew, so each may
 * refuse as rl_read does; its own refusals come after those, in their order.
 * Without a refusal work holds the height of each expression, then of each
 * statement, then zeros to its end. On a refusal all that is lent for writing is
 * zero.
 */
#ifndef RL_CONTRACTS_H
#define RL_CONTRACTS_H

#include <stddef.h>
#include <stdint.h>

#ifdef __cplusplus
extern "C" {
#endif

/* Why something is refused. Those from 11 on stand at place 0. */
enum rl_refusal {
    /* reading */
    RL_IMAGE_TOO_LONG = 1,    /* over RL_IMAGE bytes; at 0 */
    RL_WORK_TOO_SHORT = 2,    /* a work slice of under RL_WORK entries; at 0 */
    RL_BYTES_END = 3,         /* the bytes end inside a field; at the field */
    RL_WRONG_KIND = 4,        /* a kind that is not of this section; at its byte */
    RL_COUNT_OVER_LIMIT = 5,  /* at the count */
    RL_BAD_TEXT = 6,          /* outside the text bytes, or not UTF-8; at its two numbers */
    RL_BAD_VALUE = 7,         /* a value outside its set; at the field */
    RL_BAD_REFERENCE = 8,     /* a reference or a list that is not allowed; at the field */
    RL_TOO_HIGH = 9,          /* an expression over 68, a statement over 36; at its kind */
    RL_BYTES_LEFT = 10,       /* at the first of them */
    /* lowering; 11 running too */
    RL_NO_SUCH_FUNCTION = 11,
    RL_HEIGHT_OVER_LIMIT = 12, /* an expression over 64, a statement over 32, anywhere */
    RL_OUTPUT_TOO_SHORT = 13,  /* an output slice of under RL_OUT bytes */
    RL_LIMIT_PASSED = 14,      /* the lowered image would pass a limit of the format */
    /* folding */
    RL_OTHER_ARENA = 15,
    RL_NO_SUCH_NODE = 16,
    /* proving */
    RL_NO_SUCH_CALL = 17,
    RL_REPORTS_TOO_SHORT = 18, /* a slice of under RL_REPORT entries a report */
    /* running; 20 texts too */
    RL_WRONG_VALUES = 19,      /* not as many as parameters, over RL_VALUES, or no values */
    RL_NO_SUCH_TEXT = 20,      /* the image has no such text */
    RL_BUDGET_OVER_LIMIT = 21, /* over RL_BUDGET */
    /* pages */
    RL_PAGES_TOO_SHORT = 22 /* a slice shorter than the pages */
};

/*
 * The sort of a value, its first word. The second is the payload: 0 for Null, the
 * bits of the i64 or the f64, the text's number in the image, 0 or 1 for a Bool.
 */
enum rl_sort {
    RL_NULL = 0,
    RL_INT = 1,
    RL_FLOAT = 2,
    RL_STR = 3,
    RL_BOOL = 4,
    RL_OK = 8,  /* added in an Ok of one of these */
    RL_ERR = 16 /* added in an Err of one of these */
};

/* How a run ends. */
enum rl_outcome {
    RL_RETURNED = 1, /* with a value */
    RL_STOPPED = 2,  /* with the message of a contract, or with what an unwrapped Err held */
    RL_FAULT = 3,    /* an rl_fault */
    RL_SPENT = 4     /* the next step would have passed the budget */
};

/* What a run cannot do. */
enum rl_fault {
    RL_FAULT_FORM = 1,    /* a form that is not taken, or a Break or Continue outside a loop */
    RL_FAULT_SORT = 2,    /* a value of the wrong sort */
    RL_FAULT_NAME = 3,    /* an unknown name */
    RL_FAULT_VALUE = 4,   /* an operator or a literal without a value */
    RL_FAULT_BINDINGS = 5 /* more than 128 bindings */
};

/* What a call violates. */
enum rl_violation {
    RL_REFINEMENT = 0,
    RL_REQUIRES = 1
};

#define RL_IMAGE 65535        /* the most bytes of an image */
#define RL_WORK 8192          /* the least entries of a work slice */
#define RL_OUT 65535          /* the least bytes of an output slice */
#define RL_VALUE 2            /* the words of a value */
#define RL_VALUES 16          /* the most values of a run */
#define RL_BUDGET 1000000     /* the largest budget */
#define RL_OUTCOME 4          /* the words of an outcome */
#define RL_REPORT 4           /* the entries of a report */
#define RL_CALL_REPORTS 512   /* the most reports of a call */
#define RL_ALL_REPORTS 131072 /* the most reports of all calls */
#define RL_MESSAGE 65535      /* the bytes of an array for a message */
#define RL_PAGE_LINES 60      /* the lines of a page */
#define RL_PAGE 14280         /* the most bytes of a page */

/* Of every answer: the refusal's number, 0 for none, and its place. */
#define RL_NUMBER(answer) ((uint32_t)((answer) >> 32))
#define RL_PLACE(answer) ((uint32_t)(answer))

/* Where nothing is refused: the number of reports; the length of a lowered image,
 * of a message or of pages; where a text starts in the image, and its length. */
#define RL_REPORTS(answer) ((uint32_t)(answer))
#define RL_LENGTH(answer) ((uint32_t)(answer))
#define RL_TEXT_AT(answer) ((uint32_t)((answer) & 0xffff))
#define RL_TEXT_LENGTH(answer) ((uint32_t)(((answer) >> 16) & 0xffff))

/* Reads an image. */
uint64_t rl_read(const uint8_t *image, size_t image_len, uint16_t *work, size_t work_len);

/*
 * Folds a node of the image, without names. value is the folded value's sort and
 * payload; 0 and 0 where the node has none. Refuses by 15 and 16.
 */
uint64_t rl_fold(const uint8_t *image, size_t image_len, uint16_t *work, size_t work_len,
                 uint32_t arena, uint32_t node, uint64_t value[RL_VALUE]);

/*
 * Proves a call of the image; the answer has the number of reports. Each report is
 * RL_REPORT entries: call, span, rl_violation, and the number of the parameter or
 * the clause in the callee's list; the rest of reports is zero. Refuses by 17 and
 * 18.
 */
uint64_t rl_prove(const uint8_t *image, size_t image_len, uint16_t *work, size_t work_len,
                  uint32_t call, uint32_t *reports, size_t reports_len);

/* The same for all calls in order, after one reading. Refuses by 18. */
uint64_t rl_prove_all(const uint8_t *image, size_t image_len, uint16_t *work, size_t work_len,
                      uint32_t *reports, size_t reports_len);

/*
 * Runs a function's body on values, within a budget of steps; its contracts are
 * checked where they have been lowered into the body. values_len counts words, two
 * a value. A text among the values is one of the image that is run, by its number,
 * and so is a text in the outcome: after a run of a lowered image, one of that
 * image.
 *
 * outcome[0] is the rl_outcome, outcome[1] the steps used. outcome[2] and
 * outcome[3] are the value returned or stopped with, or the rl_fault and 0, or 0
 * and 0 for RL_SPENT.
 *
 * Refuses by 11, 19, 20 and 21. Words that are no values are 19: a sort that is
 * not there, a Null with a payload, a Bool above 1, an odd number of words.
 */
uint64_t rl_run(const uint8_t *image, size_t image_len, uint16_t *work, size_t work_len,
                uint32_t function, const uint64_t *values, size_t values_len, uint32_t budget,
                uint64_t outcome[RL_OUTCOME]);

/*
 * Lowers the contracts of a function into its body. out holds the image with that
 * body in the function's place, the image itself where there are no contracts, and
 * then zeros to its end; the answer has its length. The texts of the image keep
 * their numbers. Refuses by 11 to 14.
 */
uint64_t rl_lower(const uint8_t *image, size_t image_len, uint16_t *work, size_t work_len,
                  uint32_t function, uint8_t *out, size_t out_len);

/*
 * Where the bytes of a text are in the image (RL_TEXT_AT, RL_TEXT_LENGTH): UTF-8,
 * not ended by a zero. Refuses by 20. The whole image is read anew at each call.
 */
uint64_t rl_text(const uint8_t *image, size_t image_len, uint16_t *work, size_t work_len,
                 uint32_t text);

/*
 * The message of a report of a call, the reports counted from 0 in rl_prove's
 * order. out holds the message with its opening, UTF-8, and then zeros; the answer
 * has its length, 0 where the call has no such report. Refuses by 17. The whole
 * image is read anew, and the call proved, at each call.
 */
uint64_t rl_message(const uint8_t *image, size_t image_len, uint16_t *work, size_t work_len,
                    uint32_t call, uint32_t report, uint8_t out[RL_MESSAGE]);

/*
 * The reports of all calls in order on pages to be printed, one a line, after one
 * reading. A page is RL_PAGE_LINES lines of 72 columns, each ended by a newline. A
 * line is the call (4 columns, right), a space, the span (10, right), a space, the
 * callee (16, left), a space, and the message without its opening (39, left). A
 * Unicode scalar takes one column. Longer fields are cut after the last scalar
 * that fits, scalars below 32 are `?`, and short lines and pages are padded with
 * spaces. Without reports there is no page.
 *
 * pages holds the pages, UTF-8, and then zeros to its end; the answer has their
 * length. A line has at most 238 bytes with its newline, 4 + 1 + 10 + 1 + 16 * 4 +
 * 1 + 39 * 4 + 1, so RL_PAGE bytes, 60 of them, for each 60 reports, and for what
 * is left of them, are always enough: 31,201,800 bytes for any image. Refuses by
 * 22, which does not tell how long the pages are; the number of reports is
 * rl_prove_all's.
 */
uint64_t rl_pages(const uint8_t *image, size_t image_len, uint16_t *work, size_t work_len,
                  uint8_t *pages, size_t pages_len);

#ifdef __cplusplus
}
#endif

#endif

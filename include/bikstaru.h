/* Calls to Bikstaru from C: whole slots shared fairly across the cores of a drive.
 *
 * Every call takes the bytes of an order file. It tests them and every size, and answers a refusal where one is due; no
 * call asks anything but valid pointers: each points to as many bytes or entries as the length after it says (also where
 * that is 0 it is not NULL), and what a call writes overlaps nothing that it reads. Nothing is kept between calls.
 * docs/REFUSALS.md has the refusals by number.
 */
#ifndef BIKSTARU_H
#define BIKSTARU_H

#include <stddef.h>
#include <stdint.h>

#ifdef __cplusplus
extern "C" {
#endif

/* No order file is longer, written or read. */
#define BIKSTARU_LONGEST_FILE 17661
/* The longest report: 64 lines of 27 bytes and one of 19. */
#define BIKSTARU_LONGEST_REPORT 1747
/* A list of so many steps has room for every route. */
#define BIKSTARU_MOST_STEPS 16

/* Not a refusal of the table: there was not memory enough to make the text. */
#define BIKSTARU_NO_MEMORY 255

/* number is 0 where the call did its work, and else the refusal's number, with its layer (1 the file, 2 the board, 3 the
 * judge) and its place, a byte of the file; length is that of what was written, and 0 on refusal. */
struct bikstaru_answer {
    uint8_t number;
    uint8_t layer;
    size_t place;
    size_t length;
};

/* A task, and the core of which it takes a slot from the next task of a route. */
struct bikstaru_step {
    size_t task;
    size_t core;
};

enum bikstaru_verdict {
    BIKSTARU_PASSED = 0, /* the slots are fairest */
    BIKSTARU_FREE = 1,   /* a slot of the core is free, and the task holds less than its need there */
    BIKSTARU_ROUTE = 2   /* one slot passed along the steps, from the loser, makes the plan fairer */
};

/* verdict counts only where answer.number is 0. */
struct bikstaru_judgement {
    struct bikstaru_answer answer;
    uint8_t verdict;
    size_t core;
    size_t task;
    size_t steps;
    size_t loser;
};

/* Whether the file is accepted, or its first fault. */
struct bikstaru_answer bikstaru_check(const uint8_t *file, size_t length);

/* The report of the file's fairest plan, at the front of out; 19 where out is too short. Refused, out is as it was. */
struct bikstaru_answer bikstaru_report(const uint8_t *file, size_t length, uint8_t *out, size_t room);

/* The judge's verdict on the slots that the file has. A route fills the first entries of the list, and the rest of it is
 * as it was; 18 where the list has fewer than BIKSTARU_MOST_STEPS entries. */
struct bikstaru_judgement bikstaru_judge(const uint8_t *file, size_t length, struct bikstaru_step *route, size_t steps);

/* The file's order with a fairest plan as its slots, written as an order file at the front of out; 19 where out is too
 * short. Refused, out is as it was. */
struct bikstaru_answer bikstaru_plan(const uint8_t *file, size_t length, uint8_t *out, size_t room);

#ifdef __cplusplus
}
#endif

#endif

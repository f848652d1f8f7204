/* Checks an order, prints its report, and has its slots judged before and after planning. It ends with status 1 where an
 * answer is not the one that is expected. */
#include "bikstaru.h"

#include <stdio.h>
#include <string.h>

/* Two cores with three slots each; bus needs three of the first, log three of each. */
static const uint8_t order[] = {
    0x05, 0x00, 0x01, 0x00, 0x65, 0x02, 0x02,
    0x05, 0x00, 0x02, 0x00, 0x00, 0x03, 0x00, 0x05, 0x00, 0x02, 0x00, 0x01, 0x03, 0x00,
    0x07, 0x00, 0x03, 0x00, 0x00, 0x01, 'b', 'u', 's', 0x07, 0x00, 0x03, 0x00, 0x01, 0x01, 'l', 'o', 'g',
    0x06, 0x00, 0x04, 0x00, 0x00, 0x00, 0x03, 0x00, 0x06, 0x00, 0x04, 0x00, 0x01, 0x00, 0x03, 0x00,
    0x06, 0x00, 0x04, 0x00, 0x01, 0x01, 0x03, 0x00,
    0x04, 0x00, 0x06, 0x00, 0x08, 0x00,
};

static const char expected[] =
    "bus              3   50.0%\n"
    "log              3   50.0%\n"
    "free             0\n";

static int failed = 0;

static void expect(int holds, const char *what) {
    printf("%s: %s\n", what, holds ? "as expected" : "NOT AS EXPECTED");
    if (!holds) failed = 1;
}

int main(void) {
    struct bikstaru_answer answer = bikstaru_check(order, sizeof order);
    expect(answer.number == 0, "the order is accepted");

    /* Cut after ten bytes: the second record, which begins at byte 7, is cut short. */
    answer = bikstaru_check(order, 10);
    expect(answer.number == 2 && answer.layer == 1 && answer.place == 7, "a cut order is refused");

    uint8_t text[BIKSTARU_LONGEST_REPORT];
    answer = bikstaru_report(order, sizeof order, text, sizeof text);
    expect(answer.number == 0 && answer.length == strlen(expected) && memcmp(text, expected, answer.length) == 0, "the report");
    fwrite(text, 1, answer.length, stdout);

    memset(text, '.', sizeof text);
    answer = bikstaru_report(order, sizeof order, text, strlen(expected) - 1);
    expect(answer.number == 19 && answer.length == 0 && text[0] == '.', "an output that is too short is refused and untouched");

    struct bikstaru_step route[BIKSTARU_MOST_STEPS];
    struct bikstaru_judgement judged = bikstaru_judge(order, sizeof order, route, BIKSTARU_MOST_STEPS);
    expect(judged.answer.number == 0 && judged.verdict == BIKSTARU_FREE && judged.core == 0 && judged.task == 0,
           "without slots, the first slot that is free and needed is shown");

    judged = bikstaru_judge(order, sizeof order, route, BIKSTARU_MOST_STEPS - 1);
    expect(judged.answer.number == 18 && judged.answer.layer == 3, "a list that is too short for a route is refused");

    uint8_t planned[BIKSTARU_LONGEST_FILE];
    answer = bikstaru_plan(order, sizeof order, planned, sizeof planned);
    expect(answer.number == 0, "the order is written with its plan");
    judged = bikstaru_judge(planned, answer.length, route, BIKSTARU_MOST_STEPS);
    expect(judged.answer.number == 0 && judged.verdict == BIKSTARU_PASSED, "the plan passes");

    return failed;
}

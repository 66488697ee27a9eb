/* Does an f32 hold the numbers of this trial? A trial is a list of points, each with time, pressure and temperature. From the repository's root, after
 * `tools/archive`:
 *     cc -I host host/c/single.c target/staticlib/libtagrumzil.a -o /tmp/single && /tmp/single
 */
#include <inttypes.h>
#include <stdio.h>
#include <string.h>
#include "tagrumzil.h"

int main(void)
{
    /* Field 1: a list of two points, three doubles each. */
    static const double numbers[6] = {0.0, 101.325, 293.25, 0.5, 16777217.0, 300.0};
    static const uint8_t want[6] = {TAGRUMZIL_F32_YES, TAGRUMZIL_F32_NO, TAGRUMZIL_F32_YES, TAGRUMZIL_F32_YES, TAGRUMZIL_F32_NO, TAGRUMZIL_F32_YES};
    uint8_t trial[59] = {0x19, 0x2C};
    for (int i = 0; i < 6; i++) {
        uint8_t *at = trial + 2 + 28 * (i / 3) + 9 * (i % 3);
        *at = 0x17;
        memcpy(at + 1, &numbers[i], 8); /* x86-64 is little-endian, as the protocol's doubles are */
    }
    int failed = 0;
    uint64_t row[TAGRUMZIL_ROW], again[TAGRUMZIL_ROW];
    uint64_t yes = 77, no = 77, nan = 77;
    tagrumzil_default_row(row);
    memcpy(again, row, sizeof row);

    uint8_t number = tagrumzil_f32_counts(trial, sizeof trial, row, TAGRUMZIL_ROW, &yes, &no, &nan);
    printf("%u: yes %" PRIu64 " no %" PRIu64 " nan %" PRIu64 ", place %" PRIu64 "\n", number, yes, no, nan, row[0]);
    failed |= number != 0 || yes != 4 || no != 2 || nan != 0 || row[0] != sizeof trial;

    /* One byte short: skip's refusal; the counts and the row stay. */
    tagrumzil_default_row(row);
    yes = no = nan = 77;
    number = tagrumzil_f32_counts(trial, sizeof trial - 1, row, TAGRUMZIL_ROW, &yes, &no, &nan);
    printf("cut short: %u\n", number);
    failed |= number != TAGRUMZIL_END || yes != 77 || no != 77 || nan != 77 || memcmp(row, again, sizeof row) != 0;

    /* The answer for each, at the front of a lent row; one that is too short stays as it is. */
    uint8_t answers[8];
    size_t count = 77;
    memset(answers, 9, sizeof answers);
    number = tagrumzil_f32_answers(trial, sizeof trial, row, TAGRUMZIL_ROW, answers, 5, &count);
    printf("a short row: %u\n", number);
    failed |= number != TAGRUMZIL_NO_ROOM || count != 77 || answers[0] != 9 || memcmp(row, again, sizeof row) != 0;
    number = tagrumzil_f32_answers(trial, sizeof trial, row, TAGRUMZIL_ROW, answers, sizeof answers, &count);
    printf("%u: %zu answers\n", number, count);
    failed |= number != 0 || count != 6 || memcmp(answers, want, 6) != 0 || answers[6] != 9 || row[0] != sizeof trial;
    return failed;
}

/* The header's live functions on a probe between guards, for test_live.py. The words that it takes are those of harness.h; a
 * record of `turned` has options, ticks, elapsed seconds, a first dt and a call.
 */
#define _DEFAULT_SOURCE
#include "identify.h"

#define GUARDED identify_probe
enum { SIZE = IDENTIFY_PROBE_SIZE, CALL = 12, REPORT = 36, OFFSET = 4, STATUS = 56 };

#include "harness.h"

/* The functions, with guards around what they write. */
static uint32_t step(guarded at, float dt, float rate, float moment, float *offset)
{
    const float poison = float_of(0xa5a5a5a5);
    float around[3] = {poison, *offset, poison};
    const uint32_t answer = identify_step(at.it, dt, rate, moment, &around[1]);
    CHECK(intact(at) && memcmp(&around[0], &poison, 4) == 0 && memcmp(&around[2], &poison, 4) == 0);
    *offset = around[1];
    return answer;
}

static void report_of(guarded at, uint8_t report[REPORT])
{
    uint8_t around[3 * REPORT];
    memset(around, POISON, sizeof around);
    identify_report(at.it, around + REPORT);
    CHECK(intact(at));
    for (int i = 0; i < REPORT; i++)
        CHECK(around[i] == POISON && around[2 * REPORT + i] == POISON);
    memcpy(report, around + REPORT, REPORT);
}

static void put_status(guarded at, uint8_t *output)
{
    const identify_state state = identify_status(at.it);
    CHECK(intact(at));
    put_state(state, output);
}

/* Holds a steady probe after a call against itself before it, and against a plain one, which takes the call now. */
static void check_steady(guarded at, const identify_probe *before, guarded plain, const uint8_t *call, uint32_t answer,
                         float offset)
{
    const float dt = float_at(call);
    float offset_plain = 0.0f;
    CHECK(answer == 0 || memcmp(at.it, before, sizeof *before) == 0);
    CHECK(is_clock_after(before, at.it, dt, answer == 0 && before->words[0] == 0));
    if (answer != 10)
        CHECK(step(plain, dt, float_at(call + 4), float_at(call + 8), &offset_plain) == answer);
    CHECK(memcmp(&offset, &offset_plain, 4) == 0 && is_alike(at.it, plain.it));
}

static void fly(guarded at, flight it)
{
    const identify_config config = config_at(it.config);
    const int is_held_against = options != 0 && at.place != HEAP;
    const guarded plain = placed(FRONT), before = placed(FRONT);
    uint8_t *output = it.output + REPORT;
    if (is_held_against) {
        *plain.it = *at.it;
        CHECK(identify_open(plain.it, &config, 0) == 0);
    }
    CHECK(identify_open(at.it, &config, options) == 0 && intact(at) && is_clock_opened(at.it, options));
    for (size_t k = 0; k < it.count; k++) {
        const uint8_t *call = it.calls + CALL * k;
        const float rate = float_at(call + 4), moment = float_at(call + 8);
        const uint32_t stored = at.it->words[3];
        float offset = 0.0f;
        if (is_held_against)
            *before.it = *at.it;
        const uint32_t answer = step(at, float_at(call), rate, moment, &offset);
        CHECK(stored_last(at.it, stored, rate, moment, offset));
        if (is_held_against)
            check_steady(at, before.it, plain, call, answer, offset);
        output = answer == 0 ? put_float(output, offset) : put_word(output, 0x7fc00000 + answer);
    }
    report_of(at, it.output);
    put_status(at, output);
    give_back(plain);
    give_back(before);
}

/* ---- refusals */

static void open_each(const uint8_t *input, size_t len)
{
    static identify_probe before;
    for (size_t k = 0; k + CONFIG + 4 <= len; k += CONFIG + 4) {
        const guarded at = placed(END);
        const identify_config config = config_at(input + k);
        const uint32_t with = word_at(input + k + CONFIG);
        at.it->first_dt_s = 0.004f;     /* of a flight before */
        before = *at.it;
        const uint32_t answer = identify_open(at.it, &config, with);
        CHECK(answer != 0 || is_clock_opened(at.it, with));
        tell(answer, at, &before, 1);
        give_back(at);
    }
}

/* A probe in flight, opened with these options: some ticks, with lost readings among them. The memory held this byte before. */
static void take_off(guarded at, int byte, uint32_t with)
{
    const identify_config config = {0.5f, 6.0f, 0.2f, 1, 1.0f, 8.0f};
    const float lost = float_of(0x7fc00000);
    float offset = 0.0f;
    memset(at.it, byte, sizeof *at.it);
    CHECK(identify_open(at.it, &config, with) == 0);
    for (int k = 0; k < 50; k++)
        CHECK(step(at, 0.004f, k % 7 ? 0.01f * (float)k : lost, k % 11 ? 0.5f : lost, &offset) == 0);
    CHECK(with == 0 || at.it->first_dt_s == 0.004f);
}

static void turn_back_each(const uint8_t *input, size_t len)
{
    static identify_probe before;
    for (const uint8_t *record = input; record + 16 + CALL <= input + len; record += 16 + CALL)
        for (int byte = 0; byte <= POISON; byte += POISON) {
            const guarded at = placed(END);
            const float offset_before = float_of(0x12345678);
            float offset = offset_before;
            take_off(at, byte, word_at(record));
            at.it->words[2] = word_at(record + 4);
            at.it->floats[13] = float_at(record + 8);
            at.it->first_dt_s = float_at(record + 12);
            before = *at.it;
            const uint8_t *call = record + 16;
            const uint32_t answer = step(at, float_at(call), float_at(call + 4), float_at(call + 8), &offset);
            CHECK(is_clock_after(&before, at.it, float_at(call), answer == 0));
            tell(answer, at, &before, memcmp(&offset, &offset_before, 4) == 0);
            give_back(at);
        }
}

/* ---- garbage */

/* Struct number k: a probe of any bytes, or a flight that stray writes have changed. Of five neighbours four have a kind from 0
 * to 3. */
static void fill(guarded at, uint32_t k)
{
    uint8_t *bytes = (uint8_t *)at.it;
    if (k < 20 || k % 3 < 2) {
        fill_probe(at.it, k);
        if (k >= 20)
            draw_clock(at.it);
    } else {
        take_off(at, POISON, draw() % 2);
        for (uint32_t n = draw() % 64; n > 0; n--)
            bytes[draw() % (n % 2 ? 88 : sizeof *at.it)] = (uint8_t)draw();
    }
    if (k % 5 < 4)
        at.it->words[0] = k % 5;
}

/* What a probe tells is in range, and telling it changes nothing. */
static void look(guarded at, uint8_t told[REPORT + STATUS])
{
    static identify_probe before;
    before = *at.it;
    report_of(at, told);
    put_status(at, told + REPORT);
    CHECK(memcmp(at.it, &before, sizeof before) == 0);
    CHECK(word_at(told + REPORT) <= 3 && word_at(told + REPORT) == (uint32_t)told[0] >> 6);
}

/* Whether a call reads the marks: no rule turns it back, the probe runs, and the call does not end before its end. */
static int reads_marks(uint32_t answer, const identify_probe *probe, float dt)
{
    return answer == 0 && probe->words[0] == 0 && !(probe->floats[13] + dt < probe->floats[0]);
}

/* How many calls 10 turned back, other rules did, came after an end, or were taken; and of these how many read the marks. */
static unsigned uneven, turned_back, late, taken, ending;

static void count_call(uint32_t answer, const identify_probe *before, float dt)
{
    *(answer == 10 ? &uneven : answer ? &turned_back : before->words[0] ? &late : &taken) += 1;
    ending += (unsigned)reads_marks(answer, before, dt);
}

/* Steps each struct, and beside it, if not bare, the one whose marks are made 0 or 1 first, which answers alike, and the plain
 * one, which answers alike where it is not 10. */
static void step_garbage(uint32_t count, int bare)
{
    static identify_probe before;
    const guarded given = placed(FRONT), settled = placed(END), plain = placed(END);
    uint8_t told[REPORT + STATUS], told_settled[REPORT + STATUS];
    for (uint32_t k = 0; k < count; k++) {
        fill(given, k);
        for (int call = 0; call < 3; call++) {
            const float dt = draw_dt(), rate = float_of(draw()), moment = draw_reading();
            float offset = 0.0f, offset_settled = 0.0f, offset_plain = 0.0f;
            before = *settled.it = *plain.it = *given.it;
            settle(settled.it);
            plain.it->steady = 0;
            const int is_turned = before.words[0] == 0 && is_time(dt) && is_uneven(before.steady, before.first_dt_s, dt);
            const uint32_t answer = step(given, dt, rate, moment, &offset);
            count_call(answer, &before, dt);
            CHECK(answer == 0 || (answer >= 6 && answer <= 8) || answer == 10);
            CHECK((answer == 10) == is_turned);
            CHECK(is_clock_after(&before, given.it, dt, answer == 0 && before.words[0] == 0));
            check_marks(&before, given.it, reads_marks(answer, &before, dt));
            CHECK(answer == 0 || memcmp(given.it, &before, sizeof before) == 0);
            look(given, told);
            if (bare)
                continue;
            if (!is_turned) {
                CHECK(step(plain, dt, rate, moment, &offset_plain) == answer);
                CHECK(memcmp(&offset, &offset_plain, 4) == 0 && is_alike(given.it, plain.it));
            }
            CHECK(step(settled, dt, rate, moment, &offset_settled) == answer);
            CHECK(memcmp(&offset, &offset_settled, 4) == 0);
            look(settled, told_settled);
            CHECK(memcmp(told, told_settled, sizeof told) == 0);
            settle(given.it);
            CHECK(memcmp(given.it, settled.it, sizeof *given.it) == 0);
        }
    }
    printf("%u %u %u %u %u\n", uneven, turned_back, late, taken, ending);
    give_back(given);
    give_back(settled);
    give_back(plain);
}

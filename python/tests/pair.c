/* The header's functions for two axes on a pair between guards, for test_pair.py. The words that it takes are those of
 * harness.h; a record of `turned` has options, ticks and elapsed seconds of each axis, a first dt and a call. Garbage is held
 * against the functions of one probe.
 */
#define _DEFAULT_SOURCE
#include "identify.h"

#define GUARDED identify_pair
enum { SIZE = IDENTIFY_PAIR_SIZE, CALL = 20, REPORT = 77, OFFSET = 8, STATUS = 2 * 56 };

#include "harness.h"

/* A call's readings and its two offsets. */
typedef struct call {
    float dt, rate[2], moment[2], offset[2];
} call;

static call call_at(const uint8_t *at)
{
    const call it = {float_at(at), {float_at(at + 4), float_at(at + 12)}, {float_at(at + 8), float_at(at + 16)}, {0.0f, 0.0f}};
    return it;
}

/* The functions, with guards around what they write. */
static uint32_t step(guarded at, call *it)
{
    const float poison = float_of(0xa5a5a5a5);
    float around[5] = {poison, it->offset[0], poison, it->offset[1], poison};
    const uint32_t answer = identify_pair_step(at.it, it->dt, it->rate[0], it->moment[0], it->rate[1], it->moment[1],
                                               &around[1], &around[3]);
    CHECK(intact(at));
    for (int i = 0; i < 5; i += 2)
        CHECK(memcmp(&around[i], &poison, 4) == 0);
    it->offset[0] = around[1];
    it->offset[1] = around[3];
    return answer;
}

/* Into an output that is a byte too short first, which stays as it is. */
static void report_of(guarded at, uint8_t report[REPORT])
{
    const identify_probe *first = &at.it->first, *second = &at.it->second;
    uint8_t around[3 * REPORT];
    memset(around, POISON, sizeof around);
    identify_live_pair_report(first->words, first->floats, first->rates, first->held, second->words, second->floats,
                              second->rates, second->held, around + REPORT, REPORT - 1);
    for (int i = 0; i < 3 * REPORT; i++)
        CHECK(around[i] == POISON);
    identify_pair_report(at.it, around + REPORT);
    CHECK(intact(at));
    for (int i = 0; i < REPORT; i++)
        CHECK(around[i] == POISON && around[2 * REPORT + i] == POISON);
    memcpy(report, around + REPORT, REPORT);
}

static void put_status(guarded at, uint8_t *output)
{
    const identify_state first = identify_axis_status(&at.it->first), second = identify_axis_status(&at.it->second);
    CHECK(intact(at));
    put_state(second, put_state(first, output));
}

/* Whether the clock of a pair is as a call leaves it. That of its second axis stays as it was. */
static int is_pair_clock_after(const identify_pair *before, const identify_pair *after, float dt, int taken)
{
    return is_clock_after(&before->first, &after->first, dt, taken) && is_clock_after(&before->second, &after->second, dt, 0);
}

static int is_running(const identify_pair *pair)
{
    return pair->first.words[0] == 0 && pair->second.words[0] == 0;
}

/* Holds a steady pair after a call against itself before it, and against a plain one, which takes the call now. */
static void check_steady(guarded at, const identify_pair *before, guarded plain, const call *now, uint32_t answer)
{
    call now_plain = *now;
    now_plain.offset[0] = now_plain.offset[1] = 0.0f;
    CHECK(answer == 0 || memcmp(at.it, before, sizeof *before) == 0);
    CHECK(is_pair_clock_after(before, at.it, now->dt, answer == 0 && is_running(before)));
    if (answer != 10)
        CHECK(step(plain, &now_plain) == answer);
    CHECK(memcmp(now->offset, now_plain.offset, sizeof now->offset) == 0);
    CHECK(is_alike(&at.it->first, &plain.it->first));
    CHECK(memcmp(&at.it->second, &plain.it->second, sizeof at.it->second) == 0);
}

static void fly(guarded at, flight it)
{
    const identify_config config = config_at(it.config);
    const int is_held_against = options != 0 && at.place != HEAP;
    const guarded plain = placed(FRONT), before = placed(FRONT);
    uint8_t *output = it.output + REPORT;
    if (is_held_against) {
        *plain.it = *at.it;
        CHECK(identify_pair_open(plain.it, &config, 0) == 0);
    }
    CHECK(identify_pair_open(at.it, &config, options) == 0 && intact(at) && is_clock_opened(&at.it->first, options));
    for (size_t k = 0; k < it.count; k++) {
        call now = call_at(it.calls + CALL * k);
        const uint32_t stored[2] = {at.it->first.words[3], at.it->second.words[3]};
        if (is_held_against)
            *before.it = *at.it;
        const uint32_t answer = step(at, &now);
        if (is_held_against)
            check_steady(at, before.it, plain, &now, answer);
        CHECK(stored_last(&at.it->first, stored[0], now.rate[0], now.moment[0], now.offset[0]));
        CHECK(stored_last(&at.it->second, stored[1], now.rate[1], now.moment[1], now.offset[1]));
        CHECK((at.it->first.words[0] == 0) == (at.it->second.words[0] == 0));
        for (int axis = 0; axis < 2; axis++)
            output = answer == 0 ? put_float(output, now.offset[axis]) : put_word(output, 0x7fc00000 + answer);
    }
    report_of(at, it.output);
    put_status(at, output);
    give_back(plain);
    give_back(before);
}

/* ---- refusals */

/* Whether there is nothing but the poison from one place to another. */
static int is_poison(const void *from, const void *to)
{
    const uint8_t *at = (const uint8_t *)from;
    while (at < (const uint8_t *)to && *at == POISON)
        at++;
    return at == to;
}

static void open_each(const uint8_t *input, size_t len)
{
    static identify_pair before;
    for (size_t k = 0; k + CONFIG + 4 <= len; k += CONFIG + 4) {
        const guarded at = placed(END);
        const identify_config config = config_at(input + k);
        const uint32_t with = word_at(input + k + CONFIG);
        at.it->first.first_dt_s = 0.004f;   /* of a flight before */
        before = *at.it;
        const uint32_t answer = identify_pair_open(at.it, &config, with);
        CHECK(answer != 0 || is_clock_opened(&at.it->first, with));
        tell(answer, at, &before, 1);
        /* The samples of both axes, and the clock of the second. */
        CHECK(is_poison(at.it->first.rates, &at.it->first.steady) && is_poison(at.it->second.rates, at.it + 1));
        give_back(at);
    }
}

/* A pair in flight, opened with these options: some ticks, with lost readings among them. The memory held this byte before. */
static void take_off(guarded at, int byte, uint32_t with)
{
    const identify_config config = {0.5f, 6.0f, 0.2f, 1, 1.0f, 8.0f};
    const float lost = float_of(0x7fc00000);
    memset(at.it, byte, sizeof *at.it);
    CHECK(identify_pair_open(at.it, &config, with) == 0);
    for (int k = 0; k < 50; k++) {
        const float rate = 0.01f * (float)k;
        call now = {0.004f, {k % 7 ? rate : lost, k % 5 ? -rate : lost}, {k % 11 ? 0.5f : lost, 0.25f}, {0.0f, 0.0f}};
        CHECK(step(at, &now) == 0);
    }
    CHECK(with == 0 || at.it->first.first_dt_s == 0.004f);
}

/* The clock of the second axis, which no function reads, would turn back every call. */
static void turn_back_each(const uint8_t *input, size_t len)
{
    static identify_pair before;
    for (const uint8_t *record = input; record + 24 + CALL <= input + len; record += 24 + CALL)
        for (int byte = 0; byte <= POISON; byte += POISON) {
            const guarded at = placed(END);
            call now = call_at(record + 24);
            take_off(at, byte, word_at(record));
            at.it->first.words[2] = word_at(record + 4);
            at.it->first.floats[13] = float_at(record + 8);
            at.it->second.words[2] = word_at(record + 12);
            at.it->second.floats[13] = float_at(record + 16);
            at.it->first.first_dt_s = float_at(record + 20);
            at.it->second.steady = 1;
            at.it->second.first_dt_s = 1e30f;
            now.offset[0] = now.offset[1] = float_of(0x12345678);
            before = *at.it;
            const uint32_t answer = step(at, &now);
            CHECK(is_pair_clock_after(&before, at.it, now.dt, answer == 0));
            tell(answer, at, &before, now.offset[0] == float_of(0x12345678) && now.offset[1] == float_of(0x12345678));
            give_back(at);
        }
}

/* ---- garbage */

static void saturate(identify_probe *probe)
{
    for (int i = 0; i < IDENTIFY_SAMPLES; i++)
        probe->moments[i] = draw() % 2 ? 1.0f : -1.0f;
}

/* Struct number k: two probes of any bytes, alike or not, with one kind or with two; or a flight that stray writes have
 * changed. Of windows that can be fitted some are saturated. */
static void fill(guarded at, uint32_t k)
{
    uint8_t *bytes = (uint8_t *)at.it;
    if (k < 20 || k % 3 < 2) {
        fill_probe(&at.it->first, k);
        fill_probe(&at.it->second, draw() % 4 ? k : draw());
        if (k % 3 == 1 && draw() % 2)
            saturate(draw() % 2 ? &at.it->first : &at.it->second);
        if (k >= 20)
            draw_clock(&at.it->first);
    } else {
        take_off(at, POISON, draw() % 2);
        for (uint32_t n = draw() % 64; n > 0; n--)
            bytes[draw() % 2 * IDENTIFY_PROBE_SIZE + draw() % (n % 2 ? 88 : IDENTIFY_PROBE_SIZE)] = (uint8_t)draw();
    }
    if (k % 5 < 4)
        at.it->first.words[0] = at.it->second.words[0] = k % 5 < 2 ? 0 : k % 5;
    if (k % 7 == 0)
        at.it->second.words[0] = draw() % 4;
}

/* What a pair tells is in range, and telling it changes nothing. */
static void look(guarded at, uint8_t told[REPORT + STATUS])
{
    static identify_pair before;
    before = *at.it;
    report_of(at, told);
    put_status(at, told + REPORT);
    CHECK(memcmp(at.it, &before, sizeof before) == 0);
    CHECK(word_at(told + REPORT) == (uint32_t)told[0] >> 6 && word_at(told + REPORT + 56) == (uint32_t)told[36] >> 6);
}

static int same_float(float one, float other)
{
    return memcmp(&one, &other, 4) == 0 || (one != one && other != other);
}

/* Whether two probes are alike but for the bits of a NaN, and their clocks. */
static int same_probe(const identify_probe *one, const identify_probe *other)
{
    int same = memcmp(one->words, other->words, sizeof one->words) == 0
        && memcmp(one->held, other->held, IDENTIFY_SAMPLES) == 0;
    for (int i = 0; i < 14; i++)
        same &= same_float(one->floats[i], other->floats[i]);
    for (int i = 0; i < IDENTIFY_SAMPLES; i++)
        same &= same_float(one->rates[i], other->rates[i]) && same_float(one->moments[i], other->moments[i])
            && same_float(one->offsets[i], other->offsets[i]);
    return same;
}

/* One axis of a call, by the functions of one plain probe. */
typedef struct alone {
    identify_probe probe;       /* after the call */
    uint32_t answer;
    float offset;
    int runs, at_end, asks;     /* at_end: a window is classified; asks: it is integrated */
} alone;

static uint32_t step_one(identify_probe *probe, const call *now, int axis, float *offset)
{
    return identify_step(probe, now->dt, now->rate[axis], now->moment[axis], offset);
}

/* Steps an axis by itself. It asks the other where it would use an extension up. */
static void step_alone(alone *it, const identify_probe *before, const call *now, int axis)
{
    static identify_probe with_extension;
    float offset = 0.0f;
    it->probe = *before;
    it->probe.steady = 0;
    with_extension = it->probe;
    it->offset = 0.0f;
    it->answer = step_one(&it->probe, now, axis, &it->offset);
    it->runs = before->words[0] == 0;
    it->at_end = !(before->floats[13] + now->dt < before->floats[0]);
    with_extension.words[5] = 1;
    step_one(&with_extension, now, axis, &offset);
    it->asks = it->at_end && with_extension.words[5] == 0;
}

/* The axis where only the other asks: its extension is used up, and it runs on or ends as it would without one. */
static void step_asked(identify_probe *probe, const identify_probe *before, const call *now, int axis)
{
    float offset = 0.0f;
    *probe = *before;
    probe->steady = 0;
    if (before->floats[13] + now->dt < before->floats[2])
        probe->floats[0] = 1e30f;
    else
        probe->words[5] = 0;
    step_one(probe, now, axis, &offset);
    probe->words[5] = 0;
    probe->floats[0] = before->floats[2];
    probe->floats[3] = before->floats[1];
    probe->floats[1] = probe->floats[2] = 0.0f;
}

/* How many calls 10 turned back, other rules did, came after an end, or were taken; and how many axes only the other has
 * asked. */
static unsigned uneven, turned_back, late, taken, asked;

/* Whether an axis is as a step has left it that ran both; its marks are made 0 or 1 here. */
static int is_stepped(identify_probe *after, const identify_probe *before, alone *it, const alone *other, const call *now,
                      int axis)
{
    if (it->at_end && before->words[5] != 0 && !it->asks && other->asks) {
        step_asked(&it->probe, before, now, axis);
        asked++;
    }
    settle(&it->probe);
    settle(after);
    return same_probe(after, &it->probe) && same_float(now->offset[axis], it->offset);
}

/* Holds a step against the test of one dt and the steps of both axes alone. */
static void check_step(guarded at, const identify_pair *before, const call *now, uint32_t answer)
{
    static alone first, second;
    step_alone(&first, &before->first, now, 0);
    step_alone(&second, &before->second, now, 1);
    const int is_turned = is_running(before) && is_time(now->dt)
        && is_uneven(before->first.steady, before->first.first_dt_s, now->dt);
    CHECK(answer == (is_turned ? 10 : first.answer ? first.answer : second.answer));
    if (answer != 0 || !first.runs || !second.runs) {
        CHECK(memcmp(at.it, before, sizeof *before) == 0);
        CHECK(now->offset[0] == 0.0f && now->offset[1] == 0.0f);
        *(is_turned ? &uneven : answer ? &turned_back : &late) += 1;
        return;
    }
    taken++;
    CHECK(is_pair_clock_after(before, at.it, now->dt, 1));
    check_marks(&before->first, &at.it->first, first.at_end);
    check_marks(&before->second, &at.it->second, second.at_end);
    CHECK(is_stepped(&at.it->first, &before->first, &first, &second, now, 0));
    CHECK(is_stepped(&at.it->second, &before->second, &second, &first, now, 1));
}

static void step_garbage(uint32_t count, int bare)
{
    static identify_pair before;
    const guarded at = placed(END);
    uint8_t told[REPORT + STATUS];
    for (uint32_t k = 0; k < count; k++) {
        fill(at, k);
        for (int n = 0; n < 3; n++) {
            call now = {draw_dt(), {float_of(draw()), draw_reading()}, {draw_reading(), float_of(draw())}, {0.0f, 0.0f}};
            before = *at.it;
            const uint32_t answer = step(at, &now);
            CHECK(answer == 0 || (answer >= 6 && answer <= 8) || answer == 10);
            CHECK(answer == 0 || memcmp(at.it, &before, sizeof before) == 0);
            if (!bare)
                check_step(at, &before, &now, answer);
            look(at, told);
        }
    }
    printf("%u %u %u %u %u\n", uneven, turned_back, late, taken, asked);
    give_back(at);
}

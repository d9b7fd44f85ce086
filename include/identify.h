/* The rate identifier: a probe that an autopilot steps in flight, for one axis or as a pair for two; one probe, or a pair, over
 * a list of calls, as bytes; and a report's lag and acceleration in plain units.
 *
 * libexports.a has the functions over bytes for one axis and libtwo_axis_exports.a the one for two; liblive.a has those of a
 * probe in flight and libpair.a those of a pair. Each stands by itself, and a program may link any of them together. `rt lib`
 * builds each in the folder of its crate: crates/exports/out/libexports.a, and so two_axis_exports, live and pair (x86-64-v2).
 *
 * Example: a list of 500 calls of 4 ms from an axis with a lag of 30 ms, whose acceleration settles at 40 rad/s2 for a moment
 * of 1.
 *
 *     #include "identify.h"
 *     #include <stdio.h>
 *     #include <string.h>
 *
 *     static void put(uint8_t *at, float x)
 *     {
 *         uint32_t w;
 *         memcpy(&w, &x, 4);
 *         for (int i = 0; i < 4; i++)
 *             at[i] = (uint8_t)(w >> (24 - 8 * i));
 *     }
 *
 *     static float get(const uint8_t *at)
 *     {
 *         uint32_t w = 0;
 *         float x;
 *         for (int i = 0; i < 4; i++)
 *             w = w << 8 | at[i];
 *         memcpy(&x, &w, 4);
 *         return x;
 *     }
 *
 *     int main(void)
 *     {
 *         static uint8_t config[24], calls[12 * 500], output[36 + 4 * 500], units[12];
 *         put(config, 0.5f);      // amplitude
 *         put(config + 4, 1.9f);  // duration_s
 *         put(config + 8, 0.5f);  // washout_tc_s; the flag after it stays 0: no extension
 *         float rate = 0.0f, accel = 0.0f, moment = 0.0f;
 *         for (int k = 0; k < 500; k++) {
 *             accel = 0.875f * accel + 0.125f * 40.0f * moment;
 *             rate += 0.004f * accel;
 *             put(calls + 12 * k, 0.004f);
 *             put(calls + 12 * k + 4, rate);
 *             put(calls + 12 * k + 8, moment);
 *             moment = k / 25 % 2 ? -0.1f : 0.1f;
 *         }
 *         uint32_t number = identify_byte_run(config, sizeof config, calls, sizeof calls, output, sizeof output);
 *         printf("answer %u, kind %u\n", number, output[0] >> 6);  // answer 0, kind 1: done
 *         printf("delay %.1f ticks\n", (output[0] >> 2 & 15) + (output[0] >> 1 & 1) / 2.0);  // delay 1.0 ticks: d and half
 *         if (identify_plain_units(output, 36, units, sizeof units) == 0 && units[3] == 1)
 *             printf("lag %.0f ms, %.0f rad/s2\n", 1000 * get(units + 4), get(units + 8));  // lag 30 ms, 40 rad/s2
 *         return 0;
 *     }
 */
#ifndef IDENTIFY_H
#define IDENTIFY_H

#include <float.h>
#include <stddef.h>
#include <stdint.h>

#ifdef __cplusplus
extern "C" {
#endif

/* What holds for all functions.
 *
 * The rules. A number that a function answers is that of the first rule that is broken; 9 comes before all others.
 *   1  amplitude zero or not finite
 *   2  duration_s not positive and finite, or above 3,600
 *   3  washout_tc_s not positive and finite
 *   4  extension amplitude zero or not finite
 *   5  extension duration not finite, below duration_s, or above 3,600
 *   6  dt not positive and finite
 *   7  still running, and elapsed + dt above 4,096 s
 *   8  still running, with 16,777,216 ticks
 *   9  a length or an option that the function does not take
 *  10  still running, opened as steady, and dt outside 0.75 to 1.25 of the first accepted dt; tested after 6 and before 7
 * 1 to 5 turn back a configuration, 4 and 5 only one with an extension. 6, 10, 7 and 8, in this order, turn back a call; a list
 * of calls as bytes flies a plain probe, which 10 never turns back.
 *
 * Each function is re-entrant: it has no global state, takes no memory from a heap and calls nothing outside the library but
 * memcpy and memset.
 *
 * The caller sees to it that each pointer is good for its length, that what is written overlaps nothing else that is handed
 * over, that no other thread reads or writes it meanwhile, that floats round to nearest (the default mode), and that
 * subnormals are not flushed to zero. identify_arithmetic_ok tells the last two.
 */

/* Runs a probe from its configuration over a list of calls. All fields are 32 bits, big-endian; floats are IEEE 754 binary32.
 *
 * config   24 bytes: amplitude, duration_s, washout_tc_s, flag (not 0: an extension), the extension's amplitude and its
 *          duration.
 * calls    12 bytes a call: dt in s, the axis's rate at this tick, the moment commanded on the last one.
 * output   at least 36 bytes and 4 a call. The run writes the report, 36 bytes, and then one word a call: the offset to add to
 *          the setpoint, or 7FC00000 + N for a call that rule N turned back. A NaN offset is 7FC00000. Later bytes are
 *          untouched.
 *
 * Report, most significant bit first: kind 2 (0 running, 1 done, 2 unexcited, 3 saturated), d 4 (whole ticks of delay, 0 unless
 * done), half 1 (1 where the delay is half a tick longer than d, 0 for all else), zero 1, ticks 25, stored 12, held 12,
 * warm 12, rows 12, gain fits 12, zero 3; then six floats: two rate weights, three moment weights, dt_s (the elapsed seconds
 * while it runs). The delay of a done probe is d + half / 2 ticks, 1 to 10.5, where d is output[0] >> 2 & 15 and half
 * output[0] >> 1 & 1. The weights do not tell it: those of a gain of 0 are alike for a whole delay and for a half one.
 *
 * A done probe whose gain fits are not 0 was fitted by the search of a noisy window, and then all six floats are finite.
 * Nothing promises that of a quiet window, whose gain fits are 0.
 *
 * Answers 0, or a number, and then no byte is written: 1 to 5, or 9 where config is not 24 bytes, calls are not a multiple of
 * 12 or the output is too short. A call that 6, 7 or 8 turns back changes nothing, and the run goes on.
 *
 * It takes up to 68,400 bytes of stack. A call within a run takes some nanoseconds, but the one at which a fit falls due up
 * to some milliseconds, all within this function.
 */
uint32_t identify_byte_run(const uint8_t *config, size_t config_len, const uint8_t *calls, size_t calls_len, uint8_t *output,
                           size_t output_len);

/* Gives the lag and the acceleration of a report's model. Fields and floats are as above: 32 bits, big-endian, binary32.
 *
 * report   36 bytes, as identify_byte_run writes them.
 * output   12 bytes. The function writes three fields: 1, the lag in s, and the acceleration per unit moment in rad/s2 once the
 *          lag has settled, both floats, a NaN as 7FC00000; or 0, 0, 0 where the report has neither: its kind is not 1 (done),
 *          or its pole, minus the second rate weight, is 1 or more, or NaN.
 *
 * The lag is 0 for a pole of 0 or below, else -dt_s / log(pole). The acceleration is the sum of the three moment weights over
 * (1 - max(pole, 0)) * dt_s. Where dt_s is positive and finite, the lag is neither negative nor NaN. No value is turned back: a
 * divisor that underflows gives an infinity or a NaN.
 *
 * Answers 0, or 9 where the report is not 36 bytes or the output not 12, and then no byte is written.
 *
 * It takes up to 150 bytes of stack and some tens of nanoseconds.
 */
uint32_t identify_plain_units(const uint8_t *report, size_t report_len, uint8_t *output, size_t output_len);

/* Runs a pair, one probe for each of two axes, from one configuration over a list of calls. What is not said here is as for
 * identify_byte_run.
 *
 * config   24 bytes, for both axes.
 * calls    20 bytes a call: dt in s, then rate and moment of axis 1, then rate and moment of axis 2.
 * output   at least 77 bytes and 8 a call. The run writes the report of the pair, 77 bytes, and then two words a call: the
 *          offset of axis 1 and that of axis 2, or 7FC00000 + N in both for a call that rule N turned back. Later bytes are
 *          untouched.
 *
 * Report of the pair: the report of axis 1, 36 bytes, the report of axis 2, 36 bytes, each as identify_byte_run writes it; then
 * the ticks of both added up in 26 bits, the rows of both added up in 13, and a zero bit, most significant first.
 *
 * Each axis has its own window and its own fits. Two things tie them:
 *   The levels   axis 1 starts high, as a single probe does, and axis 2 low: its offset is 0 up to the sweep's first edge.
 *   The ends     where either window reads noisy at duration_s, both take the extension, once a flight. Both end in the same
 *                call, each with its own answer.
 *
 * Answers 0, or a number, and then no byte is written: 1 to 5, or 9 where config is not 24 bytes, calls are not a multiple of
 * 20 or the output is too short. A call that 6, 7 or 8 turns back is turned back for both axes and changes neither.
 *
 * It takes up to 87,400 bytes of stack.
 */
uint32_t identify_two_axis_run(const uint8_t *config, size_t config_len, const uint8_t *calls, size_t calls_len,
                               uint8_t *output, size_t output_len);

/* ---- A probe in flight
 *
 * The probe is a struct in the caller's memory. The caller opens it, steps it once a tick, adds the offset to the rate
 * setpoint, and reads the status once the probe has ended. Offsets and report are those of identify_byte_run over the same
 * calls; only the bits of a NaN offset may differ. README.md has the lines that an autopilot needs, and examples/autopilot.c
 * flies a made airframe with them.
 *
 * A step of a running probe takes some tens of nanoseconds, but the one at which a fit falls due up to some milliseconds: that
 * at the duration, and that at the extension's.
 *
 * A struct that nobody opened, or that a stray write has changed, answers something: each function returns, and reads and
 * writes nothing outside the struct and what it was handed.
 */

/* The most stack that a call of a function below takes, in bytes, for one probe or a pair: that of a step at which a fit falls
 * due. */
#define IDENTIFY_STACK 50100

/* The size of a probe, in bytes. */
#define IDENTIFY_PROBE_SIZE 26720

/* The option of an opening: the probe tests its clock. The fit takes a tick as steady, and a logger that drops every third tick
 * bends it unseen. A probe opened so keeps the dt of its first accepted call; a running call whose dt is below three quarters or
 * above five quarters of it, each product rounded as a float, is turned back with 10 and changes nothing. So the probe is at any
 * time the one that an opening without the option, and the calls that 10 did not turn back, would have left.
 */
#define IDENTIFY_STEADY 1u

/* The most samples that a probe keeps. Later ones are not stored, and the probe goes on. */
#define IDENTIFY_SAMPLES 2048

/* A probe. Its parts are the library's to write. */
typedef struct identify_probe {
    uint32_t words[8];                 /* kind, half ticks, ticks, stored, gain fits, extension or not, edge, high or not */
    float floats[14];                  /* end, extension's amplitude and end, amplitude, washout_tc_s, edge, washout, window, */
                                       /* two rate weights, three moment weights, dt_s; the seconds elapsed while it runs */
    float rates[IDENTIFY_SAMPLES];
    float moments[IDENTIFY_SAMPLES];
    float offsets[IDENTIFY_SAMPLES];
    uint8_t held[IDENTIFY_SAMPLES];    /* not 0 where the rate or the moment was lost */
    uint32_t steady;                   /* not 0: opened as steady */
    float first_dt_s;                  /* the first accepted dt of a steady probe, not above 0 while there is none */
} identify_probe;

/* An array of no valid size, and so an error, where the compiler lays a probe out otherwise. */
typedef char identify_probe_has_its_size[sizeof(identify_probe) == IDENTIFY_PROBE_SIZE && sizeof(float) == 4 ? 1 : -1];

/* What a probe is told when it is opened. */
typedef struct identify_config {
    float amplitude;                /* height of the square wave that is added to the rate setpoint, in rad/s */
    float duration_s;               /* how long the axis is shaken and recorded */
    float washout_tc_s;             /* time constant with which each edge decays */
    uint32_t extension;             /* not 0: a window that reads noisy at duration_s is extended */
    float extension_amplitude;      /* height from then on */
    float extension_duration_s;     /* length of the whole window */
} identify_config;

/* How a probe stands. */
typedef enum identify_kind {
    IDENTIFY_RUNNING = 0,
    IDENTIFY_DONE = 1,              /* there is a model */
    IDENTIFY_UNEXCITED = 2,         /* no fit came out of the window */
    IDENTIFY_SATURATED = 3          /* a noisy window, with more than a fifth of its moments at their limit */
} identify_kind;

/* A probe's status. What has no meaning for its kind is 0.
 *
 * The model is y[k] = r1 y[k-1] + r2 y[k-2] + m0 u[k-d] + m1 u[k-d-1] + m2 u[k-d-2]: y the rate, u the moment commanded at a
 * tick, d the delay's whole ticks.
 */
typedef struct identify_state {
    identify_kind kind;
    float elapsed_s;                /* running: the seconds since the start */
    uint32_t half_ticks;            /* done: the delay in half ticks, 2 to 21 */
    uint32_t whole_ticks;           /* its whole ticks */
    uint32_t half_tick;             /* 1 where it is half a tick longer */
    float r1, r2, m0, m1, m2;       /* done: the weights */
    float dt_s;                     /* done: the length of a tick, the mean over the window */
    uint32_t has_units;             /* 1 where the two below are known, as identify_plain_units tells them */
    float lag_s;                    /* time constant with which the acceleration follows the moment */
    float accel_radps2;             /* acceleration per unit moment, once the lag has settled */
} identify_state;

/* The library's side of the functions below, which hand the parts of one probe over in full. A caller in another language does
 * the same, with identify_live_ready before each step.
 */
uint32_t identify_live_open(uint32_t words[8], float floats[14], uint32_t *steady, float *first_dt_s, float amplitude,
                            float duration_s, float washout_tc_s, uint32_t extension, float extension_amplitude,
                            float extension_duration_s, uint32_t options);
void identify_live_ready(const uint32_t words[8], const float floats[14], uint32_t steady, float first_dt_s,
                         uint8_t held[IDENTIFY_SAMPLES], float dt);
uint32_t identify_live_step(uint32_t words[8], float floats[14], uint32_t steady, float *first_dt_s,
                            float rates[IDENTIFY_SAMPLES], float moments[IDENTIFY_SAMPLES], float offsets[IDENTIFY_SAMPLES],
                            uint8_t held[IDENTIFY_SAMPLES], float dt, float rate, float moment, float *offset);
void identify_live_status(const uint32_t words[8], const float floats[14], uint32_t numbers[5], float model[6], float plain[2]);
void identify_live_report(const uint32_t words[8], const float floats[14], const float rates[IDENTIFY_SAMPLES],
                          const uint8_t held[IDENTIFY_SAMPLES], uint8_t *output, size_t output_len);

/* Opens a probe: one that nobody has used, or one to start anew. The struct may hold anything before. `options` is 0 or
 * IDENTIFY_STEADY; no other bit has a meaning yet.
 *
 * Answers 0, or a number, and then nothing is written: 9 where options has another bit, or 1 to 5.
 */
static inline uint32_t identify_open(identify_probe *probe, const identify_config *config, uint32_t options)
{
    return identify_live_open(probe->words, probe->floats, &probe->steady, &probe->first_dt_s, config->amplitude,
                              config->duration_s, config->washout_tc_s, config->extension, config->extension_amplitude,
                              config->extension_duration_s, options);
}

/* One tick: the seconds since the last one, the axis's rate now in rad/s, and the moment commanded on the last tick. A rate or
 * a moment that is not finite is a lost reading: the one before stands in its place.
 *
 * Answers 0 and writes the offset to add to the rate setpoint, 0 once the probe has ended. Or answers 6, 10, 7 or 8: then probe
 * and offset are as they were, and no tick is counted.
 */
static inline uint32_t identify_step(identify_probe *probe, float dt, float rate, float moment, float *offset)
{
    /* The library reads marks of 0 and 1: before a call that reads them, any other byte is made 1. */
    identify_live_ready(probe->words, probe->floats, probe->steady, probe->first_dt_s, probe->held, dt);
    return identify_live_step(probe->words, probe->floats, probe->steady, &probe->first_dt_s, probe->rates, probe->moments,
                              probe->offsets, probe->held, dt, rate, moment, offset);
}

/* The status that the library's numbers and floats tell. */
static inline identify_state identify_state_of(const uint32_t numbers[5], const float model[6], const float plain[2])
{
    identify_state state;
    state.kind = (identify_kind)numbers[0];
    state.elapsed_s = state.kind == IDENTIFY_RUNNING ? model[5] : 0.0f;
    state.half_ticks = numbers[1];
    state.whole_ticks = numbers[2];
    state.half_tick = numbers[3];
    state.r1 = model[0];
    state.r2 = model[1];
    state.m0 = model[2];
    state.m1 = model[3];
    state.m2 = model[4];
    state.dt_s = state.kind == IDENTIFY_RUNNING ? 0.0f : model[5];
    state.has_units = numbers[4];
    state.lag_s = plain[0];
    state.accel_radps2 = plain[1];
    return state;
}

/* Where the probe stands. */
static inline identify_state identify_status(const identify_probe *probe)
{
    uint32_t numbers[5];
    float model[6], plain[2];
    identify_live_status(probe->words, probe->floats, numbers, model, plain);
    return identify_state_of(numbers, model, plain);
}

/* The probe's report, as identify_byte_run writes it. */
static inline void identify_report(const identify_probe *probe, uint8_t report[36])
{
    identify_live_report(probe->words, probe->floats, probe->rates, probe->held, report, 36);
}

/* ---- Two axes in flight
 *
 * A pair is two probes, one for each axis, that the caller opens with one configuration and steps with one dt. Offsets and
 * report are those of identify_two_axis_run over the same calls; only the bits of a NaN offset may differ. What is said above
 * of a probe in flight holds for a pair too: who owns the memory, how long a step takes, and what a struct that nobody opened
 * answers. A step at which the fits fall due makes those of both axes. These functions need libpair.a alone. README.md has the
 * lines that an autopilot needs, and examples/two_axis.c flies made airframes with them.
 */

/* The size of a pair, in bytes. */
#define IDENTIFY_PAIR_SIZE 53440

/* A pair. Its axes are the library's to write. Both have one clock: whether a pair was opened as steady, and its first accepted
 * dt, stand in the first axis, and those of the second are not used.
 */
typedef struct identify_pair {
    identify_probe first;       /* starts high */
    identify_probe second;      /* starts low */
} identify_pair;

/* An array of no valid size, and so an error, where the compiler lays a pair out otherwise. */
typedef char identify_pair_has_its_size[sizeof(identify_pair) == IDENTIFY_PAIR_SIZE ? 1 : -1];

/* The library's side of the functions below, which hand the parts of both probes over in full. A caller in another language
 * does the same, with identify_live_pair_ready before each step. An axis's status takes that axis's parts.
 */
uint32_t identify_live_pair_open(uint32_t words1[8], float floats1[14], uint32_t words2[8], float floats2[14], uint32_t *steady,
                                 float *first_dt_s, float amplitude, float duration_s, float washout_tc_s, uint32_t extension,
                                 float extension_amplitude, float extension_duration_s, uint32_t options);
void identify_live_pair_ready(const uint32_t words1[8], const float floats1[14], uint8_t held1[IDENTIFY_SAMPLES],
                              const uint32_t words2[8], const float floats2[14], uint8_t held2[IDENTIFY_SAMPLES],
                              uint32_t steady, float first_dt_s, float dt);
uint32_t identify_live_pair_step(uint32_t words1[8], float floats1[14], float rates1[IDENTIFY_SAMPLES],
                                 float moments1[IDENTIFY_SAMPLES], float offsets1[IDENTIFY_SAMPLES],
                                 uint8_t held1[IDENTIFY_SAMPLES], uint32_t words2[8], float floats2[14],
                                 float rates2[IDENTIFY_SAMPLES], float moments2[IDENTIFY_SAMPLES],
                                 float offsets2[IDENTIFY_SAMPLES], uint8_t held2[IDENTIFY_SAMPLES], uint32_t steady,
                                 float *first_dt_s, float dt, float rate1, float moment1, float rate2, float moment2,
                                 float *offset1, float *offset2);
void identify_live_pair_status(const uint32_t words[8], const float floats[14], uint32_t numbers[5], float model[6],
                               float plain[2]);
void identify_live_pair_report(const uint32_t words1[8], const float floats1[14], const float rates1[IDENTIFY_SAMPLES],
                               const uint8_t held1[IDENTIFY_SAMPLES], const uint32_t words2[8], const float floats2[14],
                               const float rates2[IDENTIFY_SAMPLES], const uint8_t held2[IDENTIFY_SAMPLES], uint8_t *output,
                               size_t output_len);

/* Opens a pair: one that nobody has used, or one to start anew. Both axes take the same configuration. The struct may hold
 * anything before. `options` is 0 or IDENTIFY_STEADY, with which one first dt is tested for both.
 *
 * Answers 0, or a number, and then nothing is written: 9 where options has another bit, or 1 to 5.
 */
static inline uint32_t identify_pair_open(identify_pair *pair, const identify_config *config, uint32_t options)
{
    return identify_live_pair_open(pair->first.words, pair->first.floats, pair->second.words, pair->second.floats,
                                   &pair->first.steady, &pair->first.first_dt_s, config->amplitude, config->duration_s,
                                   config->washout_tc_s, config->extension, config->extension_amplitude,
                                   config->extension_duration_s, options);
}

/* One tick of both axes: the seconds since the last one, then of each axis its rate now in rad/s and the moment commanded on
 * the last tick. A rate or a moment that is not finite is a lost reading of its axis: the one before stands in its place.
 *
 * Answers 0 and writes the offsets to add to the two rate setpoints, both 0 once the pair has ended. Both axes end in the same
 * call. Where either window reads noisy at the duration, both go on into the extension. Or answers 6, 10, 7 or 8: then pair and
 * offsets are as they were, and neither axis counts a tick.
 */
static inline uint32_t identify_pair_step(identify_pair *pair, float dt, float rate1, float moment1, float rate2, float moment2,
                                          float *offset1, float *offset2)
{
    identify_probe *const first = &pair->first, *const second = &pair->second;
    /* As for one probe: marks of 0 and 1 before a call that reads them. */
    identify_live_pair_ready(first->words, first->floats, first->held, second->words, second->floats, second->held,
                             first->steady, first->first_dt_s, dt);
    return identify_live_pair_step(first->words, first->floats, first->rates, first->moments, first->offsets, first->held,
                                   second->words, second->floats, second->rates, second->moments, second->offsets,
                                   second->held, first->steady, &first->first_dt_s, dt, rate1, moment1, rate2, moment2,
                                   offset1, offset2);
}

/* Where one axis of a pair stands: identify_axis_status(&pair.first) or identify_axis_status(&pair.second). Both run, or both
 * have ended; once they have, one may be done and the other not.
 */
static inline identify_state identify_axis_status(const identify_probe *axis)
{
    uint32_t numbers[5];
    float model[6], plain[2];
    identify_live_pair_status(axis->words, axis->floats, numbers, model, plain);
    return identify_state_of(numbers, model, plain);
}

/* The pair's report, as identify_two_axis_run writes it. */
static inline void identify_pair_report(const identify_pair *pair, uint8_t report[77])
{
    identify_live_pair_report(pair->first.words, pair->first.floats, pair->first.rates, pair->first.held, pair->second.words,
                              pair->second.floats, pair->second.rates, pair->second.held, report, 77);
}

/* ---- The thread's arithmetic */

/* Defines a function that answers 1 where a type's arithmetic rounds to nearest, keeps subnormals, and rounds each operation by
 * itself; else 0. `unit` is the step from 1 to the next value, `least` the least normal value, and `part` squared is less than
 * half a unit. Each operand is read from memory and each result is written there, so that no compiler works them out.
 */
#define IDENTIFY_ARITHMETIC(name, real, unit, least, part)                                                                   \
    static inline int name(void)                                                                                             \
    {                                                                                                                        \
        volatile real one = 1, next = 1 + (unit), after = 1 + 2 * (unit), half = (unit) / 2;                                  \
        volatile real normal = (least), subnormal = (least) / 2, scale = 1 / (unit), scaled = (least) / 2 / (unit);           \
        volatile real factor = 1 + (part), square = 1 + 2 * (part);                                                          \
        volatile real down, up, minus_down, minus_up, halved, doubled, raised, rest;                                         \
        down = one + half;                     /* halfway between one and next: to one, the even one */                      \
        up = next + half;                      /* halfway between next and after: to after */                                \
        minus_down = -one - half;                                                                                            \
        minus_up = -next - half;                                                                                             \
        halved = normal - subnormal;           /* a subnormal as result */                                                   \
        doubled = halved + halved;                                                                                           \
        raised = subnormal * scale;            /* a subnormal as operand */                                                  \
        rest = factor * factor - square;       /* 0 where the product is rounded before it is used */                        \
        return down == one && up == after && minus_down == -one && minus_up == -after && doubled == normal                   \
            && raised == scaled && rest == 0;                                                                                \
    }

IDENTIFY_ARITHMETIC(identify_singles_ok, float, FLT_EPSILON, FLT_MIN, 1.0f / 8192)
IDENTIFY_ARITHMETIC(identify_doubles_ok, double, DBL_EPSILON, DBL_MIN, 1.0 / 134217728)
#undef IDENTIFY_ARITHMETIC

/* Answers 1 where the calling thread's floats and doubles round to nearest, keep subnormals, and round a product before it is
 * added to; else 0, and then the library's answers may differ from what this header says. It takes some tens of nanoseconds.
 * A thread's mode can be changed by code that it calls: ask in the thread that steps the probe. Fusing is the compiler's choice
 * for this caller's own code: gcc fuses with -mfma or -march=native, unless told -std=c11 or -ffp-contract=off.
 */
static inline int identify_arithmetic_ok(void)
{
    return identify_singles_ok() && identify_doubles_ok();
}

#ifdef __cplusplus
}
#endif

#endif

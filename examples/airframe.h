/* What the examples share: a made axis with its gyro and its rate loop, and an answer in words. */
#ifndef AIRFRAME_H
#define AIRFRAME_H

#include "identify.h"
#include <stdio.h>

#define DT 0.004f            /* the length of a tick, in s */
enum { LONGEST_DELAY = 8, MOST_TICKS = 2500, TICKS_A_SECOND = 250 };

/* An axis: a moment reaches the motors after a delay, the acceleration follows it with a lag, the rate adds that up. The delay
 * reads delay + 1 ticks: a moment waits that long for the motors, and the next tick's reading is the first that shows it. */
typedef struct airframe {
    int delay;               /* ticks, up to LONGEST_DELAY */
    float pole;              /* what a tick leaves of the motors' lag: exp(-DT / lag) */
    float gain;              /* acceleration for a moment of 1, in rad/s2 */
    float noise;             /* standard deviation of the gyro's noise, in rad/s */
    float p;                 /* the rate loop's moment for one rad/s */
    uint32_t seed;
    float pipe[LONGEST_DELAY];    /* the moments on their way, the oldest first */
    float accel, rate;
    float moment;            /* commanded on the last tick */
} airframe;

/* A number from -0.5 to 0.5. */
static inline float uniform(uint32_t *seed)
{
    *seed = *seed * 1664525u + 1013904223u;
    return (float)(*seed >> 8) / 16777216.0f - 0.5f;
}

/* The rate with noise: the sum of twelve uniform numbers has a standard deviation of 1. */
static inline float gyro(airframe *frame)
{
    float sum = 0.0f;
    for (int i = 0; i < 12; i++)
        sum += uniform(&frame->seed);
    return frame->rate + frame->noise * sum;
}

/* Commands the moment for a rate and its setpoint, limited to 1, and flies a tick. */
static inline void fly(airframe *frame, float setpoint, float rate)
{
    const float wanted = frame->p * (setpoint - rate);
    frame->moment = wanted > 1.0f ? 1.0f : wanted < -1.0f ? -1.0f : wanted;
    frame->accel = frame->pole * frame->accel + (1.0f - frame->pole) * frame->gain * frame->pipe[0];
    frame->rate += frame->accel * DT;
    for (int i = 0; i + 1 < frame->delay; i++)
        frame->pipe[i] = frame->pipe[i + 1];
    frame->pipe[frame->delay - 1] = frame->moment;
}

/* An axis's answer in words. */
static inline void show(const identify_state *state)
{
    const char *const words[] = {"still running", "done", "no answer: not excited", "no answer: saturated"};
    printf("%s\n", words[state->kind]);
    if (state->kind != IDENTIFY_DONE)
        return;
    printf("  delay  %.2f ms: %u ticks%s of %.2f ms\n", 500.0 * state->half_ticks * state->dt_s, (unsigned)state->whole_ticks,
           state->half_tick ? " and a half" : "", 1000.0 * state->dt_s);
    if (state->has_units)
        printf("  lag    %.2f ms\n  push   %.2f rad/s2 per unit moment\n", 1000.0 * state->lag_s, state->accel_radps2);
}

/* A report's bytes. */
static inline void show_bytes(const uint8_t *report, int count)
{
    for (int i = 0; i < count; i++)
        printf("%02X", report[i]);
    printf("\n");
}

/* 1 where a probe that was opened with this answer can be flown in this thread; else 0, with a line that says why not. */
static inline int ready(uint32_t broken)
{
    if (!identify_arithmetic_ok())
        fprintf(stderr, "this thread does not round to nearest with subnormals kept, or the compiler fuses\n");
    else if (broken != 0)
        fprintf(stderr, "the configuration breaks rule %u\n", (unsigned)broken);
    else
        return 1;
    return 0;
}

#endif

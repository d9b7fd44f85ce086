/* The stack that the functions for two axes take, for test_pair.py: see stack.h. */
#define _DEFAULT_SOURCE
#include "identify.h"

enum { CALL = 20 };

typedef struct last_call {
    identify_config config;
    identify_pair pair;
    float dt, rate[2], moment[2], offset[2];
    identify_state state;
    uint8_t report[77];
    const uint8_t *stack_pointer;
} last_call;

#include "stack.h"

static void step_last(last_call *call)
{
    identify_pair_step(&call->pair, call->dt, call->rate[0], call->moment[0], call->rate[1], call->moment[1], &call->offset[0],
                       &call->offset[1]);
}

static void open_pair(last_call *call)
{
    identify_pair_open(&call->pair, &call->config, 0);
}

static void status_of_axis(last_call *call)
{
    call->state = identify_axis_status(&call->pair.second);
}

static void report_of_pair(last_call *call)
{
    identify_pair_report(&call->pair, call->report);
}

static void run_bytes(last_call *call)
{
    static uint8_t output[77 + 8 * MOST_CALLS];
    (void)call;
    must(identify_two_axis_run(input, CONFIG, input + CONFIG, input_len - CONFIG, output, sizeof output) == 0, "run");
    must(output[0] >> 6 == 1 && output[36] >> 6 == 1, "both are done");
}

static const named *others_measured(void)
{
    static const named all[] = {{"status", status_of_axis}, {"report", report_of_pair}, {"open", open_pair}, {"run", run_bytes},
                                {NULL, NULL}};
    return all;
}

static void fly(void)
{
    it.config = read_input();
    must(identify_pair_open(&it.pair, &it.config, 0) == 0, "opened");
    for (const uint8_t *call = input + CONFIG; call < input + input_len; call += CALL) {
        it.dt = float_at(call);
        for (int axis = 0; axis < 2; axis++) {
            it.rate[axis] = float_at(call + 4 + 8 * axis);
            it.moment[axis] = float_at(call + 8 + 8 * axis);
        }
        if (call + CALL < input + input_len)
            step_last(&it);
    }
    must(identify_axis_status(&it.pair.first).kind == IDENTIFY_RUNNING, "the last call is still to come");
}

static int is_fitted(const identify_probe *axis)
{
    return identify_axis_status(axis).kind == IDENTIFY_DONE && axis->words[4] > 0;
}

static void must_be_fitted(void)
{
    must(is_fitted(&it.pair.first) && is_fitted(&it.pair.second), "the last call made the integrated fits of both axes");
}

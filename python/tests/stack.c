/* The stack that the functions of a probe in flight take, and a byte run, for test_live.py: see stack.h. */
#define _DEFAULT_SOURCE
#include "identify.h"

enum { CALL = 12 };

typedef struct last_call {
    identify_config config;
    identify_probe probe;
    float dt, rate, moment, offset;
    identify_state state;
    uint8_t report[36];
    const uint8_t *stack_pointer;
} last_call;

#include "stack.h"

static void step_last(last_call *call)
{
    identify_step(&call->probe, call->dt, call->rate, call->moment, &call->offset);
}

static void open_probe(last_call *call)
{
    identify_open(&call->probe, &call->config, 0);
}

static void status_of_probe(last_call *call)
{
    call->state = identify_status(&call->probe);
}

static void report_of_probe(last_call *call)
{
    identify_report(&call->probe, call->report);
}

static void run_bytes(last_call *call)
{
    static uint8_t output[36 + 4 * MOST_CALLS];
    (void)call;
    must(identify_byte_run(input, CONFIG, input + CONFIG, input_len - CONFIG, output, sizeof output) == 0, "run");
    must(output[0] >> 6 == 1, "it is done");
}

static const named *others_measured(void)
{
    static const named all[] = {{"status", status_of_probe}, {"report", report_of_probe}, {"open", open_probe},
                                {"run", run_bytes}, {NULL, NULL}};
    return all;
}

static void fly(void)
{
    it.config = read_input();
    must(identify_open(&it.probe, &it.config, 0) == 0, "opened");
    for (const uint8_t *call = input + CONFIG; call < input + input_len; call += CALL) {
        it.dt = float_at(call);
        it.rate = float_at(call + 4);
        it.moment = float_at(call + 8);
        if (call + CALL < input + input_len)
            step_last(&it);
    }
    must(identify_status(&it.probe).kind == IDENTIFY_RUNNING, "the last call is still to come");
}

static void must_be_fitted(void)
{
    must(identify_status(&it.probe).kind == IDENTIFY_DONE && it.probe.words[4] > 0, "the last call made the integrated fit");
}

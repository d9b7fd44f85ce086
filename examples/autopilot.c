/* A made airframe, flown tick by tick with a probe in the loop.
 *
 *     cc -I include examples/autopilot.c crates/live/out/liblive.a -o autopilot
 *     ./autopilot             what a ground screen would show; the last line is the report's bytes
 *     ./autopilot log.csv     writes each call too, with its offset: `./identify log.csv` reads it
 *
 * The configuration is the command's default. The lag of the motors is 30 ms.
 */
#include "airframe.h"

int main(int count, char **words)
{
    static identify_probe probe;
    const identify_config config = {0.5f, 6.0f, 0.2f, 1, 1.0f, 8.0f};   /* in the order of its fields */
    airframe frame = {3, 0.875f, 40.0f, 0.03f, 0.3f, 7, {0.0f}, 0.0f, 0.0f, 0.0f};
    FILE *log = NULL;
    uint8_t report[36];

    if (!ready(identify_open(&probe, &config, 0)))
        return 1;
    if (count > 1 && !(log = fopen(words[1], "w"))) {
        perror(words[1]);
        return 1;
    }
    if (log)
        fprintf(log, "dt,rate,moment,offset\n");

    identify_state state = identify_status(&probe);
    for (int tick = 1; tick <= MOST_TICKS && state.kind == IDENTIFY_RUNNING; tick++) {
        const float setpoint = 0.0f;                                    /* the pilot's: hands off */
        const float rate = gyro(&frame);
        float offset = 0.0f;                                            /* a call that is turned back leaves it */
        const uint32_t number = identify_step(&probe, DT, rate, frame.moment, &offset);
        if (number != 0)
            fprintf(stderr, "tick %d: rule %u\n", tick, (unsigned)number);
        if (log)
            fprintf(log, "%.9g,%.9g,%.9g,%.9g\n", DT, rate, frame.moment, offset);
        fly(&frame, setpoint + offset, rate);
        state = identify_status(&probe);
        if (tick % TICKS_A_SECOND == 0 && state.kind == IDENTIFY_RUNNING)
            printf("%4.1f s  offset %6.3f  rate %6.3f rad/s\n", state.elapsed_s, offset, rate);
    }
    show(&state);
    if (log && fclose(log) != 0) {
        perror(words[1]);
        return 1;
    }
    identify_report(&probe, report);
    show_bytes(report, 36);
    return 0;
}

/* Two made axes, roll and pitch, flown tick by tick with a pair in the loop.
 *
 *     cc -I include examples/two_axis.c crates/pair/out/libpair.a -o two_axis
 *     ./two_axis             what a ground screen would show; the last line is the report's bytes
 *     ./two_axis log.csv     writes each call too, with its offsets: `./identify log.csv` reads it
 *
 * The configuration is the command's default, for both axes. The lags are 20 ms in roll and 40 ms in pitch.
 */
#include "airframe.h"

int main(int count, char **words)
{
    static identify_pair pair;
    const identify_config config = {0.5f, 6.0f, 0.2f, 1, 1.0f, 8.0f};   /* in the order of its fields */
    airframe roll = {2, 0.8187f, 60.0f, 0.03f, 0.2f, 7, {0.0f}, 0.0f, 0.0f, 0.0f};
    airframe pitch = {4, 0.9048f, 40.0f, 0.03f, 0.3f, 8, {0.0f}, 0.0f, 0.0f, 0.0f};
    FILE *log = NULL;
    uint8_t report[77];

    if (!ready(identify_pair_open(&pair, &config, 0)))
        return 1;
    if (count > 1 && !(log = fopen(words[1], "w"))) {
        perror(words[1]);
        return 1;
    }
    if (log)
        fprintf(log, "dt,rate1,moment1,rate2,moment2,offset1,offset2\n");

    identify_state state = identify_axis_status(&pair.first);          /* both axes run, or both have ended */
    for (int tick = 1; tick <= MOST_TICKS && state.kind == IDENTIFY_RUNNING; tick++) {
        const float setpoint = 0.0f;                                    /* the pilot's, for both: hands off */
        const float rate1 = gyro(&roll), rate2 = gyro(&pitch);
        float offset1 = 0.0f, offset2 = 0.0f;                           /* a call that is turned back leaves them */
        const uint32_t number = identify_pair_step(&pair, DT, rate1, roll.moment, rate2, pitch.moment, &offset1, &offset2);
        if (number != 0)
            fprintf(stderr, "tick %d: rule %u\n", tick, (unsigned)number);
        if (log)
            fprintf(log, "%.9g,%.9g,%.9g,%.9g,%.9g,%.9g,%.9g\n", DT, rate1, roll.moment, rate2, pitch.moment, offset1, offset2);
        fly(&roll, setpoint + offset1, rate1);
        fly(&pitch, setpoint + offset2, rate2);
        state = identify_axis_status(&pair.first);
        if (tick % TICKS_A_SECOND == 0 && state.kind == IDENTIFY_RUNNING)
            printf("%4.1f s  roll: offset %6.3f, rate %6.3f rad/s  pitch: offset %6.3f, rate %6.3f rad/s\n", state.elapsed_s,
                   offset1, rate1, offset2, rate2);
    }
    printf("roll: ");
    show(&state);
    state = identify_axis_status(&pair.second);
    printf("pitch: ");
    show(&state);
    if (log && fclose(log) != 0) {
        perror(words[1]);
        return 1;
    }
    identify_pair_report(&pair, report);
    show_bytes(report, 77);
    return 0;
}

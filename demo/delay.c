/* The delay of a log's flight, in ticks, at the command's default configuration: from d and the half tick after it.
 *
 *     cc -I include demo/delay.c crates/exports/out/libexports.a -o delay
 *     ./delay < demo/noisy.csv        3.5 ticks
 *
 * The log has a first line with the names of its columns, among them dt, rate and moment. A reading that is missing is empty or
 * `nan`.
 */
#include "identify.h"
#include <math.h>
#include <stdio.h>
#include <stdlib.h>
#include <string.h>

enum { MOST_CALLS = 100000, MOST_COLUMNS = 20, LONGEST_LINE = 1000 };

static uint8_t config[24], calls[12 * MOST_CALLS], output[36 + 4 * MOST_CALLS];

static void put(uint8_t *at, float x)
{
    uint32_t w;
    memcpy(&w, &x, 4);
    for (int i = 0; i < 4; i++)
        at[i] = (uint8_t)(w >> (24 - 8 * i));
}

/* The next cell of a line. */
static char *cell(char **rest)
{
    char *start = *rest;
    char *end = start + strcspn(start, ",\r\n");
    *rest = *end == ',' ? end + 1 : NULL;
    *end = '\0';
    return start;
}

/* The place of a column among dt, rate and moment, or -1. */
static int place(const char *name)
{
    static const char *const names[] = {"dt", "rate", "moment"};
    for (int i = 0; i < 3; i++)
        if (strcmp(name, names[i]) == 0)
            return i;
    return -1;
}

int main(void)
{
    char line[LONGEST_LINE];
    int places[MOST_COLUMNS], columns = 0;
    size_t n = 0;
    if (fgets(line, sizeof line, stdin))
        for (char *rest = line; rest && columns < MOST_COLUMNS; columns++)
            places[columns] = place(cell(&rest));
    for (; n < MOST_CALLS && fgets(line, sizeof line, stdin); n++) {
        char *rest = line;
        for (int i = 0; i < columns && rest; i++) {
            const char *text = cell(&rest);
            if (places[i] >= 0)
                put(calls + 12 * n + 4 * places[i], *text ? strtof(text, NULL) : NAN);
        }
    }
    put(config, 0.5f);       /* amplitude */
    put(config + 4, 6.0f);   /* duration_s */
    put(config + 8, 0.2f);   /* washout_tc_s */
    config[15] = 1;          /* an extension, with its amplitude and duration */
    put(config + 16, 1.0f);
    put(config + 20, 8.0f);
    uint32_t number = identify_byte_run(config, sizeof config, calls, 12 * n, output, sizeof output);
    if (number != 0)
        printf("refused by rule %u\n", (unsigned)number);
    else if (output[0] >> 6 != 1)
        printf("no delay: kind %d\n", output[0] >> 6);
    else
        printf("%g ticks\n", (output[0] >> 2 & 15) + (output[0] >> 1 & 1) / 2.0);
    return number != 0;
}

/* What live.c and pair.c share: memory between guards, flights in each place and in threads, drawn bytes, and the words that
 * the programs take.
 *
 *     fly < config and calls      flies them; writes the report, the offsets and the status, all as big-endian words
 *     threads < config and calls  the same in eight threads at once, each from a later call on, against one thread
 *     lists < flights             flies each, which a word with the number of its calls precedes
 *     open < records              a configuration and the options each; a line each: the answer, and whether it wrote
 *     turned < records            a call each on a struct in flight, after its options and numbers; lines as above
 *     garbage COUNT               structs that nobody opened, or that a stray write has changed
 *     memory COUNT < flights      for valgrind: flies each, as lists does, on the heap alone; then garbage, held against
 *                                 nothing else
 *
 * A last word `steady` opens flights as steady. Off the heap, a plain struct then takes each call that 10 did not turn back:
 * both answer alike, and are alike in all bytes but those of the clock; and a call that is turned back leaves all bytes as they
 * were.
 *
 * Configurations and calls are those of a run over bytes. A check that fails ends the program with a line and status 1.
 *
 * The program that includes this has the type GUARDED, its SIZE and the sizes CALL, REPORT, OFFSET and STATUS in bytes, and the
 * functions below.
 */
#include <pthread.h>
#include <stdio.h>
#include <stdlib.h>
#include <string.h>
#include <sys/mman.h>
#include <unistd.h>

enum { PAGE = 4096, AREA = (SIZE + PAGE - 1) / PAGE * PAGE, POISON = 0xa5, THREADS = 8, LONGEST_RUN_S = 100 };
enum { CONFIG = 24, MOST_CALLS = 20000, SHIFT = 16 };
enum { INPUT = CONFIG + CALL * MOST_CALLS, OUTPUT = REPORT + OFFSET * MOST_CALLS + STATUS };

typedef struct guarded guarded;
typedef struct flight flight;

static void fly(guarded at, flight it);
static void open_each(const uint8_t *input, size_t len);
static void turn_back_each(const uint8_t *input, size_t len);
static void step_garbage(uint32_t count, int bare);

#define CHECK(so) ((so) ? (void)0 : fail(#so, __FILE__, __LINE__))

static void fail(const char *what, const char *file, int line)
{
    fprintf(stderr, "%s:%d: not so: %s\n", file, line, what);
    exit(1);
}

/* ---- words and floats */

static uint32_t word_at(const uint8_t *at)
{
    return (uint32_t)at[0] << 24 | (uint32_t)at[1] << 16 | (uint32_t)at[2] << 8 | at[3];
}

static float float_of(uint32_t word)
{
    float x;
    memcpy(&x, &word, 4);
    return x;
}

static float float_at(const uint8_t *at)
{
    return float_of(word_at(at));
}

static uint8_t *put_word(uint8_t *at, uint32_t word)
{
    for (int i = 0; i < 4; i++)
        at[i] = (uint8_t)(word >> (24 - 8 * i));
    return at + 4;
}

/* A NaN as the byte run writes it. */
static uint8_t *put_float(uint8_t *at, float x)
{
    uint32_t word;
    memcpy(&word, &x, 4);
    return put_word(at, x == x ? word : 0x7fc00000);
}

static identify_config config_at(const uint8_t *at)
{
    const identify_config config = {float_at(at), float_at(at + 4), float_at(at + 8), word_at(at + 12), float_at(at + 16),
                                    float_at(at + 20)};
    return config;
}

/* ---- a steady clock */

/* The options with which a flight is opened. */
static uint32_t options;

/* Whether 6 takes a dt. */
static int is_time(float dt)
{
    return dt > 0.0f && dt - dt == 0.0f;
}

/* Whether 10 turns back a dt that 6 takes, of a struct that runs. */
static int is_uneven(uint32_t steady, float first_dt_s, float dt)
{
    const float low = 0.75f * first_dt_s, high = 1.25f * first_dt_s;
    return steady != 0 && first_dt_s > 0.0f && (dt < low || dt > high);
}

/* Whether a clock is as a call leaves it, which was taken by a struct that runs, or not. */
static int is_clock_after(const identify_probe *before, const identify_probe *after, float dt, int taken)
{
    const float *const first = taken && before->steady != 0 && !(before->first_dt_s > 0.0f) ? &dt : &before->first_dt_s;
    return after->steady == before->steady && memcmp(&after->first_dt_s, first, 4) == 0;
}

/* Whether a clock is as an opening leaves it. */
static int is_clock_opened(const identify_probe *probe, uint32_t with)
{
    return (probe->steady != 0) == (with == IDENTIFY_STEADY) && !(probe->first_dt_s > 0.0f);
}

/* Whether two probes are alike in all bytes but those of their clocks. */
static int is_alike(const identify_probe *one, const identify_probe *other)
{
    return memcmp(one, other, offsetof(identify_probe, steady)) == 0;
}

/* ---- a struct between guards */

/* The places: at the front and at the end of pages that lie between two which nobody may touch, the rest of them poisoned; and
 * on the heap, where valgrind guards it. */
enum place { FRONT, END, HEAP, PLACES };

struct guarded {
    enum place place;
    uint8_t *area;
    GUARDED *it;
};

static guarded placed(enum place place)
{
    guarded at = {place, NULL, NULL};
    if (place == HEAP) {
        at.area = (uint8_t *)malloc(sizeof(GUARDED));
        CHECK(at.area != NULL);
        at.it = (GUARDED *)at.area;
        return at;
    }
    uint8_t *pages = (uint8_t *)mmap(NULL, AREA + 2 * PAGE, PROT_NONE, MAP_PRIVATE | MAP_ANONYMOUS, -1, 0);
    CHECK(pages != MAP_FAILED);
    at.area = pages + PAGE;
    CHECK(mprotect(at.area, AREA, PROT_READ | PROT_WRITE) == 0);
    memset(at.area, POISON, AREA);
    at.it = (GUARDED *)(at.area + (place == END ? AREA - SIZE : 0));
    return at;
}

static void give_back(guarded at)
{
    if (at.place == HEAP)
        free(at.area);
    else
        CHECK(munmap(at.area - PAGE, AREA + 2 * PAGE) == 0);
}

/* Whether the poison beside the struct is as it was. */
static int intact(guarded at)
{
    const uint8_t *rest = at.area + (at.place == END ? 0 : SIZE);
    for (int i = 0; at.place != HEAP && i < AREA - SIZE; i++)
        if (rest[i] != POISON)
            return 0;
    return 1;
}

/* A status, as words. */
static uint8_t *put_state(identify_state state, uint8_t *output)
{
    output = put_word(output, (uint32_t)state.kind);
    output = put_float(output, state.elapsed_s);
    output = put_word(output, state.half_ticks);
    output = put_word(output, state.whole_ticks);
    output = put_word(output, state.half_tick);
    output = put_float(output, state.r1);
    output = put_float(output, state.r2);
    output = put_float(output, state.m0);
    output = put_float(output, state.m1);
    output = put_float(output, state.m2);
    output = put_float(output, state.dt_s);
    output = put_word(output, state.has_units);
    output = put_float(output, state.lag_s);
    return put_float(output, state.accel_radps2);
}

/* ---- flights */

/* Whether a stored value is the one given, or stands in the place of a lost reading. */
static int kept(float stored, float given)
{
    return stored == given || given - given != 0.0f;
}

/* Whether a probe that had so many samples has no more, or one more with these values. */
static int stored_last(const identify_probe *probe, uint32_t stored, float rate, float moment, float offset)
{
    return probe->words[3] == stored || (probe->words[3] == stored + 1 && kept(probe->rates[stored], rate)
                                         && kept(probe->moments[stored], moment) && kept(probe->offsets[stored], offset));
}

struct flight {
    const uint8_t *config, *calls;
    size_t count;
    uint8_t *output;
};

static size_t output_len(flight it)
{
    return REPORT + OFFSET * it.count + STATUS;
}

/* The flight that stands at the input, from call `first` on. */
static flight flight_from(const uint8_t *input, size_t len, size_t first)
{
    const flight it = {input, input + CONFIG + CALL * first, (len - CONFIG) / CALL - first, (uint8_t *)calloc(1, OUTPUT)};
    CHECK(it.output != NULL);
    return it;
}

/* In this place, and in those after it. */
static void fly_from(enum place start, const uint8_t *input, size_t len)
{
    const flight it = flight_from(input, len, 0);
    uint8_t *first = (uint8_t *)malloc(OUTPUT);
    CHECK(first != NULL);
    for (int place = start; place < PLACES; place++) {
        const guarded at = placed((enum place)place);
        fly(at, it);
        CHECK(place == (int)start || memcmp(first, it.output, output_len(it)) == 0);
        memcpy(first, it.output, output_len(it));
        give_back(at);
    }
    fwrite(first, 1, output_len(it), stdout);
    free(first);
    free(it.output);
}

/* Flights one after another, each after the number of its calls. */
static void fly_each_from(enum place start, const uint8_t *input, size_t len)
{
    for (size_t k = 0; k < len;) {
        const size_t size = CONFIG + CALL * (size_t)word_at(input + k);
        CHECK(k + 4 + size <= len);
        fly_from(start, input + k + 4, size);
        k += 4 + size;
    }
}

static pthread_barrier_t all_ready;

static void *fly_in_a_thread(void *given)
{
    const flight *it = (const flight *)given;
    const guarded at = placed(END);
    pthread_barrier_wait(&all_ready);
    fly(at, *it);
    give_back(at);
    return NULL;
}

static void fly_in_threads(const uint8_t *input, size_t len)
{
    flight alone[THREADS], together[THREADS];
    pthread_t threads[THREADS];
    const guarded at = placed(END);
    CHECK(pthread_barrier_init(&all_ready, NULL, THREADS) == 0);
    for (int i = 0; i < THREADS; i++) {
        alone[i] = flight_from(input, len, (size_t)(SHIFT * i));
        together[i] = flight_from(input, len, (size_t)(SHIFT * i));
        fly(at, alone[i]);
    }
    for (int i = 0; i < THREADS; i++)
        CHECK(pthread_create(&threads[i], NULL, fly_in_a_thread, &together[i]) == 0);
    for (int i = 0; i < THREADS; i++) {
        CHECK(pthread_join(threads[i], NULL) == 0);
        CHECK(memcmp(alone[i].output, together[i].output, output_len(alone[i])) == 0);
        fwrite(together[i].output, 1, REPORT, stdout);
        free(alone[i].output);
        free(together[i].output);
    }
    give_back(at);
}

/* Prints an answer, and what a call has done to a struct and to what else it may write, which is as it was or not. */
static void tell(uint32_t answer, guarded at, const GUARDED *before, int rest_as_it_was)
{
    const int same = memcmp(at.it, before, sizeof *before) == 0 && intact(at) && rest_as_it_was;
    printf("%u %s\n", (unsigned)answer, same ? "as it was" : "changed");
}

/* ---- garbage */

static uint64_t seed = 20261117;

static uint32_t draw(void)
{
    seed ^= seed << 13;
    seed ^= seed >> 7;
    seed ^= seed << 17;
    return (uint32_t)(seed >> 32);
}

static void draw_bytes(uint8_t *at, size_t len)
{
    for (size_t i = 0; i < len; i++)
        at[i] = (uint8_t)draw();
}

/* From -1 to 1. */
static float draw_reading(void)
{
    return (float)(draw() >> 8) / 8388608.0f - 1.0f;
}

/* Probe number k: patterns, random bytes, and random bytes around a window that can be fitted. */
static void fill_probe(identify_probe *probe, uint32_t k)
{
    static const uint8_t patterns[] = {0x00, 0xff, 0xa5, 0x7f};
    if (k < 20) {
        memset(probe, patterns[k / 5], sizeof *probe);
        return;
    }
    draw_bytes((uint8_t *)probe, sizeof *probe);
    if (k % 3 == 0) {
        probe->words[2] >>= draw() % 32;
        return;
    }
    probe->words[2] %= 20000000;                     /* most of these below rule 8's ticks */
    probe->floats[0] = probe->floats[13] = 6.0f;     /* at its end */
    probe->floats[7] = 8.0f;
    for (int i = 0; i < IDENTIFY_SAMPLES; i++) {
        probe->rates[i] = draw_reading();
        probe->moments[i] = draw_reading();
        probe->held[i] &= draw() % 64 ? 0 : 0xff;
    }
}

static float draw_dt(void)
{
    static const float all[] = {0.004f, 0.004f, 1e-30f, 1.0f, 6.0f, 4096.0f, 0.0f, -1.0f};
    const uint32_t n = draw() % 10;
    return n < 8 ? all[n] : float_of(draw());
}

/* A clock for a struct of random bytes: of two structs one is plain, and of two steady ones one has a first dt that is drawn as
 * the calls' is. */
static void draw_clock(identify_probe *probe)
{
    const uint32_t n = draw() % 4;
    if (n < 2)
        probe->steady = 0;
    else if (n == 2)
        probe->first_dt_s = draw_dt();
}

/* A call that reads the marks has made them 0 or 1; any other has written none but the new sample's. */
static void check_marks(const identify_probe *before, const identify_probe *after, int read)
{
    for (uint32_t i = 0; i < IDENTIFY_SAMPLES; i++)
        CHECK(read ? after->held[i] <= 1 : after->held[i] == before->held[i] || i == before->words[3]);
}

/* Makes each mark 0 or 1. */
static void settle(identify_probe *probe)
{
    for (int i = 0; i < IDENTIFY_SAMPLES; i++)
        probe->held[i] = probe->held[i] != 0;
}

int main(int count, char **words)
{
    static uint8_t input[INPUT];
    CHECK(count >= 2);
    alarm(LONGEST_RUN_S);
    if (strcmp(words[count - 1], "steady") == 0) {
        options = IDENTIFY_STEADY;
        count--;
    }
    if (strcmp(words[1], "garbage") == 0) {
        CHECK(count == 3);
        step_garbage((uint32_t)strtoul(words[2], NULL, 10), 0);
        return 0;
    }
    const size_t len = fread(input, 1, sizeof input, stdin);
    CHECK(len < sizeof input);
    if (strcmp(words[1], "memory") == 0) {
        CHECK(count == 3);
        fly_each_from(HEAP, input, len);
        step_garbage((uint32_t)strtoul(words[2], NULL, 10), 1);
        return 0;
    }
    if (strcmp(words[1], "fly") == 0)
        fly_from(FRONT, input, len);
    else if (strcmp(words[1], "lists") == 0)
        fly_each_from(END, input, len);
    else if (strcmp(words[1], "threads") == 0)
        fly_in_threads(input, len);
    else if (strcmp(words[1], "open") == 0)
        open_each(input, len);
    else if (strcmp(words[1], "turned") == 0)
        turn_back_each(input, len);
    else
        CHECK(!"a known word");
    return 0;
}

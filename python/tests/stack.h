/* The stack that the header's functions in flight take: what stack.c and stack_pair.c share. The input is a configuration and
 * calls, as a run over bytes takes them; the last call is the one to look at.
 *
 *     stack measure        a line each: a name, and the bytes that the function takes on a painted stack
 *     stack exact BYTES    makes the last call in a thread that has this much stack for it, and no page after it
 *     stack run BYTES      makes the run over bytes in such a thread
 *
 * All count from the stack pointer at the call. What the calling thread itself has used by then is found by a call that does
 * nothing but look where its own frame begins.
 *
 * The program that includes this has the type last_call with a field stack_pointer, and the functions and the list below.
 */
#include <pthread.h>
#include <stdio.h>
#include <stdlib.h>
#include <string.h>
#include <sys/mman.h>
#include <ucontext.h>

enum { PAGE = 4096, GUARD = 64 * PAGE, LARGE = 1 << 20, ALIGNMENT = 64, CONFIG = 24, MOST_CALLS = 4000 };

typedef void looked_at(last_call *it);

typedef struct named {
    const char *name;
    looked_at *what;
} named;

/* Flies all calls but the last one. */
static void fly(void);
/* The last call, and that it made the integrated fit. */
static looked_at step_last;
static void must_be_fitted(void);
/* The whole flight, over bytes. */
static looked_at run_bytes;
/* What else is measured, after that call. */
static const named *others_measured(void);

static last_call it;
static looked_at *volatile look;

static void must(int so, const char *what)
{
    if (!so) {
        fprintf(stderr, "not so: %s\n", what);
        exit(1);
    }
}

/* A frame's address lies below what the caller pushed: the return address and the last frame's address. */
static void nothing(last_call *call)
{
    call->stack_pointer = (const uint8_t *)__builtin_frame_address(0) + 16;
}

static float float_at(const uint8_t *at)
{
    const uint32_t word = (uint32_t)at[0] << 24 | (uint32_t)at[1] << 16 | (uint32_t)at[2] << 8 | at[3];
    float x;
    memcpy(&x, &word, 4);
    return x;
}

/* The configuration and the calls of the input, and their length. */
static uint8_t input[CONFIG + CALL * MOST_CALLS];
static size_t input_len;

static identify_config read_input(void)
{
    input_len = fread(input, 1, sizeof input, stdin);
    const identify_config config = {float_at(input), float_at(input + 4), float_at(input + 8), input[15], float_at(input + 16),
                                    float_at(input + 20)};
    return config;
}

/* ---- a painted stack */

static ucontext_t outside, inside;

static void enter(void)
{
    look(&it);
    swapcontext(&inside, &outside);
}

/* The bytes below the stack pointer at the call that a call has written. */
static size_t taken(uint8_t *stack, looked_at *what, int paint)
{
    size_t untouched = 0;
    look = what;
    memset(stack, paint, LARGE);
    must(getcontext(&inside) == 0, "a context");
    inside.uc_stack.ss_sp = stack;
    inside.uc_stack.ss_size = LARGE;
    inside.uc_link = &outside;
    makecontext(&inside, enter, 0);
    must(swapcontext(&outside, &inside) == 0, "a call on the painted stack");
    while (untouched < LARGE && stack[untouched] == (uint8_t)paint)
        untouched++;
    return (size_t)(it.stack_pointer - (stack + untouched));
}

/* The greater of two: a byte that is written may have the colour of the paint. */
static size_t taken_most(uint8_t *stack, looked_at *what)
{
    const last_call before = it;
    const size_t with_one = taken(stack, what, 0xa5);
    it = before;
    const size_t with_other = taken(stack, what, 0x5a);
    return with_one > with_other ? with_one : with_other;
}

static void measure(void)
{
    uint8_t *stack = (uint8_t *)aligned_alloc(PAGE, LARGE);
    must(stack != NULL, "memory for a stack");
    taken(stack, nothing, 0);
    printf("step %zu\n", taken_most(stack, step_last));
    must_be_fitted();
    for (const named *other = others_measured(); other->name; other++)
        printf("%s %zu\n", other->name, taken_most(stack, other->what));
    free(stack);
}

/* ---- a thread with so much stack and no more */

static void *in_thread(void *given)
{
    look((last_call *)given);
    return NULL;
}

/* Makes a call in a thread. Its stack of `size` bytes begins at a page; nobody may touch the pages below. */
static const uint8_t *call_in_thread(looked_at *what, size_t size)
{
    const size_t mapped = GUARD + (size + PAGE - 1) / PAGE * PAGE;
    uint8_t *pages = (uint8_t *)mmap(NULL, mapped, PROT_NONE, MAP_PRIVATE | MAP_ANONYMOUS, -1, 0);
    pthread_attr_t attributes;
    pthread_t thread;
    look = what;
    must(pages != MAP_FAILED && mprotect(pages + GUARD, mapped - GUARD, PROT_READ | PROT_WRITE) == 0, "pages");
    must(pthread_attr_init(&attributes) == 0 && pthread_attr_setstack(&attributes, pages + GUARD, size) == 0, "a stack");
    must(pthread_create(&thread, &attributes, in_thread, &it) == 0 && pthread_join(thread, NULL) == 0, "a thread");
    return pages + GUARD + size;
}

static void call_with(looked_at *what, size_t bytes)
{
    const uint8_t *end = call_in_thread(nothing, LARGE);
    const size_t used = (size_t)(end - it.stack_pointer);
    const size_t size = used + bytes;
    /* A thread's own data lie at the end of its stack, at a multiple of ALIGNMENT. */
    call_in_thread(what, (size + ALIGNMENT - 1) / ALIGNMENT * ALIGNMENT);
}

int main(int count, char **words)
{
    fly();
    if (count == 2 && strcmp(words[1], "measure") == 0)
        measure();
    else if (count == 3 && strcmp(words[1], "exact") == 0) {
        call_with(step_last, strtoul(words[2], NULL, 10));
        must_be_fitted();
        puts("done");
    } else if (count == 3 && strcmp(words[1], "run") == 0) {
        call_with(run_bytes, strtoul(words[2], NULL, 10));
        puts("done");
    } else
        must(0, "a known word");
    return 0;
}

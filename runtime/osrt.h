/* What a program that oscc wrote stands on: the operators of the language with their traps, and what its code and the runtime,
   osrt.c, know of one another. C11, and nothing but C's library. */
#ifndef OSRT_H
#define OSRT_H
#include <stdint.h>
#include <string.h>

/* Each row of C has its label, and each unit its slots and its operand stack, also where nothing needs them. */
#if defined __GNUC__
#pragma GCC diagnostic ignored "-Wunused-label"
#pragma GCC diagnostic ignored "-Wunused-variable"
#pragma GCC diagnostic ignored "-Wunused-but-set-variable"
#pragma GCC diagnostic ignored "-Wunused-function"
#endif

/* The traps, by the codes that a report shows. */
enum { OS_OVERFLOW = 1, OS_DIVISOR, OS_SHIFT, OS_INDEX, OS_NO_BYTE, OS_WINDOW, OS_MOVE, OS_BURST };

/* The largest window, and the most that a burst or a tick moves by. */
enum { OS_HORIZON = 65536, OS_AMOUNT = 65536 };

/* An item of a task: whether it is an output item, the first stream that it may pick, and the slot of main that keeps its horizon
   plus 1, or 0 for horizon 1. */
struct os_item {
    int write;
    uint32_t stream, window;
};

/* A task: its body, which takes the captured scalars, its line, how many items and captured scalars it has, and for each of
   these the slot of main. */
struct os_site {
    void (*body)(const int32_t *captured);
    uint32_t line, items, captured;
    const struct os_item *item;
    const uint32_t *slot;
};

/* What the program is: its tasks, how many streams there are, and main, which takes the length of the input. */
extern const struct os_site os_sites[];
extern const uint32_t os_streams;
void os_main(int32_t length);

/* A window of the task that runs: its first element, in its stream, and how many it has. */
struct os_window {
    int32_t *at;
    int64_t size;
};

/* The windows of the task that runs, and the turns that are left of its budget, or of that of main. */
extern struct os_window os_windows[8];
extern uint64_t os_turns;

/* What ends the body that runs, or main. */
_Noreturn void os_trap(int code, uint32_t line);
_Noreturn void os_over_budget(void);

/* Creates an activation, from an index and a burst for each item and from the slots of main; and a tick. */
void os_spawn(uint32_t site, const int32_t *operands, const int32_t *slots);
void os_tick(uint32_t first, int32_t index, int32_t amount);

/* Takes a turn of the budget. */
static inline void os_turn(void)
{
    if (os_turns == 0)
        os_over_budget();
    --os_turns;
}

/* A number where it is from one number to another, or else a trap: an index, a window's size, a burst, an amount. */
static inline int32_t os_within(int32_t number, int64_t least, int64_t most, int code, uint32_t line)
{
    if (number < least || number > most)
        os_trap(code, line);
    return number;
}

static inline int32_t os_index(int32_t index, int64_t size, uint32_t line)
{
    if ((uint64_t)(int64_t)index >= (uint64_t)size)
        os_trap(OS_INDEX, line);
    return index;
}

static inline int32_t os_size(int32_t size, uint32_t line) { return os_within(size, 1, OS_HORIZON, OS_WINDOW, line); }
static inline int32_t os_burst_in(int32_t burst, uint32_t line) { return os_within(burst, 0, OS_AMOUNT, OS_MOVE, line); }

static inline int32_t os_burst_out(int32_t burst, int32_t horizon, uint32_t line)
{
    return os_within(burst, horizon, horizon, OS_BURST, line);
}

/* An exact result as an int, or else the trap; the int with these 32 bits; a divisor, and the amount of a shift. */
static inline int32_t os_fit(int64_t exact, int code, uint32_t line)
{
    if (exact < INT32_MIN || exact > INT32_MAX)
        os_trap(code, line);
    return (int32_t)exact;
}

static inline int32_t os_int(uint32_t bits)
{
    return bits <= INT32_MAX ? (int32_t)bits : (int32_t)(bits - INT32_MAX - 1) + INT32_MIN;
}

static inline int32_t os_divisor(int32_t b, uint32_t line)
{
    if (b == 0)
        os_trap(OS_DIVISOR, line);
    return b;
}

static inline int32_t os_shift(int32_t amount, uint32_t line) { return os_within(amount, 0, 31, OS_SHIFT, line); }

/* The operators by their names. Each takes a line, also where it never traps. */
#define OS_UNARY(name, value) \
    static inline int32_t os_##name(int32_t a, uint32_t line) { (void)line; return value; }
#define OS_BINARY(name, value) \
    static inline int32_t os_##name(int32_t a, int32_t b, uint32_t line) { (void)line; return value; }
#define OS_UNSIGNED(name, value) OS_BINARY(name##_unsigned, os_int(value))

OS_UNARY(minus, os_fit(-(int64_t)a, OS_OVERFLOW, line))
OS_UNARY(plus, a)
OS_UNARY(not, a == 0)
OS_UNARY(invert, ~a)
OS_UNARY(minus_unsigned, os_int(0u - (uint32_t)a))
OS_BINARY(bit_or, a | b)
OS_BINARY(bit_xor, a ^ b)
OS_BINARY(bit_and, a & b)
OS_BINARY(equal, a == b)
OS_BINARY(unequal, a != b)
OS_BINARY(less, a < b)
OS_BINARY(less_equal, a <= b)
OS_BINARY(greater, a > b)
OS_BINARY(greater_equal, a >= b)
#if defined __GNUC__
#define OS_EXACT(name, exact) OS_BINARY(name, __builtin_##exact##_overflow(a, b, &a) ? os_fit(INT64_MAX, OS_OVERFLOW, line) : a)
OS_EXACT(add, add)
OS_EXACT(subtract, sub)
OS_EXACT(multiply, mul)
#else
OS_BINARY(add, os_fit((int64_t)a + b, OS_OVERFLOW, line))
OS_BINARY(subtract, os_fit((int64_t)a - b, OS_OVERFLOW, line))
OS_BINARY(multiply, os_fit((int64_t)a * b, OS_OVERFLOW, line))
#endif
OS_BINARY(divide, b == -1 ? os_minus(a, line) : a / os_divisor(b, line))
OS_BINARY(remainder, b == -1 ? 0 & os_minus(a, line) : a % os_divisor(b, line))
OS_BINARY(shift_left, os_fit(a < 0 ? INT64_MAX : (int64_t)a << os_shift(b, line), OS_SHIFT, line))
OS_BINARY(shift_right, a < 0 ? ~(~a >> os_shift(b, line)) : a >> os_shift(b, line))
OS_UNSIGNED(less, (uint32_t)a < (uint32_t)b)
OS_UNSIGNED(less_equal, (uint32_t)a <= (uint32_t)b)
OS_UNSIGNED(greater, (uint32_t)a > (uint32_t)b)
OS_UNSIGNED(greater_equal, (uint32_t)a >= (uint32_t)b)
OS_UNSIGNED(add, (uint32_t)a + (uint32_t)b)
OS_UNSIGNED(subtract, (uint32_t)a - (uint32_t)b)
OS_UNSIGNED(multiply, (uint32_t)a * (uint32_t)b)
OS_UNSIGNED(divide, (uint32_t)a / (uint32_t)os_divisor(b, line))
OS_UNSIGNED(remainder, (uint32_t)a % (uint32_t)os_divisor(b, line))
OS_UNSIGNED(shift_left, (uint32_t)a << os_shift(b, line))
OS_UNSIGNED(shift_right, (uint32_t)a >> os_shift(b, line))
#endif

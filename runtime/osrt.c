/* The runtime of a program that oscc wrote: control-driven data flow on one thread. main creates the activations, which claim their
   windows. Then each activation runs once all that it reads is there, and what it writes may let others run. */
#include "osrt.h"
#include <inttypes.h>
#include <setjmp.h>
#include <signal.h>
#include <stdio.h>
#include <stdlib.h>

enum { ACTIVATIONS = 65536, POSITIONS = 4194304, INPUT = 4194304, BUDGET = 1000000000, DEFAULT_BUDGET = 1000000 };
enum { STATUS_USAGE = 2, STATUS_LONG = 4, STATUS_READ = 5, STATUS_WRITE = 6, STATUS_MEMORY = 7 };

/* No claim, or no activation. */
#define NONE UINT32_MAX

/* How an activation ended, or main. */
enum how { WAITS, DONE, TRAPPED, OVER_BUDGET, POISONED, LIMITED };

struct end {
    enum how how;
    int code;
    uint32_t line;
};

/* A window of an activation: the positions of a stream that it covers. */
struct claim {
    uint64_t first;
    uint32_t activation, stream, horizon;
    /* Of one that writes, the next one that writes its stream; of one that reads, the one that writes what is missed next. */
    uint32_t next;
};

struct activation {
    struct end end;
    const struct os_site *site;
    /* Its windows and its captured scalars, from these numbers on. */
    uint32_t claim, captured;
    /* The window in which an element is missed, and the least root of the poison that is read. */
    uint32_t missed, root;
    /* The activations that wait for this one: the first of them, and of one that waits the next. */
    uint32_t waits, next;
};

struct stream {
    uint64_t read, written;
    int32_t *cells;
    /* The windows that write it, the first and the last, and the first that ends behind what is read next. */
    uint32_t first, last, at;
};

struct os_window os_windows[8];
uint64_t os_turns;

static struct claim *claims;
static struct activation *activations;
static int32_t *captured;
static struct stream *streams;
static size_t claim_count, activation_count, captured_count, position_count, input_length;
static jmp_buf ends_here;
static struct end ended;

static _Noreturn void end_by(enum how how, int code, uint32_t line)
{
    ended = (struct end){how, code, line};
    longjmp(ends_here, 1);
}

_Noreturn void os_trap(int code, uint32_t line) { end_by(TRAPPED, code, line); }
_Noreturn void os_over_budget(void) { end_by(OVER_BUDGET, 0, 0); }

static _Noreturn void refuse(int status, const char *why)
{
    fputs(why, stderr);
    exit(status);
}

/* Room for count members of this size: twice as much where there is less. */
static void *reserve(void *members, size_t *room, size_t count, size_t size)
{
    if (count <= *room)
        return members;
    *room = 2 * count;
    members = realloc(members, *room * size);
    if (members == NULL)
        exit(STATUS_MEMORY);
    return members;
}

static void *zeros(size_t count, size_t size)
{
    void *members = calloc(count + 1, size);
    if (members == NULL)
        exit(STATUS_MEMORY);
    return members;
}

/* The stream that an item or a tick picks: any but the one that is forbidden. */
static uint32_t pick(uint32_t first, int32_t index, uint32_t forbidden, uint32_t line)
{
    int64_t stream = (int64_t)first + index;
    if (stream < 0 || stream >= os_streams || stream == forbidden)
        os_trap(OS_INDEX, line);
    return (uint32_t)stream;
}

void os_tick(uint32_t first, int32_t index, int32_t amount)
{
    uint32_t stream = pick(first, index, 1, 0);
    os_burst_in(amount, 0);
    streams[stream].read += (uint64_t)amount;
}

/* A window behind those that write a stream. */
static void link_writer(struct stream *stream, uint32_t number)
{
    if (stream->first == NONE)
        stream->first = stream->at = number;
    else
        claims[stream->last].next = number;
    stream->last = number;
}

/* A window for an item, where its stream is read or written next. There is room for it. */
static void add_claim(const struct os_item *item, uint32_t picked, uint32_t horizon, uint32_t burst)
{
    struct stream *stream = &streams[picked];
    uint64_t *cursor = item->write ? &stream->written : &stream->read;
    claims[claim_count] = (struct claim){*cursor, (uint32_t)activation_count, picked, horizon, NONE};
    if (item->write)
        link_writer(stream, (uint32_t)claim_count);
    *cursor += burst;
    ++claim_count;
}

/* An activation of a site, which picked these streams with these horizons. */
static void add_activation(const struct os_site *site, const uint32_t *picked, const uint32_t *horizons, const int32_t *operands, const int32_t *slots)
{
    static size_t activation_room, claim_room, captured_room;
    activations = reserve(activations, &activation_room, activation_count + 1, sizeof *activations);
    claims = reserve(claims, &claim_room, claim_count + site->items, sizeof *claims);
    captured = reserve(captured, &captured_room, captured_count + site->captured, sizeof *captured);
    activations[activation_count] = (struct activation){
        {WAITS, 0, 0}, site, (uint32_t)claim_count, (uint32_t)captured_count, (uint32_t)claim_count, NONE, NONE, NONE};
    for (uint32_t k = 0; k < site->items; ++k)
        add_claim(&site->item[k], picked[k], horizons[k], (uint32_t)operands[2 * k + 1]);
    for (uint32_t k = 0; k < site->captured; ++k)
        captured[captured_count++] = slots[site->slot[k]];
    ++activation_count;
}

void os_spawn(uint32_t number, const int32_t *operands, const int32_t *slots)
{
    const struct os_site *site = &os_sites[number];
    uint32_t picked[8], horizons[8];
    size_t sum = position_count;
    for (uint32_t k = 0; k < site->items; ++k) {
        const struct os_item *item = &site->item[k];
        picked[k] = pick(item->stream, operands[2 * k], item->write ? 0 : 1, site->line);
        horizons[k] = item->window == 0 ? 1 : (uint32_t)os_size(slots[item->window - 1], site->line);
        if (item->write)
            os_burst_out(operands[2 * k + 1], (int32_t)horizons[k], site->line);
        else
            os_burst_in(operands[2 * k + 1], site->line);
        sum += horizons[k];
    }
    if (activation_count >= ACTIVATIONS)
        end_by(LIMITED, 1, 0);
    if (sum > POSITIONS)
        end_by(LIMITED, 2, 0);
    position_count = sum;
    add_activation(site, picked, horizons, operands, slots);
}

/* How main ends: then all activations are created. */
static struct end run_main(uint64_t turns)
{
    ended = (struct end){DONE, 0, 0};
    os_turns = turns;
    if (setjmp(ends_here) == 0)
        os_main((int32_t)input_length);
    return ended;
}

/* Cells for all elements that are written. Each program has the streams 0 and 1. */
static void make_cells(void)
{
    size_t count = 0;
    for (uint32_t k = 1; k < os_streams; ++k)
        count += streams[k].written;
    streams[1].cells = zeros(count, sizeof(int32_t));
    for (uint32_t k = 2; k < os_streams; ++k)
        streams[k].cells = streams[k - 1].cells + streams[k - 1].written;
}

static uint32_t claim_end(const struct activation *one) { return one->claim + one->site->items; }

static int is_written(const struct activation *one, uint32_t number) { return one->site->item[number - one->claim].write; }

/* Where windows that are read begin among those that write their streams. Activations come here in their order. */
static void find_writers(const struct activation *one)
{
    for (uint32_t k = one->claim; k < claim_end(one); ++k) {
        struct claim *claim = &claims[k];
        struct stream *stream = &streams[claim->stream];
        if (is_written(one, k))
            continue;
        while (stream->at != NONE && claims[stream->at].first + claims[stream->at].horizon <= claim->first)
            stream->at = claims[stream->at].next;
        claim->next = stream->at;
    }
}

/* Goes on in a window to the first element that isn't there. The answer is whether all are. */
static int pass_window(struct activation *one, struct claim *claim)
{
    uint64_t end = claim->first + claim->horizon;
    if (claim->stream == 0)
        return end <= input_length;
    while (claim->next != NONE && claims[claim->next].first < end) {
        const struct activation *writer = &activations[claims[claim->next].activation];
        if (writer->end.how == WAITS)
            return 0;
        if (writer->end.how != DONE && writer->root < one->root)
            one->root = writer->root;
        claim->next = claims[claim->next].next;
    }
    return end <= streams[claim->stream].written;
}

/* Whether all that an activation reads is there. Else it waits for the one that writes what is missed, if there is one. */
static int is_enabled(struct activation *one)
{
    for (; one->missed < claim_end(one); ++one->missed) {
        struct claim *claim = &claims[one->missed];
        if (is_written(one, one->missed) || pass_window(one, claim))
            continue;
        if (claim->next != NONE) {
            struct activation *writer = &activations[claims[claim->next].activation];
            one->next = writer->waits;
            writer->waits = (uint32_t)(one - activations);
        }
        return 0;
    }
    return 1;
}

/* Whether all that goes to the output is bytes. */
static int sends_bytes(const struct activation *one)
{
    uint32_t bits = 0;
    for (uint32_t k = one->claim; k < claim_end(one); ++k)
        for (uint32_t at = 0; claims[k].stream == 1 && at < claims[k].horizon; ++at)
            bits |= (uint32_t)streams[1].cells[claims[k].first + at];
    return bits <= 255;
}

/* How the body of an activation ends. */
static struct end run_body(const struct activation *one, uint64_t budget)
{
    for (uint32_t k = one->claim; k < claim_end(one); ++k)
        os_windows[k - one->claim] = (struct os_window){streams[claims[k].stream].cells + claims[k].first, claims[k].horizon};
    ended = (struct end){DONE, 0, 0};
    os_turns = budget;
    if (setjmp(ends_here) == 0) {
        one->site->body(captured + one->captured);
        if (!sends_bytes(one))
            ended = (struct end){TRAPPED, OS_NO_BYTE, one->site->line};
    }
    return ended;
}

static void run(struct activation *one, uint64_t budget)
{
    if (one->root != NONE) {
        one->end.how = POISONED;
        return;
    }
    one->end = run_body(one, budget);
    if (one->end.how != DONE)
        one->root = (uint32_t)(one - activations);
}

/* Runs an activation where it is enabled, and all that can run then. */
static void run_from(uint32_t number, uint64_t budget)
{
    activations[number].next = NONE;
    while (number != NONE) {
        struct activation *one = &activations[number];
        number = one->next;
        if (!is_enabled(one))
            continue;
        run(one, budget);
        while (one->waits != NONE) {
            struct activation *other = &activations[one->waits];
            uint32_t woken = one->waits;
            one->waits = other->next;
            other->next = number;
            number = woken;
        }
    }
}

/* Writes the output up to the first element that isn't there. */
static size_t write_output(void)
{
    static unsigned char bytes[65536];
    size_t count = 0;
    for (uint32_t k = streams[1].first; k != NONE && activations[claims[k].activation].end.how == DONE; k = claims[k].next) {
        const int32_t *cells = streams[1].cells + claims[k].first;
        for (uint32_t at = 0; at < claims[k].horizon; ++at)
            bytes[at] = (unsigned char)cells[at];
        if (fwrite(bytes, 1, claims[k].horizon, stdout) != claims[k].horizon)
            exit(STATUS_WRITE);
        count += claims[k].horizon;
    }
    if (fflush(stdout) != 0)
        exit(STATUS_WRITE);
    return count;
}

static void tell_starved(uint32_t number, const struct activation *one)
{
    const struct claim *claim = &claims[one->missed];
    const struct claim *writer = claim->next == NONE ? NULL : &claims[claim->next];
    uint64_t from = writer != NULL ? writer->first : claim->stream == 0 ? input_length : streams[claim->stream].written;
    fprintf(stderr, "starved %" PRIu32 " stream %" PRIu32 " position %" PRIu64 " producer ", number, claim->stream,
            from > claim->first ? from : claim->first);
    if (writer != NULL)
        fprintf(stderr, "%" PRIu32 " starved\n", writer->activation);
    else
        fputs("none\n", stderr);
}

/* Tells of an activation that isn't done. */
static void tell_activation(uint32_t number, const struct activation *one)
{
    if (one->end.how == TRAPPED)
        fprintf(stderr, "trapped %" PRIu32 " code %d line %" PRIu32 "\n", number, one->end.code, one->end.line);
    else if (one->end.how == OVER_BUDGET)
        fprintf(stderr, "over-budget %" PRIu32 "\n", number);
    else if (one->end.how == POISONED)
        fprintf(stderr, "poisoned %" PRIu32 " by %" PRIu32 "\n", number, one->root);
    else if (one->end.how == WAITS)
        tell_starved(number, one);
}

static void tell_control(struct end end)
{
    if (end.how == DONE)
        fputs("control done\n", stderr);
    else if (end.how == TRAPPED)
        fprintf(stderr, "control trapped code %d line %" PRIu32 "\n", end.code, end.line);
    else if (end.how == OVER_BUDGET)
        fputs("control over-budget\n", stderr);
    else
        fprintf(stderr, "control limit %d\n", end.code);
}

/* Writes the report, and gives the status of the run. */
static int report(struct end end, uint64_t written)
{
    static char lines[65536];
    int failed = end.how != DONE;
    setvbuf(stderr, lines, _IOFBF, sizeof lines);
    for (uint32_t k = 0; k < activation_count; ++k) {
        failed |= activations[k].end.how != DONE;
        tell_activation(k, &activations[k]);
    }
    tell_control(end);
    fprintf(stderr, "output %" PRIu64 " of %" PRIu64 "\n", written, streams[1].written);
    return fflush(stderr) != 0 || ferror(stderr) ? STATUS_WRITE : failed;
}

/* Reads the bytes of the input into the cells of stream 0. */
static void read_input(const char *name)
{
    static unsigned char bytes[65536];
    size_t cells = 0, count;
    FILE *file = fopen(name, "rb");
    while (file != NULL && (count = fread(bytes, 1, sizeof bytes, file)) != 0) {
        if (count > INPUT - input_length)
            refuse(STATUS_LONG, "too long input\n");
        streams[0].cells = reserve(streams[0].cells, &cells, input_length + count, sizeof(int32_t));
        for (size_t at = 0; at < count; ++at)
            streams[0].cells[input_length++] = bytes[at];
    }
    if (file == NULL || ferror(file))
        refuse(STATUS_READ, "read fault input\n");
    fclose(file);
}

/* A number of turns, in decimals behind one + or none; -1 where it is none. */
static int64_t turns_of(const char *word)
{
    int64_t turns = 0;
    word += *word == '+';
    if (*word == 0)
        return -1;
    for (; *word >= '0' && *word <= '9' && turns <= BUDGET; ++word)
        turns = 10 * turns + (*word - '0');
    return *word == 0 && turns <= BUDGET ? turns : -1;
}

/* Takes an option with its value, which stands behind an equals sign or is the next word. */
static int take_option(const char *name, char **words, int *at, int64_t *turns)
{
    size_t length = strlen(name);
    const char *word = words[*at];
    if (strncmp(word, name, length) != 0 || (word[length] != '=' && (word[length] != 0 || words[*at + 1] == NULL)))
        return 0;
    const char *value = word[length] == '=' ? word + length + 1 : words[++*at];
    if (*turns >= 0 || (*turns = turns_of(value)) < 0)
        refuse(STATUS_USAGE, "usage\n");
    return 1;
}

/* What the words ask for: the name of the input, and what the options are. */
static const char *read_words(int count, char **words, int64_t *budget, int64_t *control)
{
    const char *name = NULL;
    int names_alone = 0;
    for (int at = 1; at < count; ++at) {
        if (!names_alone && (take_option("--budget", words, &at, budget) || take_option("--control", words, &at, control)))
            continue;
        if (!names_alone && strcmp(words[at], "--") == 0)
            names_alone = 1;
        else if (name != NULL || (!names_alone && words[at][0] == '-' && words[at][1] != 0))
            refuse(STATUS_USAGE, "usage\n");
        else
            name = words[at];
    }
    if (name == NULL)
        refuse(STATUS_USAGE, "usage\n");
    return name;
}

int main(int count, char **words)
{
    int64_t budget = -1, control = -1;
    const char *name = read_words(count, words, &budget, &control);
#ifdef SIGPIPE
    signal(SIGPIPE, SIG_IGN);
#endif
    streams = zeros(os_streams, sizeof *streams);
    for (uint32_t k = 0; k < os_streams; ++k)
        streams[k].first = streams[k].last = streams[k].at = NONE;
    read_input(name);
    struct end end = run_main(control < 0 ? DEFAULT_BUDGET : (uint64_t)control);
    make_cells();
    for (uint32_t k = 0; k < activation_count; ++k) {
        find_writers(&activations[k]);
        run_from(k, budget < 0 ? DEFAULT_BUDGET : (uint64_t)budget);
    }
    return report(end, write_output());
}

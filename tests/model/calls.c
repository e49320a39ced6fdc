/*
 * Calls on one part and one memory: lines of a script, sequence files, and
 * states out of range. Reads calls on standard input, prints a line for each.
 * After every call it checks what the call left, and asks the logger of
 * clerk.c; at the end it prints what that one has seen.
 *
 * A call is 8 bytes and its buffer; two-byte numbers are little-endian.
 *   0     what: 0 line, 1 new, 2 poke, 3 load, 4 save, 5 load alone,
 *         6 save alone
 *   1     the channel; of new the part, 1 the PCU9669
 *   2, 3  how many bytes of memory are lent; of a poke the field
 *   4, 5  of a poke the value
 *   6, 7  how many bytes the buffer has
 *
 *   -DCALLS_NO_MAIN  leaves out the program, for inclusion where calls are made
 */
#define MODEL_NO_MAIN
#define RANGE
#include "model.c"
#include "files.c"

enum what {
    C_LINE, C_NEW, C_POKE, C_LOAD, C_SAVE, C_LOAD_ALONE, C_SAVE_ALONE, WHATS
};

/* What a poke sets; in the order of their numbers */
enum field {
    F_SLATABLE_PTR, F_TRANCONFIG_PTR, F_DATA_PTR, F_BYTECOUNT_PTR, F_COUNT,
    F_TRANSEL, F_INTMSK, F_CTRLINTMSK, F_ENDED, F_KEY, F_CTRL_KEY, F_BE, F_UFM,
    F_STO, FIELDS
};

/* Bytes that can be lent behind the part's memory, and behind a channel's */
enum { BEYOND = 2 };

enum { CALL_HEADER = 8, LONGEST_BUFFER = 4608 };

struct call {
    uint8_t what, channel;
    unsigned number, value, n;
    uint8_t buffer[LONGEST_BUFFER];
};

static int is_file_call(const struct call *call)
{
    return call->what >= C_LOAD;
}

static int is_alone(const struct call *call)
{
    return call->what >= C_LOAD_ALONE;
}

static int is_writing(const struct call *call)
{
    return call->what == C_SAVE || call->what == C_SAVE_ALONE;
}

/* The channel of a file call; above 2 only of the part's */
static unsigned channel_of(const struct call *call)
{
    return is_alone(call) ? call->channel % CHANNELS : call->channel;
}

static size_t lent_of(const struct call *call)
{
    unsigned most = (is_alone(call) ? BUFFER : MEMORY) + BEYOND;
    return call->number < most ? call->number : most;
}

/* ---- Calls and sums, as bytes and as numbers --------------------------- */

static unsigned two_bytes(const uint8_t *s)
{
    return s[0] + 256u * s[1];
}

/* "Input ends where no whole call is left." */
static int next_call(struct call *call)
{
    uint8_t h[CALL_HEADER];
    if (fread(h, 1, CALL_HEADER, stdin) != CALL_HEADER)
        return 0;
    call->what = h[0];
    call->channel = h[1];
    call->number = two_bytes(h + 2);
    call->value = two_bytes(h + 4);
    call->n = two_bytes(h + 6);
    if (call->what >= WHATS || call->n > LONGEST_BUFFER
        || (call->what == C_POKE && call->channel >= CHANNELS)) {
        fprintf(stderr, "a call that can't be\n");
        give_up();
    }
    return fread(call->buffer, 1, call->n, stdin) == call->n;
}

/* "A sum begins with 1; for each number x in turn it becomes (sum * 257 + x)
 *  modulo 4,294,967,291." */
static uint64_t add(uint64_t sum, unsigned x)
{
    return (sum * 257 + x) % 4294967291u;
}

static uint64_t add_bytes(uint64_t sum, const uint8_t *bytes, size_t n)
{
    for (size_t i = 0; i < n; i++)
        sum = add(sum, bytes[i]);
    return sum;
}

/* ---- One call ---------------------------------------------------------- */

/* Whether a line can be read is the same in every state. */
static int is_readable(const uint8_t *s, size_t n)
{
    static struct part any;
    reset_part(&any, PCA9663);
    return run_step(&any, s, n).code != UNREADABLE;
}

static struct answer call_line(struct part *p, const struct call *call)
{
    if (in_range(p))
        return run_step(p, call->buffer, call->n);
    return answer_code(is_readable(call->buffer, call->n) ? OUT_OF_RANGE
                                                          : UNREADABLE);
}

static void poke(struct part *p, const struct call *call)
{
    struct channel *ch = &p->ch[call->channel];
    unsigned value = call->value;
    switch (call->number) {
    case F_SLATABLE_PTR:   ch->sla_ptr = (uint16_t)value; break;
    case F_TRANCONFIG_PTR: ch->tc_ptr = (uint16_t)value; break;
    case F_DATA_PTR:       ch->data_ptr = (uint16_t)value; break;
    case F_BYTECOUNT_PTR:  ch->bc_ptr = (uint16_t)value; break;
    case F_COUNT:          ch->tranconfig[0] = (uint8_t)(value & 0xFF); break;
    case F_TRANSEL:        ch->transel = (uint8_t)(value & 0xFF); break;
    case F_INTMSK:         ch->intmsk = (uint8_t)(value & 0xFF); break;
    case F_CTRLINTMSK:     p->ctrlintmsk = (uint8_t)(value & 0xFF); break;
    case F_ENDED:          ch->ended = (uint8_t)(value & 0xFF); break;
    case F_KEY:            ch->key = value == 1; break;
    case F_CTRL_KEY:       p->key = value == 1; break;
    case F_BE:             p->be = value == 1; break;
    case F_UFM:            ch->kind = value == 1 ? UFM : FMPLUS; break;
    case F_STO:            ch->sto = value == 1; break;
    }
}

static struct answer call_file(struct part *p, struct call *call)
{
    struct sequence s = { is_writing(call), call->buffer, call->n };
    size_t lent = lent_of(call);
    unsigned c = channel_of(call);
    return answer_code(is_alone(call)
                       ? channel_file(&p->ch[c], buffer_of(p, c), lent, &s)
                       : part_file(p, lent, c, &s));
}

static struct answer run_call(struct part *p, struct call *call)
{
    switch (call->what) {
    case C_LINE:
        return call_line(p, call);
    case C_NEW:
        reset_part(p, call->channel == 1 ? PCU9669 : PCA9663);
        return answer_code(OK);
    case C_POKE:
        poke(p, call);
        return answer_code(OK);
    default:
        return call_file(p, call);
    }
}

#ifdef CALLS_NO_MAIN

static void put_two_bytes(unsigned x)
{
    putchar((int)(x & 0xFF));
    putchar((int)(x >> 8));
}

static void put_call(const struct call *call)
{
    putchar(call->what);
    putchar(call->channel);
    put_two_bytes(call->number);
    put_two_bytes(call->value);
    put_two_bytes(call->n);
    fwrite(call->buffer, 1, call->n, stdout);
}

#else

#include "clerk.c"

/* A call with what is checked around it */
static struct answer run_checked(struct part *p, struct call *call)
{
    static struct part before;
    static uint8_t given[LONGEST_BUFFER];
    struct answer a;
    struct entry entry = { call, given, &before, p, &a };
    const char *broken;
    before = *p;
    memcpy(given, call->buffer, call->n);
    a = run_call(p, call);
    if (call->what == C_LINE && in_range(&before))
        check_step(&before, p, &a);
    broken = clerk_call(&entry);
    if (broken != NULL) {
        fprintf(stderr, "the clerk differs: %s\n", broken);
        give_up();
    }
    return a;
}

/* ---- Output ------------------------------------------------------------ */

static uint64_t add_channel(uint64_t sum, const struct channel *ch)
{
    const unsigned numbers[] = {
        ch->intmsk, ch->transel, ch->tranofs, ch->tp, ch->te,
        ch->sla_ptr, ch->tc_ptr, ch->data_ptr, ch->bc_ptr,
        ch->chstatus, ch->phase, ch->tran, ch->ended, ch->sto, ch->stoseq,
        ch->fe_recorded, ch->error_end, ch->key, ch->kind, ch->framecnt,
        ch->refrate, ch->scll, ch->sclh, ch->mode, ch->timeout
    };
    sum = add_bytes(sum, ch->slatable, ENTRIES);
    sum = add_bytes(sum, ch->tranconfig, ENTRIES + 1);
    sum = add_bytes(sum, ch->status, ENTRIES);
    sum = add_bytes(sum, ch->bytecount, ENTRIES);
    for (unsigned i = 0; i < sizeof numbers / sizeof *numbers; i++)
        sum = add(sum, numbers[i]);
    return sum;
}

static uint64_t state_sum(const struct part *p, const struct answer *a)
{
    uint64_t sum = 1;
    for (unsigned c = 0; c < CHANNELS; c++)
        sum = add(add(sum, a->act[c].kind), a->act[c].byte);
    for (unsigned c = 0; c < CHANNELS; c++)
        sum = add_channel(sum, &p->ch[c]);
    return add(add(add(sum, p->be), p->ctrlintmsk), p->key);
}

/* Most calls leave the memory. The bytes behind it are 0, since no call that is
 * lent them is answered 0. */
static uint64_t memory_sum(const struct part *p)
{
    static const uint8_t beyond[BEYOND];
    static uint8_t last[MEMORY];
    static uint64_t sum;
    if (sum == 0 || memcmp(last, p->memory, MEMORY) != 0) {
        memcpy(last, p->memory, MEMORY);
        sum = add_bytes(add_bytes(1, last, MEMORY), beyond, BEYOND);
    }
    return sum;
}

int main(void)
{
    static struct part part;
    static struct call call;
    uint64_t calls = 0;

    reset_part(&part, PCA9663);
    while (next_call(&call)) {
        struct answer a = run_checked(&part, &call);
        fprintf(stdout, "%lu %u %02X %d %lu %lu %lu\n", ++calls, a.code,
                a.value, int_pulled(&part), add_bytes(1, call.buffer, call.n),
                state_sum(&part, &a), memory_sum(&part));
    }
    if (ferror(stdin)) {
        fprintf(stderr, "can't read\n");
        return 1;
    }
    print_seen();
    return fflush(stdout) == 0 ? 0 : 1;
}

#endif

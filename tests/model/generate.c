/*
 * Random scripts: generate SEED STEPS. The model is embedded to know which
 * events are awaited. Each channel follows plans (configure, start, feed till
 * the end, read back); noise goes between at a rate that the seed decides.
 */
#define MODEL_NO_MAIN
#include "model.c"
#include "random.c"

/* A mask that tells a flag's row from the others: the bits that are set, all
 * but these, one, or all but one */
static unsigned telling_mask(unsigned flags)
{
    unsigned bit = 1u << below(8);
    switch (below(4)) {
    case 0:  return flags;
    case 1:  return ~flags;
    case 2:  return bit;
    default: return ~bit;
    }
}

/* ---- Output: every line is also run, so the state is known ------------- */

static struct part part;
static uint64_t wanted, made;
static int last_without_lf;

static void emit(const void *line, size_t n)
{
    if (made == wanted)
        return;
    made++;
    fwrite(line, 1, n, stdout);
    if (made < wanted || !last_without_lf || n == 0)
        putchar('\n');
    run_step(&part, line, n);
}

static void emit_text(const char *line)
{
    emit(line, strlen(line));
}

/* ---- Plans ------------------------------------------------------------- */

enum { LINE = 16, QUEUE = 12000 };

enum stage { NEW, FEED };

struct plan {
    enum stage stage;
    unsigned n;             /* transactions */
    uint8_t len[ENTRIES], sla[ENTRIES];
    uint8_t framecnt, intmsk, te, tp;
    unsigned nack;          /* per mille, at each place for one */
    unsigned late;          /* per mille */
    unsigned side;          /* per mille: reads, refused writes, stops */
    unsigned frames;        /* begun from Waiting, at most */
    unsigned budget;        /* events, at most */
    unsigned hold;          /* turns that it lets others go first */
    int held;               /* has done so in this Waiting */
    int grow;               /* in Waiting, the count becomes n */
    int full;               /* all data are written and read back */
    unsigned whole;         /* frames fed to their end in one go */
    int together;           /* no other line between those that wait */
    unsigned again;         /* starts with the same tables */
    char queue[QUEUE][LINE];
    size_t first, last;     /* lines still to go out */
};

static struct plan plans[CHANNELS];

static void push(struct plan *pl, const char *line)
{
    if (pl->last < QUEUE)
        snprintf(pl->queue[pl->last++], LINE, "%s", line);
}

static void push_write(unsigned c, unsigned reg, unsigned value)
{
    char line[LINE];
    snprintf(line, sizeof line, "W %02X %02X", (0xC0u + 16 * c + reg) & 0xFF,
             value & 0xFF);
    push(&plans[c], line);
}

static void push_read(unsigned c, unsigned reg)
{
    char line[LINE];
    snprintf(line, sizeof line, "R %02X", (0xC0u + 16 * c + reg) & 0xFF);
    push(&plans[c], line);
}

static void push_read_at(unsigned c, unsigned address)
{
    char line[LINE];
    snprintf(line, sizeof line, "R %02X", address & 0xFF);
    push(&plans[c], line);
}

static void push_write_at(unsigned c, unsigned address, unsigned value)
{
    char line[LINE];
    snprintf(line, sizeof line, "W %02X %02X", address & 0xFF, value & 0xFF);
    push(&plans[c], line);
}

static void push_event_of(unsigned c, unsigned of, const char *name)
{
    char line[LINE];
    snprintf(line, sizeof line, "E %X %.8s", of & 15, name);
    push(&plans[c], line);
}

static void push_event(unsigned c, const char *name)
{
    push_event_of(c, c, name);
}

static int is_ufm(unsigned c)
{
    return part.ch[c].kind == UFM;
}

/* A byte is over: acknowledged, or sent. */
static void push_ack(unsigned c)
{
    push_event(c, is_ufm(c) ? "SENT" : "ACK");
}

/* The hardware reset, which chooses the part */
static const char *any_x(void)
{
    return one_in(2) ? "X" : "X 9669";
}

static void push_byte(unsigned c)
{
    char line[LINE];
    snprintf(line, sizeof line, "E %X BYTE %02X", c & 15, below(256));
    push(&plans[c], line);
}

/* ---- Lengths and addresses --------------------------------------------- */

static unsigned sum_before(const uint8_t *len, unsigned v)
{
    unsigned sum = 0;
    for (unsigned t = 0; t < v; t++)
        sum += len[t];
    return sum;
}

static unsigned sum_of(const struct plan *pl)
{
    return sum_before(pl->len, pl->n);
}

static unsigned channel_of(const struct plan *pl)
{
    return (unsigned)(pl - plans);
}

/* On a UFm channel a third has bit 0 set, and is skipped. */
static void fill(struct plan *pl, unsigned n, unsigned longest)
{
    unsigned of_reads = is_ufm(channel_of(pl)) ? 3 : 2;
    pl->n = n;
    for (unsigned t = 0; t < n; t++) {
        pl->len[t] = (uint8_t)between(0, longest);
        pl->sla[t] = (uint8_t)((one_in(4) ? below(256) : 0x40 + 2 * below(4))
                               & 0xFE);
        pl->sla[t] |= (uint8_t)one_in(of_reads);
    }
}

/* Lengths that sum to exactly that much; 18 to 64 entries */
static void fill_exactly(struct plan *pl, unsigned sum)
{
    fill(pl, one_in(2) ? 18 : between(18, ENTRIES), 0);
    if (pl->n == 18) {
        for (unsigned t = 0; t < 17; t++)
            pl->len[t] = 255;
        pl->len[17] = (uint8_t)(sum - 17 * 255);
        return;
    }
    spread(pl->len, pl->n, sum);
}

/* ---- Parts of a plan --------------------------------------------------- */

/* Some plans in a row wait for the same edge. */
static unsigned chorus;
static uint8_t chorus_tp;

static void choose_manner(struct plan *pl)
{
    static const uint8_t counts[] = { 1, 1, 1, 0, 2, 2, 3, 5 };
    static const uint8_t masks[] = { 0x00, 0x00, 0x20, 0x10, 0x30, 0x01, 0x31 };
    static const unsigned rates[] = { 0, 0, 10, 50, 200 };
    pl->framecnt = one_in(20) ? (uint8_t)below(256)
                              : counts[below(sizeof counts)];
    pl->intmsk = one_in(6) ? (uint8_t)below(256)
                 : one_in(4) ? (uint8_t)telling_mask(0)
                             : masks[below(sizeof masks)];
    pl->te = (uint8_t)one_in(3);
    pl->tp = (uint8_t)one_in(2);
    if (chorus > 0) {
        chorus--;
        pl->te = 1;
        pl->tp = chorus_tp;
    }
    pl->nack = rates[below(5)];
    pl->late = rates[below(4)];
    pl->side = rates[below(5)];
    pl->frames = between(1, 6);
    pl->budget = one_in(30) ? 10000 : between(5, 400);
    pl->held = 0;
}

/* CTRLINTMSK is mostly 0 again afterwards, so that INT goes on showing what
 * happens. */
static void push_part_masks(unsigned c, unsigned causes)
{
    for (unsigned i = between(1, 3); i > 0; i--)
        push_write_at(c, R_CTRLINTMSK, telling_mask(causes));
    if (one_in(2))
        push_read_at(c, R_CTRLSTATUS);
    if (!one_in(4))
        push_write_at(c, R_CTRLINTMSK, 0);
}

/* "Scripts must load TRANCONFIG before DATA." Returns the place at which DATA
 * stands afterwards: AIPTRRST comes before the new lengths, so the old ones
 * give it. */
static unsigned push_tables(unsigned c)
{
    const struct plan *pl = &plans[c];
    const struct channel *ch = &part.ch[c];
    unsigned place = 0;
    if (!one_in(5))
        push_write(c, R_TRANSEL, 0);
    else
        place = start_of(ch, ch->transel) + ch->tranofs;
    push_write(c, R_CONTROL, AIPTRRST | (one_in(3) ? BPTRRST : 0));
    push_write(c, R_TRANCONFIG, pl->n);
    for (unsigned t = 0; t < pl->n; t++)
        push_write(c, R_TRANCONFIG, pl->len[t]);
    for (unsigned t = 0; t < pl->n; t++)
        push_write(c, R_SLATABLE, pl->sla[t]);
    return place;
}

/* The count anew, and no length; in Waiting too */
static void push_count(unsigned c, unsigned n)
{
    push_write(c, R_CONTROL, AIPTRRST);
    push_write(c, R_TRANCONFIG, n);
}

static void push_manner(unsigned c)
{
    struct plan *pl = &plans[c];
    push_write(c, R_FRAMECNT, pl->framecnt);
    push_write(c, R_INTMSK, pl->intmsk);
    if (one_in(10))
        push_write_at(c, R_CTRLINTMSK, below(256));
    else if (one_in(5))
        push_write_at(c, R_CTRLINTMSK, 0);
    if (one_in(20))
        push_write(c, between(R_REFRATE, R_TIMEOUT), below(256));
}

static void push_data(unsigned c, unsigned bytes)
{
    while (bytes-- > 0)
        push_write(c, R_DATA, below(256));
}

static void push_data_reads(unsigned c, unsigned bytes)
{
    while (bytes-- > 0)
        push_read(c, R_DATA);
}

/* DATA read or written, at random */
static void push_accesses(unsigned c, unsigned n)
{
    while (n-- > 0)
        if (one_in(2))
            push_read(c, R_DATA);
        else
            push_write(c, R_DATA, below(256));
}

/* What is left of a sum from a place on; now and then a byte too many */
static unsigned left_of(unsigned sum, unsigned place)
{
    return (place < sum ? sum - place : 0) + (unsigned)one_in(6);
}

/* TRANSEL and TRANOFS to a place: by one of n transactions, or by the one
 * behind them, that starts at most 255 before it */
static void push_place(unsigned c, const uint8_t *len, unsigned n,
                       unsigned place)
{
    unsigned v = 0, offset = 0, found = 0, start = 0;
    for (unsigned t = 0; t <= n && t < ENTRIES && start <= place; t++) {
        if (place - start <= 255 && one_in(++found)) {
            v = t;
            offset = place - start;
        }
        start += t < n ? len[t] : 0;
    }
    push_write(c, R_TRANSEL, v);
    if (offset > 0 || one_in(4))
        push_write(c, R_TRANOFS, offset);
}

/* DATA just below the sum, at it and past it */
static void push_edge(unsigned c, const uint8_t *len, unsigned n, unsigned sum)
{
    push_place(c, len, n, sum + below(4) - (sum > 0));
    if (one_in(4))
        push_write(c, R_CONTROL, AIPTRRST);
    push_accesses(c, between(1, 3));
    if (one_in(4))
        push_part_masks(c, BE);
}

/* The same by the tables of now */
static void push_edge_of_now(unsigned c)
{
    const struct channel *ch = &part.ch[c];
    push_edge(c, ch->tranconfig + 1, ENTRIES, configured(ch));
}

static void push_start(unsigned c)
{
    struct plan *pl = &plans[c];
    unsigned v = STA | (pl->te ? TE : 0) | (pl->tp ? TP : 0);
    if (one_in(10))
        v |= STO;
    if (one_in(10))
        v |= STOSEQ;
    if (one_in(10))
        v |= AIPTRRST;
    if (one_in(10))
        v |= BPTRRST;
    if (one_in(10))
        v |= 1;
    push_write(c, R_CONTROL, v);
    if (one_in(4))
        push_read(c, R_CONTROL);
}

/* A transaction to its end */
static void push_transaction(unsigned c, int read, unsigned length)
{
    push_ack(c);
    for (unsigned i = 0; i < length; i++)
        if (read)
            push_byte(c);
        else
            push_ack(c);
}

static void push_status_reads(unsigned c)
{
    unsigned n = plans[c].n < ENTRIES ? plans[c].n + 1 : ENTRIES;
    for (unsigned t = 0; t < n; t++)
        push_read_at(c, 64 * c + t);
}

static void push_bytecount_reads(unsigned c, unsigned n)
{
    push_write(c, R_CONTROL, BPTRRST);
    for (unsigned t = 0; t < n; t++)
        push_read(c, R_BYTECOUNT);
}

/* Masks that change while flags are set: INT follows at once. */
static void push_masks(unsigned c)
{
    int alone = one_in(2);
    if (alone)      /* INT hangs on this channel, whatever the others have */
        push_write_at(c, R_CTRLINTMSK, ~(1u << c));
    for (unsigned i = between(1, 3); i > 0; i--) {
        push_write(c, R_INTMSK, telling_mask(part.ch[c].chstatus));
        if (one_in(3))
            push_read_at(c, R_CTRLSTATUS);
    }
    if (alone)
        push_part_masks(c, ctrlstatus(&part));
}

static void push_read_back(unsigned c)
{
    struct plan *pl = &plans[c];
    const struct channel *ch = &part.ch[c];
    /* the rarer flags each time */
    if (ch->chstatus & (RE | DAE | CLE) || one_in(3))
        push_masks(c);
    if (!one_in(4)) {
        if (int_pulled(&part) && one_in(2))
            push_read_at(c, R_CTRLSTATUS);
        push_read(c, R_CHSTATUS);
    }
    if (one_in(2))
        push_read(c, R_CONTROL);
    if (pl->n <= 8 || one_in(4))
        push_status_reads(c);
    if (pl->n <= 8 || one_in(4))
        push_bytecount_reads(c, pl->n + below(2));
    if (!one_in(3)) {
        unsigned t = one_in(2) ? 0 : below(pl->n + 1);
        unsigned left = left_of(configured(ch), start_of(ch, t));
        push_write(c, R_TRANSEL, t);
        push_data_reads(c, left < 16 ? left : 16);
    }
    if (one_in(8))
        push_edge_of_now(c);
    if (pl->full) {     /* an X between would leave the rest no. 5 */
        pl->together = 1;
        push_write(c, R_TRANSEL, 0);
        push_data_reads(c, configured(ch) + 1);
    }
}

/* ---- Plans by kind ----------------------------------------------------- */

static void plan_frame(unsigned c)
{
    const struct plan *pl = &plans[c];
    unsigned place = push_tables(c), left;
    push_manner(c);
    if (one_in(3)) {
        unsigned t = below(pl->n + 1);
        push_write(c, R_TRANSEL, t);
        place = sum_before(pl->len, t);
        if (one_in(3)) {
            unsigned offset = below(pl->n ? pl->len[0] + 2u : 2u);
            push_write(c, R_TRANOFS, offset);
            place += offset;
        }
    }
    left = left_of(sum_of(pl), place);
    if (pl->full)
        push_data(c, left + 1);
    else if (left > 300)
        push_data(c, below(20));
    else
        push_data(c, one_in(3) && left > 4 ? below(4) : left);
    if (pl->whole)      /* else BE stays set while it runs */
        push_read_at(c, R_CTRLSTATUS);
    push_start(c);
}

static void plan_small(unsigned c)
{
    fill(&plans[c], between(1, 5), between(0, 6));
    plan_frame(c);
}

/* It is skipped: bit 0, and on a Fm+ channel length 0 too */
static void skip(struct plan *pl, unsigned t)
{
    pl->sla[t] |= 1;
    if (!is_ufm(channel_of(pl)))
        pl->len[t] = 0;
}

/* Skipped ones at the front, between, behind, or only these */
static void plan_skips(unsigned c)
{
    struct plan *pl = &plans[c];
    int all = one_in(3);
    fill(pl, between(1, 8), is_ufm(c) && one_in(8) ? 255 : 2);
    for (unsigned t = 0; t < pl->n; t++)
        if (all || !one_in(3))
            skip(pl, t);
    plan_frame(c);
}

/* No transaction is skipped: fed to its end, such a frame takes as many events
 * as a frame can. */
static void skip_none(struct plan *pl)
{
    for (unsigned t = 0; t < pl->n; t++)
        if (pl->len[t] == 0 || is_ufm(channel_of(pl)))
            pl->sla[t] &= 0xFE;
}

static void plan_many(unsigned c)
{
    struct plan *pl = &plans[c];
    fill(pl, one_in(3) ? ENTRIES : between(20, ENTRIES), between(0, 3));
    if (one_in(3)) {
        skip_none(pl);
        pl->whole = 3;
    }
    plan_frame(c);
}

static void plan_exact(unsigned c)
{
    struct plan *pl = &plans[c];
    int fits = !one_in(3);
    fill_exactly(pl, fits ? BUFFER : BUFFER + 1);
    pl->whole = fits && one_in(is_ufm(c) ? 3 : 6);
    pl->full = pl->whole && one_in(3);
    if (pl->whole) {
        skip_none(pl);
        pl->together = 1;
    } else {
        pl->nack = 200;
        pl->intmsk = 0x30;
    }
    plan_frame(c);
}

/* A short frame first; in Waiting the count grows to one that fits just or
 * just not. */
static void plan_grow(unsigned c)
{
    struct plan *pl = &plans[c];
    fill(pl, 20, 0);
    memset(pl->len, 255, sizeof pl->len);
    pl->len[0] = 1;
    pl->len[1] = 0;
    pl->len[19] = (uint8_t)(BUFFER - 1 - 17 * 255 + below(2));
    pl->grow = 1;
    pl->budget = between(40, 80);
    pl->framecnt = one_in(2) ? 0 : (uint8_t)between(2, 4);
    push_tables(c);
    push_count(c, 2);
    push_manner(c);
    push_start(c);
}

/* What brings the walk to transaction n - 1 with no data byte: on a UFm channel
 * all before it are skipped, on a Fm+ channel refused. */
static void skip_to_last(struct plan *pl, unsigned n)
{
    if (!is_ufm(channel_of(pl)))
        return;
    for (unsigned t = 0; t + 1 < n; t++)
        skip(pl, t);
    pl->sla[n - 1] &= 0xFE;
}

static void push_refusals(unsigned c, unsigned n)
{
    if (is_ufm(c))
        return;
    for (unsigned t = 0; t + 1 < n; t++)
        push_event(c, "NACK");
}

/* The buffer's last byte on the wires: only the last transaction is fed to its
 * end. */
static void plan_last(unsigned c)
{
    struct plan *pl = &plans[c];
    unsigned n = one_in(2) ? 18 : ENTRIES, length = n == 18 ? 17 : 68;
    fill(pl, n, 0);
    memset(pl->len, n == 18 ? 255 : 68, sizeof pl->len);
    pl->len[n - 1] = (uint8_t)length;
    skip_to_last(pl, n);
    pl->te = 0;
    pl->framecnt = 1;
    pl->intmsk = 0x30;
    pl->again = 0;
    pl->together = !one_in(4);
    push_tables(c);
    push_manner(c);
    push_write(c, R_TRANSEL, n - 1);
    push_write(c, R_TRANOFS, length - 1);
    push_data(c, 1);
    push_write(c, R_CONTROL, STA);
    push_refusals(c, n);
    push_read_at(c, 64 * c + n - 1);
    push_transaction(c, pl->sla[n - 1] & 1, length);
    push_read_at(c, 64 * c + n - 1);
    push_event(c, "STOP");
    push_bytecount_reads(c, n + 1);
    push_write(c, R_TRANOFS, length - 1);
    push_read(c, R_DATA);
    push_read(c, R_DATA);
}

/* Many frames that end at once: the largest FRAMECNTs */
static void plan_frames(unsigned c)
{
    struct plan *pl = &plans[c];
    fill(pl, 1, 3);
    skip(pl, 0);
    pl->te = 0;
    pl->framecnt = (uint8_t)(one_in(2) ? 255 : between(100, 255));
    pl->again = 0;
    pl->together = !one_in(4);
    push_tables(c);
    push_manner(c);
    push_write(c, R_CONTROL, STA);
    for (unsigned i = 1; i < pl->framecnt; i++)
        push_event(c, "TICK");
    push_read(c, R_CHSTATUS);
    push_read(c, R_CONTROL);
}

/* Count 0, and what a start does with it */
static void plan_count_zero(unsigned c)
{
    fill(&plans[c], 0, 0);
    plan_frame(c);
}

/* The buffer's end: 4,335 + 16, 4,351, 4,352; the sum is above it, at it or
 * below it */
static void plan_data_edge(unsigned c)
{
    struct plan *pl = &plans[c];
    fill(pl, 18, 0);
    memset(pl->len, 255, sizeof pl->len);
    if (one_in(2))
        pl->len[17] = (uint8_t)(one_in(2) ? 17 : between(15, 18));
    push_tables(c);
    if (one_in(8))
        push_count(c, 17);
    push_write(c, R_TRANSEL, 17);
    if (!one_in(4))
        push_data(c, between(16, 19));
    push_write(c, R_TRANOFS, between(14, 18));
    push_data(c, between(0, 3));
    if (one_in(2))
        push_read(c, R_DATA);
    push_write(c, R_CONTROL, AIPTRRST);
    push_read(c, R_DATA);
    push_read(c, R_DATA);
    push_write(c, R_TRANSEL, between(16, 19));
    push_write(c, R_TRANOFS, below(256));
    push_read(c, R_TRANSEL);
    push_read(c, R_TRANOFS);
    push_write(c, R_TRANSEL, between(62, 65));
    push_read(c, R_DATA);
    if (one_in(2))
        push_part_masks(c, BE);
    push_read_at(c, R_CTRLSTATUS);
}

/* One transaction, so that DATA has as many bytes */
static void push_room(unsigned c, unsigned bytes)
{
    push_write(c, R_TRANSEL, 0);
    push_count(c, 1);
    push_write(c, R_TRANCONFIG, bytes);
}

/* A length that comes late: until then DATA's pointer stands at the sum or past
 * it, and with no AIPTRRST between it is there still. */
static void push_late_length(unsigned c)
{
    unsigned sum = below(4);
    push_room(c, 8);
    push_write(c, R_TRANCONFIG, 0);
    push_write(c, R_TRANCONFIG, between(1, 3));
    push_data(c, 8);
    if (one_in(3))
        push_write(c, R_TRANOFS, between(1, 7));
    push_count(c, 2);
    push_write(c, R_TRANCONFIG, sum);
    switch (below(4)) {
    case 0:  push_write(c, R_TRANOFS, sum + below(4)); break;
    case 1:  push_write(c, R_TRANSEL, between(2, 3)); break;
    default: break;
    }
    push_accesses(c, sum + below(3));
    push_write(c, R_TRANCONFIG, between(1, 8 - sum));
    push_data_reads(c, between(1, 2));
}

/* The sum's edge, below the buffer's end and with lengths behind the count;
 * the places past it are configured afterwards. */
static void plan_sum_edge(unsigned c)
{
    struct plan *pl = &plans[c];
    unsigned behind = one_in(3) ? 0 : between(1, 4), sum;
    fill(pl, (one_in(8) ? 0 : between(1, 5)) + behind, one_in(6) ? 255 : 5);
    push_late_length(c);
    push_tables(c);
    pl->n -= behind;
    sum = sum_of(pl);
    push_count(c, pl->n);
    for (unsigned i = between(1, 4); i > 0; i--)
        push_edge(c, pl->len, pl->n + behind, sum);
    if (sum < 40) {     /* the pointer runs there by itself */
        push_write(c, R_TRANSEL, 0);
        push_accesses(c, sum + below(3));
    }
    push_count(c, pl->n + behind);
    push_data_reads(c, between(1, 2));
    if (one_in(2))
        push_count(c, pl->n);
    push_manner(c);
    push_start(c);
}

/* TRANSEL first, lengths later: AIPTRRST and TRANOFS past the end */
static void plan_pointer_past(unsigned c)
{
    struct plan *pl = &plans[c];
    fill(pl, one_in(2) ? ENTRIES : 18, 0);
    push_tables(c);
    push_write(c, R_TRANSEL, pl->n == ENTRIES ? 63 : 17);
    push_write(c, R_TRANOFS, one_in(2) ? 0 : between(15, 18));
    if (one_in(2))
        push_data(c, 2);
    for (unsigned t = 0; t < pl->n; t++)
        pl->len[t] = pl->n == ENTRIES ? (uint8_t)between(66, 72) : 255;
    push_count(c, pl->n);
    for (unsigned t = 0; t < pl->n; t++)
        push_write(c, R_TRANCONFIG, pl->len[t]);
    push_read(c, R_DATA);
    push_manner(c);
    if (one_in(2)) {    /* a short frame runs meanwhile */
        push_count(c, between(1, 3));
        push_start(c);
        pl->together = !one_in(4);
    }
    push_write(c, R_CONTROL, AIPTRRST | below(256));
    push_read(c, R_CONTROL);
    push_read(c, R_DATA);
    push_write(c, R_TRANOFS, below(20));
    push_read(c, R_TRANCONFIG);
    push_read(c, R_SLATABLE);
    push_read_at(c, R_CTRLSTATUS);
}

/* Entries 63, 64, 65 of the tables; counts 64, 65 and more */
static void plan_table_edge(unsigned c)
{
    struct plan *pl = &plans[c];
    fill(pl, 3, 3);
    push_write(c, R_TRANSEL, 0);
    push_write(c, R_CONTROL, AIPTRRST | BPTRRST);
    switch (below(5)) {
    case 0:
        for (unsigned i = 0; i < 65 + below(3); i++)
            push_write(c, R_SLATABLE, below(256));
        push_read(c, R_SLATABLE);
        break;
    case 1:
        push_write(c, R_TRANCONFIG, between(0, 64));
        for (unsigned i = 0; i < 64 + below(3); i++)
            push_write(c, R_TRANCONFIG, below(100));
        push_read(c, R_TRANCONFIG);
        break;
    case 2:
        for (unsigned i = 0; i < 64 + below(3); i++)
            push_read(c, R_BYTECOUNT);
        push_write(c, R_BYTECOUNT, 1);
        push_read(c, R_BYTECOUNT);
        break;
    case 3:
        for (unsigned i = 0; i < 64 + below(4); i++)
            push_read(c, one_in(50) ? R_SLATABLE : R_TRANCONFIG);
        push_write(c, R_TRANCONFIG, 65);
        break;
    default:
        break;
    }
    push_write(c, R_CONTROL, AIPTRRST);
    push_write(c, R_TRANCONFIG, 65);
    push_write(c, R_TRANCONFIG, between(65, 255));
    push_write(c, R_TRANCONFIG, 64);
    push_write(c, R_TRANCONFIG, 65);
    push_write(c, R_CONTROL, AIPTRRST);
    push_read(c, R_TRANCONFIG);
    push_read(c, R_TRANCONFIG);
}

/* What a key is kept over */
static void push_no_write(unsigned c)
{
    static const char *const unreadable[] = {
        "", "W f7 00", "W CF 5a", "w D2 00", "W E2 0"
    };
    switch (below(7)) {
    case 0: push_read(c, below(16)); break;
    case 1: push_read_at(c, below(256)); break;
    case 2: push_read_at(c, between(0xF0, 0xFF)); break;
    case 3: push_event(c, "ILL"); break;
    case 4: push_event_of(c, below(5), one_in(2) ? "ACK" : "STOP"); break;
    case 5: push(&plans[c], one_in(2) ? "T R" : "T F"); break;
    default: push(&plans[c], unreadable[below(5)]); break;
    }
}

/* What a key is lost to, unless it is of that register: with no. 0 to 6 */
static void push_forgetting(unsigned c)
{
    static const uint8_t values[] = { 0xA5, 0x5A, 0x00 };
    unsigned other = 0xC0 + 16 * ((c + between(1, 2)) % CHANNELS);
    unsigned v = values[below(3)];
    switch (below(16)) {
    case 0: push_write(c, below(R_PRESET), any_byte()); break;
    case 1: push_write(c, R_CHSTATUS, v); break;
    case 2: push_write_at(c, 64 * c + below(64), v); break;
    case 3: case 4: push_write_at(c, below(0xC0), v); break;
    case 5: push_write_at(c, other + R_INTMSK, v); break;
    case 6: push_write_at(c, other + R_TIMEOUT, v); break;
    case 7: push_write_at(c, other + R_CHSTATUS, v); break;
    case 8: push_write_at(c, other + R_TRANSEL, between(64, 255)); break;
    case 9: push_write_at(c, other + R_TRANCONFIG, between(65, 255)); break;
    case 10: push_write_at(c, other + R_PRESET, v); break;
    case 11: push_write_at(c, R_CTRLPRESET, v); break;
    case 12: push_write_at(c, R_CTRLINTMSK, one_in(2) ? 0 : v); break;
    case 13: push_write_at(c, between(0xF2, 0xF6), v); break;
    case 14: push_write_at(c, one_in(2) ? R_CTRLSTATUS : R_CTRLRDY, v); break;
    default: push_write_at(c, between(0xF8, 0xFE), v); break;
    }
}

/* A key, whole or interrupted */
static void push_keys(unsigned c, unsigned address)
{
    if (one_in(6)) {
        push_write_at(c, address, 0x5A);
        return;
    }
    push_write_at(c, address, 0xA5);
    if (one_in(4))
        push_write_at(c, address, 0xA5);
    if (one_in(8))
        push_write_at(c, address, any_byte());
    if (one_in(2))
        push_no_write(c);
    if (!one_in(3))
        push_forgetting(c);
    if (one_in(4))
        push_no_write(c);
    push_write_at(c, address, 0x5A);
    if (one_in(4))
        push_write_at(c, address, 0x5A);
}

static void push_channel_key(unsigned c)
{
    push_keys(c, preset_of(c));
}

/* Two keys: A5h and 5Ah of one forget the other's. ILL's flag, in both
 * channels, shows which was reset. */
static void push_two_keys(unsigned c)
{
    unsigned other = (c + between(1, 2)) % CHANNELS;
    unsigned address[2] = {
        preset_of(c), one_in(2) ? R_CTRLPRESET : preset_of(other)
    };
    push_event(c, "ILL");
    push_event_of(c, other, "ILL");
    for (unsigned i = between(3, 6); i > 0; i--) {
        push_write_at(c, address[below(2)], one_in(2) ? 0xA5 : 0x5A);
        if (one_in(4))
            push_no_write(c);
    }
    push_read_at(c, 0xC0 + 16 * other + R_CHSTATUS);
}

/* A 5Ah after the reset does nothing: ILL's flag shows it, an event being no
 * write. */
static void push_second_5a(unsigned c)
{
    push_event(c, "ILL");
    if (one_in(2))
        push_write_at(c, R_CTRLPRESET, 0x5A);
    push_write(c, R_PRESET, 0x5A);
    push_read(c, R_CHSTATUS);
}

/* INTMSK, a setting, some bytes and ILL's flag are there before, and read
 * afterwards. */
static void push_reset(unsigned c)
{
    unsigned setting = between(R_SCLL, R_MODE);
    unsigned bytes = one_in(4) ? between(1, 3) : 0;
    if (bytes > 0) {
        push_room(c, bytes);
        push_data(c, bytes);
    }
    push_write(c, R_INTMSK, between(0x10, 0xFF));
    push_write(c, setting, below(256));
    push_event(c, "ILL");
    switch (below(16)) {
    case 0:
        push_write_at(c, one_in(2) ? R_CTRLPRESET : preset_of(c), 0xA5);
        push(&plans[c], any_x());
        break;
    case 1: case 2: case 3: case 4:
        push_keys(c, R_CTRLPRESET);
        break;
    case 5: case 6: case 7:
        push_two_keys(c);
        break;
    default:
        if (one_in(3)) {
            plan_small(c);
            plans[c].budget = between(1, 10);
        }
        push_channel_key(c);
        break;
    }
    if (one_in(2))
        push_second_5a(c);
    push_read(c, R_CHSTATUS);
    push_read(c, R_INTMSK);
    push_read(c, setting);
    if (one_in(4))
        push_read_at(c, R_DEVICE_ID);
    if (bytes > 0) {
        push_room(c, bytes);
        push_data_reads(c, bytes);
    }
}

static void plan_reset(unsigned c)
{
    fill(&plans[c], 1, 3);
    plans[c].together = !one_in(4);
    for (unsigned i = between(2, 20); i > 0; i--)
        push_reset(c);
    push_read(c, R_CONTROL);
    push_read(c, R_TRANCONFIG);
    push_read(c, R_FRAMECNT);
    push_read(c, R_DATA);
    push_read_at(c, R_CTRLSTATUS);
}

/* Every register once, and a write to each that only reads */
static void plan_sweep(unsigned c)
{
    fill(&plans[c], 1, 2);
    for (unsigned reg = 0; reg < 16; reg++)
        push_read(c, reg);
    for (unsigned i = 0; i < 16; i++)
        push_read_at(c, 0xF0 + i);
    for (unsigned i = 0; i < 6; i++)
        push_read_at(c, 64 * c + below(64));
    for (unsigned i = 0; i < 16; i++)
        if (i != 7)
            push_write_at(c, 0xF0 + i, i == 1 ? 0 : below(256));
    push_write_at(c, 64 * c + (one_in(2) ? 0 : below(64)), below(256));
    push_write(c, R_CHSTATUS, below(256));
    push_write(c, R_BYTECOUNT, below(256));
    for (unsigned reg = R_REFRATE; reg <= R_TIMEOUT; reg++)
        push_write(c, reg, below(256));
    for (unsigned reg = R_REFRATE; reg <= R_TIMEOUT; reg++)
        push_read(c, reg);
}

static void new_plan(unsigned c)
{
    unsigned k = below(100);
    if (one_in(25)) {
        chorus = 6;
        chorus_tp = (uint8_t)below(2);
    }
    choose_manner(&plans[c]);
    plans[c].full = 0;
    plans[c].whole = 0;
    plans[c].grow = 0;
    plans[c].together = 0;
    plans[c].again = between(0, 4);
    if (chorus > 0)
        k = below(67);
    if (k < 45)
        plan_small(c);
    else if (k < 62)
        plan_skips(c);
    else if (k < 67)
        plan_many(c);
    else if (k < 70)
        plan_exact(c);
    else if (k < 72)
        plan_grow(c);
    else if (k < 73)
        plan_last(c);
    else if (k < 74)
        one_in(3) ? plan_frames(c) : plan_count_zero(c);
    else if (k < 78)
        plan_data_edge(c);
    else if (k < 81)
        plan_sum_edge(c);
    else if (k < 83)
        plan_pointer_past(c);
    else if (k < 86)
        plan_table_edge(c);
    else if (k < 95)
        plan_reset(c);
    else
        plan_sweep(c);
    plans[c].stage = FEED;
}

/* ---- Feeding a sequence ------------------------------------------------ */

static void push_stop(unsigned c)
{
    static const uint8_t stops[] = { STO, STO, STOSEQ, STOSEQ, STO | STOSEQ };
    unsigned v = stops[below(sizeof stops)];
    if (one_in(6))
        v |= STA;
    if (one_in(10))
        v |= below(256);
    push_write(c, R_CONTROL, v);
    if (one_in(3))
        push_read(c, R_CONTROL);
}

static void push_trigger(unsigned c, int matching)
{
    push(&plans[c], (plans[c].tp != 0) == matching ? "T F" : "T R");
}

static void push_side(unsigned c)
{
    static const char *const names[] = {
        "ACK", "NACK", "SENT", "BYTE 55", "TICK", "STOP", "SDA", "SCL", "ILL"
    };
    switch (below(18)) {
    case 0: case 1:
        push_stop(c);
        break;
    case 2:     /* no. 3 */
        push_write(c, between(R_SLATABLE, R_DATA), below(256));
        break;
    case 3:     /* no. 3 */
        push_write(c, between(R_FRAMECNT, R_TIMEOUT), below(256));
        break;
    case 4:     /* no. 2 */
        push_write(c, one_in(2) ? R_CHSTATUS : R_BYTECOUNT, below(256));
        break;
    case 5:
        push_write(c, R_INTMSK, one_in(3) ? telling_mask(part.ch[c].chstatus)
                                : one_in(2) ? below(256) : 0x31);
        push_read(c, R_INTMSK);
        break;
    case 6:
        push_write(c, R_TRANSEL, one_in(4) ? below(256)
                                           : below(count_of(&part.ch[c]) + 1u));
        push_read(c, R_DATA);
        break;
    case 7:
        if (one_in(2)) {
            push_edge_of_now(c);
            break;
        }
        push_write(c, R_TRANOFS, one_in(4) ? below(256) : below(8));
        push_read(c, R_DATA);
        break;
    case 8:     /* TP, TE and the pointer resets of an active channel */
        push_write(c, R_CONTROL, below(32));
        push_read(c, R_CONTROL);
        break;
    case 9:
        push_event(c, names[below(6)]);
        break;
    case 10:
        push_event(c, names[below(9)]);
        break;
    case 11:
        push_read(c, below(16));
        break;
    case 12:
        push_status_reads(c);
        break;
    case 13:
        push_bytecount_reads(c, plans[c].n);
        break;
    case 14:
        push_read_at(c, one_in(2) ? R_CTRLSTATUS : 0xF0 + below(16));
        break;
    case 15:
        push_read(c, R_CHSTATUS);
        break;
    case 16:
        if (one_in(6)) {
            plans[c].together = !one_in(4);
            push_channel_key(c);
        } else {
            push_trigger(c, (int)below(2));
        }
        break;
    default:
        push_write(c, R_CONTROL, STA | below(256));
        break;
    }
}

static void push_late(unsigned c)
{
    if (part.ch[c].te)
        push_trigger(c, part.ch[c].tp == plans[c].tp);
    else
        push_event(c, "TICK");
}

/* In Waiting, entry 0 can be written anew. */
static void push_new_count(unsigned c)
{
    push_count(c, one_in(3) ? any_byte() : below(plans[c].n + 2));
    if (one_in(3))      /* no. 3: entry 1 */
        push_write(c, R_TRANCONFIG, 1);
    if (one_in(2))      /* it counts at once */
        push_read(c, R_DATA);
}

static void feed_waiting(unsigned c)
{
    struct plan *pl = &plans[c];
    if (pl->frames == 0 || pl->budget == 0) {
        if (one_in(12))
            push_event(c, one_in(2) ? "SCL" : "ILL");
        else
            push_stop(c);
        return;
    }
    if (pl->grow) {
        pl->grow = 0;
        push_count(c, pl->n);
        return;
    }
    if (one_in(12)) {
        push_new_count(c);
        return;
    }
    if (one_in(60)) {   /* the pointer at 65: no. 3 */
        pl->together = 1;
        push_write(c, R_CONTROL, AIPTRRST);
        for (unsigned i = 0; i < ENTRIES + 1; i++)
            push_read(c, R_TRANCONFIG);
        push_write(c, R_TRANCONFIG, below(70));
        return;
    }
    if (one_in(12)) {   /* not awaited, or the other edge */
        push_event(c, one_in(2) ? "STOP" : "SDA");
        push_trigger(c, 0);
        return;
    }
    /* several channels shall wait for one edge */
    if (part.ch[c].te && !pl->held && !one_in(4)) {
        pl->held = 1;
        pl->hold = below(200);
        return;
    }
    pl->held = 0;
    pl->frames--;
    if (part.ch[c].te)
        push(pl, part.ch[c].tp ? "T F" : "T R");
    else
        push_event(c, "TICK");
}

/* From the first address to the STOP, with no other line between */
static void feed_whole(unsigned c)
{
    const struct channel *ch = &part.ch[c];
    for (unsigned t = ch->tran; t < count_of(ch); t++)
        if (!is_skipped(ch, t))
            push_transaction(c, is_read(ch, t), length_of(ch, t));
    push_event(c, "STOP");
    plans[c].together = 1;
}

/* The clock after a byte: refused at the plan's rate, or a fault; on a UFm
 * channel events of the other kind stand for the refusal, and only ILL is a
 * fault. */
static void push_ninth(unsigned c, const char *fault, unsigned rarely)
{
    static const char *const not_ufm[] = {
        "ACK", "NACK", "BYTE 55", "SDA", "SCL"
    };
    if (per_mille(plans[c].nack))
        push_event(c, is_ufm(c) ? not_ufm[below(5)] : "NACK");
    else if (one_in(rarely))
        push_event(c, is_ufm(c) ? "ILL" : fault);
    else
        push_ack(c);
}

static void feed(unsigned c)
{
    struct plan *pl = &plans[c];
    const struct channel *ch = &part.ch[c];
    if (pl->whole > 0 && ch->phase == ADDRESS) {
        pl->whole--;
        feed_whole(c);
        return;
    }
    if (pl->budget > 0) {
        pl->budget--;
        if (per_mille(pl->side)) {
            push_side(c);
            return;
        }
        if (per_mille(pl->late) && ch->phase != WAITING) {
            push_late(c);
            return;
        }
    } else if (ch->phase != WAITING && !ch->sto) {
        push_write(c, R_CONTROL, STO);
        return;
    }
    switch (ch->phase) {
    case ADDRESS:
        push_ninth(c, "SDA", 200);
        break;
    case SENDING:
        push_ninth(c, "SCL", 400);
        break;
    case RECEIVING:
        if (one_in(400))
            push_event(c, "ILL");
        else
            push_byte(c);
        break;
    case STOPPING:
        push_event(c, "STOP");
        break;
    default:
        feed_waiting(c);
        break;
    }
}

/* The next line of a channel's plan */
static void advance(unsigned c)
{
    struct plan *pl = &plans[c];
    while (pl->first == pl->last) {
        if (pl->hold > 0)
            return;
        pl->first = pl->last = 0;
        pl->together = 0;
        if (pl->stage == NEW) {
            new_plan(c);
        } else if (part.ch[c].phase != IDLE) {
            feed(c);
        } else {
            push_read_back(c);
            if (pl->again == 0 || pl->full) {
                pl->stage = NEW;
                continue;
            }
            pl->again--;
            choose_manner(pl);
            push_manner(c);
            push_start(c);
        }
    }
    emit_text(pl->queue[pl->first++]);
}

/* ---- Noise ------------------------------------------------------------- */

static const char *const bad_lines[] = {
    "", " ", "\r", "\t", "w C0 40", "W c0 40", "W C0 4a", "r C0", "R c1",
    "e 0 ACK", "E 0 ack", "E a ACK", "t R", "T r", "x", "W  C0 40",
    "W C0  40", " W C0 40", "W C0 40 ", "W C0 40\r", "R C0\r", "X\r",
    "T R\r", "E 0 ACK\r", "E 0 BYTE 11\r", "W\tC0 40", "W C0\t40", "W C0",
    "W C0 ", "W C0 4", "W C0 400", "W C04 0", "W C040", "WC040", "W", "W ",
    "W C0 G0", "W 0xC0 40", "W -1 00", "R", "R ", "R C", "R C00", "R C0 00",
    "R  C0", "R C0 ", " R C0", "R G0", "R /0", "R :0", "R @0", "E", "E 0",
    "E 0 ", "E ACK", "E G ACK", "E 00 ACK", "E 01 ACK", "E  0 ACK",
    "E 0  ACK", "E 0 ACK ", "E 0 ACK 00", "E 0 AC", "E 0 ACKK", "E 0 NAK",
    "E 0 BYTE", "E 0 BYTE ", "E 0 BYTE 1", "E 0 BYTE 123", "E 0 BYTE  1",
    "E 0 BYTE 1g", "E 0 BYTE aa", "E 0 BYTE11", "E 0 BYTES 11",
    "E 0 STOPP", "E 0 TICK 00", "E 0 SD", "E 0 SDA 0", "E 0 SCLL",
    "E 0 ILLEGAL", "E 0 START", "E 0 byte 11", "E 3 NAME", "E F BYTE",
    "E 9 ack", "T", "T ", "T  R", "T R ", "T X", "T RF", "TR", "T F F",
    "X ", " X", "XX", "X 0", "X 9663", "X 966", "X9669", "X  9669",
    "X 96690", "X 9669 ", " X 9669", "X 9669\r", "x 9669", "X 09669",
    "X 9669 B", "E 1 SENT 00", "E 1 SENTX", "E 1 SEN", "E 1 SENT ", "E 1 sent",
    "E 3 SENT 00", "E 1 BYTE", "E 2 ACKS", "#", "step", "-", "W C0 40 E 0 ACK"
};

static void noise_bad(void)
{
    static const char *const readable[] = {
        "W D0 40", "W D0 40", "E 1 BYTE A9", "R E8", "E 1 SENT", "X 9669"
    };
    static uint8_t longest[20000];
    uint8_t bytes[64];
    size_t n = 0;
    switch (below(8)) {
    case 0:     /* random bytes */
        n = between(1, 40);
        for (size_t i = 0; i < n; i++)
            do
                bytes[i] = (uint8_t)below(256);
            while (bytes[i] == '\n');
        emit(bytes, n);
        break;
    case 1:     /* long lines that begin like a step */
        n = one_in(10) ? between(1000, sizeof longest) : between(12, 60);
        memset(longest, one_in(2) ? ' ' : '0', n);
        memcpy(longest, "E 0 BYTE 11", 11);
        emit(longest, n);
        break;
    case 2: {   /* one byte of a readable line altered, put in or left out */
        char line[LINE + 2];
        size_t at;
        snprintf(line, sizeof line, "%s", readable[below(6)]);
        n = strlen(line);
        at = below((unsigned)n);
        switch (below(3)) {
        case 0:
            do
                line[at] = (char)below(256);
            while (line[at] == '\n');
            break;
        case 1:
            memmove(line + at + 1, line + at, n - at);
            n++;
            break;
        default:
            memmove(line + at, line + at + 1, n - at - 1);
            n--;
            break;
        }
        emit(line, n);
        break;
    }
    default:
        emit_text(bad_lines[below(sizeof bad_lines / sizeof *bad_lines)]);
        break;
    }
}

static void noise(void)
{
    static const char *const names[] = {
        "ACK", "NACK", "SENT", "TICK", "STOP", "SDA", "SCL", "ILL"
    };
    char line[LINE];
    unsigned k = below(100);
    if (k < 25) {
        noise_bad();
        return;
    }
    if (k < 45)
        snprintf(line, sizeof line, "R %02X", below(256));
    else if (k < 55)
        snprintf(line, sizeof line, "R %02X", between(0xC0, 0xFF));
    else if (k < 60)
        snprintf(line, sizeof line, "W %02X %02X",
                 one_in(4) ? 64 * below(3) : below(0xC0), below(256));
    else if (k < 70)
        snprintf(line, sizeof line, "W %02X %02X",
                 between(0xC0, 0xFF), any_byte());
    else if (k < 73)
        snprintf(line, sizeof line, "R %02X", between(0xF8, 0xFE));
    else if (k < 76)
        snprintf(line, sizeof line, "W %02X %02X", between(0xF2, 0xFF),
                 below(256));
    else if (k < 82)
        snprintf(line, sizeof line, "E %X %s", between(3, 15),
                 names[below(8)]);
    else if (k < 84)
        snprintf(line, sizeof line, "E %X BYTE %02X", between(3, 15),
                 below(256));
    else if (k < 92)
        snprintf(line, sizeof line, "E %X %s", below(3),
                 names[below(one_in(6) ? 8 : 5)]);
    else if (k < 95)
        snprintf(line, sizeof line, "E %X BYTE %02X", below(3), below(256));
    else if (k < 99 || !one_in(20))
        snprintf(line, sizeof line, "T %c", one_in(2) ? 'R' : 'F');
    else
        snprintf(line, sizeof line, "%s", any_x());
    emit_text(line);
}

/* ---- The program ------------------------------------------------------- */

int main(int argc, char **argv)
{
    static const unsigned noises[] = { 1, 5, 20, 100, 350 };
    static const unsigned bursts[] = { 1, 4, 30 };
    unsigned rate, burst, c = 0;
    uint64_t seed;
    if (argc != 3) {
        fprintf(stderr, "usage: generate SEED STEPS\n");
        return 1;
    }
    seed = strtoull(argv[1], NULL, 10);
    wanted = strtoull(argv[2], NULL, 10);
    seed_random(seed);
    last_without_lf = (int)(seed % 2);
    rate = noises[seed % 5];
    burst = bursts[seed / 5 % 3];
    reset_part(&part, PCA9663);
    while (made < wanted) {
        if (plans[c].together && plans[c].first < plans[c].last) {
            advance(c);
            continue;
        }
        if (one_in(2500)) {
            emit_text(any_x());
            continue;
        }
        if (per_mille(rate)) {
            noise();
            continue;
        }
        /* BE pulls INT, and would hide what the channels do. */
        if (part.be && one_in(6)) {
            emit_text("R F0");
            continue;
        }
        if (one_in(burst) || plans[c].hold > 0)
            c = below(CHANNELS);
        if (plans[c].hold > 0) {
            plans[c].hold--;
            continue;
        }
        advance(c);
    }
    return fflush(stdout) == 0 ? 0 : 1;
}

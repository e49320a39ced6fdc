/*
 * A logger beside each channel, as a logic analyser on its wires would be. It
 * sees the events that the channel answered 0, the actions, the two tables
 * and the buffer, and counts by these alone. After every step it compares.
 * One more, on the parallel bus, sees the lines and says which channels each
 * has to reset, and which are UFm. Another says what an access of DATA has to
 * be answered. The last one has the flags and their masks as rows, and says
 * which channel is pending and whether INT is pulled.
 *
 * model.c includes it before struct channel is known: it can't look at a
 * channel's transaction, key or kind. BYTECOUNT, STATUS, CHSTATUS and DATA's
 * pointer are handed to it to be compared, the phase for counters only.
 */

/* What it is told of a step: the bit of an event answered 0, and what no wire
 * shows. A frame of skipped transactions only has no action, and its STATUS
 * may be that of the frame before; a reset sends no STOP. REFUSED, an event
 * not awaited, serves the counters only. */
#define TOLD(event) (1u << (event))
#define REFUSED(event) (TOLD(event) << 16)
enum {
    TOLD_EDGE = TOLD(9),    /* a trigger edge for this channel */
    TOLD_BEGIN = TOLD(10),  /* a frame is to begin; the tables say if it can */
    TOLD_RESET = TOLD(11)
};

/* "of the ACK, NACK, BYTE and STOP events answered 0; TICK and triggers don't
 *  count"; SENT counts as ACK does */
enum {
    ACKNOWLEDGED = TOLD(E_ACK) | TOLD(E_SENT),
    COUNTED = ACKNOWLEDGED | TOLD(E_NACK) | TOLD(E_BYTE) | TOLD(E_STOP)
};

/* "ACK, NACK, BYTE, SDA and SCL on a UFm channel, and SENT on channel 0 or on a
 *  PCA9663, are no. 7." */
enum {
    OF_UFM = TOLD(E_SENT),
    OF_FMPLUS = TOLD(E_ACK) | TOLD(E_NACK) | TOLD(E_BYTE) | TOLD(E_SDA)
        | TOLD(E_SCL)
};

static unsigned of_other_kind(int ufm)
{
    return ufm ? OF_FMPLUS : OF_UFM;
}

/* What it sees of a step */
struct sight {
    unsigned told;
    struct action act;
    const uint8_t *slatable, *tranconfig, *bytecount, *status, *buffer;
    uint8_t ufm;                /* by the logger on the bus */
    uint8_t chstatus;
    /* for the counters only */
    uint8_t control, intmsk;
    unsigned for_kind;          /* refused, and the other kind takes it */
};

struct logger {
    /* as they were when the frame began */
    uint8_t ufm;
    uint8_t slatable[ENTRIES], tranconfig[ENTRIES + 1], buffer[BUFFER];
    /* by the wires since then */
    uint8_t count[ENTRIES];     /* data bytes acknowledged or received */
    unsigned spent, bound;      /* counted events: so far, at most */
    unsigned next;              /* behind the one addressed; 0 before S */
    unsigned start, sent;       /* of the one addressed: place, D actions */
    uint8_t running;
    uint8_t out;                /* a D without its ninth clock */
    uint8_t late;               /* FE is recorded */
    uint8_t why;                /* what cut the frame short; a counter */
};

/* ---- Counters ---------------------------------------------------------- */

/* Frames, by the channel's kind */
enum {
    ENDED, EXACT, EXACT_64, EXACT_4352, OF_64, OF_4352, BY_STO, BY_FE, BY_ILL,
    BY_RESET, D_CUT_OFF, FROM_STA, FROM_TICK, FROM_TRIGGER, ALL_SKIPPED,
    COUNT_0, TOO_LONG,
    FMPLUS_ONLY, BY_NACK = FMPLUS_ONLY, BY_SDA, BY_SCL, D_REFUSED,
    UFM_ONLY, SKIPPED_FRONT = UFM_ONLY, SKIPPED_BETWEEN, SKIPPED_BEHIND,
    SKIPPED_ALL, SKIPPED_TOO_LONG, COUNTERS
};

static const char *const counter_names[COUNTERS] = {
    [ENDED] = "ended",
    [EXACT] = "bound-met",
    [EXACT_64] = "bound-met-by-64",
    [EXACT_4352] = "bound-met-by-4352",
    [OF_64] = "of-64",
    [OF_4352] = "of-4352",
    [BY_STO] = "cut-by-STO",
    [BY_FE] = "cut-by-FE",
    [BY_ILL] = "ended-by-ILL",
    [BY_RESET] = "ended-by-reset",
    [D_CUT_OFF] = "D-cut-off",
    [FROM_STA] = "begun-by-STA",
    [FROM_TICK] = "begun-by-TICK",
    [FROM_TRIGGER] = "begun-by-trigger",
    [ALL_SKIPPED] = "all-skipped",
    [COUNT_0] = "count-0",
    [TOO_LONG] = "too-long",
    [BY_NACK] = "ended-by-NACK",
    [BY_SDA] = "ended-by-SDA",
    [BY_SCL] = "ended-by-SCL",
    [D_REFUSED] = "D-refused",
    /* with a length above 0 */
    [SKIPPED_FRONT] = "skipped-in-front",
    [SKIPPED_BETWEEN] = "skipped-between",
    [SKIPPED_BEHIND] = "skipped-behind",
    [SKIPPED_ALL] = "skipped-all",
    [SKIPPED_TOO_LONG] = "too-long-by-skipped"
};

static unsigned long seen[2][COUNTERS];

static int comes_on(unsigned counter, int ufm)
{
    return counter < FMPLUS_ONLY || (counter >= UFM_ONLY) == ufm;
}

/* The part, and what chose, kept or reset it */
enum {
    ON_9663, ON_9669, X_KEEPS_9663, X_TO_9669, X_TO_9663, X_KEEPS_9669,
    PRESET_FMPLUS, PRESET_UFM, CTRLPRESET_9669, BOTH_KINDS, OPEN_BY_30,
    PART_COUNTERS
};

static const char *const part_names[PART_COUNTERS] = {
    [ON_9663] = "PCA9663-steps",
    [ON_9669] = "PCU9669-steps",
    [X_KEEPS_9663] = "PCA9663-X",
    [X_TO_9669] = "PCA9663-X-9669",
    [X_TO_9663] = "PCU9669-X",
    [X_KEEPS_9669] = "PCU9669-X-9669",
    [PRESET_FMPLUS] = "PCU9669-PRESET-of-channel-0",
    [PRESET_UFM] = "PCU9669-PRESET-of-UFm",
    [CTRLPRESET_9669] = "PCU9669-CTRLPRESET",
    [BOTH_KINDS] = "PCU9669-frames-of-both-kinds-run",
    [OPEN_BY_30] = "UFm-pending-with-INTMSK-30h"
};

static unsigned long part_seen[PART_COUNTERS];

/* The reset keys: what one was kept over counts where it resets, what it was
 * lost to counts where its 5Ah comes and does nothing. The last four are of
 * PRESET's keys only. */
enum {
    RESETS, OVER_A5, OVER_READ, OVER_EVENT, OVER_TRIGGER, OVER_UNREADABLE,
    TO_VALUE, TO_CHANNEL, TO_REFUSED, TO_STATUS, TO_PRESET_A5, TO_PRESET_5A,
    TO_PART, TO_READ_ONLY, TO_NOTHING, TO_X, OF_CTRLPRESET,
    TO_OWN_CHANNEL = OF_CTRLPRESET, TO_OWN_STATUS, TO_CTRLPRESET_A5,
    TO_CTRLPRESET_5A, OF_PRESET
};

static const char *const key_names[OF_PRESET] = {
    [RESETS] = "resets",
    [OVER_A5] = "kept-over-second-A5h",
    [OVER_READ] = "kept-over-read",
    [OVER_EVENT] = "kept-over-event",
    [OVER_TRIGGER] = "kept-over-trigger",
    [OVER_UNREADABLE] = "kept-over-unreadable",
    [TO_VALUE] = "lost-to-another-value",
    [TO_CHANNEL] = "lost-to-channel",
    [TO_REFUSED] = "lost-to-channel-refused",
    [TO_STATUS] = "lost-to-STATUS",
    [TO_PRESET_A5] = "lost-to-PRESET-A5h",
    [TO_PRESET_5A] = "lost-to-PRESET-5Ah",
    [TO_PART] = "lost-to-F0h-FFh",
    [TO_READ_ONLY] = "lost-to-F0h-FFh-refused",
    [TO_NOTHING] = "lost-to-F8h-FEh",
    [TO_X] = "lost-to-X",
    [TO_OWN_CHANNEL] = "lost-to-own-channel",
    [TO_OWN_STATUS] = "lost-to-own-STATUS",
    [TO_CTRLPRESET_A5] = "lost-to-CTRLPRESET-A5h",
    [TO_CTRLPRESET_5A] = "lost-to-CTRLPRESET-5Ah"
};

static unsigned long preset_seen[OF_PRESET], ctrlpreset_seen[OF_CTRLPRESET];

/* Events by the channel's kind: answered 0; no. 7; and of these, the ones that
 * a channel of the other kind would have taken */
enum { EVENTS = E_SENT + 1 };

static const char *const event_names[EVENTS] = {
    [E_ACK] = "ACK", [E_NACK] = "NACK", [E_BYTE] = "BYTE", [E_TICK] = "TICK",
    [E_STOP] = "STOP", [E_SDA] = "SDA", [E_SCL] = "SCL", [E_ILL] = "ILL",
    [E_SENT] = "SENT"
};

static unsigned long answered_seen[2][EVENTS], refused_seen[2][EVENTS],
    for_kind_seen[2][EVENTS];

/* Accesses of DATA, by the channel's kind, read and written: where the pointer
 * was, against the sum of the first count lengths. The last but one is of UFm
 * only, the last of writes only. */
enum {
    DATA_LAST, DATA_4351,       /* answered 0 */
    DATA_AT, DATA_PAST, DATA_COUNT_0, DATA_FULL, DATA_OVER, DATA_BEHIND,
    DATA_SKIPPED, DATA_LOCKED, DATA_COUNTERS
};

static const char *const access_names[] = { "DATA-read", "DATA-write" };

static const char *const data_names[DATA_COUNTERS] = {
    [DATA_LAST] = "-just-below-the-sum",
    [DATA_4351] = "-at-4351-of-more",
    /* no. 5; the first two with a sum below 4,352 and a count above 0 */
    [DATA_AT] = "-at-the-sum",
    [DATA_PAST] = "-past-the-sum",
    [DATA_COUNT_0] = "-with-count-0",
    [DATA_FULL] = "-at-4352-of-4352",
    [DATA_OVER] = "-at-4352-of-more",
    /* of these, where lengths behind the count would have the place */
    [DATA_BEHIND] = "-behind-the-count",
    /* answered 0, a byte of a skipped one */
    [DATA_SKIPPED] = "-of-skipped",
    /* no. 3 where no. 5 would follow */
    [DATA_LOCKED] = "-no-3-before-no-5"
};

static unsigned long data_seen[2][2][DATA_COUNTERS];

/* Reads with no. 5, by the phase */
enum { PHASES = WAITING + 1 };

static const char *const phase_names[PHASES] = {
    [IDLE] = "Idle", [ADDRESS] = "Address", [SENDING] = "Sending",
    [RECEIVING] = "Receiving", [STOPPING] = "Stopping", [WAITING] = "Waiting"
};

static unsigned long refused_in_seen[2][PHASES];

/* Answered 0, with DATA's pointer at or past the sum then */
enum { BY_TRANSEL, BY_TRANOFS, BY_AIPTRRST, BY_AIPTRRST_STA, POINTERS };

static const char *const pointer_names[POINTERS] = {
    [BY_TRANSEL] = "TRANSEL",
    [BY_TRANOFS] = "TRANOFS",
    [BY_AIPTRRST] = "AIPTRRST",
    [BY_AIPTRRST_STA] = "AIPTRRST-and-STA"   /* which begins a frame */
};

static unsigned long at_sum_seen[2][POINTERS], past_sum_seen[2][POINTERS];

/* A flag beside its mask bit, as the data sheet's tables have them. */
struct row {
    const char *name;
    uint8_t flag, mask;         /* mask 0: there is none */
    uint8_t with;               /* a flag that it never comes without */
    uint8_t fmplus;             /* no flag of UFm, and no mask bit there */
};

enum { CHANNEL_ROWS = 8, ROWS = 12 };

static const struct row rows[ROWS] = {
    /* Table 8, CHSTATUS, beside Table 10, INTMSK. "Some of these status bits
     * are error codes that cannot be masked (NMI) by the INTMSK register" */
    { "SD",  0x80, 0x80, 0, 0 },        /* SDMSK */
    { "FLD", 0x40, 0x40, 0x80, 0 },     /* FLDMSK; "FLD joins SD" */
    { "WE",  0x20, 0x20, 0, 1 },        /* WEMSK */
    { "RE",  0x10, 0x10, 0, 1 },        /* REMSK */
    { "DAE", 0x08, 0, 0, 1 },
    { "CLE", 0x04, 0, 0, 1 },
    { "SSE", 0x02, 0, 0, 0 },
    { "FE",  0x01, 0x01, 0, 0 },        /* FEMSK */
    /* Table 30, CTRLSTATUS, beside Table 31, CTRLINTMSK */
    { "BE",        0x80, 0x80, 0, 0 },  /* BEMSK */
    { "channel-2", 0x04, 0x04, 0, 0 },  /* CH2MSK */
    { "channel-1", 0x02, 0x02, 0, 0 },  /* CH1MSK */
    { "channel-0", 0x01, 0x01, 0, 0 }   /* CH0MSK */
};

/* The flag is set alone, and no other mask bit could be taken for its own: all
 * others are 1 and its own is 0, or its own is 1 and all others are 0. Where
 * it never comes alone, the other flag's bit is 1 both times. */
static unsigned long open_seen[2][ROWS], masked_seen[2][ROWS];

static void print_one(const char *of, const char *name, const char *how,
                      unsigned long n)
{
    fprintf(stderr, "seen %s%s%s %lu\n", of, name, how, n);
}

static void print_frames_seen(const char *of, int ufm)
{
    for (unsigned i = 0; i < COUNTERS; i++)
        if (comes_on(i, ufm))
            print_one(of, counter_names[i], "", seen[ufm][i]);
}

static void print_rows_seen(const char *of, int ufm)
{
    for (unsigned i = 0; i < (ufm ? CHANNEL_ROWS : ROWS); i++) {
        if (ufm && rows[i].fmplus)
            continue;
        print_one(of, rows[i].name, "-alone-open", open_seen[ufm][i]);
        if (rows[i].mask)
            print_one(of, rows[i].name, "-alone-masked", masked_seen[ufm][i]);
    }
}

/* ILL is never refused. BYTE has no place where the other kind awaits it, since
 * a UFm channel never receives. */
static void print_events_seen(const char *of, int ufm)
{
    for (unsigned e = 0; e < EVENTS; e++) {
        int other = of_other_kind(ufm) >> e & 1;
        if (!other)
            print_one(of, event_names[e], "-answered", answered_seen[ufm][e]);
        if (e != E_ILL)
            print_one(of, event_names[e], "-refused", refused_seen[ufm][e]);
        if (other && e != E_BYTE)
            print_one(of, event_names[e], "-refused-for-its-kind",
                      for_kind_seen[ufm][e]);
    }
}

/* A UFm channel never receives. */
static void print_data_seen(const char *of, int ufm)
{
    for (unsigned write = 0; write < 2; write++)
        for (unsigned i = 0; i < DATA_COUNTERS; i++)
            if ((i != DATA_SKIPPED || ufm) && (i != DATA_LOCKED || write))
                print_one(of, access_names[write], data_names[i],
                          data_seen[ufm][write][i]);
    for (unsigned i = 0; i < PHASES; i++)
        if (i != RECEIVING || !ufm)
            print_one(of, "DATA-read-refused-in-", phase_names[i],
                      refused_in_seen[ufm][i]);
    for (unsigned i = 0; i < POINTERS; i++) {
        print_one(of, pointer_names[i], "-at-the-sum", at_sum_seen[ufm][i]);
        print_one(of, pointer_names[i], "-past-the-sum",
                  past_sum_seen[ufm][i]);
    }
}

static void print_kind_seen(const char *of, int ufm)
{
    print_frames_seen(of, ufm);
    print_rows_seen(of, ufm);
    print_events_seen(of, ufm);
    print_data_seen(of, ufm);
}

static void print_seen(void)
{
    for (unsigned i = 0; i < PART_COUNTERS; i++)
        print_one("", part_names[i], "", part_seen[i]);
    for (unsigned i = 0; i < OF_PRESET; i++)
        print_one("PRESET-", key_names[i], "", preset_seen[i]);
    for (unsigned i = 0; i < OF_CTRLPRESET; i++)
        print_one("CTRLPRESET-", key_names[i], "", ctrlpreset_seen[i]);
    print_kind_seen("", 0);
    print_kind_seen("UFm-", 1);
}

/* ---- The tables -------------------------------------------------------- */

static unsigned logged_length(const struct logger *log, unsigned t)
{
    return log->tranconfig[1 + t];
}

static int logged_read(const struct logger *log, unsigned t)
{
    return log->slatable[t] & 1;
}

static unsigned logged_sum(const uint8_t *tranconfig, unsigned n)
{
    unsigned sum = 0;
    for (unsigned t = 0; t < n; t++)
        sum += tranconfig[1 + t];
    return sum;
}

/* "A read of length 0 is skipped as done." On UFm "a transaction whose SLATABLE
 *  bit 0 is 1 is skipped as done".
 * The first from log->next on that isn't, or the count */
static unsigned logged_walk(const struct logger *log)
{
    unsigned t = log->next;
    while (t < log->tranconfig[0] && logged_read(log, t)
           && (log->ufm || logged_length(log, t) == 0))
        t++;
    return t;
}

/* The walk passes those from log->next up to t. */
static void count_skipped(const struct logger *log, unsigned t,
                          unsigned counter)
{
    seen[log->ufm][counter] += logged_sum(log->tranconfig, t)
        > logged_sum(log->tranconfig, log->next);
}

/* Whether the first n fit, but for the lengths of those with bit 0 set */
static int sent_ones_fit(const struct sight *s, unsigned n)
{
    unsigned sum = 0;
    for (unsigned t = 0; t < n; t++)
        if (!(s->slatable[t] & 1))
            sum += s->tranconfig[1 + t];
    return sum <= BUFFER;
}

/* ---- The frame on the wires -------------------------------------------- */

/* "Show that a frame with no SDA, SCL or ILL takes at most its count plus its
 *  summed lengths plus one" */
static const char *log_begin(struct logger *log, const struct sight *s)
{
    unsigned n = s->tranconfig[0], sum = logged_sum(s->tranconfig, n);
    if (log->running)
        return "action";
    /* 'The frame' is the last one that did begin: these leave it. */
    if (n == 0 || sum > BUFFER) {
        seen[s->ufm][n == 0 ? COUNT_0 : TOO_LONG]++;
        seen[s->ufm][SKIPPED_TOO_LONG] += n > 0 && sent_ones_fit(s, n);
        return NULL;
    }
    memset(log, 0, sizeof *log);
    log->ufm = s->ufm;
    memcpy(log->slatable, s->slatable, sizeof log->slatable);
    memcpy(log->tranconfig, s->tranconfig, sizeof log->tranconfig);
    memcpy(log->buffer, s->buffer, sizeof log->buffer);
    seen[s->ufm][s->told & TOLD(E_TICK) ? FROM_TICK
                 : s->told & TOLD_EDGE ? FROM_TRIGGER : FROM_STA]++;
    /* A frame of skipped transactions only takes 0 events. */
    if (logged_walk(log) == n) {
        seen[log->ufm][ALL_SKIPPED]++;
        count_skipped(log, n, SKIPPED_ALL);
        return NULL;
    }
    log->running = 1;
    log->bound = n + sum + 1;
    return NULL;
}

/* "The first transaction that is not skipped sends START and its SLATABLE
 *  byte; later ones a repeated START" */
static const char *log_start(struct logger *log, struct action act)
{
    unsigned t = logged_walk(log);
    if (t == log->tranconfig[0] || act.byte != log->slatable[t])
        return "action";
    count_skipped(log, t, log->next == 0 ? SKIPPED_FRONT : SKIPPED_BETWEEN);
    log->next = t + 1;
    log->start = logged_sum(log->tranconfig, t);
    log->sent = 0;
    return NULL;
}

/* "bytes sent by a write are the buffer's bytes in order", of the buffer at
 * this moment and of the buffer at the frame's begin */
static const char *log_data(struct logger *log, uint8_t byte,
                            const uint8_t *buffer)
{
    unsigned t = log->next - 1, at = log->start + log->sent;
    if (logged_read(log, t) || log->sent == logged_length(log, t)
        || byte != buffer[at] || byte != log->buffer[at])
        return "byte";
    log->sent++;
    log->out = 1;
    /* So there are BYTECOUNT or BYTECOUNT plus one of them. */
    return log->sent == log->count[t] + 1u ? NULL : "byte";
}

/* P or NP: whether the tables had more, and what cut them short */
static void log_stop(struct logger *log, const struct sight *s)
{
    unsigned t = log->next - 1;
    int nack = (s->told & TOLD(E_NACK)) != 0;
    int more = logged_walk(log) < log->tranconfig[0]
        || (!nack && log->count[t] < logged_length(log, t));
    if (nack && !(s->intmsk & (logged_read(log, t) ? RE : WE)))
        log->why = BY_NACK;
    else if (more && log->late)
        log->why = BY_FE;
    else if (more && (s->control & STO))
        log->why = BY_STO;
    else if (!log->late && !(s->control & STO))
        count_skipped(log, log->tranconfig[0], SKIPPED_BEHIND);
}

static const char *log_action(struct logger *log, const struct sight *s)
{
    /* S in the step that begins the frame, and only there; none outside */
    if ((log->running && log->next == 0) != (s->act.kind == A_S)
        || (!log->running && s->act.kind != A_NONE))
        return "action";
    /* "they only send" */
    if (log->ufm && (s->act.kind == A_C || s->act.kind == A_A
                     || s->act.kind == A_NP || s->act.kind == A_NR))
        return "action";
    switch (s->act.kind) {
    case A_S: case A_R: case A_NR:
        return log_start(log, s->act);
    case A_D:
        return log_data(log, s->act.byte, s->buffer);
    case A_P: case A_NP:
        log_stop(log, s);
        break;
    }
    return NULL;
}

static void log_end(struct logger *log)
{
    unsigned n = log->tranconfig[0];
    int exact = log->spent == log->bound;
    int full = logged_sum(log->tranconfig, n) == BUFFER;
    log->running = 0;
    seen[log->ufm][ENDED]++;
    seen[log->ufm][EXACT] += exact;
    seen[log->ufm][OF_64] += n == ENTRIES;
    seen[log->ufm][OF_4352] += full;
    seen[log->ufm][EXACT_64] += exact && n == ENTRIES;
    seen[log->ufm][EXACT_4352] += exact && full;
    if (log->why)
        seen[log->ufm][log->why]++;
}

/* SDA, SCL, ILL or a reset */
static void log_fault(struct logger *log, unsigned counter)
{
    log->running = 0;
    seen[log->ufm][counter]++;
    seen[log->ufm][D_CUT_OFF] += log->out;
}

/* "each BYTECOUNT equals the number of data bytes acknowledged or received for
 *  that transaction in the events since the frame began" */
static const char *log_event(struct logger *log, const struct sight *s)
{
    unsigned t = log->next - 1;
    if (s->told & of_other_kind(s->ufm))
        return "kind";
    if (!log->running)
        return s->told & COUNTED ? "bound" : NULL;
    if (s->told & COUNTED)
        log->spent++;
    if (s->told & ACKNOWLEDGED && log->out)
        log->count[t]++;
    if (s->told & TOLD(E_BYTE))
        log->count[t]++;
    if (s->told & TOLD(E_NACK))
        seen[log->ufm][D_REFUSED] += log->out;
    if (s->told & (ACKNOWLEDGED | TOLD(E_NACK)))
        log->out = 0;
    if (s->told & TOLD(E_STOP))
        log_end(log);
    if (s->told & TOLD(E_SDA))
        log_fault(log, BY_SDA);
    if (s->told & TOLD(E_SCL))
        log_fault(log, BY_SCL);
    if (s->told & TOLD(E_ILL))
        log_fault(log, BY_ILL);
    if (s->told & TOLD_RESET)
        log_fault(log, BY_RESET);
    /* "Late with FEMSK 1: FE set, no more. Otherwise FE is recorded." */
    if (s->told & (TOLD(E_TICK) | TOLD_EDGE) && !(s->intmsk & FE))
        log->late = 1;
    return NULL;
}

/* On UFm "STATUS uses only its two low bits", and no event is left that sets
 * WE, RE, DAE or CLE. */
static int flags_of_ufm(const struct sight *s)
{
    unsigned statuses = 0;
    for (unsigned t = 0; t < ENTRIES; t++)
        statuses |= s->status[t];
    return !(statuses & ~3u) && !(s->chstatus & (WE | RE | DAE | CLE));
}

static void count_events(const struct sight *s)
{
    for (unsigned e = 0; e < EVENTS; e++) {
        answered_seen[s->ufm][e] += (s->told & TOLD(e)) != 0;
        refused_seen[s->ufm][e] += (s->told & REFUSED(e)) != 0;
        for_kind_seen[s->ufm][e] += (s->for_kind & TOLD(e)) != 0;
    }
}

/* A step: the rule that is broken, or NULL */
static const char *log_step(struct logger *log, const struct sight *s)
{
    const char *broken = log_event(log, s);
    count_events(s);
    if (s->told & TOLD_RESET)
        memset(log, 0, sizeof *log);
    if (broken == NULL && s->told & TOLD_BEGIN)
        broken = log_begin(log, s);
    if (broken == NULL)
        broken = log_action(log, s);
    if (broken == NULL && log->spent > log->bound)
        broken = "bound";
    if (broken == NULL && s->ufm && !flags_of_ufm(s))
        broken = "kind";
    if (broken == NULL
        && memcmp(log->count, s->bytecount, sizeof log->count) != 0)
        broken = "count";
    return broken;
}

/* ---- The keys on the parallel bus -------------------------------------- */

/* What it sees of a line: the first letter, or '?' where it can't be read */
struct line {
    char kind;
    uint8_t address, value;     /* of a read or a write; of a write */
    uint8_t code;               /* the answer's number */
    uint8_t number;             /* of an X: 9669 follows */
};

struct bus {
    uint8_t ultra;              /* the last X was `X 9669` */
    uint8_t pending;            /* where the last write was A5h, or 0 */
    unsigned over;              /* the counters that its 5Ah moves, bitwise */
    uint8_t lost[256];          /* the counter, by the address of the key */
};

static int has_key(unsigned address)
{
    return address == R_CTRLPRESET
        || (address >= 0xC0 && address < 0xF0 && address % 16 == R_PRESET);
}

/* 3 is the whole part. */
static unsigned channel_at(unsigned address)
{
    return address < 0xC0 ? address / 64 : (address - 0xC0) / 16;
}

static unsigned long *key_seen(unsigned address)
{
    return address == R_CTRLPRESET ? ctrlpreset_seen : preset_seen;
}

/* Which write it was that the A5h at this address was lost to */
static unsigned lost_to(unsigned pending, const struct line *l)
{
    unsigned a = l->address;
    int own = channel_at(a) == channel_at(pending);
    int key = has_key(a) && (l->value == 0xA5 || l->value == 0x5A);
    if (a == pending)
        return TO_VALUE;
    if (a < 0xC0)
        return own ? TO_OWN_STATUS : TO_STATUS;
    if (a >= R_NOTHING_FIRST && a <= R_NOTHING_LAST)
        return TO_NOTHING;
    if (a == R_CTRLPRESET && key)
        return l->value == 0xA5 ? TO_CTRLPRESET_A5 : TO_CTRLPRESET_5A;
    if (a >= 0xF0)
        return l->code ? TO_READ_ONLY : TO_PART;
    if (own)
        return TO_OWN_CHANNEL;
    if (key)
        return l->value == 0xA5 ? TO_PRESET_A5 : TO_PRESET_5A;
    return l->code ? TO_REFUSED : TO_CHANNEL;
}

/* "Channels 1 and 2 are Ultra Fast-mode" on a PCU9669. */
static uint8_t log_ufm(const struct bus *bus, unsigned c)
{
    return bus->ultra && c != 0;
}

/* The whole part is reset: no key is pending or lost. */
static unsigned log_reset(struct bus *bus, int ultra)
{
    memset(bus, 0, sizeof *bus);
    bus->ultra = (uint8_t)ultra;
    return (1u << CHANNELS) - 1;
}

/* A whole key, and what it resets; the part is "kept by other resets". */
static unsigned log_key(struct bus *bus, unsigned address)
{
    unsigned c = channel_at(address);
    for (unsigned i = 0; i < OF_CTRLPRESET; i++)
        key_seen(address)[i] += bus->over >> i & 1;
    if (bus->ultra)
        part_seen[address == R_CTRLPRESET ? CTRLPRESET_9669
                  : log_ufm(bus, c) ? PRESET_UFM : PRESET_FMPLUS]++;
    return address == R_CTRLPRESET ? log_reset(bus, bus->ultra) : 1u << c;
}

/* "The sheet speaks of two consecutive parallel bus writes." So 5Ah resets
 * exactly where the write before it was A5h at the same address. */
static unsigned log_write(struct bus *bus, const struct line *l)
{
    unsigned a = l->address, before = bus->pending;
    int first = has_key(a) && l->value == 0xA5;
    int second = has_key(a) && l->value == 0x5A;
    bus->pending = 0;
    if (second && before == a)
        return log_key(bus, a);
    if (second && bus->lost[a] != 0)
        key_seen(a)[bus->lost[a]]++;
    if (first || second)
        bus->lost[a] = 0;
    if (before != 0 && !(first && before == a))
        bus->lost[before] = (uint8_t)lost_to(before, l);
    if (first) {
        bus->pending = (uint8_t)a;
        bus->over = 1u << RESETS | (unsigned)(before == a) << OVER_A5;
    }
    return 0;
}

/* The channels that the line has to reset: bit c for channel c */
static unsigned log_line(struct bus *bus, const struct line *l)
{
    unsigned before = bus->pending, due;
    switch (l->kind) {
    case 'W':
        return log_write(bus, l);
    case 'X':
        part_seen[bus->ultra ? l->number ? X_KEEPS_9669 : X_TO_9663
                             : l->number ? X_TO_9669 : X_KEEPS_9663]++;
        due = log_reset(bus, l->number);
        bus->lost[before] = TO_X;
        return due;
    /* Reads, events, triggers and unreadable lines forget nothing. */
    case 'R': bus->over |= 1u << OVER_READ; break;
    case 'E': bus->over |= 1u << OVER_EVENT; break;
    case 'T': bus->over |= 1u << OVER_TRIGGER; break;
    default:  bus->over |= 1u << OVER_UNREADABLE; break;
    }
    return 0;
}

/* After a step */
static void log_part(const struct bus *bus, const struct logger *logs)
{
    part_seen[bus->ultra ? ON_9669 : ON_9663]++;
    part_seen[BOTH_KINDS] += bus->ultra && logs[0].running
        && (logs[1].running || logs[2].running);
}

/* ---- DATA and its pointer ---------------------------------------------- */

/* What it sees of a line at one of a channel's registers */
struct access {
    const struct line *line;
    const struct sight *sight;
    unsigned from, to;          /* DATA's pointer, before the line and after */
    const uint8_t *buffer;      /* before it; the sight's is after */
    uint8_t value;              /* the answer's */
    uint8_t be;                 /* after */
    uint8_t phase;              /* for the counters only */
};

static int at_register_of(const struct line *l, unsigned c)
{
    return (l->kind == 'R' || l->kind == 'W') && l->address >= 0xC0
        && channel_at(l->address) == c;
}

/* The one of the first n transactions that this place is a byte of, or n where
 * it is behind them all */
static unsigned logged_at(const uint8_t *tranconfig, unsigned n, unsigned place)
{
    unsigned t = 0;
    while (t < n && place >= tranconfig[1 + t])
        place -= tranconfig[1 + t++];
    return t;
}

static int logged_configured(const struct access *a)
{
    const uint8_t *tc = a->sight->tranconfig;
    return a->from < BUFFER && logged_at(tc, tc[0], a->from) < tc[0];
}

static unsigned of_refused(unsigned n, unsigned sum, unsigned place)
{
    if (n == 0)
        return DATA_COUNT_0;
    if (sum >= BUFFER)
        return sum == BUFFER ? DATA_FULL : DATA_OVER;
    return place == sum ? DATA_AT : DATA_PAST;
}

static void count_data(const struct access *a, int write, unsigned due)
{
    const struct sight *s = a->sight;
    const uint8_t *tc = s->tranconfig;
    unsigned n = tc[0], sum = logged_sum(tc, n), place = a->from;
    unsigned long *counters = data_seen[s->ufm][write];
    switch (due) {
    case 0:
        counters[DATA_LAST] += place + 1 == sum;
        counters[DATA_4351] += place + 1 == BUFFER && sum > BUFFER;
        counters[DATA_SKIPPED] += s->slatable[logged_at(tc, n, place)] & 1;
        break;
    case 3:
        counters[DATA_LOCKED] += !logged_configured(a);
        break;
    default:
        counters[of_refused(n, sum, place)]++;
        counters[DATA_BEHIND] += place < BUFFER
            && logged_at(tc, ENTRIES, place) < ENTRIES;
        refused_in_seen[s->ufm][a->phase] += !write;
        break;
    }
}

/* Every byte but the one at this place is as before. */
static int others_stay(const struct access *a, unsigned place)
{
    const uint8_t *before = a->buffer, *after = a->sight->buffer;
    return memcmp(before, after, place) == 0
        && (place == BUFFER || memcmp(before + place + 1, after + place + 1,
                                      BUFFER - place - 1) == 0);
}

/* "A DATA access at or past the sum of the first count lengths now gets no. 5,
 *  sets BE, leaves pointer and byte": where the place is no byte of any of the
 * first count transactions. "DATA at 4,352: no. 5". A write on an active
 * channel is no. 3 first. */
static const char *log_data_access(const struct access *a)
{
    const struct line *l = a->line;
    int write = l->kind == 'W';
    unsigned due = write && a->sight->control & STA ? 3
        : logged_configured(a) ? 0 : 5;
    int written = write && due == 0;
    count_data(a, write, due);
    if (l->code != due || a->to != a->from + (due == 0)
        || (due == 5 && !a->be)
        || !others_stay(a, written ? a->from : BUFFER)
        || (written && a->sight->buffer[a->from] != l->value)
        || (!write && due == 0 && a->buffer[a->from] != a->value))
        return "data";
    return NULL;
}

/* "TRANSEL and TRANOFS keep the 4,352 limit.", and AIPTRRST too */
static void count_pointer(const struct access *a, unsigned by)
{
    unsigned sum = logged_sum(a->sight->tranconfig, a->sight->tranconfig[0]);
    at_sum_seen[a->sight->ufm][by] += a->to == sum;
    past_sum_seen[a->sight->ufm][by] += a->to > sum;
}

static const char *log_access(const struct access *a)
{
    const struct line *l = a->line;
    unsigned reg = l->address % 16;
    if (reg == R_DATA)
        return log_data_access(a);
    if (l->kind == 'R' || l->code != 0)
        return NULL;
    if (reg == R_TRANSEL)
        count_pointer(a, BY_TRANSEL);
    if (reg == R_TRANOFS)
        count_pointer(a, BY_TRANOFS);
    if (reg == R_CONTROL && l->value & AIPTRRST)
        count_pointer(a, a->sight->told & TOLD_BEGIN ? BY_AIPTRRST_STA
                                                     : BY_AIPTRRST);
    return NULL;
}

/* ---- The masks, row by row --------------------------------------------- */

/* What it sees after a step: what a read of each would give */
struct levels {
    uint8_t chstatus[CHANNELS], intmsk[CHANNELS];
    uint8_t ufm[CHANNELS];      /* by the logger on the bus */
    uint8_t ctrlstatus, ctrlintmsk;
};

/* A row is open where its flag is set and its mask bit is 0 or isn't there. */
static int some_open(unsigned from, unsigned to, int ufm, unsigned flags,
                     unsigned masks)
{
    for (unsigned i = from; i < to; i++) {
        unsigned mask = ufm && rows[i].fmplus ? 0 : rows[i].mask;
        if (flags & rows[i].flag && !(masks & mask))
            return 1;
    }
    return 0;
}

/* The counter of these flags and masks, or NULL */
static unsigned long *row_seen(unsigned from, unsigned to, int ufm,
                               unsigned flags, unsigned masks)
{
    unsigned all_flags = 0, all_masks = 0;
    for (unsigned i = from; i < to; i++) {
        all_flags |= rows[i].flag;
        all_masks |= rows[i].mask;
    }
    for (unsigned i = from; i < to; i++) {
        const struct row *r = &rows[i];
        if ((flags & all_flags) != (unsigned)(r->flag | r->with))
            continue;
        if (masks == (all_masks & ~r->mask))
            return &open_seen[ufm][i];
        if (r->mask && masks == (unsigned)(r->mask | r->with))
            return &masked_seen[ufm][i];
    }
    return NULL;
}

/* Each counts in the step that brings it, by a flag or by a mask. */
static void count_row(unsigned of, unsigned long *now)
{
    static unsigned long *before[CHANNELS + 1];
    if (now != NULL && now != before[of])
        ++*now;
    before[of] = now;
}

/* "INTMSK bits 5 and 4 have no effect": with these two alone every flag is
 * open. */
static void count_30(const struct levels *l, unsigned c)
{
    static uint8_t before[CHANNELS];
    uint8_t now = l->ufm[c] && l->chstatus[c] && l->intmsk[c] == 0x30;
    part_seen[OPEN_BY_30] += now && !before[c];
    before[c] = now;
}

/* "channel pending (some CHSTATUS bit set whose INTMSK bit is 0)"
 * Counted where INT hangs on this channel alone. */
static int log_pending(const struct levels *l, unsigned c)
{
    unsigned flags = l->chstatus[c], masks = l->intmsk[c], bit = 1u << c;
    int hangs = !(l->ctrlintmsk & bit)
        && !some_open(CHANNEL_ROWS, ROWS, 0, l->ctrlstatus & ~bit,
                      l->ctrlintmsk);
    count_30(l, c);
    count_row(c, hangs ? row_seen(0, CHANNEL_ROWS, l->ufm[c], flags, masks)
                       : NULL);
    return some_open(0, CHANNEL_ROWS, l->ufm[c], flags, masks);
}

/* "INT is pulled exactly when BE is set and bit 7 of CTRLINTMSK is 0, or a
 *  channel is pending and its CTRLINTMSK bit is 0." */
static int log_int(const struct levels *l)
{
    unsigned flags = l->ctrlstatus, masks = l->ctrlintmsk;
    count_row(CHANNELS, row_seen(CHANNEL_ROWS, ROWS, 0, flags, masks));
    return some_open(CHANNEL_ROWS, ROWS, 0, flags, masks);
}

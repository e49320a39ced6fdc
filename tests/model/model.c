/*
 * PCA9663 and PCU9669 bench model, written by the book: the rules document in
 * its own order, the sentence above the code that renders it.
 *
 * Reads a script on standard input, prints a header and one line a step.
 *
 *   -DCHECK          after every step: in_range, what a refusal leaves, and
 *                    the loggers of logger.c; at the end, what they have seen
 *   -DRANGE          has the range rule, which CHECK has too
 *   -DMODEL_NO_MAIN  leaves out the program, for inclusion elsewhere
 */
#include <stdint.h>
#include <stdio.h>
#include <stdlib.h>
#include <string.h>

/* ==== The part as the processor sees it ================================= */

enum { CHANNELS = 3, ENTRIES = 64, BUFFER = 4352, MEMORY = CHANNELS * BUFFER };

/* "The part is chosen at hardware reset" "Channels 1 and 2 are Ultra Fast-mode:
 *  they only send, and nobody acknowledges." */
enum device { PCA9663, PCU9669 };
enum kind { FMPLUS, UFM };

static enum kind kind_of(enum device device, unsigned c)
{
    return device == PCU9669 && c > 0 ? UFM : FMPLUS;
}

/* "Phases: Idle, Address, Sending, Receiving, Stopping, Waiting." */
enum phase { IDLE, ADDRESS, SENDING, RECEIVING, STOPPING, WAITING };

/* "CONTROL bits: 7 STOSEQ, 6 STA, 5 STO, 4 TP, 3 TE, 2 BPTRRST, 1 AIPTRRST" */
enum {
    STOSEQ = 0x80, STA = 0x40, STO = 0x20, TP = 0x10, TE = 0x08,
    BPTRRST = 0x04, AIPTRRST = 0x02
};

/* "CHSTATUS: 7 SD, 6 FLD, 5 WE, 4 RE, 3 DAE, 2 CLE, 1 SSE, 0 FE." */
enum {
    SD = 0x80, FLD = 0x40, WE = 0x20, RE = 0x10,
    DAE = 0x08, CLE = 0x04, SSE = 0x02, FE = 0x01
};

/* "INTMSK masks the same bits; its bits 3 to 1 are kept 0" */
enum { INTMSK_BITS = 0xF1 };

/* "CTRLINTMSK: 7 BE, 2 to 0 the channels; other bits kept 0." */
enum { BE = 0x80, CTRLINTMSK_BITS = 0x87 };

/* "STATUS values: 00h not begun, 01h active, 02h done, 04h address refused,
 *  08h data refused." */
enum {
    NOT_BEGUN = 0x00, ACTIVE = 0x01, TRAN_DONE = 0x02,
    ADDRESS_REFUSED = 0x04, DATA_REFUSED = 0x08
};

/* The channel's registers, by the low four bits of C0h, D0h, E0h + n. On a UFm
 * channel SCLL is SCLPER, SCLH is SDADLY, and TIMEOUT has no name. */
enum {
    R_CONTROL, R_CHSTATUS, R_INTMSK, R_SLATABLE, R_TRANCONFIG, R_DATA,
    R_TRANSEL, R_TRANOFS, R_BYTECOUNT, R_FRAMECNT, R_REFRATE, R_SCLL, R_SCLH,
    R_MODE, R_TIMEOUT, R_PRESET
};

/* The part's registers */
enum {
    R_CTRLSTATUS = 0xF0, R_CTRLINTMSK = 0xF1, R_RESERVED_FIRST = 0xF2,
    R_RESERVED_LAST = 0xF5, R_DEVICE_ID = 0xF6, R_CTRLPRESET = 0xF7,
    R_NOTHING_FIRST = 0xF8, R_NOTHING_LAST = 0xFE, R_CTRLRDY = 0xFF
};

/* "Actions: S aa, R aa (repeated START), D bb, C (clock the first read byte),
 *  A (acknowledge, clock the next), NP (not acknowledge, STOP), NR aa, P." */
enum action_kind { A_NONE, A_S, A_R, A_D, A_C, A_A, A_NP, A_NR, A_P };

struct action {
    uint8_t kind, byte;
};

enum event {
    E_ACK, E_NACK, E_BYTE, E_TICK, E_STOP, E_SDA, E_SCL, E_ILL, E_SENT
};

/* TELL tells the channel's logger which event was answered 0 or not awaited,
 * and what it has to know and no wire shows. */
#ifdef CHECK
#define RANGE
#include "logger.c"
#define TELL(ch, what) ((ch)->told |= (what))
#else
#define TELL(ch, what) ((void)0)
#endif

struct channel {
    uint8_t kind;
    uint8_t phase;
    uint8_t tp, te;             /* 0 or 1 */
    uint8_t sto, stoseq;        /* recorded stops */
    uint8_t fe_recorded;
    uint8_t error_end;          /* noted in Stopping only */
    uint8_t ended;              /* frames ended since STA */
    uint8_t tran;               /* Address, Sending, Receiving only */
    uint8_t key;                /* A5h seen at PRESET */
    uint16_t tran_start;        /* start of tran, kept for speed */
    uint16_t data_ptr, sla_ptr, tc_ptr, bc_ptr;
    uint8_t chstatus, intmsk, transel, tranofs;
    uint8_t framecnt, refrate, scll, sclh, mode, timeout;
    uint8_t slatable[ENTRIES];
    uint8_t tranconfig[ENTRIES + 1];    /* entry 0 is the count */
    uint8_t status[ENTRIES];
    uint8_t bytecount[ENTRIES];
#ifdef CHECK
    unsigned told;              /* of this step; no part of the state */
#endif
};

/* "All buffers are one lent memory of 13,056 bytes; each channel works on its
 *  own 4,352 bytes, from 4,352 times its number." */
struct part {
    uint8_t device;
    struct channel ch[CHANNELS];
    uint8_t be, ctrlintmsk;
    uint8_t key;                /* A5h seen at CTRLPRESET */
    uint8_t memory[MEMORY];
};

static uint8_t *buffer_of(struct part *p, unsigned c)
{
    return p->memory + (size_t)BUFFER * c;
}

/* The Reset column of the map; "UFm register defaults come from source document
 *  000", Table 3 */
static void reset_channel(struct channel *ch, uint8_t *buf, enum kind kind)
{
    memset(ch, 0, sizeof *ch);
    ch->kind = (uint8_t)kind;
    ch->framecnt = 0x01;
    ch->scll = kind == UFM ? 0x20 : 0x5E;
    ch->sclh = kind == UFM ? 0x08 : 0x3F;
    ch->mode = kind == UFM ? 0x83 : 0x92;
    memset(buf, 0, BUFFER);
    TELL(ch, TOLD_RESET);
}

static void reset_part(struct part *p, enum device device)
{
    p->device = (uint8_t)device;
    for (unsigned c = 0; c < CHANNELS; c++)
        reset_channel(&p->ch[c], buffer_of(p, c), kind_of(device, c));
    p->be = 0;
    p->ctrlintmsk = 0;
    p->key = 0;
}

/* "Active means not Idle; STA reads 1 then." */
static int is_active(const struct channel *ch)
{
    return ch->phase != IDLE;
}

/* "DAE, CLE and SSE can't be masked", by a bit out of range either. On a UFm
 * channel "INTMSK bits 5 and 4 have no effect": they are stored and mask
 * nothing. */
static unsigned effective_mask(const struct channel *ch)
{
    unsigned bits = ch->kind == UFM ? INTMSK_BITS & ~(WE | RE) : INTMSK_BITS;
    return ch->intmsk & bits;
}

/* "channel pending (some CHSTATUS bit set whose INTMSK bit is 0)" */
static int is_pending(const struct channel *ch)
{
    return (ch->chstatus & ~effective_mask(ch)) != 0;
}

/* "CTRLSTATUS: 7 BE, 5 to 3 active, 2 to 0 channel pending" */
static uint8_t ctrlstatus(const struct part *p)
{
    unsigned v = p->be ? BE : 0;
    for (unsigned c = 0; c < CHANNELS; c++)
        v |= (unsigned)is_active(&p->ch[c]) << (3 + c)
           | (unsigned)is_pending(&p->ch[c]) << c;
    return (uint8_t)v;
}

/* "INT is pulled exactly when BE is set and bit 7 of CTRLINTMSK is 0, or a
 *  channel is pending and its CTRLINTMSK bit is 0." */
static int int_pulled(const struct part *p)
{
    unsigned v = p->be ? BE : 0;
    for (unsigned c = 0; c < CHANNELS; c++)
        v |= (unsigned)is_pending(&p->ch[c]) << c;
    return (v & ~(unsigned)p->ctrlintmsk) != 0;
}

/* ==== Numbers that an answer carries ==================================== */

enum {
    OK = 0,             /* done */
    NO_ADDRESS = 1,     /* address F8h to FEh, or channel above 2 */
    READ_ONLY = 2,      /* write to a read-only register */
    CHANNEL_ACTIVE = 3, /* channel active: write to SLATABLE, DATA, ... */
    PAST_TABLE = 4,     /* SLATABLE or BYTECOUNT past 63, TRANCONFIG past 64 */
    BOUNDARY = 5,       /* buffer boundary; BE set */
    COUNT_ABOVE = 6,    /* TRANCONFIG entry 0 above 64 */
    NOT_AWAITED = 7,    /* an event not awaited */
    UNREADABLE = 8,     /* script line that can't be read */
    OUT_OF_RANGE = 9,   /* lent memory not 13,056 bytes, or a state out of
                           range */
    NOT_A_FILE = 10,    /* "(reading) for any other file or a byte after it" */
    NO_ROOM = 11        /* "(writing) when the output buffer is shorter than
                           the file or the lengths sum above 4,352" */
};

static struct action no_action(void)
{
    return (struct action){ A_NONE, 0 };
}

static struct action plain(enum action_kind kind)
{
    return (struct action){ (uint8_t)kind, 0 };
}

static struct action with_byte(enum action_kind kind, uint8_t byte)
{
    return (struct action){ (uint8_t)kind, byte };
}

/* "Only a read answered 0 carries a value, else it is 00h; every answer but 0
 *  has no action." */
struct answer {
    uint8_t code, value;
    struct action act[CHANNELS];
};

static struct answer answer_code(int code)
{
    struct answer a = { 0 };
    a.code = (uint8_t)code;
    return a;
}

static struct answer answer_read(int code, uint8_t value)
{
    struct answer a = answer_code(code);
    a.value = code == OK ? value : 0;
    return a;
}

static struct answer answer_action(int code, unsigned c, struct action act)
{
    struct answer a = answer_code(code);
    if (code == OK)
        a.act[c] = act;
    return a;
}

static uint8_t count_of(const struct channel *ch)
{
    return ch->tranconfig[0];
}

static uint8_t length_of(const struct channel *ch, unsigned t)
{
    return ch->tranconfig[1 + t];
}

static int is_read(const struct channel *ch, unsigned t)
{
    return ch->slatable[t] & 1;
}

/* "A read of length 0 is skipped as done." On a UFm channel "a transaction
 *  whose SLATABLE bit 0 is 1 is skipped as done", whatever its length. */
static int is_skipped(const struct channel *ch, unsigned t)
{
    return is_read(ch, t) && (ch->kind == UFM || length_of(ch, t) == 0);
}

/* "The start of transaction v is the sum of the v lengths before it." */
static unsigned start_of(const struct channel *ch, unsigned v)
{
    unsigned sum = 0;
    for (unsigned t = 0; t < v; t++)
        sum += length_of(ch, t);
    return sum;
}

/* "the sum of the first count lengths", as they are at this moment */
static unsigned configured(const struct channel *ch)
{
    return start_of(ch, count_of(ch));
}

/* ---- The range rule (refusal 9): no script leads out of it ------------- */

#ifdef RANGE

static int pointers_in_range(const struct channel *ch)
{
    /* "SLATABLE or BYTECOUNT pointer above 64, TRANCONFIG's above 65, DATA's
     *  above 4,352" */
    return ch->sla_ptr <= ENTRIES && ch->bc_ptr <= ENTRIES
        && ch->tc_ptr <= ENTRIES + 1 && ch->data_ptr <= BUFFER;
}

static int registers_in_range(const struct channel *ch)
{
    /* "TRANCONFIG entry 0 above 64, TRANSEL above 63, a bit that is kept 0
     *  set" */
    return count_of(ch) <= ENTRIES && ch->transel < ENTRIES
        && (ch->intmsk & ~INTMSK_BITS & 0xFF) == 0;
}

static int ended_in_range(const struct channel *ch)
{
    /* "a number of ended frames that isn't below FRAMECNT in an active
     *  channel with TE 0 and FRAMECNT above 0 or isn't 0 anywhere else" */
    if (is_active(ch) && !ch->te && ch->framecnt > 0)
        return ch->ended < ch->framecnt;
    return ch->ended == 0;
}

static int records_in_range(const struct channel *ch)
{
    /* "a stop or FE recorded in Idle or Waiting" */
    if (ch->phase == IDLE || ch->phase == WAITING)
        if (ch->sto || ch->stoseq || ch->fe_recorded)
            return 0;
    /* "an error end noted outside Stopping" */
    return ch->phase == STOPPING || !ch->error_end;
}

static int frame_in_range(const struct channel *ch)
{
    unsigned t = ch->tran;
    /* "In other phases no transaction is kept." */
    if (ch->phase != ADDRESS && ch->phase != SENDING && ch->phase != RECEIVING)
        return t == 0 && ch->tran_start == 0;
    /* "a frame in Address, Sending or Receiving whose lengths sum above
     *  4,352" */
    if (configured(ch) > BUFFER)
        return 0;
    /* "whose transaction is a skipped one or doesn't exist"; so Receiving on a
     * UFm channel is out of range */
    if (t >= count_of(ch) || is_skipped(ch, t))
        return 0;
    /* "whose phase isn't its direction's" */
    if (ch->phase == SENDING && is_read(ch, t))
        return 0;
    if (ch->phase == RECEIVING && !is_read(ch, t))
        return 0;
    /* "whose transaction's BYTECOUNT, the number of the current byte, isn't 0
     *  in Address or below the length in the other two" */
    if (ch->phase == ADDRESS ? ch->bytecount[t] != 0
                             : ch->bytecount[t] >= length_of(ch, t))
        return 0;
    /* "or with a BYTECOUNT of any entry after that transaction that isn't
     *  0" */
    for (unsigned u = t + 1; u < ENTRIES; u++)
        if (ch->bytecount[u] != 0)
            return 0;
    /* of this model only: the start that is kept for speed */
    return ch->tran_start == start_of(ch, t);
}

static int channel_in_range(const struct channel *ch)
{
    return pointers_in_range(ch) && registers_in_range(ch)
        && ended_in_range(ch) && records_in_range(ch) && frame_in_range(ch);
}

static int in_range(const struct part *p)
{
    /* A channel's kind that is not the part's own is out of range. */
    for (unsigned c = 0; c < CHANNELS; c++)
        if (p->ch[c].kind != kind_of(p->device, c)
            || !channel_in_range(&p->ch[c]))
            return 0;
    return (p->ctrlintmsk & ~CTRLINTMSK_BITS & 0xFF) == 0;
}

/* The column Leaves: "all" but for the reset keys */
static int leaves_all(const struct part *before, const struct part *after)
{
    static struct part a, b;
    a = *before;
    b = *after;
    a.key = b.key = 0;
    for (unsigned c = 0; c < CHANNELS; c++) {
        a.ch[c].key = b.ch[c].key = 0;
#ifdef CHECK
        a.ch[c].told = b.ch[c].told = 0;
#endif
    }
    return memcmp(&a, &b, sizeof a) == 0;
}

static _Noreturn void give_up(void)
{
    fflush(stdout);
    abort();
}

/* "No call leads out of range." */
static void check_step(const struct part *before, const struct part *after,
                       const struct answer *a)
{
    int bad = !in_range(after);
    if (a->code != OK)
        for (unsigned c = 0; c < CHANNELS; c++)
            bad |= a->value != 0 || a->act[c].kind != A_NONE;
    if (a->code == BOUNDARY)
        bad |= !after->be;
    else if (a->code != OK)
        bad |= !leaves_all(before, after);
    if (bad) {
        fprintf(stderr, "a step broke the rules\n");
        give_up();
    }
}

#endif

#ifdef CHECK

static unsigned told_of(enum event e, int code)
{
    return code == OK ? TOLD(e) : code == NOT_AWAITED ? REFUSED(e) : 0;
}

#endif

/* ---- Tables and DATA --------------------------------------------------- */

/* "Table accesses, read or write, move that table's pointer by one." */
static int read_table(const uint8_t *table, unsigned entries, uint16_t *ptr,
                      uint8_t *value)
{
    if (*ptr >= entries)
        return PAST_TABLE;
    *value = table[(*ptr)++];
    return OK;
}

static int write_table(uint8_t *table, unsigned entries, uint16_t *ptr,
                       uint8_t value)
{
    if (*ptr >= entries)
        return PAST_TABLE;
    table[(*ptr)++] = value;
    return OK;
}

static int write_slatable(struct channel *ch, uint8_t value)
{
    if (is_active(ch))
        return CHANNEL_ACTIVE;
    return write_table(ch->slatable, ENTRIES, &ch->sla_ptr, value);
}

static int write_tranconfig(struct channel *ch, uint8_t value)
{
    /* "channel active: ... or TRANCONFIG (except entry 0 in Waiting)" */
    if (is_active(ch) && !(ch->phase == WAITING && ch->tc_ptr == 0))
        return CHANNEL_ACTIVE;
    /* "TRANCONFIG entry 0 above 64" */
    if (ch->tc_ptr == 0 && value > ENTRIES)
        return COUNT_ABOVE;
    return write_table(ch->tranconfig, ENTRIES + 1, &ch->tc_ptr, value);
}

/* "DATA uses its own pointer." "DATA at 4,352: no. 5, pointer stays." "A DATA
 *  access at or past the sum of the first count lengths now gets no. 5, sets
 *  BE, leaves pointer and byte": a read or a write. With a sum above 4,352 both
 * limits hold. */
static int has_data(const struct channel *ch)
{
    return ch->data_ptr < configured(ch) && ch->data_ptr < BUFFER;
}

static int read_data(struct channel *ch, const uint8_t *buf, uint8_t *value)
{
    if (!has_data(ch))
        return BOUNDARY;
    *value = buf[ch->data_ptr++];
    return OK;
}

static int write_data(struct channel *ch, uint8_t *buf, uint8_t value)
{
    if (is_active(ch))
        return CHANNEL_ACTIVE;
    if (!has_data(ch))
        return BOUNDARY;
    buf[ch->data_ptr++] = value;
    return OK;
}

/* "Writing TRANSEL v stores it, zeroes TRANOFS (h) and points at the start"
 * "No. 5 where v is above 63 or the place is 4,352 or more: both registers and
 *  the pointer stay." "TRANSEL and TRANOFS keep the 4,352 limit.", and so does
 * AIPTRRST, which is no DATA access: the pointer may stand past the sum. */
static int write_transel(struct channel *ch, uint8_t v)
{
    unsigned place;
    if (v >= ENTRIES)
        return BOUNDARY;
    place = start_of(ch, v);
    if (place >= BUFFER)
        return BOUNDARY;
    ch->transel = v;
    ch->tranofs = 0;
    ch->data_ptr = (uint16_t)place;
    return OK;
}

/* "TRANOFS o points at start plus o." */
static int write_tranofs(struct channel *ch, uint8_t o)
{
    unsigned place = start_of(ch, ch->transel) + o;
    if (place >= BUFFER)
        return BOUNDARY;
    ch->tranofs = o;
    ch->data_ptr = (uint16_t)place;
    return OK;
}

/* "AIPTRRST zeroes the two table pointers and points DATA at start plus
 *  TRANOFS; where that is 4,352 or more, DATA points at 4,352, the answer is
 *  no. 5" */
static int reset_access_pointers(struct channel *ch)
{
    unsigned place = start_of(ch, ch->transel) + ch->tranofs;
    ch->sla_ptr = 0;
    ch->tc_ptr = 0;
    if (place >= BUFFER) {
        ch->data_ptr = BUFFER;
        return BOUNDARY;
    }
    ch->data_ptr = (uint16_t)place;
    return OK;
}

/* "BPTRRST zeroes BYTECOUNT's." */
static void reset_bytecount_pointer(struct channel *ch)
{
    ch->bc_ptr = 0;
}

/* ---- The reset keys ---------------------------------------------------- */

static unsigned preset_of(unsigned c)
{
    return 0xC0 + 16 * c + R_PRESET;
}

/* "Any write to the part, at any address and refused or not (9 apart), now
 *  forgets every other pending A5h.": every one but that of the register
 *  written, and so document 01's "any other write at that channel's addresses"
 *  and "any write elsewhere" too. */
static void forget_other_keys(struct part *p, uint8_t address)
{
    for (unsigned c = 0; c < CHANNELS; c++)
        if (address != preset_of(c))
            p->ch[c].key = 0;
    if (address != R_CTRLPRESET)
        p->key = 0;
}

/* "Writing A5h to PRESET and then 5Ah resets that channel, its 4,352 bytes to
 *  zero, with no STOP" "A second A5h counts as a first." The part is "kept by
 *  other resets". */
static void write_preset(struct channel *ch, uint8_t *buf, uint8_t value)
{
    if (value == 0x5A && ch->key)
        reset_channel(ch, buf, ch->kind);
    else
        ch->key = value == 0xA5;
}

/* "CTRLPRESET does so for the whole part" */
static void write_ctrlpreset(struct part *p, uint8_t value)
{
    if (value == 0x5A && p->key)
        reset_part(p, p->device);
    else
        p->key = value == 0xA5;
}

/* ==== A sequence on the wires =========================================== */

static int begin_frame(struct channel *ch, struct action *act);

/* "In other phases no transaction is kept." */
static void leave_transaction(struct channel *ch)
{
    ch->tran = 0;
    ch->tran_start = 0;
}

/* Idle keeps no record of stops, FE, an error end or ended frames. */
static void go_idle(struct channel *ch)
{
    ch->phase = IDLE;
    ch->sto = 0;
    ch->stoseq = 0;
    ch->fe_recorded = 0;
    ch->error_end = 0;
    ch->ended = 0;
    leave_transaction(ch);
}

static void go_waiting(struct channel *ch)
{
    ch->phase = WAITING;
    leave_transaction(ch);
}

/* "FLD joins SD wherever the channel goes Idle, unless TE is 0 and FRAMECNT is
 *  1." */
static void done_to_idle(struct channel *ch)
{
    ch->chstatus |= SD;
    if (ch->te || ch->framecnt != 1)
        ch->chstatus |= FLD;
    go_idle(ch);
}

static void done_to_waiting(struct channel *ch)
{
    ch->chstatus |= SD;
    go_waiting(ch);
}

/* "bits 2 to 0 read 0." "STA reads 1 then." */
static uint8_t read_control(const struct channel *ch)
{
    return (uint8_t)((ch->stoseq ? STOSEQ : 0) | (is_active(ch) ? STA : 0)
                     | (ch->sto ? STO : 0) | (ch->tp ? TP : 0)
                     | (ch->te ? TE : 0));
}

static void record_stops(struct channel *ch, uint8_t value)
{
    if (!(value & (STO | STOSEQ)))
        return;
    /* "STO or STOSEQ in Waiting: SD, FLD under the same rule, Idle at once." */
    if (ch->phase == WAITING) {
        done_to_idle(ch);
        return;
    }
    /* "both written, only STO counts; otherwise they are recorded and read 1
     *  until Idle." */
    if (value & STO)
        ch->sto = 1;
    else
        ch->stoseq = 1;
}

/* "CONTROL writes apply TP and TE (Idle only), pointer resets, then the
 *  rest." */
static int write_control(struct channel *ch, uint8_t value, struct action *act)
{
    int code = OK;
    int was_active = is_active(ch);

    if (!was_active) {
        ch->tp = (value & TP) != 0;
        ch->te = (value & TE) != 0;
    }
    if (value & BPTRRST)
        reset_bytecount_pointer(ch);
    if (value & AIPTRRST)
        code = reset_access_pointers(ch);
    /* "and the write's STA, STO and STOSEQ are dropped" */
    if (code != OK)
        return code;

    /* "STA written to a channel active before that write does nothing." */
    if (was_active) {
        record_stops(ch, value);
        return OK;
    }
    /* "STO or STOSEQ with STA stored 0 is ignored" */
    if (!(value & STA))
        return OK;
    /* "STA written 1 when Idle begins a frame, or Waiting if TE is 1." */
    if (ch->te) {
        go_waiting(ch);
        return OK;
    }
    return begin_frame(ch, act);
}

/* "Frame end, first that applies:" */
static void end_frame(struct channel *ch)
{
    /* "FE recorded: FE, Idle." */
    if (ch->fe_recorded) {
        ch->chstatus |= FE;
        go_idle(ch);
        return;
    }
    /* "Error end: Idle." */
    if (ch->error_end) {
        go_idle(ch);
        return;
    }
    /* "STO: SD, Idle. STOSEQ: SD, Idle." */
    if (ch->sto || ch->stoseq) {
        done_to_idle(ch);
        return;
    }
    /* "TE 1 or FRAMECNT 0: SD, Waiting." */
    if (ch->te || ch->framecnt == 0) {
        done_to_waiting(ch);
        return;
    }
    /* "Frames left (fewer than FRAMECNT ended since STA, this one counted):
     *  SD, Waiting." */
    ch->ended++;
    if (ch->ended < ch->framecnt) {
        done_to_waiting(ch);
        return;
    }
    /* "Last: SD, Idle." */
    done_to_idle(ch);
}

/* The first transaction from t on that is not skipped, or the count; from the
 * start of t to its start, since a skipped one keeps its place in the buffer.
 * "A skipped one gets 02h when the walk passes it." */
static unsigned walk(struct channel *ch, unsigned t, unsigned *start)
{
    while (t < count_of(ch) && is_skipped(ch, t)) {
        *start += length_of(ch, t);
        ch->status[t++] = TRAN_DONE;
    }
    return t;
}

/* "sends START and its SLATABLE byte; later ones a repeated START (h); STATUS
 *  01h." */
static struct action address(struct channel *ch, enum action_kind kind,
                             unsigned t, unsigned start)
{
    ch->phase = ADDRESS;
    ch->tran = (uint8_t)t;
    ch->tran_start = (uint16_t)start;
    ch->status[t] = ACTIVE;
    return with_byte(kind, ch->slatable[t]);
}

static int begin_frame(struct channel *ch, struct action *act)
{
    unsigned t, start = 0;
    TELL(ch, TOLD_BEGIN);
    /* "A frame begins: count 0, go Idle, nothing else." */
    if (count_of(ch) == 0) {
        go_idle(ch);
        return OK;
    }
    /* "Lengths of the first count transactions summing above 4,352: no. 5, go
     *  Idle." */
    if (configured(ch) > BUFFER) {
        go_idle(ch);
        return BOUNDARY;
    }
    /* "Otherwise all STATUS and BYTECOUNT become 0." */
    memset(ch->status, NOT_BEGUN, sizeof ch->status);
    memset(ch->bytecount, 0, sizeof ch->bytecount);
    /* "The first transaction that is not skipped" */
    t = walk(ch, 0, &start);
    /* "If all are skipped, the frame ends at once, no action." */
    if (t == count_of(ch))
        end_frame(ch);
    else
        *act = address(ch, A_S, t, start);
    return OK;
}

/* P, or NP after BYTE: the channel awaits STOP. */
static struct action stop(struct channel *ch, int after_byte)
{
    ch->phase = STOPPING;
    leave_transaction(ch);
    return plain(after_byte ? A_NP : A_P);
}

/* "After each, with FE or STO recorded: P, or NP after BYTE" */
static int stop_recorded(const struct channel *ch)
{
    return ch->fe_recorded || ch->sto;
}

/* The transaction is behind us: the next one, or "After the last, STOP." */
static struct action next_transaction(struct channel *ch, int after_byte)
{
    unsigned start, t;
    if (stop_recorded(ch))
        return stop(ch, after_byte);
    start = ch->tran_start + length_of(ch, ch->tran);
    t = walk(ch, ch->tran + 1u, &start);
    if (t == count_of(ch))
        return stop(ch, after_byte);
    return address(ch, after_byte ? A_NR : A_R, t, start);
}

static struct action transaction_done(struct channel *ch, int after_byte)
{
    ch->status[ch->tran] = TRAN_DONE;
    return next_transaction(ch, after_byte);
}

static uint8_t *current_byte(const struct channel *ch, uint8_t *buf)
{
    return buf + ch->tran_start + ch->bytecount[ch->tran];
}

static int at_length(const struct channel *ch)
{
    return ch->bytecount[ch->tran] == length_of(ch, ch->tran);
}

/* The current byte of a write, its end, or a stop; "a transaction cut short
 * keeps 01h". */
static struct action send_or_done(struct channel *ch, uint8_t *buf)
{
    if (at_length(ch))
        return transaction_done(ch, 0);
    if (stop_recorded(ch))
        return stop(ch, 0);
    ch->phase = SENDING;
    return with_byte(A_D, *current_byte(ch, buf));
}

static int event_ack(struct channel *ch, uint8_t *buf, struct action *act)
{
    switch (ch->phase) {
    case ADDRESS:
        /* "ACK in Address: a read always answers C; a write sends its first
         *  byte, or with length 0 is done." "C is still given." */
        if (is_read(ch, ch->tran)) {
            ch->phase = RECEIVING;
            *act = plain(A_C);
        } else {
            *act = send_or_done(ch, buf);
        }
        return OK;
    case SENDING:
        /* "ACK in Sending: BYTECOUNT plus one; next byte, or done." */
        ch->bytecount[ch->tran]++;
        *act = send_or_done(ch, buf);
        return OK;
    default:
        return NOT_AWAITED;
    }
}

/* "BYTE b in Receiving: stored, BYTECOUNT plus one; A, or done by NP or
 *  NR." */
static int event_byte(struct channel *ch, uint8_t *buf, uint8_t b,
                      struct action *act)
{
    if (ch->phase != RECEIVING)
        return NOT_AWAITED;
    *current_byte(ch, buf) = b;
    ch->bytecount[ch->tran]++;
    if (at_length(ch))
        *act = transaction_done(ch, 1);
    else if (stop_recorded(ch))
        *act = stop(ch, 1);
    else
        *act = plain(A_A);
    return OK;
}

/* "NACK: STATUS 04h in Address, 08h in Sending; WE for a write, RE for a
 *  read." */
static int event_nack(struct channel *ch, struct action *act)
{
    uint8_t flag;
    if (ch->phase != ADDRESS && ch->phase != SENDING)
        return NOT_AWAITED;
    ch->status[ch->tran] =
        ch->phase == ADDRESS ? ADDRESS_REFUSED : DATA_REFUSED;
    flag = is_read(ch, ch->tran) ? RE : WE;
    ch->chstatus |= flag;
    if (ch->intmsk & flag) {
        /* "Masked: next transaction." */
        *act = next_transaction(ch, 0);
    } else {
        /* "Unmasked: P, an error end." */
        *act = stop(ch, 0);
        ch->error_end = 1;
    }
    return OK;
}

/* "Late with FEMSK 1: FE set, no more. Otherwise FE is recorded." */
static void late(struct channel *ch)
{
    if (ch->intmsk & FE)
        ch->chstatus |= FE;
    else
        ch->fe_recorded = 1;
}

/* "TICK (TE 0, FRAMECNT not 1): in Waiting begins a frame; in a frame it is
 *  late." */
static int event_tick(struct channel *ch, struct action *act)
{
    if (ch->te || ch->framecnt == 1 || !is_active(ch))
        return NOT_AWAITED;
    if (ch->phase == WAITING)
        return begin_frame(ch, act);
    late(ch);
    return OK;
}

/* "STOP in Stopping ends the frame." */
static int event_stop(struct channel *ch)
{
    if (ch->phase != STOPPING)
        return NOT_AWAITED;
    end_frame(ch);
    return OK;
}

/* "The channel goes Idle, no action." */
static int bus_error(struct channel *ch, int awaited, uint8_t flag)
{
    if (!awaited)
        return NOT_AWAITED;
    ch->chstatus |= flag;
    go_idle(ch);
    return OK;
}

/* "Refusals: ACK, NACK, BYTE, SDA and SCL on a UFm channel, and SENT on channel
 *  0 or on a PCA9663, are no. 7." */
static int is_of_kind(const struct channel *ch, enum event e)
{
    switch (e) {
    case E_ACK: case E_NACK: case E_BYTE: case E_SDA: case E_SCL:
        return ch->kind == FMPLUS;
    case E_SENT:
        return ch->kind == UFM;
    default:
        return 1;
    }
}

static int channel_event(struct channel *ch, uint8_t *buf, enum event e,
                         uint8_t b, struct action *act)
{
    if (!is_of_kind(ch, e))
        return NOT_AWAITED;
    switch (e) {
    /* "the event SENT stands in place of ACK" */
    case E_ACK: case E_SENT: return event_ack(ch, buf, act);
    case E_NACK: return event_nack(ch, act);
    case E_BYTE: return event_byte(ch, buf, b, act);
    case E_TICK: return event_tick(ch, act);
    case E_STOP: return event_stop(ch);
    /* "SDA (Address only) sets DAE; SCL (any active phase) CLE; ILL (any
     *  phase) SSE." */
    case E_SDA:  return bus_error(ch, ch->phase == ADDRESS, DAE);
    case E_SCL:  return bus_error(ch, is_active(ch), CLE);
    case E_ILL:  return bus_error(ch, 1, SSE);
    }
    return NOT_AWAITED;
}

/* "each channel with TE 1 and matching TP (0 rising) begins a frame if
 *  Waiting, is late if a frame runs, and does nothing if Idle." */
static int channel_trigger(struct channel *ch, int falling, struct action *act)
{
    if (!ch->te || ch->tp != falling || !is_active(ch))
        return OK;
    TELL(ch, TOLD_EDGE);
    if (ch->phase == WAITING)
        return begin_frame(ch, act);
    late(ch);
    return OK;
}

/* ---- Reads and writes of a channel's registers ------------------------- */

static int read_register(struct channel *ch, uint8_t *buf, unsigned reg,
                         uint8_t *value)
{
    switch (reg) {
    case R_CONTROL:
        *value = read_control(ch);
        return OK;
    case R_CHSTATUS:
        /* "Reading CHSTATUS clears it" */
        *value = ch->chstatus;
        ch->chstatus = 0;
        return OK;
    case R_SLATABLE:
        return read_table(ch->slatable, ENTRIES, &ch->sla_ptr, value);
    case R_TRANCONFIG:
        return read_table(ch->tranconfig, ENTRIES + 1, &ch->tc_ptr, value);
    case R_BYTECOUNT:
        return read_table(ch->bytecount, ENTRIES, &ch->bc_ptr, value);
    case R_DATA:
        return read_data(ch, buf, value);
    case R_INTMSK:   *value = ch->intmsk;   return OK;
    case R_TRANSEL:  *value = ch->transel;  return OK;
    case R_TRANOFS:  *value = ch->tranofs;  return OK;
    case R_FRAMECNT: *value = ch->framecnt; return OK;
    case R_REFRATE:  *value = ch->refrate;  return OK;
    case R_SCLL:     *value = ch->scll;     return OK;
    case R_SCLH:     *value = ch->sclh;     return OK;
    case R_MODE:     *value = ch->mode;     return OK;
    case R_TIMEOUT:  *value = ch->timeout;  return OK;
    default:
        /* "PRESET, reads 00h" */
        *value = 0;
        return OK;
    }
}

/* "channel active: write to ... FRAMECNT to TIMEOUT" */
static int write_stored(struct channel *ch, uint8_t *place, uint8_t value)
{
    if (is_active(ch))
        return CHANNEL_ACTIVE;
    *place = value;
    return OK;
}

static int write_register(struct channel *ch, uint8_t *buf, unsigned reg,
                          uint8_t value, struct action *act)
{
    switch (reg) {
    case R_CONTROL:    return write_control(ch, value, act);
    case R_INTMSK:     ch->intmsk = value & INTMSK_BITS; return OK;
    case R_SLATABLE:   return write_slatable(ch, value);
    case R_TRANCONFIG: return write_tranconfig(ch, value);
    case R_DATA:       return write_data(ch, buf, value);
    case R_TRANSEL:    return write_transel(ch, value);
    case R_TRANOFS:    return write_tranofs(ch, value);
    case R_FRAMECNT:   return write_stored(ch, &ch->framecnt, value);
    case R_REFRATE:    return write_stored(ch, &ch->refrate, value);
    case R_SCLL:       return write_stored(ch, &ch->scll, value);
    case R_SCLH:       return write_stored(ch, &ch->sclh, value);
    case R_MODE:       return write_stored(ch, &ch->mode, value);
    case R_TIMEOUT:    return write_stored(ch, &ch->timeout, value);
    case R_PRESET:     write_preset(ch, buf, value); return OK;
    default:           return READ_ONLY;    /* CHSTATUS, BYTECOUNT */
    }
}

/* ---- Steps of the whole part ------------------------------------------- */

/* "buffer boundary (below)": "BE set" */
static void note_boundary(struct part *p, int code)
{
    if (code == BOUNDARY)
        p->be = 1;
}

static struct answer read_part_register(struct part *p, uint8_t address)
{
    uint8_t value = 0;
    if (address >= R_NOTHING_FIRST && address <= R_NOTHING_LAST)
        return answer_code(NO_ADDRESS);
    switch (address) {
    case R_CTRLSTATUS:
        /* "reading CTRLSTATUS clears BE" */
        value = ctrlstatus(p);
        p->be = 0;
        break;
    case R_CTRLINTMSK:
        value = p->ctrlintmsk;
        break;
    case R_DEVICE_ID:
        value = p->device == PCU9669 ? 0xE9 : 0x63;
        break;
    }
    /* F2h to F5h, CTRLPRESET and CTRLRDY read 00h */
    return answer_read(OK, value);
}

static struct answer write_part_register(struct part *p, uint8_t address,
                                         uint8_t value)
{
    if (address >= R_NOTHING_FIRST && address <= R_NOTHING_LAST)
        return answer_code(NO_ADDRESS);
    switch (address) {
    case R_CTRLINTMSK:
        p->ctrlintmsk = value & CTRLINTMSK_BITS;
        return answer_code(OK);
    case R_CTRLPRESET:
        write_ctrlpreset(p, value);
        return answer_code(OK);
    default:
        return answer_code(READ_ONLY);
    }
}

static struct answer part_read(struct part *p, uint8_t address)
{
    unsigned c;
    uint8_t value = 0;
    int code;
    /* "64c + n (c 0 to 2, n 0 to 63): STATUS n of channel c, read only" */
    if (address < 0xC0)
        return answer_read(OK, p->ch[address / 64].status[address % 64]);
    if (address >= 0xF0)
        return read_part_register(p, address);
    c = (address - 0xC0u) / 16;
    code = read_register(&p->ch[c], buffer_of(p, c), address % 16, &value);
    note_boundary(p, code);
    return answer_read(code, value);
}

static struct answer part_write(struct part *p, uint8_t address, uint8_t value)
{
    unsigned c;
    struct action act = no_action();
    int code;
    forget_other_keys(p, address);
    if (address < 0xC0)
        return answer_code(READ_ONLY);
    if (address >= 0xF0)
        return write_part_register(p, address, value);
    c = (address - 0xC0u) / 16;
    code = write_register(&p->ch[c], buffer_of(p, c), address % 16, value,
                          &act);
    note_boundary(p, code);
    return answer_action(code, c, act);
}

static struct answer part_event(struct part *p, unsigned c, enum event e,
                                uint8_t b)
{
    struct action act = no_action();
    int code;
    if (c >= CHANNELS)
        return answer_code(NO_ADDRESS);
    code = channel_event(&p->ch[c], buffer_of(p, c), e, b, &act);
    TELL(&p->ch[c], told_of(e, code));
    note_boundary(p, code);
    return answer_action(code, c, act);
}

/* "Its answer holds one action for each channel, always no. 0 or 9; a frame
 *  that doesn't fit shows as BE." */
static struct answer part_trigger(struct part *p, int falling)
{
    struct answer a = answer_code(OK);
    for (unsigned c = 0; c < CHANNELS; c++)
        note_boundary(p, channel_trigger(&p->ch[c], falling, &a.act[c]));
    return a;
}

/* "The hardware reset is a step that does the same." "The part is chosen at
 *  hardware reset (script `X` or `X 9669`)" */
static struct answer part_reset(struct part *p, enum device device)
{
    reset_part(p, device);
    return answer_code(OK);
}

/* ==== The script program ================================================ */

/* The longest readable line is "E c BYTE bb". */
enum { LONGEST = 11 };

/* "upper-case hex"; -1 for what isn't a digit */
static int hex_digit(uint8_t b)
{
    if (b >= '0' && b <= '9')
        return b - '0';
    if (b >= 'A' && b <= 'F')
        return b - 'A' + 10;
    return -1;
}

/* Two digits, or something below 0 */
static int hex_byte(const uint8_t *s)
{
    int high = hex_digit(s[0]), low = hex_digit(s[1]);
    return high < 0 || low < 0 ? -1 : high * 16 + low;
}

static int is_text(const uint8_t *s, size_t n, const char *text)
{
    return n == strlen(text) && memcmp(s, text, n) == 0;
}

/* "E c NAME", "E c BYTE bb": what follows "E c " */
static struct answer run_event(struct part *p, unsigned c, const uint8_t *s,
                               size_t n)
{
    if (is_text(s, n, "ACK"))
        return part_event(p, c, E_ACK, 0);
    if (n == 7 && memcmp(s, "BYTE ", 5) == 0) {
        int b = hex_byte(s + 5);
        if (b >= 0)
            return part_event(p, c, E_BYTE, (uint8_t)b);
    }
    if (is_text(s, n, "SENT"))
        return part_event(p, c, E_SENT, 0);
    if (is_text(s, n, "STOP"))
        return part_event(p, c, E_STOP, 0);
    if (is_text(s, n, "TICK"))
        return part_event(p, c, E_TICK, 0);
    if (is_text(s, n, "NACK"))
        return part_event(p, c, E_NACK, 0);
    if (is_text(s, n, "SDA"))
        return part_event(p, c, E_SDA, 0);
    if (is_text(s, n, "SCL"))
        return part_event(p, c, E_SCL, 0);
    if (is_text(s, n, "ILL"))
        return part_event(p, c, E_ILL, 0);
    return answer_code(UNREADABLE);
}

/* "a step a line, upper-case hex, single spaces: W aa dd, R aa, E c NAME,
 *  E c BYTE bb, T R or T F, X (hardware reset); c is one hex digit"
 * `X` chooses the PCA9663, `X 9669` the PCU9669. */
static struct answer run_line(struct part *p, const uint8_t *s, size_t n)
{
    if (n == 7 && s[0] == 'W' && s[1] == ' ' && s[4] == ' ') {
        int address = hex_byte(s + 2), value = hex_byte(s + 5);
        if (address >= 0 && value >= 0)
            return part_write(p, (uint8_t)address, (uint8_t)value);
    } else if (n == 4 && s[0] == 'R' && s[1] == ' ') {
        int address = hex_byte(s + 2);
        if (address >= 0)
            return part_read(p, (uint8_t)address);
    } else if (n > 4 && n <= LONGEST && s[0] == 'E' && s[1] == ' '
               && s[3] == ' ') {
        int c = hex_digit(s[2]);
        if (c >= 0)
            return run_event(p, (unsigned)c, s + 4, n - 4);
    } else if (n == 3 && s[0] == 'T' && s[1] == ' '
               && (s[2] == 'R' || s[2] == 'F')) {
        return part_trigger(p, s[2] == 'F');
    } else if (is_text(s, n, "X")) {
        return part_reset(p, PCA9663);
    } else if (is_text(s, n, "X 9669")) {
        return part_reset(p, PCU9669);
    }
    return answer_code(UNREADABLE);
}

#ifdef CHECK

/* Whether the channel, were it of this kind, would answer 0; tried on a copy */
static int would_take(const struct channel *ch, enum kind kind, enum event e)
{
    static uint8_t buf[BUFFER];
    struct channel copy = *ch;
    struct action act;
    copy.kind = (uint8_t)kind;
    return channel_event(&copy, buf, e, 0, &act) == OK;
}

/* "A frame can't hang": one of the events that its bound counts would be
 * answered 0. */
static int awaits_counted(const struct channel *ch)
{
    for (unsigned e = E_ACK; e <= E_SENT; e++)
        if (COUNTED & TOLD(e) && would_take(ch, ch->kind, e))
            return 1;
    return 0;
}

/* The events that the step's channel refused and the other kind would take */
static unsigned refused_for_kind(const struct channel *ch)
{
    enum kind other = ch->kind == UFM ? FMPLUS : UFM;
    unsigned events = 0;
    for (unsigned e = E_ACK; e <= E_SENT; e++)
        if (ch->told & REFUSED(e) && would_take(ch, other, e))
            events |= TOLD(e);
    return events;
}

/* What the loggers see of the line */
static struct line line_of(const uint8_t *s, size_t n, const struct answer *a)
{
    struct line l = { '?', 0, 0, a->code, 0 };
    if (a->code != UNREADABLE)
        l.kind = (char)s[0];
    if (l.kind == 'R' || l.kind == 'W')
        l.address = (uint8_t)hex_byte(s + 2);
    if (l.kind == 'W')
        l.value = (uint8_t)hex_byte(s + 5);
    l.number = l.kind == 'X' && n > 1;
    return l;
}

static struct levels levels_of(const struct part *p, const struct bus *bus)
{
    struct levels l = { { 0 }, { 0 }, { 0 }, ctrlstatus(p), p->ctrlintmsk };
    for (unsigned c = 0; c < CHANNELS; c++) {
        l.chstatus[c] = p->ch[c].chstatus;
        l.intmsk[c] = p->ch[c].intmsk;
        l.ufm[c] = log_ufm(bus, c);
    }
    return l;
}

static const char *check_access(struct part *before, const struct part *p,
                                unsigned c, const struct line *line,
                                const struct sight *sight, uint8_t value)
{
    struct access access = {
        line, sight, before->ch[c].data_ptr, p->ch[c].data_ptr,
        buffer_of(before, c), value, p->be, before->ch[c].phase
    };
    return at_register_of(line, c) ? log_access(&access) : NULL;
}

static void check_wires(struct part *before, struct part *p, const uint8_t *s,
                        size_t n, const struct answer *a)
{
    static struct logger loggers[CHANNELS];
    static struct bus bus;
    struct line line = line_of(s, n, a);
    unsigned due = log_line(&bus, &line);
    struct levels levels = levels_of(p, &bus);
    for (unsigned c = 0; c < CHANNELS; c++) {
        const struct channel *ch = &p->ch[c];
        struct sight sight = {
            ch->told, a->act[c], ch->slatable, ch->tranconfig, ch->bytecount,
            ch->status, buffer_of(p, c), levels.ufm[c], ch->chstatus,
            read_control(ch), ch->intmsk, refused_for_kind(ch)
        };
        const char *broken = log_step(&loggers[c], &sight);
        if (broken == NULL && loggers[c].running && !awaits_counted(ch))
            broken = "hang";
        if (broken == NULL)
            broken = check_access(before, p, c, &line, &sight, a->value);
        if (!(ch->told & TOLD_RESET) != !(due & 1u << c))
            broken = "reset";
        if (log_pending(&levels, c) != (levels.ctrlstatus >> c & 1))
            broken = "pending";
        if (broken != NULL) {
            fprintf(stderr, "channel %u: the logger differs: %s\n", c, broken);
            give_up();
        }
    }
    log_part(&bus, loggers);
    if (log_int(&levels) != int_pulled(p)) {
        fprintf(stderr, "the logger differs: INT\n");
        give_up();
    }
}

#endif

/* One step, with the debug mode's checks around it */
static struct answer run_step(struct part *p, const uint8_t *s, size_t n)
{
#ifdef CHECK
    static struct part before;
    struct answer a;
    for (unsigned c = 0; c < CHANNELS; c++)
        p->ch[c].told = 0;
    before = *p;
    a = run_line(p, s, n);
    check_step(&before, p, &a);
    check_wires(&before, p, s, n, &a);
    return a;
#else
    return run_line(p, s, n);
#endif
}

#ifndef MODEL_NO_MAIN

/* ---- Output ------------------------------------------------------------ */

enum { OUT_BLOCK = 1 << 16, OUT_LINE = 80 };

static char out[OUT_BLOCK];
static size_t out_n;

static void flush_out(void)
{
    if (fwrite(out, 1, out_n, stdout) != out_n) {
        fprintf(stderr, "can't write\n");
        exit(1);
    }
    out_n = 0;
}

static char *put_decimal(char *o, uint64_t n)
{
    char digits[20];
    int i = 0;
    do
        digits[i++] = (char)('0' + n % 10);
    while (n /= 10);
    while (i > 0)
        *o++ = digits[--i];
    return o;
}

static char *put_hex(char *o, uint8_t b)
{
    static const char digits[] = "0123456789ABCDEF";
    *o++ = digits[b >> 4];
    *o++ = digits[b & 15];
    return o;
}

/* "action without spaces" */
static char *put_action(char *o, struct action act)
{
    switch (act.kind) {
    case A_S:  *o++ = 'S'; return put_hex(o, act.byte);
    case A_R:  *o++ = 'R'; return put_hex(o, act.byte);
    case A_D:  *o++ = 'D'; return put_hex(o, act.byte);
    case A_C:  *o++ = 'C'; return o;
    case A_A:  *o++ = 'A'; return o;
    case A_NP: *o++ = 'N'; *o++ = 'P'; return o;
    case A_NR: *o++ = 'N'; *o++ = 'R'; return put_hex(o, act.byte);
    case A_P:  *o++ = 'P'; return o;
    }
    return o;
}

/* "actions (channel, colon, action without spaces; joined by commas, lowest
 *  channel first) or `-`" */
static char *put_actions(char *o, const struct answer *a)
{
    int any = 0;
    for (unsigned c = 0; c < CHANNELS; c++) {
        if (a->act[c].kind == A_NONE)
            continue;
        if (any)
            *o++ = ',';
        any = 1;
        *o++ = (char)('0' + c);
        *o++ = ':';
        o = put_action(o, a->act[c]);
    }
    if (!any)
        *o++ = '-';
    return o;
}

/* "It prints a header, then step number, answer number, value, INT (1 pulled),
 *  actions" */
static void print_header(void)
{
    static const char header[] = "step code value int actions\n";
    memcpy(out + out_n, header, sizeof header - 1);
    out_n += sizeof header - 1;
}

static void print_answer(uint64_t step, const struct answer *a, int pulled)
{
    char *o;
    if (out_n > OUT_BLOCK - OUT_LINE)
        flush_out();
    o = put_decimal(out + out_n, step);
    *o++ = ' ';
    *o++ = (char)('0' + a->code);
    *o++ = ' ';
    o = put_hex(o, a->value);
    *o++ = ' ';
    *o++ = (char)('0' + pulled);
    *o++ = ' ';
    o = put_actions(o, a);
    *o++ = '\n';
    out_n = (size_t)(o - out);
}

/* ---- Input ------------------------------------------------------------- */

enum { IN_BLOCK = 1 << 18 };

/* The head of a line that runs over a block's end. Nothing longer than LONGEST
 * is readable, so one byte more is kept and the rest is dropped. */
struct head {
    uint8_t bytes[LONGEST + 1];
    size_t n;
};

static void head_add(struct head *h, const uint8_t *s, size_t n)
{
    size_t room = sizeof h->bytes - h->n;
    if (n > room)
        n = room;
    memcpy(h->bytes + h->n, s, n);
    h->n += n;
}

static struct part part;
static uint64_t steps;

static void step(const uint8_t *s, size_t n)
{
    struct answer a = run_step(&part, s, n);
    print_answer(++steps, &a, int_pulled(&part));
}

/* "LF ends a line"; what follows a block's last LF goes to the head. */
static void run_block(struct head *h, const uint8_t *s, size_t n)
{
    const uint8_t *end = s + n, *lf;
    while (s < end && (lf = memchr(s, '\n', (size_t)(end - s))) != NULL) {
        if (h->n > 0) {
            head_add(h, s, (size_t)(lf - s));
            step(h->bytes, h->n);
            h->n = 0;
        } else {
            step(s, (size_t)(lf - s));
        }
        s = lf + 1;
    }
    head_add(h, s, (size_t)(end - s));
}

int main(void)
{
    static uint8_t in[IN_BLOCK];
    struct head h = { { 0 }, 0 };
    size_t n;

    /* Before the first line it is a PCA9663. */
    reset_part(&part, PCA9663);
    print_header();
    while ((n = fread(in, 1, sizeof in, stdin)) > 0)
        run_block(&h, in, n);
    if (ferror(stdin)) {
        fprintf(stderr, "can't read\n");
        return 1;
    }
    /* "(the last may lack it)" */
    if (h.n > 0)
        step(h.bytes, h.n);
    flush_out();
#ifdef CHECK
    print_seen();
#endif
    return fflush(stdout) == 0 ? 0 : 1;
}

#endif

/*
 * A clerk beside the part, who checks each call on a sequence file with no use
 * of files.c: a file that is read he types in by the registers, and a file that
 * is written he puts together from what the registers read. He says which
 * number is due, and what has to be as it was, and counts what he has seen.
 *
 * calls.c includes it.
 */

/* What he sees of a call */
struct entry {
    const struct call *call;    /* its buffer is the one afterwards */
    const uint8_t *given;       /* the buffer before */
    struct part *before, *after;
    const struct answer *answer;
};

/* ---- By the registers -------------------------------------------------- */

enum { TITLE = 12 };    /* bytes in front of the blocks */

/* "from reset pointers" */
static void point_at_0(struct channel *ch)
{
    write_transel(ch, 0);
    reset_access_pointers(ch);
}

/* The file of the channel, and its length; 0 where the lengths sum above 4,352:
 * DATA ends before them. The channel is a copy, whose pointers move. */
static unsigned read_out(struct channel ch, uint8_t *buf, uint8_t *file)
{
    uint8_t count, *at = file + TITLE, *data;
    unsigned sum = 0;
    point_at_0(&ch);
    read_register(&ch, buf, R_TRANCONFIG, &count);
    for (unsigned t = 0; t < count; t++)
        read_register(&ch, buf, R_SLATABLE, at++);
    for (unsigned t = 0; t < count; t++) {
        read_register(&ch, buf, R_TRANCONFIG, at);
        sum += *at++;
    }
    data = at;
    while (read_register(&ch, buf, R_DATA, at) == OK)
        at++;
    if ((unsigned)(at - data) != sum)
        return 0;
    const unsigned numbers[] = {
        count, sum, TITLE, (unsigned)(data - file) - count,
        (unsigned)(data - file), (unsigned)(at - file)
    };
    for (unsigned i = 0; i < 6; i++) {
        file[2 * i] = (uint8_t)(numbers[i] % 256);
        file[2 * i + 1] = (uint8_t)(numbers[i] / 256);
    }
    return (unsigned)(at - file);
}

/* "as if typed from reset pointers; entries past the count become zero, as do
 *  data bytes past the sum"
 * Whether each write is answered 0, and no byte is missing before the data */
static int type_in(struct channel *ch, uint8_t *buf, const uint8_t *file,
                   unsigned n)
{
    const uint8_t *at = file + TITLE, *end = file + n;
    memset(ch->slatable, 0, sizeof ch->slatable);
    memset(ch->tranconfig, 0, sizeof ch->tranconfig);
    memset(buf, 0, BUFFER);
    point_at_0(ch);
    if (n < TITLE || file[1] != 0 || write_tranconfig(ch, file[0]) != OK
        || end - at < 2 * file[0])
        return 0;
    for (unsigned t = 0; t < file[0]; t++)
        write_slatable(ch, *at++);
    for (unsigned t = 0; t < file[0]; t++)
        write_tranconfig(ch, *at++);
    while (at < end)
        if (write_data(ch, buf, *at++) != OK)
            return 0;
    point_at_0(ch);
    return 1;
}

/* "A readable file is what the writer gives for the channel it loads." */
static int readable(const uint8_t *file, unsigned n)
{
    static uint8_t buf[BUFFER], again[LONGEST_BUFFER];
    struct channel ch;
    reset_channel(&ch, buf, FMPLUS);
    return type_in(&ch, buf, file, n) && read_out(ch, buf, again) == n
        && memcmp(file, again, n) == 0;
}

/* ---- Counters ---------------------------------------------------------- */

enum { CALLS = 4, MOST = 11 };

static const char *const call_names[CALLS] = {
    "load", "save", "load-alone", "save-alone"
};

static unsigned of_call(const struct call *call)
{
    return call->what - C_LOAD;
}

static int names_writing(unsigned i)
{
    return i % 2;
}

static int names_alone(unsigned i)
{
    return i / 2;
}

/* "Refusals: ... in the order 9, 1, 3, 10, 11" */
enum { REFUSALS = 5 };

static const uint8_t order[REFUSALS] = { 9, 1, 3, 10, 11 };

/* 10 is the reader's, 11 the writer's; "a single channel's call never answers
 * 1" */
static int can_answer(unsigned i, unsigned number)
{
    return number == 10 ? !names_writing(i)
         : number == 11 ? names_writing(i)
         : number == 1 ? !names_alone(i) : 1;
}

static unsigned long number_seen[CALLS][MOST + 1];
static unsigned long pair_seen[CALLS][REFUSALS][REFUSALS];

/* No. 3, by the phase */
enum { PHASES = WAITING + 1 };

static const char *const phase_names[PHASES] = {
    [ADDRESS] = "Address", [SENDING] = "Sending", [RECEIVING] = "Receiving",
    [STOPPING] = "Stopping", [WAITING] = "Waiting"
};

static unsigned long phase_seen[CALLS][PHASES];

/* No. 9, by what alone is out of range: as pokes have it, or the frame; and by
 * the memory */
enum {
    CLAUSE_FRAME = FIELDS, CLAUSE_LESS, CLAUSE_MORE, CLAUSE_NONE, CLAUSES
};

static const char *const clause_names[CLAUSES] = {
    [F_SLATABLE_PTR] = "SLATABLE-pointer",
    [F_TRANCONFIG_PTR] = "TRANCONFIG-pointer",
    [F_DATA_PTR] = "DATA-pointer",
    [F_BYTECOUNT_PTR] = "BYTECOUNT-pointer",
    [F_COUNT] = "count",
    [F_TRANSEL] = "TRANSEL",
    [F_INTMSK] = "INTMSK",
    [F_CTRLINTMSK] = "CTRLINTMSK",
    [F_ENDED] = "ended-frames",
    [F_UFM] = "kind",
    [F_STO] = "STO",
    [CLAUSE_FRAME] = "frame",
    [CLAUSE_LESS] = "less-memory",
    [CLAUSE_MORE] = "more-memory",
    [CLAUSE_NONE] = "no-memory"
};

static unsigned long clause_seen[CALLS][CLAUSES];

/* Files that are refused; header bytes by the only one that is wrong */
static unsigned long header_seen[TITLE];

enum {
    OF_0, OF_1_TO_11, IN_ADDRESSES, IN_LENGTHS, IN_DATA, BYTE_LESS, BYTE_MORE,
    BYTES_MORE, LENGTHS_BELOW, LENGTHS_ABOVE, SUM_ABOVE, SUM_ABOVE_FULL,
    COUNT_65, COUNT_MORE, GAP_ADDRESSES, GAP_LENGTHS, GAP_DATA, GAP_END,
    BIG_ENDIAN, BAD_FILES
};

static const char *const bad_names[BAD_FILES] = {
    [OF_0] = "of-0-bytes",
    [OF_1_TO_11] = "of-1-to-11-bytes",
    [IN_ADDRESSES] = "cut-in-addresses",
    [IN_LENGTHS] = "cut-in-lengths",
    [IN_DATA] = "cut-in-data",
    [BYTE_LESS] = "of-a-byte-less",
    [BYTE_MORE] = "of-a-byte-more",
    [BYTES_MORE] = "of-bytes-more",
    [LENGTHS_BELOW] = "with-lengths-below-its-data-count",
    [LENGTHS_ABOVE] = "with-lengths-above-its-data-count",
    [SUM_ABOVE] = "with-sum-above-4352",
    [SUM_ABOVE_FULL] = "with-sum-above-4352-and-4352-bytes",
    [COUNT_65] = "with-count-65",
    [COUNT_MORE] = "with-count-above-65",
    [GAP_ADDRESSES] = "with-gap-before-addresses",
    [GAP_LENGTHS] = "with-gap-before-lengths",
    [GAP_DATA] = "with-gap-before-data",
    [GAP_END] = "with-gap-at-its-end",
    [BIG_ENDIAN] = "with-big-endian-header"
};

static unsigned long bad_seen[BAD_FILES];

/* Outputs that are too short, and sums that are too large */
enum { ONE_SHORT, OUTPUT_0, WRITE_ABOVE, WRITE_FAR_ABOVE, NO_ROOMS };

static const char *const room_names[NO_ROOMS] = {
    [ONE_SHORT] = "output-one-short",
    [OUTPUT_0] = "output-of-0-bytes",
    [WRITE_ABOVE] = "sum-above-4352-with-room",
    [WRITE_FAR_ABOVE] = "sum-above-any-output"
};

static unsigned long room_seen[NO_ROOMS];

/* Files read and written, by what is special about them */
enum {
    COUNT_0, COUNT_1, COUNT_63, COUNT_64, SUM_0, SUM_4351, SUM_4352, LENGTH_0,
    BIT_0, BEHIND_ENTRIES, BEHIND_BYTES, ON_UFM, BESIDE_ACTIVE, OWN_KEY,
    OTHER_KEY, CTRL_KEY, BE_SET, BE_CLEAR, FILES
};

static const char *const file_names[FILES] = {
    [COUNT_0] = "count-0",
    [COUNT_1] = "count-1",
    [COUNT_63] = "count-63",
    [COUNT_64] = "count-64",
    [SUM_0] = "sum-0-of-some",
    [SUM_4351] = "sum-4351",
    [SUM_4352] = "sum-4352",
    [LENGTH_0] = "length-0-beside-others",
    [BIT_0] = "bit-0",
    [BEHIND_ENTRIES] = "entries-behind-the-count",
    [BEHIND_BYTES] = "bytes-behind-the-sum",
    [ON_UFM] = "UFm",
    [BESIDE_ACTIVE] = "beside-an-active-channel",
    [OWN_KEY] = "own-key-pending",
    [OTHER_KEY] = "another-key-pending",
    [CTRL_KEY] = "CTRLPRESET-key-pending",
    [BE_SET] = "BE-set",
    [BE_CLEAR] = "BE-clear"
};

static unsigned long file_seen[CALLS][FILES];

/* What stood in a channel that was loaded: it stays, or becomes 0 */
enum {
    OVER_BYTECOUNT_PTR, OVER_STATUS, OVER_BYTECOUNT, OVER_CHSTATUS, OVER_TP,
    OVER_TE, OVER_INTMSK, OVER_CTRLINTMSK, OVER_FRAMECNT, OVER_SETTING,
    OVER_TRANSEL, OVER_TRANOFS, OVER_SLATABLE_PTR, OVER_TRANCONFIG_PTR,
    OVER_DATA_PTR, OVER_SUM_ABOVE, OVERS
};

static const char *const over_names[OVERS] = {
    [OVER_BYTECOUNT_PTR] = "BYTECOUNT-pointer",
    [OVER_STATUS] = "STATUS",
    [OVER_BYTECOUNT] = "BYTECOUNT",
    [OVER_CHSTATUS] = "CHSTATUS",
    [OVER_TP] = "TP",
    [OVER_TE] = "TE",
    [OVER_INTMSK] = "INTMSK",
    [OVER_CTRLINTMSK] = "CTRLINTMSK",
    [OVER_FRAMECNT] = "FRAMECNT",
    [OVER_SETTING] = "settings",
    [OVER_TRANSEL] = "TRANSEL",
    [OVER_TRANOFS] = "TRANOFS",
    [OVER_SLATABLE_PTR] = "SLATABLE-pointer",
    [OVER_TRANCONFIG_PTR] = "TRANCONFIG-pointer",
    [OVER_DATA_PTR] = "DATA-pointer",
    [OVER_SUM_ABOVE] = "sum-above-4352"
};

static unsigned long over_seen[OVERS];

enum {
    LOAD_SAVE, SAVE_LOAD, EXACT_OUTPUT, OUTPUT_ONE_MORE, OUTPUT_LONGEST,
    OF_ANOTHER, ALONE_BESIDE, REFUSED_WITH_KEY, REFUSED_BE_CLEAR, LINE_9,
    LINE_9_X, LINE_8_OUT, LINE_0_BACK, OTHERS
};

static const char *const other_names[OTHERS] = {
    [LOAD_SAVE] = "load-then-save-gives-it-back",
    [SAVE_LOAD] = "save-then-load-elsewhere",
    [EXACT_OUTPUT] = "save-output-exact",
    [OUTPUT_ONE_MORE] = "save-output-one-more",
    [OUTPUT_LONGEST] = "save-output-of-4608",
    [OF_ANOTHER] = "no-9-by-another-channel",
    [ALONE_BESIDE] = "alone-0-with-the-part-out-of-range",
    [REFUSED_WITH_KEY] = "refused-with-a-key-pending",
    [REFUSED_BE_CLEAR] = "no-10-or-11-with-BE-clear",
    [LINE_9] = "line-no-9",
    [LINE_9_X] = "line-no-9-of-X",
    [LINE_8_OUT] = "line-no-8-out-of-range",
    [LINE_0_BACK] = "line-no-0-back-in-range"
};

static unsigned long other_seen[OTHERS];

static void print_one(const char *of, const char *name, const char *how,
                      unsigned long n)
{
    fprintf(stderr, "seen %s%s%s %lu\n", of, name, how, n);
}

static void print_all(const char *of, const char *const *names,
                      const unsigned long *counters, unsigned n)
{
    for (unsigned i = 0; i < n; i++)
        if (names[i] != NULL)
            print_one(of, names[i], "", counters[i]);
}

/* CTRLINTMSK and the kind are the part's: a single channel's call has only that
 * channel. */
static int comes_on(unsigned i, unsigned clause)
{
    return !names_alone(i) || (clause != F_CTRLINTMSK && clause != F_UFM);
}

static void print_call_seen(unsigned i)
{
    char of[40];
    for (unsigned a = 0; a <= MOST; a++)
        if (a == 0 || (memchr(order, (int)a, REFUSALS) && can_answer(i, a))) {
            snprintf(of, sizeof of, "%s-no-%u", call_names[i], a);
            print_one(of, "", "", number_seen[i][a]);
        }
    for (unsigned a = 0; a < REFUSALS; a++)
        for (unsigned b = a + 1; b < REFUSALS; b++)
            if (can_answer(i, order[a]) && can_answer(i, order[b])) {
                snprintf(of, sizeof of, "%s-no-%u-before-%u", call_names[i],
                         order[a], order[b]);
                print_one(of, "", "", pair_seen[i][a][b]);
            }
    snprintf(of, sizeof of, "%s-no-3-in-", call_names[i]);
    print_all(of, phase_names, phase_seen[i], PHASES);
    snprintf(of, sizeof of, "%s-no-9-by-", call_names[i]);
    for (unsigned k = 0; k < CLAUSES; k++)
        if (clause_names[k] != NULL && comes_on(i, k))
            print_one(of, clause_names[k], "", clause_seen[i][k]);
    snprintf(of, sizeof of, "%s-", call_names[i]);
    print_all(of, file_names, file_seen[i], FILES);
}

static void print_seen(void)
{
    char of[40];
    for (unsigned i = 0; i < CALLS; i++)
        print_call_seen(i);
    for (unsigned k = 0; k < TITLE; k++) {
        snprintf(of, sizeof of, "no-10-by-header-byte-%u", k);
        print_one(of, "", "", header_seen[k]);
    }
    print_all("no-10-file-", bad_names, bad_seen, BAD_FILES);
    print_all("no-11-", room_names, room_seen, NO_ROOMS);
    print_all("loaded-over-", over_names, over_seen, OVERS);
    print_all("", other_names, other_seen, OTHERS);
}

/* ---- Which number is due ----------------------------------------------- */

/* What of a channel is out of range, bitwise by the poke that brings it there,
 * but for its kind */
static unsigned clauses_of(const struct channel *ch)
{
    unsigned bits = (unsigned)(ch->sla_ptr > 64) << F_SLATABLE_PTR
        | (unsigned)(ch->tc_ptr > 65) << F_TRANCONFIG_PTR
        | (unsigned)(ch->data_ptr > 4352) << F_DATA_PTR
        | (unsigned)(ch->bc_ptr > 64) << F_BYTECOUNT_PTR
        | (unsigned)(ch->tranconfig[0] > 64) << F_COUNT
        | (unsigned)(ch->transel > 63) << F_TRANSEL
        | (unsigned)((ch->intmsk & 0x0E) != 0) << F_INTMSK
        | (unsigned)!ended_in_range(ch) << F_ENDED
        | (unsigned)!records_in_range(ch) << F_STO;
    if (!(bits & 1u << F_COUNT))    /* else there is no sum */
        bits |= (unsigned)!frame_in_range(ch) << CLAUSE_FRAME;
    return bits;
}

/* What of the call's state is out of range; whose is the lowest channel that
 * is, or 3 for CTRLINTMSK alone */
static unsigned clauses_for(const struct entry *e, unsigned *whose)
{
    const struct part *p = e->before;
    unsigned c = channel_of(e->call), bits = 0;
    *whose = c;
    if (is_alone(e->call))
        return clauses_of(&p->ch[c]);
    if (p->ctrlintmsk & 0x78) {
        bits = 1u << F_CTRLINTMSK;
        *whose = CHANNELS;
    }
    for (unsigned i = CHANNELS; i-- > 0;) {
        unsigned own = clauses_of(&p->ch[i])
            | (unsigned)(p->ch[i].kind != kind_of(p->device, i)) << F_UFM;
        if (own) {
            *whose = bits == 0 ? i : CHANNELS;
            bits |= own;
        }
    }
    return bits;
}

static int is_one(unsigned bits)
{
    return bits != 0 && (bits & (bits - 1)) == 0;
}

static void count_9(const struct entry *e, unsigned bits, unsigned whose)
{
    unsigned i = of_call(e->call), c = channel_of(e->call), clause = 0;
    size_t lent = lent_of(e->call), right = is_alone(e->call) ? BUFFER : MEMORY;
    if (bits == 0) {
        clause_seen[i][lent < right ? CLAUSE_LESS : CLAUSE_MORE]++;
        clause_seen[i][CLAUSE_NONE] += lent == 0;
        return;
    }
    if (lent != right || !is_one(bits))
        return;
    while (!(bits >> clause & 1))
        clause++;
    clause_seen[i][clause]++;
    other_seen[OF_ANOTHER] += c < CHANNELS && whose < CHANNELS && whose != c;
}

static int all_active(const struct part *p)
{
    for (unsigned c = 0; c < CHANNELS; c++)
        if (!(read_control(&p->ch[c]) & STA))
            return 0;
    return 1;
}

/* "the output buffer is shorter than the file or the lengths sum above 4,352";
 * where there is no channel, or no sum, by an output that no file fits in */
static int short_of_room(const struct entry *e, unsigned c)
{
    static uint8_t file[LONGEST_BUFFER];
    unsigned length;
    if (c >= CHANNELS || e->before->ch[c].tranconfig[0] > 64)
        return e->call->n < TITLE;
    length = read_out(e->before->ch[c], buffer_of(e->before, c), file);
    return length == 0 || length > e->call->n;
}

/* Every refusal that applies, bitwise by its place in the order */
static unsigned refusals(const struct entry *e)
{
    const struct call *call = e->call;
    unsigned c = channel_of(call), whose;
    unsigned out = clauses_for(e, &whose);
    int no_9 = out != 0 || lent_of(call) != (is_alone(call) ? BUFFER : MEMORY);
    int active = c < CHANNELS ? (read_control(&e->before->ch[c]) & STA) != 0
                              : all_active(e->before);
    if (no_9)
        count_9(e, out, whose);
    return (unsigned)no_9
        | (unsigned)(c >= CHANNELS) << 1
        | (unsigned)active << 2
        | (unsigned)(!is_writing(call) && !readable(e->given, call->n)) << 3
        | (unsigned)(is_writing(call) && short_of_room(e, c)) << 4;
}

static unsigned number_due(const struct entry *e)
{
    unsigned bits = refusals(e), first = 0, i = of_call(e->call);
    if (bits == 0)
        return 0;
    while (!(bits >> first & 1))
        first++;
    for (unsigned k = first + 1; k < REFUSALS; k++)
        pair_seen[i][first][k] += bits >> k & 1;
    return order[first];
}

/* ---- What is counted --------------------------------------------------- */

static unsigned sum_at(const uint8_t *lengths, unsigned n)
{
    unsigned sum = 0;
    for (unsigned t = 0; t < n; t++)
        sum += lengths[t];
    return sum;
}

/* The numbers of a header that fits, with a gap before one of the blocks, 0 to
 * 2, or at the end, 3 */
static void fitting(unsigned *numbers, unsigned count, unsigned bytes,
                    unsigned gap, unsigned before)
{
    const unsigned plain[] = {
        count, bytes, TITLE, TITLE + count, TITLE + 2 * count,
        TITLE + 2 * count + bytes
    };
    for (unsigned i = 0; i < 6; i++)
        numbers[i] = plain[i] + (i >= 2 + before ? gap : 0);
}

static unsigned number_in(const uint8_t *file, unsigned i)
{
    return file[2 * i] | (unsigned)file[2 * i + 1] << 8;
}

/* Whether the header has these numbers; or how many of its bytes are wrong, and
 * the last of them */
static unsigned wrong_bytes(const uint8_t *file, const unsigned *numbers,
                            unsigned *last)
{
    unsigned wrong = 0;
    for (unsigned k = 0; k < TITLE; k++)
        if (file[k] != (numbers[k / 2] >> (k % 2 ? 8 : 0) & 0xFF)) {
            wrong++;
            *last = k;
        }
    return wrong;
}

static int has_numbers(const uint8_t *file, const unsigned *numbers)
{
    unsigned last;
    return wrong_bytes(file, numbers, &last) == 0;
}

/* A file with this count would be one but for a byte of its header. */
static void count_header_byte(const uint8_t *file, unsigned n, unsigned count)
{
    unsigned numbers[6], last = 0, bytes;
    if (count > 64 || n < TITLE + 2 * count)
        return;
    bytes = sum_at(file + TITLE + count, count);
    fitting(numbers, count, bytes, 0, 0);
    if (bytes <= 4352 && n == numbers[5]
        && wrong_bytes(file, numbers, &last) == 1)
        header_seen[last]++;
}

/* By what its header says, where that fits: the file is cut, or goes on, or has
 * other lengths */
static void count_by_header(const uint8_t *file, unsigned n)
{
    unsigned numbers[6], count = number_in(file, 0), bytes = number_in(file, 1);
    unsigned sum, lengths = TITLE + count, data = lengths + count;
    fitting(numbers, count, bytes, 0, 0);
    if (!has_numbers(file, numbers))
        return;
    if (n < data) {
        bad_seen[n < lengths ? IN_ADDRESSES : IN_LENGTHS] += count <= 64
            && bytes <= 4352;
        return;
    }
    sum = sum_at(file + lengths, count);
    if (count > 64)
        bad_seen[count == 65 ? COUNT_65 : COUNT_MORE] += sum == bytes
            && n == numbers[5];
    else if (sum > 4352 && n == numbers[5])
        bad_seen[bytes == 4352 ? SUM_ABOVE_FULL : SUM_ABOVE] += bytes == 4352
            || bytes == sum;
    else if (n == numbers[5])
        bad_seen[sum < bytes ? LENGTHS_BELOW : LENGTHS_ABOVE]++;
    else if (sum == bytes && n < numbers[5]) {
        bad_seen[IN_DATA]++;
        bad_seen[BYTE_LESS] += n == numbers[5] - 1;
    } else if (sum == bytes)
        bad_seen[n == numbers[5] + 1 ? BYTE_MORE : BYTES_MORE]++;
}

static void count_gaps(const uint8_t *file, unsigned n)
{
    unsigned numbers[6], count = number_in(file, 0), bytes = number_in(file, 1);
    unsigned gap = n - (TITLE + 2 * count + bytes);
    if (count > 64 || n <= TITLE + 2 * count + bytes)
        return;
    for (unsigned before = 0; before < 4; before++) {
        fitting(numbers, count, bytes, gap, before);
        bad_seen[GAP_ADDRESSES + before] += has_numbers(file, numbers);
    }
}

static void count_big_endian(const uint8_t *file, unsigned n)
{
    uint8_t turned[LONGEST_BUFFER];
    memcpy(turned, file, n);
    for (unsigned k = 0; k < TITLE; k++)
        turned[k] = file[k ^ 1];
    bad_seen[BIG_ENDIAN] += readable(turned, n);
}

static void count_bad(const uint8_t *file, unsigned n)
{
    bad_seen[OF_0] += n == 0;
    bad_seen[OF_1_TO_11] += n > 0 && n < TITLE;
    if (n < TITLE)
        return;
    count_header_byte(file, n, number_in(file, 0));
    if (number_in(file, 3) != TITLE + number_in(file, 0))
        count_header_byte(file, n, number_in(file, 3) - TITLE);
    count_by_header(file, n);
    count_gaps(file, n);
    count_big_endian(file, n);
}

static void count_no_room(const struct channel *ch, unsigned room)
{
    unsigned count = ch->tranconfig[0], sum = sum_at(ch->tranconfig + 1, count);
    unsigned length = TITLE + 2 * count + sum;
    room_seen[OUTPUT_0] += room == 0;
    if (sum <= 4352)
        room_seen[ONE_SHORT] += room + 1 == length;
    else
        room_seen[length > LONGEST_BUFFER ? WRITE_FAR_ABOVE : WRITE_ABOVE] +=
            length > LONGEST_BUFFER || room >= length;
}

static int some(const uint8_t *bytes, size_t n)
{
    for (size_t i = 0; i < n; i++)
        if (bytes[i] != 0)
            return 1;
    return 0;
}

/* What is special about a file that was read or written, and about the channel
 * before */
static void count_file(const struct entry *e, unsigned c)
{
    struct part *p = e->before;
    const struct channel *ch = &p->ch[c];
    const uint8_t *tables = e->call->buffer + TITLE;
    unsigned count = e->call->buffer[0], zeros = 0, reads = 0, keys = 0;
    unsigned sum = sum_at(tables + count, count), active = 0;
    unsigned long *seen = file_seen[of_call(e->call)];
    for (unsigned t = 0; t < count; t++) {
        zeros += tables[count + t] == 0;
        reads += tables[t] & 1;
    }
    for (unsigned i = 0; i < CHANNELS; i++) {
        keys += i != c && p->ch[i].key;
        active += i != c && is_active(&p->ch[i]);
    }
    seen[COUNT_0] += count == 0;
    seen[COUNT_1] += count == 1;
    seen[COUNT_63] += count == 63;
    seen[COUNT_64] += count == 64;
    seen[SUM_0] += count > 0 && sum == 0;
    seen[SUM_4351] += sum == 4351;
    seen[SUM_4352] += sum == 4352;
    seen[LENGTH_0] += zeros > 0 && zeros < count;
    seen[BIT_0] += reads > 0;
    seen[BEHIND_ENTRIES] += some(ch->slatable + count, 64 - count)
        && some(ch->tranconfig + 1 + count, 64 - count);
    seen[BEHIND_BYTES] += some(buffer_of(p, c) + sum, BUFFER - sum);
    seen[ON_UFM] += ch->kind == UFM;
    seen[BESIDE_ACTIVE] += active > 0;
    seen[OWN_KEY] += ch->key;
    seen[OTHER_KEY] += keys > 0;
    seen[CTRL_KEY] += p->key;
    seen[BE_SET] += p->be;
    seen[BE_CLEAR] += !p->be;
}

static void count_over(const struct part *p, const struct channel *ch)
{
    over_seen[OVER_BYTECOUNT_PTR] += ch->bc_ptr != 0;
    over_seen[OVER_STATUS] += some(ch->status, sizeof ch->status);
    over_seen[OVER_BYTECOUNT] += some(ch->bytecount, sizeof ch->bytecount);
    over_seen[OVER_CHSTATUS] += ch->chstatus != 0;
    over_seen[OVER_TP] += ch->tp;
    over_seen[OVER_TE] += ch->te;
    over_seen[OVER_INTMSK] += ch->intmsk != 0;
    over_seen[OVER_CTRLINTMSK] += p->ctrlintmsk != 0;
    over_seen[OVER_FRAMECNT] += ch->framecnt != 1;
    over_seen[OVER_SETTING] += ch->refrate != 0 || ch->timeout != 0;
    over_seen[OVER_TRANSEL] += ch->transel != 0;
    over_seen[OVER_TRANOFS] += ch->tranofs != 0;
    over_seen[OVER_SLATABLE_PTR] += ch->sla_ptr != 0;
    over_seen[OVER_TRANCONFIG_PTR] += ch->tc_ptr != 0;
    over_seen[OVER_DATA_PTR] += ch->data_ptr != 0;
    over_seen[OVER_SUM_ABOVE] += sum_at(ch->tranconfig + 1, ch->tranconfig[0])
        > 4352;
}

static void count_output(const struct entry *e)
{
    unsigned length = number_in(e->call->buffer, 5), room = e->call->n;
    other_seen[EXACT_OUTPUT] += room == length;
    other_seen[OUTPUT_ONE_MORE] += room == length + 1;
    other_seen[OUTPUT_LONGEST] += room == LONGEST_BUFFER;
}

/* The same file as in the file call before that was answered 0 */
static void count_round_trip(const struct entry *e, unsigned c)
{
    static struct call last;
    static unsigned length;
    const struct call *call = e->call;
    int same = length > 0 && length <= call->n
        && memcmp(last.buffer, call->buffer, length) == 0;
    if (same && is_writing(call) && !is_writing(&last))
        other_seen[LOAD_SAVE] += channel_of(&last) == c;
    if (same && !is_writing(call) && is_writing(&last))
        other_seen[SAVE_LOAD] += channel_of(&last) != c;
    last = *call;
    length = number_in(call->buffer, 5);
}

static void count_call(const struct entry *e)
{
    const struct call *call = e->call;
    const struct part *p = e->before;
    unsigned c = channel_of(call), i = of_call(call), code = e->answer->code;
    number_seen[i][code]++;
    switch (code) {
    case 0:
        count_file(e, c);
        if (is_writing(call))
            count_output(e);
        else
            count_over(p, &p->ch[c]);
        count_round_trip(e, c);
        other_seen[ALONE_BESIDE] += is_alone(call) && !in_range(p);
        return;
    case 3:
        phase_seen[i][p->ch[c].phase]++;
        break;
    case 10:
        count_bad(e->given, call->n);
        break;
    case 11:
        count_no_room(&p->ch[c], call->n);
        break;
    }
    other_seen[REFUSED_WITH_KEY] += p->key || p->ch[0].key || p->ch[1].key
        || p->ch[2].key;
    other_seen[REFUSED_BE_CLEAR] += code >= 10 && !p->be;
}

static void count_line(const struct entry *e)
{
    static int was_out;
    int out = !in_range(e->before);
    unsigned code = e->answer->code;
    other_seen[LINE_9] += code == OUT_OF_RANGE;
    other_seen[LINE_9_X] += code == OUT_OF_RANGE && e->given[0] == 'X';
    other_seen[LINE_8_OUT] += out && code == UNREADABLE;
    other_seen[LINE_0_BACK] += was_out && !out && code == OK;
    was_out = out;
}

/* ---- A call: the rule that is broken, or NULL -------------------------- */

static int same_part(const struct part *a, const struct part *b)
{
    return memcmp(a, b, sizeof *a) == 0;
}

static const char *clerk_read(const struct entry *e, unsigned c)
{
    static struct part typed;
    typed = *e->before;
    if (!type_in(&typed.ch[c], buffer_of(&typed, c), e->given, e->call->n)
        || !same_part(&typed, e->after))
        return "read";
    return NULL;
}

static const char *clerk_written(const struct entry *e, unsigned c)
{
    static uint8_t file[LONGEST_BUFFER];
    unsigned length = read_out(e->before->ch[c], buffer_of(e->before, c), file);
    if (memcmp(e->call->buffer, file, length) != 0
        || memcmp(e->call->buffer + length, e->given + length,
                  e->call->n - length) != 0
        || !same_part(e->before, e->after))
        return "written";
    return NULL;
}

/* "all memory stays", and all else */
static const char *clerk_refused(const struct entry *e)
{
    if (memcmp(e->call->buffer, e->given, e->call->n) != 0
        || !same_part(e->before, e->after))
        return "refused";
    return NULL;
}

static const char *clerk_file(const struct entry *e)
{
    unsigned due = number_due(e), c = channel_of(e->call);
    count_call(e);
    if (e->answer->code != due || e->answer->value != 0)
        return "number";
    if (due != 0)
        return clerk_refused(e);
    if (is_writing(e->call))
        return clerk_written(e, c);
    if (memcmp(e->call->buffer, e->given, e->call->n) != 0)
        return "read";
    return clerk_read(e, c);
}

static const char *clerk_call(const struct entry *e)
{
    const char *broken = NULL;
    if (is_file_call(e->call))
        broken = clerk_file(e);
    else if (e->call->what == C_LINE) {
        count_line(e);
        if (!in_range(e->before) && !same_part(e->before, e->after))
            broken = "refused";
    }
    if (broken == NULL && e->call->what != C_POKE && in_range(e->before)
        && !in_range(e->after))
        broken = "range";
    return broken;
}

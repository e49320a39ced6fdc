/*
 * Sequence files, request Five sentence by sentence; included after model.c,
 * with its range rule.
 */

/* "We want a file: a header of 12 bytes, six 16-bit little-endian numbers,
 *  holding the transaction count, the data byte count, the offset of the
 *  addresses, of the lengths and of the data, and the file length." */
enum {
    H_COUNT, H_BYTES, H_ADDRESSES, H_LENGTHS, H_DATA, H_FILE, NUMBERS,
    HEADER = 2 * NUMBERS
};

struct header {
    unsigned of[NUMBERS];
};

/* "The blocks follow in that order with no gap, so the offsets are forced." */
static struct header header_for(unsigned count, unsigned bytes)
{
    struct header h;
    h.of[H_COUNT] = count;
    h.of[H_BYTES] = bytes;
    h.of[H_ADDRESSES] = HEADER;
    h.of[H_LENGTHS] = h.of[H_ADDRESSES] + count;
    h.of[H_DATA] = h.of[H_LENGTHS] + count;
    h.of[H_FILE] = h.of[H_DATA] + bytes;
    return h;
}

static unsigned number_at(const uint8_t *file, unsigned i)
{
    return file[2 * i] + 256u * file[2 * i + 1];
}

static void put_header(uint8_t *file, const struct header *h)
{
    for (unsigned i = 0; i < NUMBERS; i++) {
        file[2 * i] = (uint8_t)(h->of[i] & 0xFF);
        file[2 * i + 1] = (uint8_t)(h->of[i] >> 8);
    }
}

/* ---- Writing ----------------------------------------------------------- */

/* "Write it from an Idle channel's first count transactions"; "Output bytes
 *  past the file stay." */
static int write_file(const struct channel *ch, const uint8_t *buf,
                      uint8_t *out, size_t room)
{
    unsigned count = count_of(ch), bytes = configured(ch);
    struct header h = header_for(count, bytes);
    if (is_active(ch))
        return CHANNEL_ACTIVE;
    /* "11 (writing) when the output buffer is shorter than the file or the
     *  lengths sum above 4,352" */
    if (room < h.of[H_FILE] || bytes > BUFFER)
        return NO_ROOM;
    put_header(out, &h);
    memcpy(out + h.of[H_ADDRESSES], ch->slatable, count);
    memcpy(out + h.of[H_LENGTHS], ch->tranconfig + 1, count);
    memcpy(out + h.of[H_DATA], buf, bytes);
    return OK;
}

/* ---- Reading ----------------------------------------------------------- */

/* "A readable file is what the writer gives for the channel it loads.": the
 * header is the forced one of a count that a channel can have and of lengths
 * that fit. "10 (reading) for any other file or a byte after it" */
static int is_file(const uint8_t *file, size_t n)
{
    unsigned count, bytes = 0;
    struct header h;
    if (n < HEADER)
        return 0;
    count = number_at(file, H_COUNT);
    if (count > ENTRIES || n < HEADER + 2 * count)
        return 0;
    for (unsigned t = 0; t < count; t++)
        bytes += file[HEADER + count + t];
    /* Reading a file whose lengths sum above 4,352 is 10. */
    if (bytes > BUFFER)
        return 0;
    h = header_for(count, bytes);
    for (unsigned i = 0; i < NUMBERS; i++)
        if (number_at(file, i) != h.of[i])
            return 0;
    return n == h.of[H_FILE];
}

/* A block of the file, and zero past it */
static void fill_block(uint8_t *to, size_t size, const uint8_t *from, size_t n)
{
    memcpy(to, from, n);
    memset(to + n, 0, size - n);
}

static int read_file(struct channel *ch, uint8_t *buf, const uint8_t *file,
                     size_t n)
{
    unsigned count;
    if (is_active(ch))
        return CHANNEL_ACTIVE;
    if (!is_file(file, n))
        return NOT_A_FILE;
    /* "read it into an Idle channel as if typed from reset pointers; entries
     *  past the count become zero, as do data bytes past the sum." */
    count = number_at(file, H_COUNT);
    fill_block(ch->slatable, ENTRIES, file + number_at(file, H_ADDRESSES),
               count);
    ch->tranconfig[0] = (uint8_t)count;
    fill_block(ch->tranconfig + 1, ENTRIES, file + number_at(file, H_LENGTHS),
               count);
    fill_block(buf, BUFFER, file + number_at(file, H_DATA),
               number_at(file, H_BYTES));
    /* "After a read TRANSEL, TRANOFS and the SLATABLE, TRANCONFIG and DATA
     *  pointers are 0; all else, reset keys too, stays." */
    ch->transel = 0;
    ch->tranofs = 0;
    ch->sla_ptr = 0;
    ch->tc_ptr = 0;
    ch->data_ptr = 0;
    return OK;
}

/* ---- The calls --------------------------------------------------------- */

/* A file buffer of its own: a file to be read, or the output */
struct sequence {
    int writing;
    uint8_t *bytes;
    size_t n;
};

static int transfer(struct channel *ch, uint8_t *buf, struct sequence *s)
{
    return s->writing ? write_file(ch, buf, s->bytes, s->n)
                      : read_file(ch, buf, s->bytes, s->n);
}

/* "Reading and writing sequence files are channel steps", of the part too: "in
 *  the order 9, 1, 3, 10, 11". Its answer is 0 with no value. */
static int part_file(struct part *p, size_t lent, unsigned c,
                     struct sequence *s)
{
    if (lent != MEMORY || !in_range(p))
        return OUT_OF_RANGE;
    if (c >= CHANNELS)
        return NO_ADDRESS;
    return transfer(&p->ch[c], buffer_of(p, c), s);
}

/* "A single channel's step takes the channel's record by value and hands it
 *  back" "It works on that channel's 4,352 bytes; another length is no. 9".
 * It checks that channel alone, and never answers 1. */
static int channel_file(struct channel *ch, uint8_t *buf, size_t lent,
                        struct sequence *s)
{
    if (lent != BUFFER || !channel_in_range(ch))
        return OUT_OF_RANGE;
    return transfer(ch, buf, s);
}

/*
 * Random calls: generate-calls SEED CALLS, in the form of calls.c, which is
 * embedded to know the state. Scene after scene brings a channel into some
 * state, by lines, pokes and files, and makes calls on files there: good ones
 * and bad ones, outputs of every kind, wrong memories, channels above 2.
 */
#define CALLS_NO_MAIN
#include "calls.c"
#include "random.c"

/* ---- Output: every call is also run, so the state is known ------------- */

static struct part part;
static struct call now;     /* the last call; its buffer as the call left it */
static uint64_t wanted, made;

/* The answer's number */
static int emit(enum what what, unsigned channel, unsigned number,
                unsigned value, const void *buffer, size_t n)
{
    if (made == wanted)
        return OK;
    made++;
    now.what = (uint8_t)what;
    now.channel = (uint8_t)(channel & 0xFF);
    now.number = number;
    now.value = value;
    now.n = (unsigned)n;
    memmove(now.buffer, buffer, n);
    put_call(&now);
    return run_call(&part, &now).code;
}

static void line(const char *text)
{
    emit(C_LINE, 0, 0, 0, text, strlen(text));
}

static void write_at(unsigned address, unsigned value)
{
    char text[16];
    snprintf(text, sizeof text, "W %02X %02X", address & 0xFF, value & 0xFF);
    line(text);
}

static void read_at(unsigned address)
{
    char text[16];
    snprintf(text, sizeof text, "R %02X", address & 0xFF);
    line(text);
}

static void write_of(unsigned c, unsigned reg, unsigned value)
{
    write_at(0xC0 + 16 * c + reg, value);
}

static void read_of(unsigned c, unsigned reg)
{
    read_at(0xC0 + 16 * c + reg);
}

static void event(unsigned c, const char *name)
{
    char text[16];
    snprintf(text, sizeof text, "E %X %.8s", c & 15, name);
    line(text);
}

static void poke_at(unsigned c, enum field field, unsigned value)
{
    emit(C_POKE, c, field, value, "", 0);
}

static unsigned field_at(unsigned c, enum field field)
{
    const struct channel *ch = &part.ch[c];
    switch (field) {
    case F_SLATABLE_PTR:   return ch->sla_ptr;
    case F_TRANCONFIG_PTR: return ch->tc_ptr;
    case F_DATA_PTR:       return ch->data_ptr;
    case F_BYTECOUNT_PTR:  return ch->bc_ptr;
    case F_COUNT:          return count_of(ch);
    case F_TRANSEL:        return ch->transel;
    case F_INTMSK:         return ch->intmsk;
    case F_CTRLINTMSK:     return part.ctrlintmsk;
    case F_ENDED:          return ch->ended;
    case F_KEY:            return ch->key;
    case F_CTRL_KEY:       return part.key;
    case F_BE:             return part.be;
    case F_UFM:            return ch->kind == UFM;
    case F_STO:            return ch->sto;
    case FIELDS:           break;
    }
    return 0;
}

/* ---- Files ------------------------------------------------------------- */

enum { TABLE = 256 };

static uint8_t file[LONGEST_BUFFER];
static unsigned file_n;
static uint8_t addresses[TABLE], lengths[TABLE];

static unsigned sum_of(unsigned count)
{
    unsigned sum = 0;
    for (unsigned t = 0; t < count; t++)
        sum += lengths[t];
    return sum;
}

static void random_bytes(uint8_t *bytes, unsigned n)
{
    for (unsigned i = 0; i < n; i++)
        bytes[i] = (uint8_t)below(256);
}

/* Of the first count of addresses and lengths */
static void make_file(unsigned count)
{
    struct header h = header_for(count, sum_of(count));
    put_header(file, &h);
    memcpy(file + h.of[H_ADDRESSES], addresses, count);
    memcpy(file + h.of[H_LENGTHS], lengths, count);
    random_bytes(file + h.of[H_DATA], h.of[H_BYTES]);
    file_n = h.of[H_FILE];
}

static unsigned any_count(void)
{
    switch (below(16)) {
    case 0: case 1: return 0;
    case 2: case 3: return 1;
    case 4:         return between(62, ENTRIES);
    case 5:         return between(7, ENTRIES);
    default:        return between(2, 6);
    }
}

/* They fit in the buffer, and mostly are short. */
static void any_lengths(unsigned count)
{
    unsigned longest = one_in(8) ? 0 : one_in(12) ? 255 : between(1, 5);
    random_bytes(addresses, count);
    for (unsigned t = 0; t < count; t++) {
        lengths[t] = (uint8_t)(one_in(5) ? 0 : below(longest + 1));
        if (sum_of(t + 1) > BUFFER)
            lengths[t] = 0;
    }
}

static void exact_lengths(unsigned count, unsigned sum)
{
    random_bytes(addresses, count);
    memset(lengths, 0, sizeof lengths);
    spread(lengths, count, sum);
}

static void good_file(void)
{
    unsigned count = any_count();
    if (one_in(25)) {
        count = one_in(3) ? ENTRIES : between(18, ENTRIES);
        exact_lengths(count, BUFFER - below(3) / 2);
    } else {
        any_lengths(count);
    }
    make_file(count);
}

/* A few short transactions, none of them empty */
static void short_file(void)
{
    unsigned count = between(1, 4);
    random_bytes(addresses, count);
    for (unsigned t = 0; t < count; t++)
        lengths[t] = (uint8_t)between(1, 3);
    make_file(count);
}

static void set_number(unsigned i, unsigned value)
{
    file[2 * i] = (uint8_t)(value & 0xFF);
    file[2 * i + 1] = (uint8_t)(value >> 8 & 0xFF);
}

static void add_to(unsigned i, unsigned more)
{
    set_number(i, number_at(file, i) + more);
}

static void insert(unsigned at, unsigned n)
{
    memmove(file + at + n, file + at, file_n - at);
    random_bytes(file + at, n);
    file_n += n;
}

/* One byte of the header */
static void spoil_header(void)
{
    unsigned k = below(HEADER);
    switch (below(4)) {
    case 0:  file[k]++; break;
    case 1:  file[k]--; break;
    case 2:  file[k] ^= (uint8_t)(1u << below(8)); break;
    default: file[k] ^= (uint8_t)between(1, 255); break;
    }
}

static void cut_file(void)
{
    unsigned at = number_at(file, H_LENGTHS + below(2));
    switch (below(7)) {
    case 0:  file_n--; break;
    case 1:  file_n = below(HEADER); break;
    case 2:  file_n = one_in(2) ? HEADER : 0; break;
    case 3:  file_n = at - (unsigned)one_in(2); break;
    default: file_n = below(file_n); break;
    }
}

static void lengthen_file(void)
{
    unsigned more = one_in(2) ? 1 : one_in(30) ? LONGEST_BUFFER - file_n
                                               : between(2, 20);
    if (file_n + more > LONGEST_BUFFER)
        return;
    if (one_in(2))
        random_bytes(file + file_n, more);
    else
        memset(file + file_n, 0, more);
    file_n += more;
}

/* A header that fits the file's length, but not its lengths */
static void spoil_data_count(void)
{
    unsigned count = number_at(file, H_COUNT), bytes = number_at(file, H_BYTES);
    unsigned more = between(1, 3);
    if (count > 0 && one_in(2)) {
        uint8_t *length = file + number_at(file, H_LENGTHS) + below(count);
        *length = (uint8_t)(one_in(2) ? *length + more : *length - more);
    } else if (bytes >= more && one_in(2)) {
        add_to(H_BYTES, 0u - more);
        add_to(H_FILE, 0u - more);
        file_n -= more;
    } else if (file_n + more <= LONGEST_BUFFER) {
        add_to(H_BYTES, more);
        add_to(H_FILE, more);
        insert(file_n, more);
    }
}

/* Lengths above 4,352, and a header that fits them, or 4,352 bytes */
static void file_above(void)
{
    unsigned count = between(18, 40), more = one_in(2) ? 1 : between(1, 60);
    exact_lengths(count, BUFFER + more);
    make_file(count);
    if (one_in(3)) {
        file_n -= more;
        set_number(H_BYTES, BUFFER);
        set_number(H_FILE, file_n);
    }
}

static void file_of_many(void)
{
    unsigned count = one_in(2) ? ENTRIES + 1 : between(66, TABLE - 1);
    exact_lengths(count, one_in(4) ? 0 : below(200));
    make_file(count);
}

/* A gap before a block or at the end, and the offsets behind it moved */
static void make_gap(void)
{
    unsigned before = between(H_ADDRESSES, H_FILE), gap = between(1, 3);
    if (file_n + gap > LONGEST_BUFFER)
        return;
    insert(number_at(file, before), gap);
    for (unsigned i = before; i < NUMBERS; i++)
        add_to(i, gap);
}

/* Numbers the other way round, or two of them exchanged */
static void mix_header(void)
{
    unsigned i = below(NUMBERS), j = below(NUMBERS), other = number_at(file, i);
    if (one_in(2)) {
        for (unsigned k = 0; k < NUMBERS; k++)
            set_number(k, file[2 * k] * 256u + file[2 * k + 1]);
        return;
    }
    set_number(i, number_at(file, j));
    set_number(j, other);
}

static void bad_file(void)
{
    good_file();
    switch (below(24)) {
    case 0: case 1: case 2: case 3: case 4: case 5: case 6: case 7:
        spoil_header();
        break;
    case 8: case 9: case 10: case 11: case 12:
        cut_file();
        break;
    case 13: case 14: case 15:
        lengthen_file();
        break;
    case 16: case 17:
        spoil_data_count();
        break;
    case 18:
        file_above();
        break;
    case 19:
        file_of_many();
        break;
    case 20: case 21:
        make_gap();
        break;
    case 22:
        mix_header();
        break;
    default:
        file_n = one_in(4) ? below(HEADER) : below(40);
        random_bytes(file, file_n);
        break;
    }
}

/* ---- Calls on files ---------------------------------------------------- */

static unsigned wrong_memory(unsigned right)
{
    switch (below(8)) {
    case 0: case 1: return right - 1;
    case 2: case 3: return right + 1;
    case 4:         return right + BEYOND;
    case 5:         return 0;
    case 6:         return right == MEMORY ? BUFFER : MEMORY;
    default:        return below(65536);
    }
}

static int file_call(int writing, unsigned c, const uint8_t *bytes, unsigned n)
{
    int alone = one_in(3);
    unsigned right = alone ? BUFFER : MEMORY;
    unsigned lent = one_in(20) ? wrong_memory(right) : right;
    unsigned channel = c;
    if (alone)
        channel += CHANNELS * (one_in(2) ? 0 : below(85));
    else if (one_in(20))
        channel = one_in(2) ? between(3, 5) : between(3, 255);
    return emit(alone ? writing ? C_SAVE_ALONE : C_LOAD_ALONE
                      : writing ? C_SAVE : C_LOAD,
                channel, lent, 0, bytes, n);
}

/* The length of the channel's file, or of an output where it has none */
static unsigned length_now(unsigned c)
{
    const struct channel *ch = &part.ch[c];
    unsigned length;
    if (count_of(ch) > ENTRIES)
        return HEADER;
    length = header_for(count_of(ch), configured(ch)).of[H_FILE];
    return length < LONGEST_BUFFER ? length : LONGEST_BUFFER;
}

static unsigned any_room(unsigned c)
{
    unsigned length = length_now(c), more = 1;
    switch (below(16)) {
    case 0: case 1: case 2: return length - 1;
    case 3:                 return 0;
    case 4:                 return below(HEADER + 1);
    case 5:                 return below(length);
    case 6:                 return one_in(4) ? LONGEST_BUFFER : length;
    case 7: case 8:         more = between(2, 40); break;
    case 9: case 10:        break;
    default:                return length;
    }
    return length + more < LONGEST_BUFFER ? length + more : LONGEST_BUFFER;
}

static int save_into(unsigned c, unsigned room)
{
    static uint8_t output[LONGEST_BUFFER];
    random_bytes(output, room);
    return file_call(1, c, output, room);
}

static int save(unsigned c)
{
    return save_into(c, any_room(c));
}

static int load(unsigned c)
{
    return file_call(0, c, file, file_n);
}

static void load_any(unsigned c)
{
    if (one_in(2))
        good_file();
    else
        bad_file();
    load(c);
}

static void any_file_call(unsigned c)
{
    if (one_in(2))
        load_any(c);
    else
        save(c);
}

/* ---- States ------------------------------------------------------------ */

static unsigned any_channel(void)
{
    return below(CHANNELS);
}

static void make_idle(unsigned c)
{
    if (is_active(&part.ch[c]))
        event(c, "ILL");
}

/* Until it is loaded: a call may be one of those that are refused. */
static void load_good(unsigned c)
{
    make_idle(c);
    while (made < wanted && load(c) != OK)
        ;
}

/* TRANSEL 0 and the pointers as after a reset */
static void reset_pointers(unsigned c)
{
    write_of(c, R_TRANSEL, 0);
    write_of(c, R_CONTROL, AIPTRRST);
}

static void set_count(unsigned c, unsigned count)
{
    if (one_in(2)) {
        poke_at(c, F_COUNT, count);
        return;
    }
    reset_pointers(c);
    write_of(c, R_TRANCONFIG, count);
}

static void move_pointers(unsigned c)
{
    for (unsigned i = between(1, 6); i > 0; i--)
        switch (below(8)) {
        case 0: read_of(c, R_SLATABLE); break;
        case 1: read_of(c, R_TRANCONFIG); break;
        case 2: read_of(c, R_BYTECOUNT); break;
        case 3: read_of(c, R_DATA); break;
        case 4: write_of(c, R_TRANSEL, below(6)); break;
        case 5: write_of(c, R_TRANOFS, below(6)); break;
        case 6: write_of(c, R_SLATABLE, below(256)); break;
        default:
            poke_at(c, below(F_BYTECOUNT_PTR + 1), one_in(3) ? 64 : below(65));
            break;
        }
}

static void change_settings(unsigned c)
{
    static const uint8_t masks[] = { 0x00, 0x20, 0x30, 0x31, 0xF1, 0xC0 };
    for (unsigned i = between(1, 5); i > 0; i--)
        switch (below(8)) {
        case 0: write_of(c, R_INTMSK, masks[below(sizeof masks)]); break;
        case 1: write_of(c, R_FRAMECNT, below(4)); break;
        case 2: write_of(c, between(R_REFRATE, R_TIMEOUT), below(256)); break;
        case 3: write_of(c, R_CONTROL, below(4) * TE | below(2) * BPTRRST);
                break;
        case 4: write_at(R_CTRLINTMSK, one_in(2) ? 0 : any_byte()); break;
        case 5: poke_at(c, F_BE, below(2)); break;
        case 6: read_at(R_CTRLSTATUS); break;
        default: read_of(c, R_CHSTATUS); break;
        }
}

/* Entries and bytes behind the count and the sum */
static void leave_behind(unsigned c)
{
    unsigned count = between(4, 12);
    any_lengths(count);
    lengths[count - 1] = (uint8_t)between(1, 9);
    make_file(count);
    load_good(c);
    set_count(c, below(count));
}

/* Lengths that sum above 4,352: no file brings them. */
static void go_above(unsigned c)
{
    unsigned count = one_in(3) ? ENTRIES : between(18, 24);
    exact_lengths(count, BUFFER - below(2));
    make_file(count);
    load_good(c);
    poke_at(c, F_TRANCONFIG_PTR, between(1, count));
    if (one_in(2)) {    /* just above, or far */
        unsigned at = part.ch[c].tc_ptr;
        if (at > ENTRIES || part.ch[c].tranconfig[at] >= 253)
            return;
        write_of(c, R_TRANCONFIG, part.ch[c].tranconfig[at] + between(1, 2));
        return;
    }
    for (unsigned i = between(1, 8); i > 0; i--)
        write_of(c, R_TRANCONFIG, 255);
}

/* By hand: tables and some data */
static void type_tables(unsigned c)
{
    unsigned count = between(0, 5);
    any_lengths(count + 2);
    make_idle(c);
    reset_pointers(c);
    write_of(c, R_TRANCONFIG, count);
    for (unsigned t = 0; t < count + below(3); t++)
        write_of(c, R_TRANCONFIG, lengths[t]);
    for (unsigned t = 0; t < count + below(3); t++)
        write_of(c, R_SLATABLE, addresses[t]);
    for (unsigned i = below(8); i > 0; i--)
        write_of(c, R_DATA, below(256));
}

static void read_back(unsigned c)
{
    for (unsigned i = between(1, 4); i > 0; i--)
        switch (below(10)) {
        case 0:  read_of(c, R_CONTROL); break;
        case 1:  read_of(c, R_TRANSEL); break;
        case 2:  read_of(c, R_TRANOFS); break;
        case 3:  read_of(c, R_BYTECOUNT); break;
        case 4:  read_at(64 * c + below(4)); break;
        case 5:  read_of(c, R_SLATABLE); break;
        case 6:  read_of(c, R_DATA); break;
        default: read_of(c, R_TRANCONFIG); break;
        }
}

/* ---- Frames ------------------------------------------------------------ */

static void start(unsigned c)
{
    unsigned control = STA;
    write_of(c, R_FRAMECNT, below(4));
    if (one_in(3))
        control |= TE;
    if (one_in(3))
        control |= TP;
    write_of(c, R_CONTROL, control);
}

static void feed_waiting(unsigned c)
{
    const struct channel *ch = &part.ch[c];
    if (one_in(4) || (!ch->te && ch->framecnt == 1))
        write_of(c, R_CONTROL, one_in(2) ? STO : STOSEQ);
    else if (ch->te)
        line(ch->tp ? "T F" : "T R");
    else
        event(c, "TICK");
}

/* An event that is awaited */
static void feed(unsigned c)
{
    const struct channel *ch = &part.ch[c];
    switch (ch->phase) {
    case ADDRESS: case SENDING:
        if (ch->kind == UFM)
            event(c, "SENT");
        else
            event(c, one_in(10) ? "NACK" : "ACK");
        break;
    case RECEIVING:
        event(c, one_in(2) ? "BYTE 5A" : "BYTE C3");
        break;
    case STOPPING:
        event(c, "STOP");
        break;
    case WAITING:
        feed_waiting(c);
        break;
    }
}

/* ---- Scenes ------------------------------------------------------------ */

/* Calls on files while a sequence runs; other channels may be active too. */
static void scene_run(unsigned c)
{
    short_file();
    load_good(c);
    if (one_in(2))
        change_settings(c);
    start(c);
    for (unsigned i = between(4, 30); i > 0; i--) {
        if (one_in(40))
            write_of(c, R_CONTROL, STO);
        if (one_in(3))
            any_file_call(c);
        else if (one_in(12))
            read_back(c);
        else
            feed(c);
    }
    if (one_in(2))
        make_idle(c);
}

/* A frame to its end, so that STATUS, BYTECOUNT and CHSTATUS are there */
static void scene_over(unsigned c)
{
    short_file();
    load_good(c);
    start(c);
    for (unsigned i = 0; i < 40 && is_active(&part.ch[c]); i++)
        feed(c);
    make_idle(c);
    move_pointers(c);
    load_any(c);
    read_back(c);
}

static void scene_files(unsigned c)
{
    make_idle(c);
    for (unsigned i = between(4, 16); i > 0; i--) {
        if (one_in(3))
            move_pointers(c);
        if (one_in(3))
            change_settings(c);
        any_file_call(c);
        if (one_in(4))
            read_back(c);
    }
}

static void scene_behind(unsigned c)
{
    leave_behind(c);
    if (one_in(2))
        move_pointers(c);
    if (one_in(2))
        save(c);
    load_any(c);
    read_back(c);
}

static void scene_above(unsigned c)
{
    go_above(c);
    for (unsigned i = between(2, 4); i > 0; i--)
        save_into(c, one_in(2) ? length_now(c) : any_room(c));
    load_any(c);
}

static void scene_typed(unsigned c)
{
    type_tables(c);
    for (unsigned i = between(1, 4); i > 0; i--)
        save(c);
    read_back(c);
}

/* A key before a call on a file, and its 5Ah after it */
static void scene_keys(unsigned c)
{
    unsigned address = one_in(3) ? R_CTRLPRESET : preset_of(any_channel());
    make_idle(c);
    if (one_in(3)) {    /* more than one: no run leads there */
        poke_at(any_channel(), F_KEY, 1);
        poke_at(any_channel(), F_KEY, 1);
        poke_at(c, F_CTRL_KEY, below(2));
    } else {
        write_at(address, 0xA5);
    }
    for (unsigned i = between(1, 4); i > 0; i--)
        any_file_call(one_in(4) ? any_channel() : c);
    if (one_in(2))
        write_at(address, 0x5A);
    read_back(c);
}

/* There and back: into a channel, out of it, into another one */
static void scene_trips(unsigned c)
{
    unsigned other = (c + between(1, 2)) % CHANNELS;
    good_file();
    load_good(c);
    if (one_in(3))
        read_back(c);
    if (save_into(c, length_now(c) + (one_in(2) ? 0 : below(3))) != OK)
        return;
    file_n = number_at(now.buffer, H_FILE);
    memcpy(file, now.buffer, file_n);
    make_idle(other);
    load(other);
    save(other);
}

/* Every channel is active: one above 2 is no. 1 all the same. */
static void scene_all_active(void)
{
    for (unsigned c = 0; c < CHANNELS; c++)
        if (!is_active(&part.ch[c]))
            write_of(c, R_CONTROL, STA | TE);
    for (unsigned i = between(2, 6); i > 0; i--) {
        unsigned c = between(3, 255);
        if (one_in(2)) {
            one_in(2) ? good_file() : bad_file();
            emit(C_LOAD, c, MEMORY - (unsigned)one_in(4), 0, file, file_n);
        } else {
            emit(C_SAVE, c, MEMORY - (unsigned)one_in(4), 0, file,
                 one_in(2) ? 0 : below(40));
        }
        any_file_call(any_channel());
    }
    for (unsigned c = 0; c < CHANNELS; c++)
        if (one_in(2))
            make_idle(c);
}

static void run_into_frame(unsigned c)
{
    short_file();
    load_good(c);
    start(c);
    for (unsigned i = below(8); i > 0; i--)
        feed(c);
}

/* One past the last place, one whose low byte is in range, or any */
static unsigned pointer_out(unsigned last)
{
    switch (below(4)) {
    case 0:  return (last / 256 + 1) * 256 + below(65);
    case 1:  return between(last + 1, 65535);
    default: return last + 1;
    }
}

/* A value that is out of range in the channel as it is, for most fields */
static unsigned value_out(unsigned c, enum field field)
{
    const struct channel *ch = &part.ch[c];
    switch (field) {
    case F_SLATABLE_PTR: case F_BYTECOUNT_PTR:
        return pointer_out(ENTRIES);
    case F_TRANCONFIG_PTR:
        return pointer_out(ENTRIES + 1);
    case F_DATA_PTR:
        return pointer_out(BUFFER);
    case F_COUNT:
        if (ch->phase >= ADDRESS && ch->phase <= RECEIVING && !one_in(4))
            return below(ch->tran + 1u);    /* its transaction is gone */
        return one_in(2) ? 65 : between(65, 255);
    case F_TRANSEL:
        return one_in(2) ? 64 : between(64, 255);
    case F_INTMSK:
        return ch->intmsk | 2u << below(3);
    case F_CTRLINTMSK:
        return part.ctrlintmsk | 8u << below(4);
    case F_ENDED:
        return one_in(2) && ch->framecnt > 0 ? ch->framecnt : between(1, 255);
    default:
        return !field_at(c, field);
    }
}

/* Out of range, and back again */
static void scene_out(void)
{
    static const uint8_t fields[] = {
        F_SLATABLE_PTR, F_TRANCONFIG_PTR, F_DATA_PTR, F_BYTECOUNT_PTR, F_COUNT,
        F_COUNT, F_COUNT, F_TRANSEL, F_INTMSK, F_CTRLINTMSK, F_ENDED, F_UFM,
        F_STO
    };
    static const char *const lines[] = {
        "R F0", "W C0 02", "E 3 ACK", "T R", "W F7 A5", "E 0 ILL", "X",
        "X 9669", "", "X 9663", "W C0", "R C1", "W F9 00"
    };
    unsigned c = any_channel(), value;
    enum field field = fields[below(sizeof fields)];
    if (one_in(4)) {
        run_into_frame(c);
        field = one_in(2) ? F_COUNT : field;
    } else if (!one_in(4)) {
        make_idle(c);
    }
    if (one_in(6))      /* SSE, which no bit of INTMSK masks */
        event(c, "ILL");
    value = field_at(c, field);
    poke_at(c, field, value_out(c, field));
    for (unsigned i = between(1, 5); i > 0; i--)
        if (one_in(4))
            line(lines[below(sizeof lines / sizeof *lines)]);
        else
            any_file_call(one_in(3) ? any_channel() : c);
    poke_at(c, field, value);
    if (one_in(2))
        line(lines[below(6)]);
    any_file_call(c);
}

/* The values just in range */
static void scene_edge(unsigned c)
{
    static const uint8_t fields[] = {
        F_SLATABLE_PTR, F_BYTECOUNT_PTR, F_TRANCONFIG_PTR, F_DATA_PTR, F_TRANSEL
    };
    static const uint16_t edges[] = { 64, 64, 65, 4352, 63 };
    make_idle(c);
    for (unsigned i = between(1, 4); i > 0; i--) {
        unsigned k = below(5);
        poke_at(c, fields[k], edges[k]);
        any_file_call(c);
    }
    read_back(c);
}

static void scene_noise(void)
{
    static const char *const names[] = {
        "ACK", "NACK", "SENT", "TICK", "STOP", "SDA", "SCL", "ILL", "BYTE 11"
    };
    for (unsigned i = between(1, 8); i > 0; i--)
        switch (below(5)) {
        case 0:  read_at(below(256)); break;
        case 1:  write_at(one_in(4) ? below(256) : between(0xC0, 0xFF),
                          any_byte()); break;
        case 2:  event(below(4), names[below(9)]); break;
        case 3:  line(one_in(2) ? "T R" : "T F"); break;
        default: line(one_in(2) ? "" : "W C0 4a"); break;
        }
}

static void scene(void)
{
    unsigned c = any_channel();
    switch (below(32)) {
    case 0: case 1: case 2: case 3: case 4:
        scene_run(c);
        break;
    case 5: case 6:
        scene_over(c);
        break;
    case 7: case 8: case 9: case 10: case 11:
        scene_files(c);
        break;
    case 12: case 13:
        scene_behind(c);
        break;
    case 14:
        scene_above(c);
        break;
    case 15:
        scene_typed(c);
        break;
    case 16: case 17: case 18:
        scene_keys(c);
        break;
    case 19: case 20:
        scene_trips(c);
        break;
    case 21:
        scene_all_active();
        break;
    case 22: case 23: case 24: case 25: case 26: case 27: case 28:
        scene_out();
        break;
    case 29:
        scene_edge(c);
        break;
    case 30:
        scene_noise();
        break;
    default:
        if (one_in(2))
            emit(C_NEW, below(3), 0, 0, "", 0);
        else
            line(one_in(2) ? "X" : "X 9669");
        break;
    }
}

int main(int argc, char **argv)
{
    if (argc != 3) {
        fprintf(stderr, "usage: generate-calls SEED CALLS\n");
        return 1;
    }
    seed_random(strtoull(argv[1], NULL, 10));
    wanted = strtoull(argv[2], NULL, 10);
    reset_part(&part, PCA9663);
    while (made < wanted)
        scene();
    return fflush(stdout) == 0 ? 0 : 1;
}

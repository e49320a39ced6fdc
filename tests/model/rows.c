/*
 * Calls as rows of text; files.txt says how a row is written. Of such rows on
 * standard input, `rows calls` gives the calls in the form of calls.c, and
 * `rows want` the first five columns of the answers that they have to get, a
 * tab, and the row. Of calls there, `rows text` gives rows without answers.
 */
#define CALLS_NO_MAIN
#include "calls.c"

enum { LONGEST_SHEET = 1 << 17, WORDS = 40, WORD = 16 };

static unsigned row;        /* its number in the sheet */

static _Noreturn void bad_row(const char *what)
{
    fprintf(stderr, "row %u: %s\n", row, what);
    exit(1);
}

/* ---- Bytes ------------------------------------------------------------- */

/* A name for bytes that come often */
static struct word {
    char name[WORD];
    uint8_t bytes[LONGEST_BUFFER];
    unsigned n;
} words[WORDS];

static unsigned words_n;

static unsigned long decimal(char **s)
{
    char *end;
    unsigned long x = strtoull(*s, &end, 10);
    if (end == *s)
        bad_row("a number is missing");
    *s = end;
    return x;
}

static char *skip_blanks(char *s)
{
    while (*s == ' ')
        s++;
    return s;
}

static void add_fill(uint8_t *to, unsigned *n, uint8_t byte, unsigned times)
{
    if (times > LONGEST_BUFFER - *n)
        bad_row("more bytes than a buffer has");
    memset(to + *n, byte, times);
    *n += times;
}

static void add_word(uint8_t *to, unsigned *n, const char *s, size_t length)
{
    for (unsigned i = 0; i < words_n; i++)
        if (strlen(words[i].name) == length
            && memcmp(words[i].name, s, length) == 0) {
            if (words[i].n > LONGEST_BUFFER - *n)
                bad_row("more bytes than a buffer has");
            memcpy(to + *n, words[i].bytes, words[i].n);
            *n += words[i].n;
            return;
        }
    bad_row("a word for bytes that isn't there");
}

/* Hex bytes, fills such as 00*12, and words, up to the end */
static unsigned parse_bytes(char *s, uint8_t *to)
{
    unsigned n = 0;
    while (*(s = skip_blanks(s)) != '\0') {
        size_t length = 0;
        int byte;
        while (s[length] != ' ' && s[length] != '\0')
            length++;
        byte = length >= 2 ? hex_byte((const uint8_t *)s) : -1;
        if (byte >= 0 && (length == 2 || s[2] == '*')) {
            unsigned long times = 1;
            s += 2;
            if (*s == '*') {
                s++;
                times = decimal(&s);
            }
            add_fill(to, &n, (uint8_t)byte, (unsigned)times);
        } else {
            add_word(to, &n, s, length);
            s += length;
        }
    }
    return n;
}

/* ---- Rows -------------------------------------------------------------- */

static int begins(const char *s, const char *with)
{
    return strlen(s) >= strlen(with) && memcmp(s, with, strlen(with)) == 0;
}

/* The calls on files, in the order of their numbers */
static const char *const files[] = {
    "load ", "save ", "load-alone ", "save-alone "
};

/* "c: BYTES" or "c of MEMORY: BYTES" */
static void parse_file_call(struct call *call, enum what what, char *s)
{
    call->what = (uint8_t)what;
    call->number = is_alone(call) ? BUFFER : MEMORY;
    call->channel = (uint8_t)decimal(&s);
    if (begins(s, " of ")) {
        s += 4;
        call->number = (unsigned)decimal(&s);
    }
    if (*s++ != ':')
        bad_row("a colon is missing");
    call->n = parse_bytes(s, call->buffer);
}

static void parse_poke(struct call *call, char *s)
{
    call->what = C_POKE;
    call->channel = (uint8_t)decimal(&s);
    call->number = (unsigned)decimal(&s);
    call->value = (unsigned)decimal(&s);
}

static void parse_call(struct call *call, char *s)
{
    memset(call, 0, sizeof *call);
    for (unsigned i = 0; i < WHATS - C_LOAD; i++)
        if (begins(s, files[i])) {
            parse_file_call(call, C_LOAD + i, s + strlen(files[i]));
            return;
        }
    if (begins(s, "poke ")) {
        parse_poke(call, s + 5);
    } else if (begins(s, "new ")) {
        call->what = C_NEW;
        call->channel = begins(s + 4, "9669");
    } else {
        call->what = C_LINE;
        call->n = (unsigned)strlen(s);
        memcpy(call->buffer, s, call->n);
    }
}

/* What stands before the next bar, without the blank in front of that; the rest
 * goes on behind it, or is NULL */
static char *cut_at_bar(char *s, char **rest)
{
    size_t n = 0;
    while (s[n] != '\0' && s[n] != '|')
        n++;
    *rest = s[n] == '|' ? skip_blanks(s + n + 1) : NULL;
    s[n] = '\0';
    while (n > 0 && s[n - 1] == ' ')
        s[--n] = '\0';
    return s;
}

static void give(const struct call *call, const char *answer, uint64_t sum,
                 const char *text, int want)
{
    static uint64_t calls;
    if (want)
        fprintf(stdout, "%lu %s %lu\t%u: %s\n", ++calls, answer, sum, row,
                text);
    else
        put_call(call);
}

/* "CALL | number value INT", and "| BYTES" where the buffer is another one
 * afterwards */
static void run_row(char *s, int want)
{
    static struct call call;
    static uint8_t after[LONGEST_BUFFER];
    char *answer, *left, *text;
    unsigned long times = 1;
    uint64_t sum;
    if (s[0] >= '0' && s[0] <= '9') {
        times = decimal(&s);
        if (!begins(s, "* "))
            bad_row("a call begins with a digit");
        s += 2;
    }
    text = cut_at_bar(s, &answer);
    if (answer == NULL)
        bad_row("a bar is missing");
    answer = cut_at_bar(answer, &left);
    parse_call(&call, s);
    sum = add_bytes(1, call.buffer, call.n);
    if (left != NULL) {
        if (parse_bytes(left, after) != call.n)
            bad_row("another number of bytes afterwards");
        sum = add_bytes(1, after, call.n);
    }
    while (times-- > 0)
        give(&call, answer, sum, text, want);
}

/* "let NAME BYTES" */
static void add_let(char *s)
{
    struct word *w = &words[words_n];
    unsigned i = 0;
    if (words_n == WORDS)
        bad_row("too many words");
    while (*s != ' ' && *s != '\0' && i < WORD - 1)
        w->name[i++] = *s++;
    w->n = parse_bytes(s, w->bytes);
    words_n++;
}

/* "= NAME": the part is new */
static void begin_part(const char *name, int want)
{
    static struct call call;
    call.what = C_NEW;
    give(&call, "0 00 0", 1, name, want);
}

static void run_sheet_row(char *s, int want)
{
    if (*s == '#' || *s == '\0')
        return;
    if (begins(s, "= "))
        begin_part(s, want);
    else if (begins(s, "let "))
        add_let(s + 4);
    else
        run_row(s, want);
}

static void run_sheet(int want)
{
    static char sheet[LONGEST_SHEET];
    size_t n = fread(sheet, 1, sizeof sheet - 1, stdin), at = 0;
    if (n == sizeof sheet - 1)
        bad_row("the sheet is too long");
    while (at < n) {
        char *s = sheet + at;
        while (sheet[at] != '\n' && sheet[at] != '\0')
            at++;
        sheet[at++] = '\0';
        row++;
        run_sheet_row(s, want);
    }
}

/* ---- Calls as rows ----------------------------------------------------- */

static void print_bytes(const struct call *call)
{
    for (unsigned i = 0, times; i < call->n; i += times) {
        for (times = 1; i + times < call->n; times++)
            if (call->buffer[i + times] != call->buffer[i])
                break;
        fprintf(stdout, times > 1 ? " %02X*%u" : " %02X", call->buffer[i],
                times);
    }
}

static void print_call(const struct call *call)
{
    switch (call->what) {
    case C_LINE:
        fwrite(call->buffer, 1, call->n, stdout);
        break;
    case C_NEW:
        fprintf(stdout, "new %s", call->channel == 1 ? "9669" : "9663");
        break;
    case C_POKE:
        fprintf(stdout, "poke %u %u %u", call->channel, call->number,
                call->value);
        break;
    default:
        fprintf(stdout, "%s%u of %u:", files[call->what - C_LOAD],
                call->channel, call->number);
        print_bytes(call);
        break;
    }
    putchar('\n');
}

int main(int argc, char **argv)
{
    static struct call call;
    if (argc == 2 && is_text((uint8_t *)argv[1], strlen(argv[1]), "text")) {
        while (next_call(&call))
            print_call(&call);
    } else if (argc == 2) {
        run_sheet(argv[1][0] == 'w');
    } else {
        fprintf(stderr, "usage: rows calls|want < SHEET, or rows text\n");
        return 1;
    }
    return fflush(stdout) == 0 ? 0 : 1;
}

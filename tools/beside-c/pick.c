/* pick, newfile and check once more, written by hand in C11 with the standard library alone: what the proved ones are measured beside.
 *
 * It has the same limits, checks and answers, and nothing is proved of it. It is meant to be what a good programmer would ordinarily write:
 * every record is judged by itself once, places and routes are found by binary search, and the routes of the log by a hash.
 *
 * Reads frozen.txt, log.txt and want.txt in the current folder. Which of the three it is goes by the end of argv[0], or by a first
 * argument `pick`, `newfile` or `check`.
 */
#include <stdbool.h>
#include <stdint.h>
#include <stdio.h>
#include <stdlib.h>
#include <string.h>

enum {
    REC = 132, LINE = 133, MAX_RECS = 480, MAX_FILE = MAX_RECS * LINE,
    MAX_LOG = 60000, MAX_CORR = 200, MAX_LINES = MAX_LOG / (REC + 3), MAX_WANT = 800,
    KEY = 25, /* a route is columns 1-25 */
    SLOTS = 1024
};

typedef struct { int number, place, column; } Refusal; /* number 0: accepted */
#define OK ((Refusal){0, 0, 0})
#define NO(n, p, c) ((Refusal){(n), (p), (c)})

/* ---- one record: stages 3, 4, 5 */

enum { /* sets of bytes, as bits of cls[] */
    BLANK = 1 << 0, DIGIT = 1 << 1, UPPER = 1 << 2, MINUS = 1 << 3, PRINT = 1 << 4, S_T = 1 << 5, IS_P = 1 << 6, D_E_F = 1 << 7,
    ZERO_ONE = 1 << 8, DESC_1 = 1 << 9, DESC_2 = 1 << 10, DESC_3 = 1 << 11, DESC_4 = 1 << 12, TURN = 1 << 13, IS_Y = 1 << 14,
    ALT_DESC = 1 << 15, ATC = 1 << 16, APPL = 1 << 17,
    ALNUM = UPPER | DIGIT, TEXTUAL = ALNUM | MINUS
};

static const struct { uint32_t set; const char *bytes; } set_bytes[] = {
    {BLANK, " "}, {DIGIT, "0123456789"}, {UPPER, "ABCDEFGHIJKLMNOPQRSTUVWXYZ"}, {MINUS, "-"}, {S_T, "ST"}, {IS_P, "P"}, {D_E_F, "DEF"},
    {ZERO_ONE, "01"}, {DESC_1, "AEFGHNPRTV"}, {DESC_2, "BEUY"}, {DESC_3, "ABCGMPS"}, {DESC_4, "ABCDEFHIM"}, {TURN, "LRE"}, {IS_Y, "Y"},
    {ALT_DESC, "+-BCGHIJV"}, {ATC, "AS"}, {APPL, "PS"},
};

typedef enum { SET, TEXT, PROCEDURE, ROUTE_TYPE, SEQUENCE, TERMINATOR, ANGLE, COURSE, DISTANCE, ALTITUDE, VERTICAL, CYCLE } Kind;
typedef struct { uint8_t column, width, kind; bool may_be_blank; uint32_t set; } Field;

static const Field head[] = {
    {1, 1, SET, 0, S_T}, {2, 3, TEXT, 0, 0}, {5, 1, SET, 0, IS_P}, {6, 1, SET, 0, BLANK}, {7, 4, TEXT, 0, 0}, {11, 2, SET, 0, ALNUM},
    {13, 1, SET, 0, D_E_F}, {14, 6, PROCEDURE, 0, 0}, {20, 1, ROUTE_TYPE, 0, 0}, {21, 5, TEXT, 1, 0}, {26, 1, SET, 0, BLANK},
    {27, 3, SEQUENCE, 0, 0}, {30, 5, TEXT, 1, 0}, {35, 2, SET, 1, ALNUM}, {37, 1, SET, 1, UPPER}, {38, 1, SET, 1, ALNUM},
};
static const Field primary_body[] = {
    {39, 1, SET, 0, ZERO_ONE}, {40, 1, SET, 1, DESC_1}, {41, 1, SET, 1, DESC_2}, {42, 1, SET, 1, DESC_3}, {43, 1, SET, 1, DESC_4},
    {44, 1, SET, 1, TURN}, {45, 3, SET, 1, DIGIT}, {48, 2, TERMINATOR, 0, 0}, {50, 1, SET, 1, IS_Y}, {51, 4, TEXT, 1, 0},
    {55, 2, SET, 1, ALNUM}, {57, 6, SET, 1, DIGIT}, {63, 4, ANGLE, 1, 0}, {67, 4, SET, 1, DIGIT}, {71, 4, COURSE, 1, 0},
    {75, 4, DISTANCE, 1, 0}, {79, 1, SET, 1, UPPER}, {80, 1, SET, 1, ALNUM}, {81, 2, SET, 0, BLANK}, {83, 1, SET, 1, ALT_DESC},
    {84, 1, SET, 1, ATC}, {85, 5, ALTITUDE, 1, 0}, {90, 5, ALTITUDE, 1, 0}, {95, 5, SET, 1, DIGIT}, {100, 3, SET, 1, DIGIT},
    {103, 4, VERTICAL, 1, 0}, {107, 5, TEXT, 1, 0}, {112, 1, SET, 1, ALNUM}, {113, 2, SET, 1, ALNUM}, {115, 1, SET, 1, UPPER},
    {116, 1, SET, 1, ALNUM}, {117, 1, SET, 1, ALNUM}, {118, 1, SET, 0, BLANK}, {119, 1, SET, 1, ALNUM}, {120, 1, SET, 1, ALNUM},
    {121, 3, SET, 0, BLANK},
};
static const Field continuation_body[] = {{40, 1, SET, 1, APPL}, {41, 83, SET, 0, PRINT}};
static const Field tail[] = {{124, 5, SET, 0, DIGIT}, {129, 4, CYCLE, 0, 0}};
#define COUNT(a) (int)(sizeof(a) / sizeof *(a))

/* Fields that a leg may need, by rising column: the bit is the place in this list. */
static const uint8_t need_column[] = {30, 44, 51, 57, 63, 67, 71, 75, 85, 90, 107};
enum { F = 1, T = 2, N = 4, X = 8, H = 16, R = 32, C = 64, D = 128, A = 256, A2 = 512, K = 1024 };

/* The terminators in the order of the standard, in which the tables of legs below have them too. */
static const struct { char name[3]; uint16_t needs; } terms[] = {
    {"AF", F | T | N | H | R | C}, {"CA", C | A}, {"CD", N | C | D}, {"CF", F | N | H | R | C | D}, {"CI", C}, {"CR", N | H | C}, {"DF", F},
    {"FA", F | N | H | R | C | A}, {"FC", F | N | H | R | C | D}, {"FD", F | N | H | R | C | D}, {"FM", F | N | H | R | C},
    {"HA", F | T | C | D | A}, {"HF", F | T | C | D}, {"HM", F | T | C | D}, {"IF", F}, {"PI", F | T | N | H | R | C | D | A},
    {"RF", F | T | D | X | K}, {"TF", F}, {"VA", C | A}, {"VD", N | C | D}, {"VI", C}, {"VM", C}, {"VR", N | H | C},
};

/* A line for each leg, with a cell for each that may (+) or may not (-) come behind it. */
static const char pairs[][24] = {
    "++++++++++++++-++++++++", /* AF */
    "+++++++-----------+++++", /* CA */
    "+++++++-----------+++++", /* CD */
    "++++++++++++++-++++++++", /* CF */
    "+++++++-----------+++++", /* CI */
    "+++++++-----------+++++", /* CR */
    "++++++++++++++-++++++++", /* DF */
    "+++++++-----------+++++", /* FA */
    "+++++++-----------+++++", /* FC */
    "+++++++-----------+++++", /* FD */
    "+++++++-----------+++++", /* FM */
    "++++++++++++++-++++++++", /* HA */
    "++++++++++++++-++++++++", /* HF */
    "++++++++++++++-++++++++", /* HM */
    "+++++++++++++++++++++++", /* IF */
    "+++++++-----------+++++", /* PI */
    "++++++++++++++-++++++++", /* RF */
    "++++++++++++++-++++++++", /* TF */
    "+++++++-----------+++++", /* VA */
    "+++++++-----------+++++", /* VD */
    "+++++++-----------+++++", /* VI */
    "+++++++-----------+++++", /* VM */
    "+++++++-----------+++++", /* VR */
};

/* The kinds of route: the subsection, its route types of this kind, and which legs may begin and which may end such a route. */
static const struct { char subsection; const char *types, *begins, *ends; } kinds[] = {
    {'D', "014FT", "-++++++++++-------+++++", "+--+--+---++-+---+---+-"},
    {'D', "25M", "-++++++++++---+---+++++", "+--+--+----+--+--+-----"},
    {'D', "36SV", "-------+++----+--------", "+--+--+----+-----+-----"},
    {'E', "147F", "--------++----+--------", "+--+--+----+-----+-----"},
    {'E', "258M", "--------++----+--------", "+--+--+---+---+--+---+-"},
    {'E', "369S", "--------++--+-+--------", "+--+------+-++---+---+-"},
    {'F', "A", "--------++--+-++-------", "+--++-------++-+++--+--"},
    {'F', "BEFGIJKLMNPRTUVWXY", "--------------+--------", "++-+--+---+--+---++--+-"},
    {'F', "Z", "++++++++++++-+--+-+++++", "++-+--+---+--+---++--+-"},
};
static const uint8_t companions[3][3] = {{30, 35, 37}, {51, 55, 79}, {107, 113, 115}};

static uint32_t cls[256];
static uint8_t term_at[26][26]; /* the place in terms[] and one more; 0: none */
static uint8_t kind_at[3][256]; /* the same in kinds[], by the subsection from D on and the route type */

static void init(void)
{
    for (int i = 0; i < COUNT(set_bytes); i++)
        for (const char *s = set_bytes[i].bytes; *s; s++) cls[(uint8_t)*s] |= set_bytes[i].set;
    for (int b = 32; b <= 126; b++) cls[b] |= PRINT;
    for (int i = 0; i < COUNT(terms); i++) term_at[terms[i].name[0] - 'A'][terms[i].name[1] - 'A'] = (uint8_t)(i + 1);
    for (int i = 0; i < COUNT(kinds); i++)
        for (const char *s = kinds[i].types; *s; s++) kind_at[kinds[i].subsection - 'D'][(uint8_t)*s] = (uint8_t)(i + 1);
}

/* A record, its stages 3 to 5 judged once. Of a good primary `leg` is the terminator's place in terms[]. */
typedef struct { const uint8_t *b; uint8_t number, column, leg; bool continuation, begins, ends; } Rec;

static bool continues(uint8_t number) { return (number >= '2' && number <= '9') || (number >= 'A' && number <= 'Z'); }

/* How many bytes from the first on are of a set. */
static int run(const uint8_t *p, int n, uint32_t set)
{
    int i = 0;
    while (i < n && cls[p[i]] & set) i++;
    return i;
}

/* How many bytes from the first on begin a number of n digits that is at most this one. */
static int run_to(const uint8_t *p, int n, const char *most)
{
    int i = 0;
    while (i < n && p[i] == most[i]) i++;
    return i < n && p[i] < most[i] ? i + run(p + i, n - i, DIGIT) : i;
}

static int term_of(const uint8_t *r) { return run(r + 47, 2, UPPER) == 2 ? term_at[r[47] - 'A'][r[48] - 'A'] - 1 : -1; }

static bool begins_term(uint8_t letter)
{
    for (int i = 0; i < COUNT(terms); i++)
        if (terms[i].name[0] == letter) return true;
    return false;
}

/* One cycle begins every 28 days, one of them on 1 January 1998: of the years 1980 to 2079 these four have a fourteenth. */
static bool has_fourteen(const uint8_t *year)
{
    for (const char *y = "98204365"; *y; y += 2)
        if (memcmp(year, y, 2) == 0) return true;
    return false;
}

/* How many bytes of a field begin legal content: all of them where it is good. */
static int begun(const uint8_t *r, const Field *f)
{
    const uint8_t *p = r + f->column - 1;
    int n = f->width, i;
    if (f->may_be_blank && p[0] == ' ') return run(p, n, BLANK);
    switch ((Kind)f->kind) {
    case SET: return run(p, n, f->set);
    case TEXT:
        i = run(p, n, TEXTUAL);
        return i > 0 ? i + run(p + i, n - i, BLANK) : 0;
    case PROCEDURE: return p[0] == ' ' ? 0 : run(p, n, TEXTUAL | BLANK);
    case ROUTE_TYPE: return kind_at[r[12] - 'D'][p[0]] != 0;
    case SEQUENCE: return memcmp(p, "000", 3) == 0 ? 2 : run(p, 3, DIGIT);
    case TERMINATOR: return term_of(r) >= 0 ? 2 : begins_term(p[0]);
    case ANGLE: return run_to(p, 4, "3600");
    case COURSE:
        i = run_to(p, 4, "3600");
        return i == 3 && p[3] == 'T' ? 4 : i;
    case DISTANCE: return p[0] == 'T' && r[47] == 'H' ? 1 + run(p + 1, 3, DIGIT) : run(p, 4, DIGIT);
    case ALTITUDE:
        if (p[0] == '-') return memcmp(p + 1, "0000", 4) == 0 ? 4 : 1 + run(p + 1, 4, DIGIT);
        if (p[0] == 'F') return p[1] == 'L' ? 2 + run(p + 2, 3, DIGIT) : 1;
        return run(p, 5, DIGIT);
    case VERTICAL: return p[0] == '-' ? 1 + run(p + 1, 3, DIGIT) : 0;
    case CYCLE:
        i = run(p, 2, DIGIT);
        if (i == 2) i += run_to(p + 2, 2, "14");
        return i == 4 && (memcmp(p + 2, "00", 2) == 0 || (memcmp(p + 2, "14", 2) == 0 && !has_fourteen(p))) ? 3 : i;
    }
    return 0;
}

/* The first column of these fields at which the bytes so far begin nothing legal, or 0. */
static int bad_column(const uint8_t *r, const Field *fields, int n)
{
    for (int i = 0; i < n; i++) {
        int good = begun(r, &fields[i]);
        if (good < fields[i].width) return fields[i].column + good;
    }
    return 0;
}

/* Judges a record by itself. Once its fields are good, one is blank where its first byte is. */
static Rec judged(const uint8_t *r)
{
    Rec x = {.b = r, .continuation = continues(r[38])};
    int bad = bad_column(r, head, COUNT(head));
    if (!bad)
        bad = x.continuation ? bad_column(r, continuation_body, COUNT(continuation_body)) : bad_column(r, primary_body, COUNT(primary_body));
    if (!bad) bad = bad_column(r, tail, COUNT(tail));
    if (bad) {
        x.number = 3, x.column = (uint8_t)bad;
        return x;
    }
    if (x.continuation) return x;
    for (int g = 0; g < 3; g++) {
        int blanks = 0, first = 0;
        for (int i = 2; i >= 0; i--)
            if (r[companions[g][i] - 1] == ' ') blanks++, first = companions[g][i];
        if (blanks % 3) {
            x.number = 4, x.column = (uint8_t)first;
            return x;
        }
    }
    int t = term_of(r), kind = kind_at[r[12] - 'D'][r[19]] - 1;
    unsigned needs = terms[t].needs | (r[82] == 'B' ? A | A2 : 0);
    for (int i = 0; needs >> i; i++)
        if (needs >> i & 1 && r[need_column[i] - 1] == ' ') {
            x.number = 5, x.column = need_column[i];
            return x;
        }
    x.leg = (uint8_t)t, x.begins = kinds[kind].begins[t] == '+', x.ends = kinds[kind].ends[t] == '+';
    return x;
}

/* ---- records in sequence: stages 6, 7, 8 */

typedef struct { const Rec *primary, *before; } Behind; /* the last primary, and the record before; none at the start */

/* Judges x, at a place, behind what stands before it, and steps on. A primary is `last` where no other of its route comes behind it. */
static Refusal step(Behind *s, const Rec *x, int place, bool last)
{
    const Rec *p = s->primary;
    if (x->number) return NO(x->number, place, x->column);
    if (x->continuation) {
        /* Nothing follows 0 or Z: no continuation has a 1 or a [. */
        if (!s->before || x->b[38] != (s->before->b[38] == '9' ? 'A' : s->before->b[38] + 1)) return NO(6, place, 39);
        if (memcmp(p->b, x->b, 38) != 0) {
            int i = 0;
            while (p->b[i] == x->b[i]) i++;
            return NO(6, place, i + 1);
        }
    } else {
        if (s->before && s->before->b[38] == '1') return NO(6, place, 39);
        int way = p ? memcmp(p->b, x->b, KEY) : -1;
        if (way > 0) return NO(7, place, 1);
        if (way == 0 && memcmp(p->b + 26, x->b + 26, 3) >= 0) return NO(7, place, 27);
        if (way < 0 ? !x->begins : pairs[p->leg][x->leg] != '+') return NO(8, place, 48);
        if (last && !x->ends) return NO(8, place, 49);
        s->primary = x;
    }
    s->before = x;
    return OK;
}

static Refusal finish(const Behind *s, int records)
{
    return s->before && s->before->b[38] == '1' ? NO(6, records + 1, 39) : OK;
}

/* ---- the frozen file */

static Rec frozen[MAX_RECS];
static int frozen_count;

/* Whether no primary comes behind a record before its route ends. It goes by the columns of what is there, good or bad. */
static bool is_last(const uint8_t *r, size_t left)
{
    for (const uint8_t *next = r + LINE; left >= LINE && memcmp(next, r, KEY) == 0; next += LINE, left -= LINE)
        if (!continues(next[38])) return false;
    return true;
}

static Refusal read_frozen(const uint8_t *data, size_t size)
{
    if (size > MAX_FILE) return NO(2, MAX_RECS + 1, 0);
    Behind s = {0};
    int n = 0;
    for (size_t at = 0; at < size; at += LINE) {
        if (size - at < LINE) return NO(1, n + 1, (int)(size - at) + 1);
        if (data[at + REC] != '\n') return NO(1, n + 1, LINE);
        frozen[n] = judged(data + at);
        Refusal no = step(&s, &frozen[n], n + 1, !frozen[n].continuation && is_last(data + at, size - at - LINE));
        if (no.number) return no;
        n++;
    }
    frozen_count = n;
    return finish(&s, n);
}

/* ---- the log */

/* A D or A line. `names` where it is the first of its correction on its route; `relies` is then the last correction before on it, or 0. */
typedef struct { Rec rec; bool put, names; uint8_t relies; } Change;

static Change changes[MAX_LINES];
static int first_change[MAX_CORR + 2]; /* of correction n; of n + 1 it is where they end */
static int corrections;

static struct { const uint8_t *key; int last; } routes[SLOTS]; /* the routes that the log names, by hash */

static int *last_on(const uint8_t *key)
{
    uint32_t h = 2166136261u;
    for (int i = 0; i < KEY; i++) h = (h ^ key[i]) * 16777619u;
    for (h ^= h >> 16;; h++) {
        const uint8_t **held = &routes[h % SLOTS].key;
        if (!*held) *held = key;
        if (*held == key || memcmp(*held, key, KEY) == 0) return &routes[h % SLOTS].last;
    }
}

static Refusal read_log(const uint8_t *log, size_t size)
{
    int line = 0, count = 0, room = MAX_RECS - frozen_count;
    for (size_t at = 0, i; at < size; at = i) {
        const uint8_t *p = log + at;
        size_t left = size - at;
        i = 0;
        line++;
        if (p[0] == 'C') {
            char want[12];
            int n = snprintf(want, sizeof want, "C\t%d\n", corrections + 1);
            while (i < (size_t)n && i < left && p[i] == (uint8_t)want[i]) i++;
            if (i < (size_t)n) return NO(9, line, (int)i + 1);
            if (corrections == MAX_CORR) return NO(13, line, 0);
            first_change[++corrections] = count;
        } else if (corrections && (p[0] == 'D' || p[0] == 'A')) {
            if (left < 2 || p[1] != '\t') return NO(9, line, 2);
            for (i = 2; i < REC + 2 && i < left && cls[p[i]] & PRINT;) i++;
            if (i < REC + 2 || i == left || p[i] != '\n') return NO(9, line, (int)i + 1);
            i++;
            Change *c = &changes[count];
            c->put = p[0] == 'A';
            if (c->put && room-- == 0) return NO(13, line, 0);
            if (c->put) c->rec = judged(p + 2);
            else c->rec.b = p + 2;
            int *last = last_on(p + 2);
            c->names = *last != corrections;
            c->relies = c->names ? (uint8_t)*last : 0;
            *last = corrections;
            count++;
        } else {
            return NO(9, line, 1);
        }
        i += at;
    }
    first_change[corrections + 1] = count;
    return OK;
}

/* ---- corrections applied */

static const Rec *state[MAX_RECS]; /* by rising place */
static int state_count;

static void reset(void)
{
    state_count = frozen_count;
    for (int i = 0; i < frozen_count; i++) state[i] = &frozen[i];
}

static int place_order(const uint8_t *a, const uint8_t *b)
{
    int way = memcmp(a, b, KEY);
    if (!way) way = memcmp(a + 26, b + 26, 3);
    return way ? way : a[38] - b[38];
}

static bool apply(const Change *c)
{
    int lo = 0, hi = state_count, way = -1;
    while (lo < hi) {
        int mid = (lo + hi) / 2;
        way = place_order(state[mid]->b, c->rec.b);
        if (way == 0) { lo = mid; break; }
        if (way < 0) lo = mid + 1;
        else hi = mid;
    }
    const Rec **at = &state[lo];
    size_t behind = (size_t)(state_count - lo);
    if (c->put) {
        if (way == 0) return false;
        memmove(at + 1, at, behind * sizeof *at);
        *at = &c->rec;
        state_count++;
    } else {
        if (way != 0 || memcmp((*at)->b, c->rec.b, REC) != 0) return false;
        memmove(at, at + 1, (behind - 1) * sizeof *at);
        state_count--;
    }
    return true;
}

/* How many records are of a route before this one; with `with`, or of it. */
static int route_bound(const uint8_t *key, bool with)
{
    int lo = 0, hi = state_count;
    while (lo < hi) {
        int mid = (lo + hi) / 2;
        if (memcmp(state[mid]->b, key, KEY) < with) lo = mid + 1;
        else hi = mid;
    }
    return lo;
}

static Refusal judge_route(const uint8_t *key)
{
    int from = route_bound(key, false), to = route_bound(key, true);
    int last = to - 1;
    while (last > from && state[last]->continuation) last--;
    Behind s = {0};
    for (int i = from; i < to; i++) {
        Refusal no = step(&s, state[i], i - from + 1, i == last);
        if (no.number) return no;
    }
    return finish(&s, to - from);
}

static int by_key(const void *a, const void *b) { return memcmp(*(const uint8_t *const *)a, *(const uint8_t *const *)b, KEY); }

static Refusal run_log(void)
{
    const uint8_t *touched[MAX_LINES];
    reset();
    for (int n = 1; n <= corrections; n++) {
        int count = 0;
        for (int k = first_change[n]; k < first_change[n + 1]; k++) {
            if (!apply(&changes[k])) return NO(10, n, 0);
            if (changes[k].names) touched[count++] = changes[k].rec.b;
        }
        if (count > 1) qsort(touched, (size_t)count, sizeof *touched, by_key);
        for (int i = 0; i < count; i++) {
            Refusal no = judge_route(touched[i]);
            if (no.number) return NO(11, n, no.number);
        }
    }
    return OK;
}

/* ---- the pick */

static bool taken[MAX_CORR + 1];

/* Reads the list up to a number that is no correction's. */
static Refusal read_wanted(const uint8_t *text, size_t size)
{
    int index = 0;
    for (size_t at = 0; at < size;) {
        int number = 0, digits = 0;
        bool good = ++index <= MAX_CORR;
        for (; at < size && text[at] != '\n'; at++, digits++) {
            if (digits < 3 && cls[text[at]] & DIGIT) number = 10 * number + text[at] - '0';
            else good = false;
        }
        if (!good || at++ == size || digits == 0 || number == 0 || number > corrections) return NO(12, index, 0);
        taken[number] = true;
    }
    return OK;
}

/* Takes what the taken ones rely on: each has a smaller number. Then makes the new file; what is so taken always applies. */
static void take_all(void)
{
    for (int n = corrections; n > 0; n--)
        for (int k = first_change[n]; taken[n] && k < first_change[n + 1]; k++)
            if (changes[k].relies) taken[changes[k].relies] = true;
    reset();
    for (int n = 1; n <= corrections; n++)
        for (int k = first_change[n]; taken[n] && k < first_change[n + 1]; k++) apply(&changes[k]);
}

static size_t read_file(const char *name, uint8_t *into, size_t most)
{
    FILE *f = fopen(name, "rb");
    if (!f) return 0;
    size_t n = fread(into, 1, most, f);
    if (ferror(f)) n = 0;
    fclose(f);
    return n;
}

static bool ends_with(const char *s, const char *end)
{
    size_t n = strlen(s), m = strlen(end);
    return n >= m && strcmp(s + n - m, end) == 0;
}

int main(int argc, char **argv)
{
    static uint8_t file[MAX_FILE + 1], log[MAX_LOG + 1], want[MAX_WANT + 1];
    const char *name = argc > 1 ? argv[1] : argc > 0 ? argv[0] : "";
    bool check = ends_with(name, "check"), newfile = ends_with(name, "newfile");
    size_t file_size = read_file("frozen.txt", file, sizeof file), log_size = read_file("log.txt", log, sizeof log), want_size = 0;
    if (!check) want_size = read_file("want.txt", want, sizeof want);

    init();
    Refusal no = log_size > MAX_LOG ? NO(13, 0, 0) : OK;
    if (!no.number) no = read_frozen(file, file_size);
    if (!no.number) no = read_log(log, log_size);
    if (!no.number && !check) no = read_wanted(want, want_size);
    if (!no.number) no = run_log();
    if (no.number) {
        printf("no\t%d\t%d\t%d\n", no.number, no.place, no.column);
    } else if (check) {
        printf("ok\t%d\t%d\n", frozen_count, corrections);
    } else {
        take_all();
        int count = 0;
        for (int n = 1; n <= corrections; n++) count += taken[n];
        if (!newfile) printf("pick\t%d\t%d\n", count, state_count);
        for (int n = 1; n <= corrections && !newfile; n++)
            if (taken[n]) printf("take\t%d\n", n);
        /* A record's line feed stands behind it, in the file as in the log. */
        for (int i = 0; i < state_count && newfile; i++) fwrite(state[i]->b, 1, LINE, stdout);
    }
    return fflush(stdout) == 0 ? 0 : 1;
}

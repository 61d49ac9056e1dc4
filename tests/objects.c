/* Objects of the machine interface over the compiled library: the guide's example made whole (source document 003, section 5.3), on days of
 * 46, 48 and 50 steps and in many layouts; damaged in every way that the documents name, in each layout; cut at every byte; at 8,192 and
 * 8,193 bytes; and the exchange filed as a file by one party and as an object by the other, paired and replaced. What each must come to
 * stands beside it. */
#include <stdarg.h>
#include <stdio.h>
#include <stdlib.h>
#include <string.h>

#include "register.h"

#define TEXT(text) (const uint8_t *)(text), strlen(text)

/* ---- The tokens of an object. */

#define MOST_TOKENS 800
#define HEAD 32 /* tokens before the first step, */
#define STEP 14 /* and of a step with its comma */

typedef struct {
    char text[MOST_TOKENS][40];
    size_t count;
} tokens;

static const char ceder[] = "17X100A100R00000";
static const char acquirer[] = "17X100A100R00001";

static void add(tokens *t, const char *text)
{
    snprintf(t->text[t->count++], sizeof t->text[0], "%s", text);
}

static void member(tokens *t, const char *name, const char *value)
{
    char quoted[40];
    snprintf(quoted, sizeof quoted, "\"%s\"", name);
    add(t, quoted);
    add(t, ":");
    add(t, value);
}

/* The label of a boundary: hours and minutes with an h, the end of the day as its beginning, the hour that comes twice with _BIS. */
static const char *label(uint32_t steps, uint32_t at)
{
    static char text[2][40];
    static int turn;
    uint32_t half = at == steps ? 0 : at;
    const char *again = "";
    if (steps == 46 && half >= 4) {
        half += 2;
    } else if (steps == 50 && half >= 7) {
        half -= 2;
        again = half <= 6 ? "_BIS" : "";
    }
    turn = !turn;
    snprintf(text[turn], sizeof text[turn], "\"%02uh%02u%s\"", half / 2, half % 2 * 30, again);
    return text[turn];
}

/* The powers of the guide's example: 0, 0, 10, 10, 12, and 0 from there on; and the same with powers of every length. */
static uint32_t guides_power(uint32_t step)
{
    return step == 2 || step == 3 ? 10 : step == 4 ? 12 : 0;
}

static uint32_t every_length(uint32_t step)
{
    static const uint32_t powers[] = {7, 9999, 100, 10, 0, 12, 1000, 345};
    return powers[step % 8];
}

static tokens whole(const char *day, const char *submitted, uint32_t steps, uint32_t (*power)(uint32_t))
{
    static const char *const names[] = {"CodeEicActeurCedant", "CodeEicActeurAcquereur", "CodeEicActeurOrigine", "NomCategorieEngagement",
                                        "DateExploitation", "DateSoumission", "Statut"};
    char values[7][40];
    snprintf(values[0], 40, "\"%s\"", ceder);
    snprintf(values[1], 40, "\"%s\"", acquirer);
    snprintf(values[2], 40, "\"%s\"", acquirer);
    snprintf(values[3], 40, "\"09120\"");
    snprintf(values[4], 40, "\"%sT00:00:00Z\"", day);
    snprintf(values[5], 40, "\"%sT07:00:00Z\"", submitted);
    snprintf(values[6], 40, "\"C\"");
    tokens t = {.count = 0};
    add(&t, "{");
    for (size_t i = 0; i < 7; i++) {
        member(&t, names[i], values[i]);
        add(&t, ",");
    }
    add(&t, "\"Chronique\"");
    add(&t, ":");
    add(&t, "[");
    for (uint32_t k = 0; k < steps; k++) {
        char digits[16];
        snprintf(digits, sizeof digits, "%u", (unsigned)power(k));
        add(&t, "{");
        member(&t, "Debut", label(steps, k));
        add(&t, ",");
        member(&t, "Fin", label(steps, k + 1));
        add(&t, ",");
        member(&t, "Puissance", digits);
        add(&t, "}");
        add(&t, k + 1 < steps ? "," : "]");
    }
    add(&t, "}");
    return t;
}

/* The places of a step's tokens, the step counted from 1. */
static size_t from_of(size_t step) { return HEAD + STEP * (step - 1) + 3; }
static size_t until_of(size_t step) { return HEAD + STEP * (step - 1) + 7; }
static size_t power_of(size_t step) { return HEAD + STEP * (step - 1) + 11; }

static tokens with(tokens t, size_t place, const char *text)
{
    snprintf(t.text[place], sizeof t.text[0], "%s", text);
    return t;
}

static tokens more(tokens t, size_t place, const char *text)
{
    memmove(t.text[place + 1], t.text[place], (t.count - place) * sizeof t.text[0]);
    t.count++;
    return with(t, place, text);
}

static tokens fewer(tokens t, size_t place, size_t count)
{
    memmove(t.text[place], t.text[place + count], (t.count - place - count) * sizeof t.text[0]);
    t.count -= count;
    return t;
}

/* ---- Layouts: what stands in front of each token. */

enum { NO_BLANKS, AS_THE_GUIDE, SPACES, LINES, INDENT_1, INDENT_2, INDENT_4, TABS_AND_CR, EVERY_BLANK, LAYOUTS };

static uint8_t body[1 << 16];
static size_t length;

static void put(const char *text)
{
    size_t n = strlen(text);
    memcpy(body + length, text, n);
    length += n;
}

static void indent(int layout, int depth)
{
    static const int widths[LAYOUTS] = {[AS_THE_GUIDE] = 2, [INDENT_1] = 1, [INDENT_2] = 2, [INDENT_4] = 4};
    put(layout == TABS_AND_CR ? "\r\n" : "\n");
    for (int i = 0; i < depth; i++) {
        put(layout == TABS_AND_CR ? "\t" : "");
        for (int j = 0; j < widths[layout]; j++) {
            put(" ");
        }
    }
}

/* In front of the colons of the guide's example stands a blank in the first five members, and after them none at the series and in the
 * first step. */
static void colon(int layout, int colons)
{
    if (layout == AS_THE_GUIDE) {
        put(colons < 5 ? " : " : colons < 7 || colons > 10 ? ": " : ":");
    } else {
        put(layout == NO_BLANKS || layout == LINES ? ":" : ": ");
    }
}

static void lay(const tokens *t, int layout)
{
    int depth = 0, colons = 0;
    length = 0;
    for (size_t i = 0; i < t->count; i++) {
        const char *text = t->text[i];
        const char *before = i > 0 ? t->text[i - 1] : "";
        if (layout == EVERY_BLANK) {
            put(" \t\r\n");
            put(text);
            continue;
        }
        int opens = !strcmp(before, "{") || !strcmp(before, "["), closes = !strcmp(text, "}") || !strcmp(text, "]");
        depth += opens;
        depth -= closes;
        if (layout != NO_BLANKS && layout != SPACES && (opens || closes || !strcmp(before, ","))) {
            indent(layout, depth);
        } else if (layout == SPACES && !strcmp(before, ",")) {
            put(" ");
        }
        if (!strcmp(text, ":")) {
            colon(layout, colons++);
        } else {
            put(text);
        }
    }
    if (layout == EVERY_BLANK) {
        put(" \t\r\n");
    }
}

/* ---- What must come of them. */

static unsigned objects, wrong;

static void say_wrong(const char *format, ...)
{
    va_list words;
    va_start(words, format);
    vprintf(format, words);
    va_end(words);
    printf("\n");
    wrong++;
}

static void read_as(const char *title, int layout, uint32_t number, uint32_t place)
{
    register_object r = register_object_read(body, length);
    objects++;
    if (r.read.number != number || r.read.place != place) {
        say_wrong("%s, layout %d: %u at %u, and not %u at %u", title, layout, (unsigned)r.read.number, (unsigned)r.read.place,
                  (unsigned)number, (unsigned)place);
    }
}

static void is_read(const char *title, const char *date, const char *submitted, uint32_t steps, uint32_t (*power)(uint32_t))
{
    tokens t = whole(date, submitted, steps, power);
    register_object first = {.day = 0};
    char digits[9], earlier[9];
    snprintf(digits, sizeof digits, "%.4s%.2s%.2s", date, date + 5, date + 8);
    snprintf(earlier, sizeof earlier, "%.4s%.2s%.2s", submitted, submitted + 5, submitted + 8);
    for (int layout = 0; layout < LAYOUTS; layout++) {
        lay(&t, layout);
        read_as(title, layout, 0, 0);
        register_object r = register_object_read(body, length);
        int good = r.read.day == calendar_day(TEXT(digits)) && r.read.steps == steps && r.day == calendar_day(TEXT(earlier));
        good = good && r.second == 25200 && !memcmp(r.origin, acquirer, 16) && !memcmp(r.read.ceder, ceder, 16);
        good = good && !memcmp(r.read.acquirer, acquirer, 16) && !memcmp(r.read.category, "09120", 6);
        for (uint32_t k = 0; k < REGISTER_STEPS; k++) {
            good = good && r.read.powers[k] == (k < steps ? power(k) : 0);
        }
        if (!good) {
            say_wrong("%s, layout %d: read as another request", title, layout);
        }
        if (layout == NO_BLANKS) {
            first = r;
        }
    }
    /* the writer gives it back without blanks */
    static uint8_t written[NOTIFICATION_OBJECT];
    register_object_written w = register_object_write(first, written, sizeof written);
    lay(&t, NO_BLANKS);
    if (w.number != 0 || w.length != length || memcmp(written, body, length)) {
        say_wrong("%s: written otherwise", title);
    }
}

static void damaged(const char *title, tokens t, uint32_t number, uint32_t place)
{
    for (int layout = 0; layout < LAYOUTS; layout++) {
        lay(&t, layout);
        read_as(title, layout, number, place);
    }
}

static void damages(tokens good)
{
    static const char *const no_values[] = {"", "null", "0", "\"\"", "\"", "[]", "{}", "\"17X100A100R0000\\u0030\""};
    size_t last = good.count;
    /* 42: each token taken away, doubled, or something else, but for labels and powers */
    for (size_t i = 0; i < last; i++) {
        int label = i >= HEAD && ((i - HEAD) % STEP == 3 || (i - HEAD) % STEP == 7);
        int power = i >= HEAD && (i - HEAD) % STEP == 11;
        if (i < HEAD + 3 * STEP || i + 2 * STEP > last) {
            damaged("a token fewer", fewer(good, i, 1), 42, 0);
            if (!power) {
                damaged("a token doubled", more(good, i, good.text[i]), 42, 0);
            }
            damaged("a comma more", more(good, i, ","), 42, 0);
            damaged("a comment", more(good, i, "/**/"), 42, 0);
            damaged("an escape", with(good, i, "\"\\u0041\""), 42, 0);
            if (!label && !power) {
                for (size_t j = 0; j < sizeof no_values / sizeof no_values[0]; j++) {
                    damaged("another value", with(good, i, no_values[j]), 42, 0);
                }
            }
        }
    }
    /* members exchanged, missing, more, in other letters */
    damaged("two members exchanged", with(with(good, 1, good.text[5]), 5, good.text[1]), 42, 0);
    damaged("two of a step exchanged", with(with(good, HEAD + 1, "\"Fin\""), HEAD + 5, "\"Debut\""), 42, 0);
    damaged("a member fewer", fewer(good, 25, 4), 42, 0);
    damaged("a member in other letters", with(good, HEAD + 1, "\"debut\""), 42, 0);
    damaged("a blank in a name", with(good, 1, "\"CodeEicActeurCedant \""), 42, 0);
    damaged("a BOM", more(good, 0, "\xef\xbb\xbf"), 42, 0);
    damaged("text after the object", more(good, last, "x"), 42, 0);
    damaged("a code in small letters", with(good, 3, "\"17x100A100R00000\""), 42, 0);
    damaged("a code of 17", with(good, 11, "\"17X100A100R000000\""), 42, 0);
    damaged("a category of 4", with(good, 15, "\"0912\""), 42, 0);
    damaged("another category's letter", with(good, 15, "\"09120D\""), 42, 0);
    damaged("a day that isn't", with(good, 19, "\"2021-02-29T00:00:00Z\""), 42, 0);
    damaged("a day before 2000", with(good, 19, "\"1999-12-31T00:00:00Z\""), 42, 0);
    damaged("a day after 2099", with(good, 23, "\"2100-01-01T00:00:00Z\""), 42, 0);
    damaged("a day that isn't at midnight", with(good, 19, "\"2020-04-28T00:00:01Z\""), 42, 0);
    damaged("a moment of 23:59:60", with(good, 23, "\"2020-04-25T23:59:60Z\""), 42, 0);
    damaged("a moment of 24:00:00", with(good, 23, "\"2020-04-25T24:00:00Z\""), 42, 0);
    damaged("a moment without Z", with(good, 23, "\"2020-04-25T07:00:00\""), 42, 0);
    damaged("another status", with(good, 27, "\"A\""), 42, 0);
    static const char *const no_powers[] = {"-2", "1.5", "1e3", "\"2\"", "null", "1 2", "1\n2", "+2"};
    for (size_t j = 0; j < sizeof no_powers / sizeof no_powers[0]; j++) {
        damaged("no power", with(good, power_of(1), no_powers[j]), 42, 0);
        damaged("no power in the middle", with(good, power_of(25), no_powers[j]), 42, 0);
        damaged("no power at the end", with(good, power_of(48), no_powers[j]), 42, 0);
    }
    static const char *const no_labels[] = {"\"00\\h00\"", "\"00h00\t\"", "\"00h00", "00h00"};
    for (size_t j = 0; j < sizeof no_labels / sizeof no_labels[0]; j++) {
        damaged("no label", with(good, from_of(1), no_labels[j]), 42, 0);
        damaged("no label in the middle", with(good, until_of(25), no_labels[j]), 42, 0);
    }
    /* 5 */
    damaged("no steps", fewer(good, HEAD, last - HEAD - 2), 5, 0);
    damaged("the first step fewer", fewer(good, HEAD, STEP), 5, 0);
    damaged("the last step fewer", fewer(good, last - 2 - STEP, STEP), 5, 0);
    damaged("a step fewer and a wrong label", with(fewer(good, HEAD, STEP), from_of(3), "\"00h00\""), 5, 0);
    tokens longer = good;
    for (size_t i = 0; i < STEP; i++) {
        longer = more(longer, HEAD, good.text[HEAD + STEP - 1 - i]);
    }
    damaged("a step more", longer, 5, 0);
    /* 6, then 7, step by step */
    for (size_t step = 1; step <= 48; step++) {
        damaged("a wrong first label", with(good, from_of(step), "\"24h00\""), 6, (uint32_t)step);
        damaged("a wrong second label", with(good, until_of(step), "\"\xc3\xa9\""), 6, (uint32_t)step);
        damaged("a label of 0", with(good, until_of(step), "\"xxxx0\""), 6, (uint32_t)step);
        damaged("a needless zero", with(good, power_of(step), "02"), 7, (uint32_t)step);
        damaged("twenty digits", with(good, power_of(step), "99999999999999999999"), 7, (uint32_t)step);
        damaged("five digits", with(good, power_of(step), "10000"), 7, (uint32_t)step);
    }
    damaged("an empty label", with(good, from_of(2), "\"\""), 6, 2);
    damaged("a label with a blank", with(good, from_of(2), "\"00h30 \""), 6, 2);
    damaged("a label of the file", with(good, from_of(2), "\"00:30\""), 6, 2);
    damaged("the last label of the file", with(good, until_of(48), "\"24h00\""), 6, 48);
    damaged("6 before 7 at a step", with(with(good, power_of(4), "02"), from_of(4), "\"00h00\""), 6, 4);
    damaged("7 before 6 at a later step", with(with(good, power_of(3), "02"), from_of(4), "\"00h00\""), 7, 3);
}

static uint32_t no_power(uint32_t step)
{
    (void)step;
    return 0;
}

static void cuts(tokens t)
{
    for (int layout = 0; layout < LAYOUTS; layout++) {
        lay(&t, layout);
        size_t end = length;
        while (body[end - 1] != '}') {
            end--;
        }
        for (length = 0; length < end; length++) {
            read_as("cut", layout, 42, 0);
        }
    }
}

static void sizes(tokens t)
{
    for (int layout = 0; layout < LAYOUTS; layout++) {
        for (size_t size = 8192; size <= 8193; size++) {
            lay(&t, layout);
            if (length <= size) {
                memset(body + length, '\n', size - length);
                length = size;
                read_as("of 8,192 and 8,193 bytes", layout, size == 8192 ? 0 : 42, 0);
            }
        }
    }
}

/* ---- One party files a file, the other an object. */

static register_state state;

static void said(const char *call, register_said s, uint32_t number, uint32_t first)
{
    if (s.number != number || (number == 0 && s.count > 0 && s.values[0] != first)) {
        say_wrong("%s: %u at %u, %u", call, (unsigned)s.number, (unsigned)s.place, (unsigned)s.values[0]);
    }
}

static void status_is(uint32_t id, char status)
{
    register_record_shown r = register_record(&state, TEXT(ceder), id);
    if (r.number != 0 || (char)r.status != status) {
        say_wrong("record %u: status %c, and not %c", (unsigned)id, r.number == 0 ? r.status : '-', status);
    }
}

static void engaged(const char *actor, uint32_t day, uint32_t power)
{
    said("engagement", register_engagement(&state, TEXT(actor), TEXT("09120"), day, 2), 0, power);
}

static uint32_t nines(uint32_t step)
{
    return step == 2 ? 9 : 1;
}

static void file_both(uint32_t (*power)(uint32_t), int layout, int object_first, uint32_t id)
{
    tokens t = whole("2020-04-28", "2020-04-25", 48, power);
    uint8_t name[NOTIFICATION_NAME], text[NOTIFICATION_BODY];
    lay(&t, layout);
    notification_file n = register_object_read(body, length).read;
    notification_written w = notification_write(n, name, sizeof name, text, sizeof text);
    for (int turn = 0; turn < 2; turn++) {
        if (turn == !object_first) {
            said("an object of another origin", register_file_object(&state, TEXT(ceder), body, length), 43, 0);
            said("an object", register_file_object(&state, TEXT(acquirer), body, length), 0, id + (uint32_t)turn);
        } else {
            said("a file", register_file(&state, TEXT(ceder), name, w.name, text, w.body), 0, id + (uint32_t)turn);
        }
    }
}

static void filed(void)
{
    uint32_t day = calendar_day(TEXT("20200428"));
    uint32_t powers[REGISTER_STEPS];
    for (size_t k = 0; k < REGISTER_STEPS; k++) {
        powers[k] = 20;
    }
    register_fresh(&state);
    said("advance", register_advance(&state, day - 2, 600), 0, 0);
    said("enrol", register_enrol_actor(&state, TEXT(ceder), day - 9, day + 9), 0, 1);
    said("enrol", register_enrol_actor(&state, TEXT(acquirer), day - 9, day + 9), 0, 2);
    said("enrol", register_enrol_category(&state, TEXT("09120")), 0, 1);
    said("load", register_load(&state, TEXT(ceder), TEXT("09120"), day, 100, powers, 48), 0, 1);
    said("load", register_load(&state, TEXT(acquirer), TEXT("09120"), day, 100, powers, 48), 0, 2);
    /* paired: the file answers the object */
    file_both(guides_power, AS_THE_GUIDE, 1, 1);
    status_is(1, 'A');
    status_is(2, 'V');
    engaged(ceder, day, 10);
    engaged(acquirer, day, 30);
    /* replaced: the object answers the file */
    file_both(nines, NO_BLANKS, 0, 3);
    status_is(2, 'O');
    status_is(3, 'A');
    status_is(4, 'V');
    engaged(ceder, day, 11);
    engaged(acquirer, day, 29);
}

int main(void)
{
    tokens guide = whole("2020-04-28", "2020-04-25", 48, guides_power);
    is_read("the guide's example", "2020-04-28", "2020-04-25", 48, guides_power);
    is_read("powers of every length", "2020-04-28", "2020-04-25", 48, every_length);
    is_read("a short day", "2021-03-28", "2021-03-25", 46, guides_power);
    is_read("a short day, powers of every length", "2021-03-28", "2021-03-25", 46, every_length);
    is_read("a long day", "2021-10-31", "2021-10-28", 50, guides_power);
    is_read("a long day, powers of every length", "2021-10-31", "2021-10-28", 50, every_length);
    damages(guide);
    damages(whole("2020-04-28", "2020-04-25", 48, every_length));
    damaged("zeros", whole("2020-04-28", "2020-04-25", 48, no_power), 8, 0);
    damaged("7 before 8", with(whole("2020-04-28", "2020-04-25", 48, no_power), power_of(9), "00"), 7, 9);
    cuts(guide);
    cuts(whole("2021-10-31", "2021-10-28", 50, every_length));
    sizes(guide);
    filed();
    printf("%u objects in %d layouts, %u wrong\n", objects, LAYOUTS, wrong);
    return wrong != 0;
}

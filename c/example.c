/* Two actors exchange reserve on a long day, in the intraday too, after one of them has filed for the day that follows it, and then the
 * other answers that file by an object of the machine interface; at the end a file is read in pieces. Every answer is printed. What it must print is in example.stdout. */
#include <stdio.h>
#include <string.h>

#include "register.h"

static register_state state;

static const char north[] = "17X100A100R0000L";
static const char south[] = "17X100A100R0001J";
static const char category[] = "13120";

/* A text as a pointer and a length. */
#define TEXT(text) (const uint8_t *)(text), strlen(text)

/* Prints a call and what it says: its values, or number and place of the refusal. */
static void print(const char *call, register_said said)
{
    printf("%s:", call);
    if (said.number != 0) {
        printf(" refused by %u at %u", (unsigned)said.number, (unsigned)said.place);
    }
    for (uint32_t i = 0; i < said.count; i++) {
        if (i == said.letter) {
            printf(" %c", (int)said.values[i]);
        } else {
            printf(" %u", (unsigned)said.values[i]);
        }
    }
    printf("\n");
}

static uint32_t day_of(const char *date)
{
    return calendar_day(TEXT(date));
}

static void load(const char *actor, uint32_t day, uint32_t approved, uint32_t power)
{
    uint32_t powers[REGISTER_STEPS];
    for (size_t k = 0; k < REGISTER_STEPS; k++) {
        powers[k] = power;
    }
    print("load", register_load(&state, TEXT(actor), TEXT(category), day, approved, powers, calendar_steps(day)));
}

/* An exchange of one power from north to south. */
static notification_file exchange(uint32_t day, uint16_t power)
{
    notification_file n = {.day = day, .steps = calendar_steps(day)};
    memcpy(n.ceder, north, sizeof n.ceder);
    memcpy(n.acquirer, south, sizeof n.acquirer);
    memcpy(n.category, category, strlen(category));
    for (uint32_t k = 0; k < n.steps; k++) {
        n.powers[k] = power;
    }
    return n;
}

/* Files such an exchange by one of them. */
static void file(const char *submitter, uint32_t day, uint16_t power)
{
    uint8_t name[NOTIFICATION_NAME];
    uint8_t body[NOTIFICATION_BODY];
    notification_written written = notification_write(exchange(day, power), name, sizeof name, body, sizeof body);
    if (written.number != 0) {
        printf("write: refused by %u at %u\n", (unsigned)written.number, (unsigned)written.place);
        return;
    }
    printf("%.*s, %zu bytes\n", (int)written.name, (const char *)name, written.body);
    print("file", register_file(&state, TEXT(submitter), name, written.name, body, written.body));
}

/* Reads an object and prints what it says. */
static void read_object(const uint8_t *body, size_t body_length)
{
    register_object object = register_object_read(body, body_length);
    if (object.read.number != 0) {
        printf("read: refused by %u at %u\n", (unsigned)object.read.number, (unsigned)object.read.place);
        return;
    }
    calendar_text date = calendar_date(object.read.day), submitted = calendar_date(object.day);
    printf("read: %.16s to %.16s, %.8s, %.6s, %u steps, %u MW at first, by %.16s on %.8s, second %u\n",
           (const char *)object.read.ceder, (const char *)object.read.acquirer, (const char *)date.digits,
           (const char *)object.read.category, (unsigned)object.read.steps, (unsigned)object.read.powers[0],
           (const char *)object.origin, (const char *)submitted.digits, (unsigned)object.second);
}

/* Files such an exchange as the object of a request that one of them sends, and reads it back. */
static void file_object(const char *submitter, const char *origin, uint32_t day, uint16_t power)
{
    uint8_t body[NOTIFICATION_OBJECT];
    register_object object = {.read = exchange(day, power), .day = state.head.clock.day, .second = 60 * state.head.clock.minute};
    memcpy(object.origin, origin, sizeof object.origin);
    register_object_written written = register_object_write(object, body, sizeof body);
    if (written.number != 0) {
        printf("write: refused by %u at %u\n", (unsigned)written.number, (unsigned)written.place);
        return;
    }
    printf("%.*s..., %zu bytes\n", 41, (const char *)body, written.length);
    read_object(body, written.length);
    print("file object", register_file_object(&state, TEXT(submitter), body, written.length));
}

/* Reads the file of such an exchange with its body in pieces of a length, as they might come over a connection, up to a place. */
static void read_in_pieces(uint32_t day, uint16_t power, size_t length, size_t until)
{
    uint8_t name[NOTIFICATION_NAME];
    uint8_t body[NOTIFICATION_BODY];
    notification_written written = notification_write(exchange(day, power), name, sizeof name, body, sizeof body);
    size_t end = written.body < until ? written.body : until;
    notification_reader reader = notification_begin(name, written.name);
    for (size_t at = 0; at < end; at += length) {
        reader = notification_feed(reader, body + at, end - at < length ? end - at : length);
    }
    notification_file read = notification_end(reader);
    if (read.number != 0) {
        printf("read in pieces of %zu: refused by %u at %u\n", length, (unsigned)read.number, (unsigned)read.place);
        return;
    }
    calendar_text date = calendar_date(read.day);
    printf("read in pieces of %zu: %.16s to %.16s, %.8s, %.6s, %u steps, %u MW at first\n", length, (const char *)read.ceder,
           (const char *)read.acquirer, (const char *)date.digits, (const char *)read.category, (unsigned)read.steps,
           (unsigned)read.powers[0]);
}

static void engagement(const char *actor, uint32_t day, uint32_t step)
{
    char call[64];
    snprintf(call, sizeof call, "engagement of %s at step %u", actor, (unsigned)step);
    print(call, register_engagement(&state, TEXT(actor), TEXT(category), day, step));
}

static void record(const char *asker, uint32_t id)
{
    register_record_shown shown = register_record(&state, TEXT(asker), id);
    if (shown.number != 0) {
        printf("record %u: refused by %u at %u\n", (unsigned)id, (unsigned)shown.number, (unsigned)shown.place);
        return;
    }
    calendar_text date = calendar_date(shown.day);
    printf("record %u: %c, %.16s to %.16s, %.8s, steps %u to %u, %u MW at first, filed by %.16s\n", (unsigned)id, (int)shown.status,
           (const char *)shown.ceder, (const char *)shown.acquirer, (const char *)date.digits, (unsigned)shown.from,
           (unsigned)shown.until, (unsigned)shown.powers[shown.from], (const char *)shown.submitter);
}

int main(void)
{
    uint32_t day = day_of("20211031");
    uint32_t ids[REGISTER_RECORDS];

    register_fresh(&state);
    printf("day %u has %u steps\n", (unsigned)day, (unsigned)calendar_steps(day));
    print("advance", register_advance(&state, day - 1, 600));
    print("enrol", register_enrol_actor(&state, TEXT(north), day - 30, day + 30));
    print("enrol", register_enrol_actor(&state, TEXT(south), day - 30, day + 30));
    print("enrol", register_enrol_category(&state, TEXT(category)));
    load(north, day, 100, 60);
    load(south, day, 100, 0);
    load(north, day + 1, 100, 60);
    load(south, day + 1, 100, 0);
    file(north, day + 1, 30);

    engagement(north, day, 49);
    file(north, day, 40);
    file(south, day, 40);
    engagement(north, day, 49);
    engagement(south, day, 49);

    print("advance", register_advance(&state, day, 600));
    file(south, day, 50);
    file(north, day, 50);
    engagement(south, day, 21);
    engagement(south, day, 22);
    for (uint32_t id = 1; id <= 6; id++) {
        record(north, id);
    }
    /* By day, earliest first: the record of the day after comes last. */
    register_said history = register_history(&state, TEXT(south), ids, REGISTER_RECORDS);
    print("history", history);
    for (uint32_t i = 0; history.number == 0 && i < history.values[0]; i++) {
        printf("  id %u\n", (unsigned)ids[i]);
    }
    print("history", register_history(&state, TEXT(south), ids, 4));
    file(north, day, 61);
    print("advance", register_advance(&state, day, 599));

    /* North filed the day after as a file; south answers by an object, whose origin it must be. */
    engagement(south, day + 1, 0);
    file_object(south, north, day + 1, 30);
    file_object(south, south, day + 1, 30);
    record(south, 1);
    record(north, 6);
    engagement(south, day + 1, 0);
    read_object(TEXT("{ }"));

    read_in_pieces(day, 40, 100, NOTIFICATION_BODY);
    read_in_pieces(day, 40, 1, NOTIFICATION_BODY);
    read_in_pieces(day, 40, 100, 700);
    return 0;
}

/* The reserve exchange register for C, over the proved static library register_c.
 *
 *     bash tests/static_library.bash
 *     cc -std=c11 -Wall -Wextra -Werror -I c program.c target/staticlib/libregister_c.a
 *
 * The caller holds the register: one struct, register_state, to which each call gets a pointer. register_fresh begins it, and calls go
 * one after another. There is no heap and no hidden state.
 *
 * Every function answers for every argument: a result, or one refusal of document 01 or 02 as its number and place. A refused call
 * changes nothing. A text or a list is a pointer and a length; it may be anything, and its form is judged by the call. A pointer is
 * never null and must be good for its length, or for the whole struct or array that it stands for, and what a call may write must not
 * overlap what else it is lent.
 */
#ifndef REGISTER_H
#define REGISTER_H

#include <stddef.h>
#include <stdint.h>
#include <string.h>

#ifdef __cplusplus
extern "C" {
#define REGISTER_CHECK(test) static_assert(test, #test)
#else
#define REGISTER_CHECK(test) _Static_assert(test, #test)
#endif

/* Places: 8 actors, 4 categories, 64 loads, 256 records. A day has at most 50 steps. */
#define REGISTER_ACTORS 8
#define REGISTER_CATEGORIES 4
#define REGISTER_LOADS 64
#define REGISTER_RECORDS 256
#define REGISTER_STEPS 50

/* Buffers of these lengths take every name, every body and every object that is written. */
#define NOTIFICATION_NAME 57
#define NOTIFICATION_BODY 967
#define NOTIFICATION_OBJECT 2737

/* What calendar_day gives for a text that is no date. */
#define CALENDAR_NO_DAY 36525

/* ---- The register. Its parts are its own: read them if you like, and leave writing to the calls. ---- */

/* A day and the minutes elapsed since its local midnight. */
typedef struct {
    uint32_t day;
    uint32_t minute;
} register_clock;

/* A 16-character EIC code and a contract from a first to a last day, both included. */
typedef struct {
    uint8_t code[16];
    uint32_t first;
    uint32_t last;
} register_actor;

typedef struct {
    uint32_t count;
    register_actor entries[REGISTER_ACTORS];
} register_actors;

/* Five digits, then C or 0. */
typedef struct {
    uint8_t text[6];
} register_category;

typedef struct {
    uint32_t count;
    register_category entries[REGISTER_CATEGORIES];
} register_categories;

/* The clock, who is enrolled, and how many loads and records there are. */
typedef struct {
    register_clock clock;
    register_actors actors;
    register_categories categories;
    uint32_t loads;
    uint32_t records;
} register_head;

/* One power for each step, 0 past the day's steps. */
typedef struct {
    uint16_t powers[REGISTER_STEPS];
} register_row;

/* Submitter, from-step and until-step of a record. */
typedef struct {
    uint8_t bytes[4];
} register_mark;

/* The register: its head, and the columns of its records and loads. Past their counts the columns hold anything. */
typedef struct {
    register_head head;
    /* of each record: status, id, its key as one number, mark, powers */
    uint8_t statuses[REGISTER_RECORDS];
    uint32_t ids[REGISTER_RECORDS];
    uint32_t keys[REGISTER_RECORDS];
    register_mark marks[REGISTER_RECORDS];
    register_row rows[REGISTER_RECORDS];
    /* of each load: actor, category and day as one number, approved power, powers */
    uint32_t numbers[REGISTER_LOADS];
    uint16_t approved[REGISTER_LOADS];
    register_row loads[REGISTER_LOADS];
} register_state;

/* ---- Answers. ---- */

/* Number and place of the refusal, 0 and 0 where the call was accepted; how many values there are, which of them is a status's
 * letter (3: none), and the values. */
typedef struct {
    uint32_t number;
    uint32_t place;
    uint32_t count;
    uint32_t letter;
    uint32_t values[3];
} register_said;

/* Number and place of the refusal, 0 and 0 where there is none; then the record, which is all zeros beside a refusal. The statuses:
 * C created, A answered, S deleted, V validated, P validated and updated, O obsolete. */
typedef struct {
    uint32_t number;
    uint32_t place;
    uint32_t day;
    uint32_t steps;
    uint32_t from;
    uint32_t until; /* not included */
    uint16_t powers[REGISTER_STEPS];
    uint8_t submitter[16];
    uint8_t ceder[16];
    uint8_t acquirer[16];
    uint8_t category[6];
    uint8_t status;
} register_record_shown;

/* Number and place of the refusal, 0 and 0 where there is none; then the notification, which is all zeros beside a refusal. */
typedef struct {
    uint32_t number;
    uint32_t place;
    uint32_t day;
    uint32_t steps;
    uint16_t powers[REGISTER_STEPS];
    uint8_t ceder[16];
    uint8_t acquirer[16];
    uint8_t category[6];
} notification_file;

/* Number and place of the refusal, 0 and 0 where there is none; then the lengths of name and body. */
typedef struct {
    uint32_t number;
    uint32_t place;
    size_t name;
    size_t body;
} notification_written;

/* A file being read, by document 02, K4: its body comes in pieces, and at most 64 of its bytes are held between them. Its parts are its
 * own: begin it, feed it and end it by the calls below. */
typedef struct {
    uint32_t day;
    uint32_t steps;
    uint32_t named;  /* how many bytes the header's line has that the name asks for, with its LF; 0 where the name is none */
    uint32_t length; /* how many bytes of the body came; 4,097 where it is too long */
    uint32_t header; /* of line 1: 0 not there yet, 1 the name's header, else the refusal's number */
    uint32_t lines;  /* how many whole lines came after it */
    uint32_t fault;  /* 0, or the number and the place of the first fault in them */
    uint32_t place;
    uint16_t powers[REGISTER_STEPS];
    uint32_t held;    /* how many bytes are held of the line in hand, and these */
    uint8_t line[64];
    uint8_t text[51]; /* the header's line that the name asks for */
} notification_reader;

/* The object of a request, by document 02, K3: number and place of the refusal and the notification as of a file; then day and second of
 * the submission, and the origin, which are zeros beside a refusal too. */
typedef struct {
    notification_file read;
    uint32_t day;
    uint32_t second;
    uint8_t origin[16];
} register_object;

/* Number and place of the refusal, 0 and 0 where there is none; then the length of the object. */
typedef struct {
    uint32_t number;
    uint32_t place;
    size_t length;
} register_object_written;

/* The eight digits of a date, without a final 0. */
typedef struct {
    uint8_t digits[8];
} calendar_text;

/* ---- The library's calls. Each takes the head by value, is lent the columns that it needs, and gives back the head that it leaves: what
 * is proved of the register is proved of these. The functions below keep head and columns together, and say what each call does. ---- */

/* A fresh register's head, and the statuses and ids of its records. */
typedef struct {
    register_head head;
    uint8_t statuses[REGISTER_RECORDS];
    uint32_t ids[REGISTER_RECORDS];
} register_start;

/* The head that a call leaves, and what it says. */
typedef struct {
    register_head head;
    register_said said;
} register_turn;

register_start register_head_fresh(void);

register_turn register_head_enrol_actor(register_head head, const uint8_t *code, size_t code_length, uint32_t first, uint32_t last);

register_turn register_head_enrol_category(register_head head, const uint8_t *text, size_t text_length);

register_turn register_head_load(register_head head, uint32_t numbers[REGISTER_LOADS], uint16_t approved[REGISTER_LOADS],
                                 register_row loads[REGISTER_LOADS], const uint8_t *actor, size_t actor_length,
                                 const uint8_t *category, size_t category_length, uint32_t day, uint32_t most,
                                 const uint32_t *powers, size_t powers_length);

register_turn register_head_file(register_head head, uint8_t statuses[REGISTER_RECORDS], uint32_t ids[REGISTER_RECORDS],
                                 uint32_t keys[REGISTER_RECORDS], register_mark marks[REGISTER_RECORDS],
                                 register_row rows[REGISTER_RECORDS], const uint32_t numbers[REGISTER_LOADS],
                                 const uint16_t approved[REGISTER_LOADS], const register_row loads[REGISTER_LOADS],
                                 const uint8_t *submitter, size_t submitter_length, const uint8_t *name, size_t name_length,
                                 const uint8_t *body, size_t body_length);

register_turn register_head_file_object(register_head head, uint8_t statuses[REGISTER_RECORDS], uint32_t ids[REGISTER_RECORDS],
                                        uint32_t keys[REGISTER_RECORDS], register_mark marks[REGISTER_RECORDS],
                                        register_row rows[REGISTER_RECORDS], const uint32_t numbers[REGISTER_LOADS],
                                        const uint16_t approved[REGISTER_LOADS], const register_row loads[REGISTER_LOADS],
                                        const uint8_t *submitter, size_t submitter_length, const uint8_t *body, size_t body_length);

register_turn register_head_advance(register_head head, uint32_t day, uint32_t minute);

register_said register_head_engagement(register_head head, const uint8_t statuses[REGISTER_RECORDS],
                                       const uint32_t keys[REGISTER_RECORDS], const register_mark marks[REGISTER_RECORDS],
                                       const register_row rows[REGISTER_RECORDS], const uint32_t numbers[REGISTER_LOADS],
                                       const register_row loads[REGISTER_LOADS], const uint8_t *actor, size_t actor_length,
                                       const uint8_t *category, size_t category_length, uint32_t day, uint32_t step);

register_record_shown register_head_record(register_head head, const uint8_t statuses[REGISTER_RECORDS],
                                           const uint32_t ids[REGISTER_RECORDS], const uint32_t keys[REGISTER_RECORDS],
                                           const register_mark marks[REGISTER_RECORDS], const register_row rows[REGISTER_RECORDS],
                                           const uint8_t *asker, size_t asker_length, uint32_t id);

register_said register_head_history(register_head head, const uint32_t ids[REGISTER_RECORDS], const uint32_t keys[REGISTER_RECORDS],
                                    const uint8_t *actor, size_t actor_length, uint32_t *out, size_t out_length);

/* ---- The calls on a register. What is named after "Values" stands in the values of an accepted call. ---- */

/* Keeps the head that a call leaves, and gives what it says. */
static inline register_said register_keep(register_state *r, register_turn turn)
{
    r->head = turn.head;
    return turn.said;
}

/* Makes a register that holds nothing, with its clock at day 0, minute 0. What stood there before means nothing. */
static inline void register_fresh(register_state *r)
{
    register_start start = register_head_fresh();
    r->head = start.head;
    memcpy(r->statuses, start.statuses, sizeof r->statuses);
    memcpy(r->ids, start.ids, sizeof r->ids);
}

/* Enrols an actor. Values: how many actors there now are. Refusals 9, 10, 37, 36. */
static inline register_said register_enrol_actor(register_state *r, const uint8_t *code, size_t code_length, uint32_t first,
                                                 uint32_t last)
{
    return register_keep(r, register_head_enrol_actor(r->head, code, code_length, first, last));
}

/* Enrols a category. Values: how many categories there now are. Refusals 9, 37, 36. */
static inline register_said register_enrol_category(register_state *r, const uint8_t *text, size_t text_length)
{
    return register_keep(r, register_head_enrol_category(r->head, text, text_length));
}

/* Gives one actor, category and day an approved power and one loaded power per step. Values: how many loads there now are. Refusals
 * 10, 22, 23, 39, 37, 36. A day can be loaded if it is after the clock's and all of it still counts: 39 refuses the next day in the last
 * half hour of the clock's. */
static inline register_said register_load(register_state *r, const uint8_t *actor, size_t actor_length, const uint8_t *category,
                                          size_t category_length, uint32_t day, uint32_t approved, const uint32_t *powers,
                                          size_t powers_length)
{
    return register_keep(r, register_head_load(r->head, r->numbers, r->approved, r->loads, actor, actor_length, category,
                                               category_length, day, approved, powers, powers_length));
}

/* Files a notification: the submitter's code, the file's name, the file's body. Values: the record's id, its status's letter, its
 * from-step, which is the first counted step of its day: of the clock's day the second after the one that runs, of the next day 0, in the
 * last half hour before it 1, of later days 0. Refusals 1 to 8, then 20 to 36. */
static inline register_said register_file(register_state *r, const uint8_t *submitter, size_t submitter_length, const uint8_t *name,
                                          size_t name_length, const uint8_t *body, size_t body_length)
{
    return register_keep(r, register_head_file(r->head, r->statuses, r->ids, r->keys, r->marks, r->rows, r->numbers, r->approved,
                                               r->loads, submitter, submitter_length, name, name_length, body, body_length));
}

/* Files a notification by the machine interface: the submitter's code, and the object of a request. It meets the same ledger as a file
 * does, and one party's file can answer the other's object. Values: as of a file. Refusals 42, 5 to 8, 43, then 20 to 36; the place of 6
 * and 7 is the step, counted from 1. */
static inline register_said register_file_object(register_state *r, const uint8_t *submitter, size_t submitter_length,
                                                 const uint8_t *body, size_t body_length)
{
    return register_keep(r, register_head_file_object(r->head, r->statuses, r->ids, r->keys, r->marks, r->rows, r->numbers,
                                                      r->approved, r->loads, submitter, submitter_length, body, body_length));
}

/* Advances the clock; the same moment is accepted. No values. Refusals 10, 38. */
static inline register_said register_advance(register_state *r, uint32_t day, uint32_t minute)
{
    return register_keep(r, register_head_advance(r->head, day, minute));
}

/* An actor's own engagement at a step. Values: the power. Refusals 22, 23, 10. */
static inline register_said register_engagement(const register_state *r, const uint8_t *actor, size_t actor_length,
                                                const uint8_t *category, size_t category_length, uint32_t day, uint32_t step)
{
    return register_head_engagement(r->head, r->statuses, r->keys, r->marks, r->rows, r->numbers, r->loads, actor, actor_length,
                                    category, category_length, day, step);
}

/* A record by id, for an actor who is ceder or acquirer of it. Refusals 22, 40, 41. */
static inline register_record_shown register_record(const register_state *r, const uint8_t *asker, size_t asker_length, uint32_t id)
{
    return register_head_record(r->head, r->statuses, r->ids, r->keys, r->marks, r->rows, asker, asker_length, id);
}

/* Puts the ids of all records that an actor is a party to into a lent buffer, by day, earliest first, and within a day by id, lowest
 * first; each comes once, the rest is untouched, and so is all of it beside a refusal. Values: how many they are. Refusals 22, 36. */
static inline register_said register_history(const register_state *r, const uint8_t *actor, size_t actor_length, uint32_t *ids,
                                             size_t ids_length)
{
    return register_head_history(r->head, r->ids, r->keys, actor, actor_length, ids, ids_length);
}

/* ---- The notification file. ---- */

/* Reads a file. Refusals 1 to 8. */
notification_file notification_read(const uint8_t *name, size_t name_length, const uint8_t *body, size_t body_length);

/* The same file with its body in pieces, each handed in once, empty or cut anywhere: begin with the name, feed the pieces one after
 * another, end. However the body is cut, the end gives what notification_read gives for all of it. Each call takes the reader that the one
 * before gave; a reader can be copied, and the copy fed otherwise. */
notification_reader notification_begin(const uint8_t *name, size_t name_length);
notification_reader notification_feed(notification_reader reader, const uint8_t *piece, size_t piece_length);

/* Refusals 1 to 8. */
notification_file notification_end(notification_reader reader);

/* Writes a notification's name and body into two lent buffers, the rest untouched; number and place of the notification are not looked
 * at. Refusals 9, 10, 8, 36. */
notification_written notification_write(notification_file n, uint8_t *name, size_t name_length, uint8_t *body, size_t body_length);

/* ---- The object of a request, by document 02, K3: eight members in their order, blanks between the tokens or none. ---- */

/* Reads an object of at most 8,192 bytes. Refusals 42, then 5 to 8; the place of 6 and 7 is the step, counted from 1. */
register_object register_object_read(const uint8_t *body, size_t body_length);

/* Writes the object of a notification, an origin and the moment of the submission into a lent buffer, without blanks, the rest untouched;
 * number and place are not looked at. The second is one of the day's 86,400. Refusals 9, the origin's form among it, 10, the moment's
 * range among it, 8, 36. */
register_object_written register_object_write(register_object object, uint8_t *buffer, size_t buffer_length);

/* ---- Days. ---- */

/* The day number of eight digits, year month day: 0 for 20000101 to 36524 for 20991231; CALENDAR_NO_DAY where they are no date. */
uint32_t calendar_day(const uint8_t *date, size_t date_length);

/* The eight digits of a day; eight bytes of 0 where there is no such day. */
calendar_text calendar_date(uint32_t day);

/* How many steps a day has: 46, 48 or 50; 0 where there is no such day. */
uint32_t calendar_steps(uint32_t day);

/* Sizes and places as rust/register/src/ffi.rs asserts them too. */
REGISTER_CHECK(sizeof(register_clock) == 8);
REGISTER_CHECK(sizeof(register_actor) == 24);
REGISTER_CHECK(sizeof(register_actors) == 196);
REGISTER_CHECK(sizeof(register_category) == 6);
REGISTER_CHECK(sizeof(register_categories) == 28);
REGISTER_CHECK(sizeof(register_head) == 240);
REGISTER_CHECK(offsetof(register_head, actors) == 8);
REGISTER_CHECK(offsetof(register_head, categories) == 204);
REGISTER_CHECK(offsetof(register_head, loads) == 232);
REGISTER_CHECK(offsetof(register_head, records) == 236);
REGISTER_CHECK(sizeof(register_row) == 100);
REGISTER_CHECK(sizeof(register_mark) == 4);
REGISTER_CHECK(sizeof(register_state) == 35952);
REGISTER_CHECK(offsetof(register_state, statuses) == 240);
REGISTER_CHECK(offsetof(register_state, ids) == 496);
REGISTER_CHECK(offsetof(register_state, keys) == 1520);
REGISTER_CHECK(offsetof(register_state, marks) == 2544);
REGISTER_CHECK(offsetof(register_state, rows) == 3568);
REGISTER_CHECK(offsetof(register_state, numbers) == 29168);
REGISTER_CHECK(offsetof(register_state, approved) == 29424);
REGISTER_CHECK(offsetof(register_state, loads) == 29552);
REGISTER_CHECK(sizeof(register_start) == 1520);
REGISTER_CHECK(offsetof(register_start, statuses) == 240);
REGISTER_CHECK(offsetof(register_start, ids) == 496);
REGISTER_CHECK(sizeof(register_said) == 28);
REGISTER_CHECK(offsetof(register_said, values) == 16);
REGISTER_CHECK(sizeof(register_turn) == 268);
REGISTER_CHECK(offsetof(register_turn, said) == 240);
REGISTER_CHECK(sizeof(register_record_shown) == 180);
REGISTER_CHECK(offsetof(register_record_shown, powers) == 24);
REGISTER_CHECK(offsetof(register_record_shown, submitter) == 124);
REGISTER_CHECK(offsetof(register_record_shown, ceder) == 140);
REGISTER_CHECK(offsetof(register_record_shown, acquirer) == 156);
REGISTER_CHECK(offsetof(register_record_shown, category) == 172);
REGISTER_CHECK(offsetof(register_record_shown, status) == 178);
REGISTER_CHECK(sizeof(notification_file) == 156);
REGISTER_CHECK(offsetof(notification_file, powers) == 16);
REGISTER_CHECK(offsetof(notification_file, ceder) == 116);
REGISTER_CHECK(offsetof(notification_file, acquirer) == 132);
REGISTER_CHECK(offsetof(notification_file, category) == 148);
REGISTER_CHECK(sizeof(notification_written) == 8 + 2 * sizeof(size_t));
REGISTER_CHECK(offsetof(notification_written, name) == 8);
REGISTER_CHECK(sizeof(notification_reader) == 252);
REGISTER_CHECK(offsetof(notification_reader, header) == 16);
REGISTER_CHECK(offsetof(notification_reader, powers) == 32);
REGISTER_CHECK(offsetof(notification_reader, held) == 132);
REGISTER_CHECK(offsetof(notification_reader, line) == 136);
REGISTER_CHECK(offsetof(notification_reader, text) == 200);
REGISTER_CHECK(sizeof(register_object) == 180);
REGISTER_CHECK(offsetof(register_object, day) == 156);
REGISTER_CHECK(offsetof(register_object, second) == 160);
REGISTER_CHECK(offsetof(register_object, origin) == 164);
REGISTER_CHECK(sizeof(register_object_written) == 8 + sizeof(size_t));
REGISTER_CHECK(offsetof(register_object_written, length) == 8);
REGISTER_CHECK(sizeof(calendar_text) == 8);

#ifdef __cplusplus
}
#endif

#endif

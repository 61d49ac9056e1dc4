/* The lengths NOTIFICATION_NAME, NOTIFICATION_BODY and NOTIFICATION_OBJECT are enough for every notification and no greater than needed,
 * shown by writing the longest one of every day.
 *
 * A body is a header and a line for each step. A line is two labels, which the step and the count of steps alone decide, and a power
 * of at most four digits; header and name have parts of fixed width, but for the C that a category may end with. So no notification of
 * a day is longer than the one with such a category and powers of 9999 at all steps. An object has the same parts, and origin and moment
 * of a fixed width. */
#include <stdio.h>
#include <string.h>

#include "register.h"

/* The refusals that are met here. */
#define OUTSIDE_ITS_RANGE 10
#define BUFFER_TOO_SHORT 36

/* The notification of a day with a category and the same power at every step. */
static notification_file notification(uint32_t day, const char *category, uint16_t power)
{
    notification_file n = {.day = day, .steps = calendar_steps(day)};
    memcpy(n.ceder, "17X100A100R0000L", sizeof n.ceder);
    memcpy(n.acquirer, "17X100A100R0001J", sizeof n.acquirer);
    memcpy(n.category, category, strlen(category));
    for (uint32_t k = 0; k < n.steps; k++) {
        n.powers[k] = power;
    }
    return n;
}

/* Writes a notification into buffers of these lengths. */
static notification_written write_into(notification_file n, size_t name_length, size_t body_length)
{
    static uint8_t name[2 * NOTIFICATION_NAME];
    static uint8_t body[2 * NOTIFICATION_BODY];
    return notification_write(n, name, name_length, body, body_length);
}

/* Writes the object of a notification that its ceder submits at the end of its day into a buffer of this length. */
static register_object_written object_into(notification_file n, size_t length)
{
    static uint8_t buffer[2 * NOTIFICATION_OBJECT];
    register_object object = {.read = n, .day = n.day, .second = 86399};
    memcpy(object.origin, n.ceder, sizeof object.origin);
    return register_object_write(object, buffer, length);
}

/* Whether an object is refused by that number, at place 0. */
static int object_refused(register_object_written written, uint32_t number)
{
    return written.number == number && written.place == 0 && written.length == 0;
}

/* Whether the notification is refused by that number, at place 0. */
static int refused(notification_written written, uint32_t number)
{
    return written.number == number && written.place == 0 && written.name == 0 && written.body == 0;
}

int main(void)
{
    unsigned names = 0, bodies = 0, objects = 0, wrong = 0;
    for (uint32_t day = 0; day < CALENDAR_NO_DAY; day++) {
        notification_file longest = notification(day, "13120C", 9999);
        notification_written written = write_into(longest, 2 * NOTIFICATION_NAME, 2 * NOTIFICATION_BODY);
        wrong += written.number != 0 || written.name > NOTIFICATION_NAME || written.body > NOTIFICATION_BODY;
        wrong += write_into(longest, NOTIFICATION_NAME, NOTIFICATION_BODY).number != 0;
        if (written.name == NOTIFICATION_NAME) {
            names++;
            wrong += !refused(write_into(longest, NOTIFICATION_NAME - 1, NOTIFICATION_BODY), BUFFER_TOO_SHORT);
        }
        if (written.body == NOTIFICATION_BODY) {
            bodies++;
            wrong += !refused(write_into(longest, NOTIFICATION_NAME, NOTIFICATION_BODY - 1), BUFFER_TOO_SHORT);
        }
        register_object_written object = object_into(longest, 2 * NOTIFICATION_OBJECT);
        wrong += object.number != 0 || object.length > NOTIFICATION_OBJECT;
        wrong += object_into(longest, NOTIFICATION_OBJECT).length != object.length;
        if (object.length == NOTIFICATION_OBJECT) {
            objects++;
            wrong += !object_refused(object_into(longest, NOTIFICATION_OBJECT - 1), BUFFER_TOO_SHORT);
        }
        /* A category without C has one byte less in all, and no power has five digits. */
        notification_written shorter = write_into(notification(day, "13120", 9999), NOTIFICATION_NAME, NOTIFICATION_BODY);
        wrong += shorter.number != 0 || shorter.name + 1 != written.name || shorter.body + 1 != written.body;
        wrong += !refused(write_into(notification(day, "13120C", 10000), NOTIFICATION_NAME, NOTIFICATION_BODY), OUTSIDE_ITS_RANGE);
        wrong += object_into(notification(day, "13120", 9999), NOTIFICATION_OBJECT).length + 1 != object.length;
        wrong += !object_refused(object_into(notification(day, "13120C", 10000), NOTIFICATION_OBJECT), OUTSIDE_ITS_RANGE);
    }
    printf("%u days: %u names of %u bytes, %u bodies of %u, %u objects of %u, %u faults\n", (unsigned)CALENDAR_NO_DAY, names,
           (unsigned)NOTIFICATION_NAME, bodies, (unsigned)NOTIFICATION_BODY, objects, (unsigned)NOTIFICATION_OBJECT, wrong);
    return wrong != 0 || names == 0 || bodies == 0 || objects == 0;
}

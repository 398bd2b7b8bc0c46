/* The library as a program, for machines whose own programs cannot be linked with it. Takes packed cases (second/README.md
 * says how they look) from standard input until it ends. Gives for each the answer and the whole lent output, for a message
 * that of each table it is graded into, then the lamp, the check and the place; numbers have eight bytes, the high byte
 * first. A case is a message, a batch, a text, a book, two books or records to be written. */
#include "../include/jasminedo.h"

#include <stdio.h>
#include <stdlib.h>
#include <string.h>

/* Bytes after the output, and records after the table, that nobody may write. */
#define GUARD 64
/* Longer tables are not lent; the comparison has the same limit. */
#define LONGEST_TABLE 100000

struct bytes {
    size_t length;
    uint8_t *start;
};

static void fail(const char *why) {
    fprintf(stderr, "library: %s\n", why);
    exit(1);
}

/* Room of just this size, so that tools that watch memory see where it ends. */
static uint8_t *room(size_t length) {
    uint8_t *start = malloc(length ? length : 1);
    if (!start)
        fail("no memory");
    return start;
}

static void read_all(uint8_t *start, size_t length) {
    if (fread(start, 1, length, stdin) != length)
        fail("the input ends inside a case");
}

static uint32_t read_number(void) {
    uint8_t b[4];
    read_all(b, sizeof b);
    return (uint32_t)b[0] << 24 | (uint32_t)b[1] << 16 | (uint32_t)b[2] << 8 | b[3];
}

static struct bytes read_bytes(void) {
    struct bytes bytes;
    bytes.length = read_number();
    bytes.start = room(bytes.length);
    read_all(bytes.start, bytes.length);
    return bytes;
}

static void write_number(uint64_t number) {
    for (int shift = 56; shift >= 0; shift -= 8)
        putchar((int)(number >> shift & 255));
}

/* What stands in the output before the answer: no ACK and no text has these bytes. The comparison fills alike. */
static uint8_t filled(size_t at) { return (uint8_t)(128 + at % 127); }

/* The lent output before the answer, and the guard after it. */
static uint8_t *lent(size_t length) {
    uint8_t *output = room(length + GUARD);
    for (size_t at = 0; at < length + GUARD; at++)
        output[at] = filled(at);
    return output;
}

static void write_output(const uint8_t *output, size_t length) {
    for (size_t at = length; at < length + GUARD; at++)
        if (output[at] != filled(at))
            fail("a byte after the output was changed");
    fwrite(output, 1, length, stdout);
}

/* What stands in a table before it is graded into: records out of range. The comparison fills alike. */
static jasminedo_finding filled_record(size_t at) {
    jasminedo_finding record = {
        .ordinal = (uint32_t)(4000000000u + at % 127),
        .repetition = (uint32_t)(4100000000u + at % 113),
        .rule = (uint16_t)(60000 + at % 109),
        .code = (uint16_t)(61000 + at % 107),
        .name = (uint8_t)(128 + at % 103),
        .field = (uint8_t)(128 + at % 101),
        .component = (uint8_t)(128 + at % 97),
        .severity = (uint8_t)(128 + at % 89),
    };
    return record;
}

/* The lent table before the message is graded, and the guard after it. */
static jasminedo_finding *lent_table(size_t records) {
    jasminedo_finding *table = (jasminedo_finding *)room((records + GUARD) * sizeof *table);
    for (size_t at = 0; at < records + GUARD; at++)
        table[at] = filled_record(at);
    return table;
}

static void write_bytes(uint32_t number, int bytes) {
    for (int shift = 8 * (bytes - 1); shift >= 0; shift -= 8)
        putchar((int)(number >> shift & 255));
}

static void write_record(const jasminedo_finding *record) {
    write_bytes(record->ordinal, 4);
    write_bytes(record->repetition, 4);
    write_bytes(record->rule, 2);
    write_bytes(record->code, 2);
    write_bytes(record->name, 1);
    write_bytes(record->field, 1);
    write_bytes(record->component, 1);
    write_bytes(record->severity, 1);
}

static jasminedo_finding read_record(void) {
    uint8_t b[16];
    read_all(b, sizeof b);
    jasminedo_finding record = {
        .ordinal = (uint32_t)b[0] << 24 | (uint32_t)b[1] << 16 | (uint32_t)b[2] << 8 | b[3],
        .repetition = (uint32_t)b[4] << 24 | (uint32_t)b[5] << 16 | (uint32_t)b[6] << 8 | b[7],
        .rule = (uint16_t)(b[8] << 8 | b[9]),
        .code = (uint16_t)(b[10] << 8 | b[11]),
        .name = b[12],
        .field = b[13],
        .component = b[14],
        .severity = b[15],
    };
    return record;
}

/* The table after the message was graded. */
static void write_table(const jasminedo_finding *table, size_t records) {
    for (size_t at = records; at < records + GUARD; at++) {
        jasminedo_finding before = filled_record(at);
        if (memcmp(&table[at], &before, sizeof before))
            fail("a record after the table was changed");
    }
    for (size_t at = 0; at < records; at++)
        write_record(&table[at]);
}

/* What a case begins with. */
enum { MESSAGE = 1, BATCH = 2, COMPILE = 3, SHOW = 4, LEGEND = 5, DIFF = 6, WRITE = 7 };

/* What a message and a batch have in common. */
struct letter {
    struct bytes given, book, stamp;
    uint32_t control;
    size_t output_length;
};

static struct letter read_letter(void) {
    struct letter letter;
    letter.given = read_bytes();
    letter.book = read_bytes();
    letter.stamp = read_bytes();
    letter.control = read_number();
    letter.output_length = read_number();
    return letter;
}

static void free_letter(const struct letter *letter) {
    free(letter->given.start);
    free(letter->book.start);
    free(letter->stamp.start);
}

/* Grades into so many records and, if that is not refused, writes the ACK from them. */
static void run_grading(const struct letter *letter, size_t records) {
    const struct bytes *given = &letter->given, *book = &letter->book, *stamp = &letter->stamp;
    jasminedo_finding *table = lent_table(records);
    uint64_t graded = jasminedo_grade(given->start, given->length, book->start, book->length, table, records);
    write_number(records);
    write_number(graded);
    write_table(table, records);
    if (jasminedo_number(graded) == 0) {
        uint8_t *output = lent(letter->output_length);
        uint32_t count = (uint32_t)jasminedo_detail(graded);
        write_number(jasminedo_write(given->start, given->length, table, records, count, stamp->start, stamp->length,
                                     letter->control, output, letter->output_length));
        write_output(output, letter->output_length);
        free(output);
    }
    free(table);
}

/* How many records are lent for a message that needs so many: none, one too few, just enough and up to eight more. The
 * comparison lends alike. Gives how many tables there are. */
static int choose_tables(uint64_t needed, size_t message_length, size_t tables[4]) {
    if (needed > LONGEST_TABLE) {
        tables[0] = 0;
        tables[1] = LONGEST_TABLE;
        return 2;
    }
    int count = 0;
    tables[count++] = 0;
    if (needed > 1)
        tables[count++] = needed - 1;
    if (needed > 0)
        tables[count++] = needed;
    tables[count++] = needed + 1 + message_length % 8;
    return count;
}

static void run_message(void) {
    struct letter letter = read_letter();
    const struct bytes *given = &letter.given, *book = &letter.book, *stamp = &letter.stamp;
    size_t segment = read_number(), field = read_number(), repetition = read_number(), component = read_number();

    jasminedo_finding none;
    uint64_t graded = jasminedo_grade(given->start, given->length, book->start, book->length, &none, 0);
    size_t tables[4];
    int count = choose_tables(jasminedo_number(graded) == 12 ? jasminedo_detail(graded) : 0, given->length, tables);
    write_number((uint64_t)count);
    for (int at = 0; at < count; at++)
        run_grading(&letter, tables[at]);

    write_number(jasminedo_lamp(given->start, given->length, book->start, book->length, stamp->start, stamp->length));
    write_number(jasminedo_check(given->start, given->length));
    write_number(jasminedo_locate(given->start, given->length, segment, field, repetition, component));
    free_letter(&letter);
}

static void run_batch(void) {
    struct letter letter = read_letter();
    const struct bytes *given = &letter.given, *book = &letter.book, *stamp = &letter.stamp;
    uint8_t *output = lent(letter.output_length);

    write_number(jasminedo_batch(given->start, given->length, book->start, book->length, stamp->start, stamp->length,
                                 letter.control, output, letter.output_length));
    write_output(output, letter.output_length);

    free_letter(&letter);
    free(output);
}

/* A message and records for its ACK. */
static void run_write(void) {
    struct bytes message = read_bytes();
    size_t records = read_number();
    size_t size = records * sizeof(jasminedo_finding);
    jasminedo_finding *table = (jasminedo_finding *)room(size), *before = (jasminedo_finding *)room(size);
    for (size_t at = 0; at < records; at++)
        before[at] = table[at] = read_record();
    uint32_t count = read_number();
    struct bytes stamp = read_bytes();
    uint32_t control = read_number();
    size_t length = read_number();
    uint8_t *output = lent(length);

    write_number(jasminedo_write(message.start, message.length, table, records, count, stamp.start, stamp.length, control,
                                 output, length));
    if (memcmp(table, before, size))
        fail("writing has changed a record");
    write_output(output, length);

    free(message.start);
    free(table);
    free(before);
    free(stamp.start);
    free(output);
}

/* A text or a book that is to become the other, or a legend. */
static void run_book(uint32_t kind) {
    struct bytes given = read_bytes();
    size_t length = read_number();
    uint8_t *output = lent(length);

    uint64_t (*call)(const uint8_t *, size_t, uint8_t *, size_t) =
        kind == COMPILE ? jasminedo_compile : kind == SHOW ? jasminedo_show : jasminedo_legend;
    write_number(call(given.start, given.length, output, length));
    write_output(output, length);

    free(given.start);
    free(output);
}

/* Two books, the old one first. */
static void run_diff(void) {
    struct bytes old = read_bytes(), new = read_bytes();
    size_t length = read_number();
    uint8_t *output = lent(length);

    write_number(jasminedo_diff(old.start, old.length, new.start, new.length, output, length));
    write_output(output, length);

    free(old.start);
    free(new.start);
    free(output);
}

static void run_case(void) {
    uint32_t kind = read_number();
    if (kind == MESSAGE)
        run_message();
    else if (kind == BATCH)
        run_batch();
    else if (kind == COMPILE || kind == SHOW || kind == LEGEND)
        run_book(kind);
    else if (kind == DIFF)
        run_diff();
    else if (kind == WRITE)
        run_write();
    else
        fail("a case begins with another number");
}

int main(void) {
    for (int next; (next = getchar()) != EOF;) {
        ungetc(next, stdin);
        run_case();
        /* Whoever sent the case may wait for what was made of it before it sends another. */
        if (fflush(stdout))
            fail("what was made of a case cannot be written");
    }
    return 0;
}

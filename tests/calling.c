/* Calls the library as a C program would: the worked example, graded, shown on a screen and written, the lamp, places, other
 * delimiters, a batch, a book from text, its own text and the legend, a text with changes and what they change in the book.
 * Says what differs. */
#include "../include/jasminedo.h"

#include <stdio.h>
#include <string.h>

static int wrong = 0;

static void expect(const char *what, int holds) {
    if (!holds) {
        printf("calling: %s\n", what);
        wrong = 1;
    }
}

#define BYTES(s) (const uint8_t *)(s), sizeof(s) - 1

/* A lamp's yes, its no by a finding of each severity that makes one, an I that does not, a header finding, and refusals 9 and 10. */
static void expect_lamps(void) {
#define LAMP(type, key, pid) "MSH|^~\\&|CAB|C1|REG|" key "|||" type "^V04|M1|P|2.5.1\rPID|" pid "\r"
    static const char clean[] = LAMP("VXU", "AX", "1||77"), informed[] = LAMP("VXU", "AX", "1"), warned[] = LAMP("VXU", "AX", "||77");
    static const char wrong_type[] = LAMP("ADT", "AX", "1||77"), elsewhere[] = LAMP("VXU", "AY", "1||77");
    static const char unordered[] = "MSH|^~\\&|CAB|C1|REG|AX|||VXU^V04|M1|P|2.5.1\r";
    static const char book[] = "VXB\0\1\1\2AX\0\2\0"
                               "PID\1\1\1W\0\0\0"
                               "PID\3\1\1I\0\0\0";
    static const char stamp[] = "20250113120000+0000";

    uint64_t got = jasminedo_lamp(BYTES(clean), BYTES(book), BYTES(stamp));
    expect("the lamp says yes to a message without findings", jasminedo_number(got) == 0 && jasminedo_detail(got) == 1);
    got = jasminedo_lamp(BYTES(informed), BYTES(book), BYTES(stamp));
    expect("the lamp says yes to an I", jasminedo_number(got) == 0 && jasminedo_detail(got) == 1);
    expect("the lamp says no to a W", jasminedo_lamp(BYTES(warned), BYTES(book), BYTES(stamp)) == 0);
    expect("the lamp says no to a broken order", jasminedo_lamp(BYTES(unordered), BYTES(book), BYTES(stamp)) == 0);
    expect("the lamp says no to a header finding", jasminedo_lamp(BYTES(wrong_type), BYTES(book), BYTES(stamp)) == 0);
    got = jasminedo_lamp(BYTES(clean), BYTES(book), BYTES("20250113"));
    expect("the lamp refuses a stamp that is none by 10", jasminedo_number(got) == 10 && jasminedo_detail(got) == 0);
    got = jasminedo_lamp(BYTES(elsewhere), BYTES(book), BYTES("20250113"));
    expect("the lamp refuses a key without a section by 9 first", jasminedo_number(got) == 9 && jasminedo_detail(got) == 0);
}

/* Two messages in a file, each refusal of a batch, and a file without messages. */
static void expect_batches(void) {
#define HEADER "MSH|^~\\&|CAB|C1|REG|AX|||VXU^V04|"
#define ACK_HEADER "MSH|^~\\&|REG|AX|CAB|C1|20250113120000+0000||ACK^V04^ACK|"
#define ACK_REST "|P|2.5.1|||NE|NE|||||Z23^CDCPHINVS\r"
    static const char file[] = "FHS|^~\\&|\rBHS\r" HEADER "M1|P|2.5.1\rPID\r" HEADER "M2|P|2.5.1\rPID\rBTS|2\rFTS|1\r";
    static const char miscounted[] = "FHS|^~\\&|\rBHS\r" HEADER "M1|P|2.5.1\rPID\rBTS|2\rFTS|1\r";
    static const char second_bad[] = "FHS|^~\\&|\rBHS\r" HEADER "M1|P|2.5.1\rPID\r" HEADER "|P|2.5.1\rPID\rBTS|2\rFTS|1\r";
    static const char empty[] = "FHS|^~\\&|\rBHS\rBTS|0\rFTS|1\r";
    static const char book[] = "VXB\0\1\1\2AX\0\0\0";
    static const char stamp[] = "20250113120000+0000";
    static const char acks[] = ACK_HEADER "7" ACK_REST "MSA|AA|M1\r" ACK_HEADER "8" ACK_REST "MSA|AA|M2\r";
    const size_t length = sizeof(acks) - 1;
    uint8_t output[300], before[sizeof(output)];
    memset(output, '.', sizeof(output));
    memcpy(before, output, sizeof(output));

    uint64_t got = jasminedo_batch(BYTES(miscounted), BYTES(book), BYTES(stamp), 7, output, sizeof(output));
    expect("a batch with a count that differs is refusal 14", jasminedo_number(got) == 14 && jasminedo_detail(got) == 0);
    got = jasminedo_batch(BYTES(file), BYTES(book), BYTES(stamp), UINT32_MAX, output, sizeof(output));
    expect("a batch past the last control number is refusal 14", jasminedo_number(got) == 14 && jasminedo_detail(got) == 0);
    got = jasminedo_batch(BYTES(second_bad), BYTES(book), BYTES(stamp), 7, output, sizeof(output));
    expect("a batch whose second message is bad is refusal 15", jasminedo_number(got) == 15 && jasminedo_detail(got) == 2);
    got = jasminedo_batch(BYTES(file), BYTES(book), BYTES(stamp), 7, output, length - 1);
    expect("a batch is refused with the joined length", jasminedo_number(got) == 11 && jasminedo_detail(got) == length);
    got = jasminedo_batch(BYTES(empty), BYTES("?"), BYTES("?"), 7, output, 0);
    expect("a batch without messages has no bytes", jasminedo_number(got) == 0 && jasminedo_detail(got) == 0);
    expect("a refused batch and an empty one leave the output", memcmp(output, before, sizeof(output)) == 0);

    got = jasminedo_batch(BYTES(file), BYTES(book), BYTES(stamp), 7, output, sizeof(output));
    expect("a batch is answered with the joined length", jasminedo_number(got) == 0 && jasminedo_detail(got) == length);
    expect("the ACKs of a batch are joined", memcmp(output, acks, length) == 0);
    expect("what follows the ACKs is left", memcmp(output + length, before, sizeof(output) - length) == 0);
}

/* A text of one rule, its book, the book's own text and the legend; a refusal of each, and a length needed. */
static void expect_books(void) {
    static const char text[] = "book 1\nsection A | a clinic\nrule PID-7.1 REQUIRED E | no date of birth\n";
    static const char unknown[] = "book 1\nsection A\nrules PID-7.1 REQUIRED E\n";
    static const char twice[] = "book 1\nsection A\nrule PID-3 DATE E\nrule PID-3 DATE E\n";
    static const char book[] = "VXB\0\1\1\1A\0\1\0"
                               "PID\7\1\1E\0\0\0";
    static const char plain[] = "book 1\nsection A\nrule PID-7.1 REQUIRED E\n";
    static const char legend[] = "A 0 | a clinic\nA 1 PID-7.1 REQUIRED E | no date of birth\n";
    const size_t length = sizeof(book) - 1, plain_length = sizeof(plain) - 1, legend_length = sizeof(legend) - 1;
    uint8_t output[100], before[sizeof(output)], shown[sizeof(output)], meant[sizeof(output)];
    memset(before, '.', sizeof(before));
    memcpy(output, before, sizeof(output));
    memcpy(shown, before, sizeof(shown));
    memcpy(meant, before, sizeof(meant));

    uint64_t got = jasminedo_compile(BYTES(unknown), output, sizeof(output));
    expect("a text with an unknown word is refusal 33 with its line",
           jasminedo_number(got) == 33 && jasminedo_line(got) == 3 && jasminedo_section(got) == 0);
    got = jasminedo_compile(BYTES(text), output, length - 1);
    expect("a book that needs one byte more is refused with its length", jasminedo_number(got) == 55 && jasminedo_detail(got) == length);
    got = jasminedo_show(BYTES("VXB\0\1"), output, sizeof(output));
    expect("a book that is cut off is refusal 7", jasminedo_number(got) == 7 && jasminedo_detail(got) == 0);
    got = jasminedo_show(BYTES(book), output, plain_length - 1);
    expect("a shown text that needs one byte more is refused with its length",
           jasminedo_number(got) == 55 && jasminedo_detail(got) == plain_length);
    got = jasminedo_legend(BYTES(twice), output, sizeof(output));
    expect("the legend of a text with a rule twice is refusal 47 with its line and its section's",
           jasminedo_number(got) == 47 && jasminedo_line(got) == 4 && jasminedo_section(got) == 2);
    got = jasminedo_legend(BYTES(text), output, legend_length - 1);
    expect("a legend that needs one byte more is refused with its length",
           jasminedo_number(got) == 55 && jasminedo_detail(got) == legend_length);
    expect("a refused text and a refused book leave the output", memcmp(output, before, sizeof(output)) == 0);

    got = jasminedo_compile(BYTES(text), output, sizeof(output));
    expect("a text is compiled with its book's length", jasminedo_number(got) == 0 && jasminedo_detail(got) == length);
    expect("the book has its 21 bytes", length == 21 && memcmp(output, book, length) == 0);
    expect("what follows the book is left", memcmp(output + length, before, sizeof(output) - length) == 0);

    got = jasminedo_show(output, length, shown, sizeof(shown));
    expect("the book is shown with its text's length", jasminedo_number(got) == 0 && jasminedo_detail(got) == plain_length);
    expect("the shown text has no words for people", memcmp(shown, plain, plain_length) == 0);
    expect("what follows the shown text is left", memcmp(shown + plain_length, before, sizeof(shown) - plain_length) == 0);
    memcpy(output, before, sizeof(output));
    got = jasminedo_compile(shown, plain_length, output, sizeof(output));
    expect("the shown text is compiled to the same book", got == 256 * length && memcmp(output, book, length) == 0);

    got = jasminedo_legend(BYTES(text), meant, sizeof(meant));
    expect("a legend is told with its length", jasminedo_number(got) == 0 && jasminedo_detail(got) == legend_length);
    expect("the legend has the section and the rule with their words", memcmp(meant, legend, legend_length) == 0);
    expect("what follows the legend is left", memcmp(meant + legend_length, before, sizeof(meant) - legend_length) == 0);
}

/* A section that takes over a common; lines are added that change it, the ninth of the text and so on. */
#define PAGE \
    "book 1\nset sex F M\ncommon all\nrule PID-7.1 REQUIRED E\nrule RXA-6 REQUIRED E\nrule PID-8 CODE W sex\n" \
    "section A\nuse all\n"
#define CHANGES "severity PID-7.1 REQUIRED I\ndrop RXA-6 REQUIRED\nmore sex X\n"

/* The book of a text with changes, and a refusal of each that changes nothing. */
static void expect_changes(void) {
    static const char text[] = PAGE CHANGES;
    static const char not_there[] = PAGE "drop RXA-7 REQUIRED\n";
    static const char there[] = PAGE "more sex M\n";
    static const char not_held[] = PAGE "drop PID-8 CODE\nmore sex X\n";
    static const char book[] = "VXB\0\1\1\1A\0\2\1"
                               "PID\7\1\1I\0\0\0"
                               "PID\10\0\6W\1\0\0"
                               "\0\3\1F\1M\1X";
    const size_t length = sizeof(book) - 1;
    uint8_t output[100], before[sizeof(output)];
    memset(before, '.', sizeof(before));
    memcpy(output, before, sizeof(output));

    uint64_t got = jasminedo_compile(BYTES(not_there), output, sizeof(output));
    expect("a rule dropped that is not there is refusal 48 with its line and its section's",
           jasminedo_number(got) == 48 && jasminedo_line(got) == 9 && jasminedo_section(got) == 7);
    got = jasminedo_compile(BYTES(there), output, sizeof(output));
    expect("a code added that is there is refusal 49 with its line and its section's",
           jasminedo_number(got) == 49 && jasminedo_line(got) == 9 && jasminedo_section(got) == 7);
    got = jasminedo_compile(BYTES(not_held), output, sizeof(output));
    expect("a code added to a set that no rule names is refusal 52 with its line and its section's",
           jasminedo_number(got) == 52 && jasminedo_line(got) == 10 && jasminedo_section(got) == 7);
    expect("a refused change leaves the output", memcmp(output, before, sizeof(output)) == 0);

    got = jasminedo_compile(BYTES(text), output, sizeof(output));
    expect("a text with changes is compiled with its book's length", jasminedo_number(got) == 0 && jasminedo_detail(got) == length);
    expect("the book has the changed severity, a rule less and a code more", memcmp(output, book, length) == 0);
    expect("what follows the changed book is left", memcmp(output + length, before, sizeof(output) - length) == 0);
}

/* What the changes change in the book without them, a refusal of each book, and a length needed. */
static void expect_differences(void) {
    static const char text[] = PAGE, changed[] = PAGE CHANGES;
    static const char lines[] = "A ~ 1 PID-7.1 REQUIRED E -> I\nA - 2 RXA-6 REQUIRED E\nA ~ 3 PID-8 CODE +X\n"
                                "A # 3 -> 2 PID-8 CODE\n";
    const size_t length = sizeof(lines) - 1;
    uint8_t old[50], new[50], output[150], before[sizeof(output)];
    memset(before, '.', sizeof(before));
    memcpy(output, before, sizeof(output));
    const size_t old_length = jasminedo_detail(jasminedo_compile(BYTES(text), old, sizeof(old)));
    const size_t new_length = jasminedo_detail(jasminedo_compile(BYTES(changed), new, sizeof(new)));
    expect("the books of 47 and 39 bytes are compiled", old_length == 47 && new_length == 39);

    uint64_t got = jasminedo_diff(BYTES("VXB\0\1"), BYTES("VXB\0\1"), output, sizeof(output));
    expect("an old book that is cut off is refusal 7 of the first",
           jasminedo_number(got) == 7 && jasminedo_line(got) == 1 && jasminedo_section(got) == 0);
    got = jasminedo_diff(old, old_length, BYTES("VXB\0\2\1\1A\0\0\0"), output, sizeof(output));
    expect("a new book of another version is refusal 8 of the second",
           jasminedo_number(got) == 8 && jasminedo_line(got) == 2 && jasminedo_section(got) == 0);
    got = jasminedo_diff(old, old_length, new, new_length, output, length - 1);
    expect("a difference that needs one byte more is refused with its length",
           jasminedo_number(got) == 55 && jasminedo_detail(got) == length);
    got = jasminedo_diff(old, old_length, old, old_length, output, 0);
    expect("a book and itself have no difference", jasminedo_number(got) == 0 && jasminedo_detail(got) == 0);
    expect("two books that are refused or alike leave the output", memcmp(output, before, sizeof(output)) == 0);

    got = jasminedo_diff(old, old_length, new, new_length, output, sizeof(output));
    expect("a difference is told with its length", jasminedo_number(got) == 0 && jasminedo_detail(got) == length);
    expect("the difference has a line for each thing", memcmp(output, lines, length) == 0);
    expect("what follows the difference is left", memcmp(output + length, before, sizeof(output) - length) == 0);
}

/* A finding as a cabinet's screen shows it. */
static void show(char *line, size_t size, const jasminedo_finding *finding) {
    char place[64] = "the end of the message";
    if (finding->name && !finding->field)
        snprintf(place, sizeof(place), "%s %u", jasminedo_name(finding->name), (unsigned)finding->ordinal);
    else if (finding->name)
        snprintf(place, sizeof(place), "%s %u, field %u, repetition %u, component %u", jasminedo_name(finding->name), (unsigned)finding->ordinal,
                 finding->field, (unsigned)finding->repetition, finding->component);
    snprintf(line, size, "%c %u at %s, rule %u", finding->severity, finding->code, place, finding->rule);
}

/* The second letter of MSA-1 of an ACK in so many bytes. */
static char verdict(const uint8_t *ack, size_t length) {
    const uint8_t *end = memchr(ack, '\r', length - 6);
    return end ? (char)end[6] : 0;
}

/* The worked example: graded into tables of each size, shown, written; and records that a screen may not have changed like that. */
static void expect_example(void) {
    static const char message[] = "MSH|^~\\&|CAB|C1|REG|AX|20250113115900+0000||VXU^V04^VXU_V04|M1|P|2.5.1\r"
                                  "PID|1||77||ROE^ANN||20240230\r";
    static const char book[] = "VXB\0\1\1\2AX\0\3\0"
                               "PID\7\1\4E\0\0\0"
                               "PID\3\1\1E\0\0\0"
                               "PID\10\0\1W\0\0\0";
    static const char stamp[] = "20250113120000+0000";
    static const char ack[] = "MSH|^~\\&|REG|AX|CAB|C1|20250113120000+0000||ACK^V04^ACK|7|P|2.5.1|||NE|NE|||||Z23^CDCPHINVS\r"
                              "MSA|AE|M1\r"
                              "ERR||PID^1^7^1^1|102^Data type error^HL70357|E|1^^L\r"
                              "ERR||PID^1^8^1|101^Required field missing^HL70357|W|3^^L\r";
    const size_t length = sizeof(ack) - 1;
    const jasminedo_finding unused = {9, 9, 9, 9, 9, 9, 9, 9};
    jasminedo_finding table[3] = {unused, unused, unused};
    uint8_t output[300];
    char line[128];
    memset(output, '.', sizeof(output));

    uint64_t got = jasminedo_grade(BYTES(message), BYTES(book), table, 1);
    expect("a table one record short is refused with the number needed", jasminedo_number(got) == 12 && jasminedo_detail(got) == 2);
    expect("no table is enough where there are findings", jasminedo_grade(BYTES(message), BYTES(book), table, 0) == got);
    expect("a refusal leaves the table", memcmp(table, &unused, sizeof(unused)) == 0);

    got = jasminedo_grade(BYTES(message), BYTES(book), table, 3);
    expect("the example has two findings", jasminedo_number(got) == 0 && jasminedo_detail(got) == 2);
    expect("the record past them is left", memcmp(&table[2], &unused, sizeof(unused)) == 0);
    show(line, sizeof(line), &table[0]);
    expect("the screen shows the date", strcmp(line, "E 102 at PID 1, field 7, repetition 1, component 1, rule 1") == 0);
    show(line, sizeof(line), &table[1]);
    expect("the screen shows what is missing", strcmp(line, "W 101 at PID 1, field 8, repetition 1, component 0, rule 3") == 0);

    got = jasminedo_write(BYTES(message), table, 3, 2, BYTES(stamp), 7, output, length - 1);
    expect("an output one byte short is refused with the length needed", jasminedo_number(got) == 11 && jasminedo_detail(got) == length);
    table[1].rule = 257;
    got = jasminedo_write(BYTES(message), table, 3, 2, BYTES("20250113"), 7, output, sizeof(output));
    expect("a record out of range is refused by 13, before the stamp", jasminedo_number(got) == 13 && jasminedo_detail(got) == 0);
    expect("a count over the table is refused by 13", jasminedo_write(BYTES(message), table, 1, 2, BYTES(stamp), 7, output, sizeof(output)) == got);
    expect("refusals leave the output", output[0] == '.' && output[length - 2] == '.');
    table[1].rule = 3;
    got = jasminedo_write(BYTES(message), table, 3, 2, BYTES(stamp), 7, output, sizeof(output));
    expect("the example is answered with its length", jasminedo_number(got) == 0 && jasminedo_detail(got) == length);
    expect("the ACK is the example's", memcmp(output, ack, length) == 0);
    expect("what follows the ACK is left", output[length] == '.' && output[sizeof(output) - 1] == '.');
    expect("the lamp says no to the example", jasminedo_lamp(BYTES(message), BYTES(book), BYTES(stamp)) == 0);

    got = jasminedo_write(BYTES(message), table, 3, 0, BYTES(stamp), 7, output, sizeof(output));
    expect("no records make AA", jasminedo_number(got) == 0 && verdict(output, sizeof(output)) == 'A');
    table[0] = (jasminedo_finding){1, 1, 0, 200, 1, 9, 1, 'E'};
    got = jasminedo_write(BYTES(message), table, 3, 1, BYTES(stamp), 7, output, sizeof(output));
    expect("a header code makes AR", jasminedo_number(got) == 0 && verdict(output, sizeof(output)) == 'R');
    table[0] = (jasminedo_finding){0, 0, 0, 100, 0, 0, 0, 'E'};
    show(line, sizeof(line), &table[0]);
    expect("the screen shows the end", strcmp(line, "E 100 at the end of the message, rule 0") == 0);
}

int main(void) {
    static const char message[] = "MSH|^~\\&|CAB|C1|REG|AX|20250113115900+0000||VXU^V04^VXU_V04|M1|P|2.5.1\r"
                                  "PID|1||77||ROE^ANN||20240230\r";
    expect_example();

    uint64_t got = jasminedo_check(BYTES(""));
    expect("an empty message is refusal 1", jasminedo_number(got) == 1 && jasminedo_detail(got) == 0);
    got = jasminedo_locate(BYTES(message), 2, 5, 1, 2);
    expect("PID-5.2 is ANN", jasminedo_length(got) == 3 && memcmp(message + jasminedo_start(got), "ANN", 3) == 0);
    got = jasminedo_locate(BYTES(message), 2, 8, 1, 1);
    expect("PID-8 is missing", jasminedo_length(got) == 0);

    static const char other[] = "MSH|#~\\&|\rPID|||||ROE^#ANN\r";
    got = jasminedo_locate(BYTES(other), 2, 5, 1, 1);
    expect("with # for the caret PID-5.1 is ROE^", jasminedo_length(got) == 4 && memcmp(other + jasminedo_start(got), "ROE^", 4) == 0);
    got = jasminedo_check(BYTES("MSH|^~\\^|\r"));
    expect("a delimiter that stands twice is refusal 4", jasminedo_number(got) == 4);

    expect_lamps();
    expect_batches();
    expect_books();
    expect_changes();
    expect_differences();

    if (!wrong)
        printf("calling: as expected\n");
    return wrong;
}

/* Jasminedo from C and every language that calls C: numbers, byte slices and tables of findings.
 *
 * Link with target/staticlib/libjasminedo.a (made by `./build jasminedo`). Nothing is kept between calls,
 * nothing is allocated, and every input has an answer. A slice is a pointer and a length; the pointer may be dangling
 * but not null where the length is 0. A table is a pointer and a number of records. Neither the output nor a table that is
 * graded into may overlap an input. */
#ifndef JASMINEDO_H
#define JASMINEDO_H

#include <stddef.h>
#include <stdint.h>

#ifdef __cplusplus
extern "C" {
#endif

/* An answer holds a number in its low byte and a detail in the bytes above. */
static inline unsigned jasminedo_number(uint64_t answer) { return (unsigned)(answer % 256); }
static inline uint64_t jasminedo_detail(uint64_t answer) { return answer / 256; }

/* One finding: what an ERR segment says. The names are 1 to 10, in the order of jasminedo_name; 0, with ordinal 0, is the end of
 * the message. ordinal counts among the segments of the name. With code 100, a broken order, field, repetition, component and rule
 * are 0. Component 0 is the whole repetition; the rule of a header code, 200 to 203, is 0. The severity is the letter E, W or I. */
typedef struct {
    uint32_t ordinal;
    uint32_t repetition;
    uint16_t rule;
    uint16_t code;
    uint8_t name;
    uint8_t field;
    uint8_t component;
    uint8_t severity;
} jasminedo_finding;

/* The three letters of a name, or none. */
static inline const char *jasminedo_name(unsigned name) {
    static const char names[][4] = {"", "MSH", "PID", "PD1", "NK1", "PV1", "ORC", "RXA", "RXR", "OBX", "NTE"};
    return names[name <= 10 ? name : 0];
}

/* Grades a message by the section of the book that it names. Number 0: the detail is the number of findings, and so many records at
 * the start of the table hold them, in the ACK's order; all later records are as they were. Otherwise the whole table is as it was,
 * and the number is the first of these: 1 to 9, about the message and the book; 12, the findings exceed the table, whose detail is the
 * number needed. The table may have 0 records; its pointer is then aligned as for a record, and not null. */
uint64_t jasminedo_grade(const uint8_t *message, size_t message_length, const uint8_t *book, size_t book_length,
                         jasminedo_finding *table, size_t table_records);

/* Writes the ACK to a message from the first `count` records of a table; those behind them are not looked at. MSA-1 is AR if a code
 * from 200 to 203 is among them, else AE if an E or W is, else AA. Number 0: the ACK stands in the first bytes of the output, the
 * detail is its length, all later bytes are as they were. Otherwise the whole output is as it was, and the number is the first of these:
 * 1 to 6, about the message; 13, the count exceeds the table or one of the counted records is out of range, detail 0; 10, the stamp
 * is none; 11, the detail is the length needed. The message is read by its own five delimiters, and the ACK is written with them. */
uint64_t jasminedo_write(const uint8_t *message, size_t message_length, const jasminedo_finding *table, size_t table_records,
                         uint32_t count, const uint8_t *stamp, size_t stamp_length, uint32_t control, uint8_t *output,
                         size_t output_length);

/* Only whether the ACK would say AA, for a lamp: number 0 with detail 1 for yes or 0 for no, or one of refusals 1 to 10, which are
 * those of jasminedo_grade and then 10. Grading stops at the first finding of severity E or W; findings of severity I alone are yes. */
uint64_t jasminedo_lamp(const uint8_t *message, size_t message_length, const uint8_t *book, size_t book_length,
                        const uint8_t *stamp, size_t stamp_length);

/* A batch file: FHS, BHS, messages, BTS, FTS. Number 0: the ACKs of its messages stand one after the other in the first
 * bytes of the output, with control numbers counting up from the one given; the detail is their joined length, 0 without
 * messages, and all later bytes are as they were. Otherwise the whole output is as it was, and the number is the first of
 * these: 14, the file has another shape or over 1,048,576 bytes, a count differs, or the control numbers would pass their
 * largest value, detail 0; 15, a message is one that 1 to 10 refuse, the detail is the first such one's ordinal from 1;
 * 11, the detail is the length needed. */
uint64_t jasminedo_batch(const uint8_t *file, size_t file_length, const uint8_t *book, size_t book_length,
                         const uint8_t *stamp, size_t stamp_length, uint32_t control, uint8_t *output,
                         size_t output_length);

/* Number 0 for a message that can be read, or one of refusals 1 to 5; 4 is told of delimiters that may not be. */
uint64_t jasminedo_check(const uint8_t *message, size_t message_length);

/* A place of the message by its own delimiters, all counted from 1; component 0 is the whole repetition. What is
 * missing has length 0. */
uint64_t jasminedo_locate(const uint8_t *message, size_t message_length, size_t segment, size_t field,
                          size_t repetition, size_t component);
static inline size_t jasminedo_start(uint64_t place) { return (size_t)(place / 65536); }
static inline size_t jasminedo_length(uint64_t place) { return (size_t)(place % 65536); }

/* Rule books as text. Number 0: what was asked for stands in the first bytes of the output, jasminedo_detail is its
 * length, and all later bytes are as they were. Otherwise the whole output is as it was. 55, the output is too short:
 * jasminedo_detail is the length needed. Any other number has a line in the four bytes above it, and above that the line
 * of the section that was being made, 0 outside one. Lines count from 1; 0 is none. */
static inline uint64_t jasminedo_line(uint64_t told) { return told / 256 % 4294967296u; }
static inline uint64_t jasminedo_section(uint64_t told) { return told / 1099511627776u; }

/* The book that a text means, or one of 31 to 56. */
uint64_t jasminedo_compile(const uint8_t *text, size_t text_length, uint8_t *output, size_t output_length);

/* The canonical text of a book, which compiles to the same bytes, or 7, the book is malformed, 8, it has another version
 * than 1, or 55. No line and no section is told with 7 and 8. */
uint64_t jasminedo_show(const uint8_t *book, size_t book_length, uint8_t *output, size_t output_length);

/* What a new book changes in an old one, a line for each thing, or 7 or 8 of a book, or 55. jasminedo_line of 7 and 8 is 1
 * where it is told of the old book, 2 of the new one, and no section is told. The length is 0 where there is no difference. */
uint64_t jasminedo_diff(const uint8_t *old_book, size_t old_length, const uint8_t *new_book, size_t new_length,
                        uint8_t *output, size_t output_length);

/* A line for each section that a text has and each of its rules: what the rule numbers of the text's book mean. Refused
 * as jasminedo_compile refuses the text; then 55. */
uint64_t jasminedo_legend(const uint8_t *text, size_t text_length, uint8_t *output, size_t output_length);

#ifdef __cplusplus
}
#endif

#endif

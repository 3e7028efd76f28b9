/*
 * Trace line reader: cuts a line into named tokens by a table of regular expressions, by the POSIX rule. The table is written by hand, or made
 * from a text by trace_compile. trace_order says whether the tokens' names stand in the order that pairs of names ask for. A live line is one that
 * is still being typed: after each byte trace_live_add says whether it has a reading, and whether it can still get one. trace_page reads the lines of
 * a page by one table, and their classes by a second one. trace_apart says whether the two alternatives of an Or record are seen to share no line.
 *
 * Every call returns one 64-bit number: its result, or a refusal's number times 2^32 plus the refusal's detail, in trace_page plus the one that is
 * named times 2^56. Take it apart with trace_is_refused, trace_refusal, trace_detail and trace_who. A result is below 2^32, but for that of
 * trace_order on 2^32 tokens (12 GiB) and more.
 *
 * What the caller owes: a pointer with a length above 0 points to that many bytes, or pairs (one with length 0 may be null, or any address),
 * a pointer to a trace_live points to one, and what a call writes to (work, out, a trace_live, and in trace_page reading, first and second)
 * overlaps no other argument. Nothing else: every text, table, start or record number, line, page, live line, reading, token list, pair and length is
 * taken, and the call comes to an end with its result or a refusal. The calls keep no state and allocate nothing; several threads may call at once on
 * buffers and live lines of their own. A call needs less than 1 MiB of stack.
 *
 * The functions defined here are in no library: they are compiled into the caller, C99 or C++. The twelve calls are in libtrace.a and
 * libtrace.so:
 *     cc tool.c $(pkg-config --cflags --libs trace)
 *
 * docs/FORMATS.md, which is installed as share/doc/trace/FORMATS.md, has the rule by which a line is cut, the bytes of a reading, and the
 * order of readings.
 */
#ifndef TRACE_H
#define TRACE_H

#include <stddef.h>
#include <stdint.h>

#ifdef __cplusplus
extern "C" {
#endif

/* The version, as numbers and as text ("4.0.0"). Another major number says that a format or a call's result has changed. */
#define TRACE_VERSION_MAJOR 4
#define TRACE_VERSION_MINOR 0
#define TRACE_VERSION_PATCH 0
#define TRACE_TEXT_OF(macro) TRACE_TEXT(macro)
#define TRACE_TEXT(word) #word
#define TRACE_VERSION TRACE_TEXT_OF(TRACE_VERSION_MAJOR) "." TRACE_TEXT_OF(TRACE_VERSION_MINOR) "." TRACE_TEXT_OF(TRACE_VERSION_PATCH)

/* Limits, and the bytes of one record of a table, one record of a reading, and one token. */
#define TRACE_MAX_RECORDS 255     /* records of a table */
#define TRACE_MAX_LINE 255        /* bytes of a line */
#define TRACE_MAX_TEXT 4096       /* bytes of a text for trace_compile */
#define TRACE_MAX_TABLE 1020      /* bytes of a table; a buffer of these is always long enough for trace_compile */
#define TRACE_MAX_PAIRS 64        /* pairs for trace_order */
#define TRACE_MAX_LINES 255       /* lines of a page */
#define TRACE_TABLE_RECORD 4      /* kind, a, b, tag */
#define TRACE_READING_RECORD 4    /* kind, argument, bytes spelled, number of the table record */
#define TRACE_TOKEN 3             /* tag, offset in the line, length */

/*
 * A table: records of kind, a, b and tag, numbered from 0.
 *
 * Or, Seq and Star name other records, their children, by number. A child's number is below its parent's, and in the whole table no record
 * is named twice: nothing is shared, so a rule with two digits has two records for them.
 *
 * The tag is the name, 1 to 255, of a token; 0 is no tag. Any record may have one. An outer tag hides those inside it: a token is one whole
 * part, and trace_tokens does not look for others in it. A tagged part that spells no byte, as an optional field that is absent, is no token.
 *
 * One table may hold several rules, each with a start number of its own: records that the start record does not reach are allowed. A table
 * that trace_check passes may be lent up to its start record alone, as 4 * (start + 1) bytes. It passes too, the readings and tokens are the
 * same, and trace_read takes less time and a work area for start + 1 records.
 */
#define TRACE_NOTHING 0           /* spells no line */
#define TRACE_EMPTY 1             /* spells the empty line */
#define TRACE_RANGE 2             /* one byte from a to b */
#define TRACE_OR 3                /* a or b */
#define TRACE_SEQ 4               /* a, then b */
#define TRACE_STAR 5              /* a, any number of times */
#define TRACE_OTHER 6             /* one byte below a or above b */

/*
 * A reading: records of kind, argument, bytes spelled and record number, each parent before its children.
 *
 * The third byte is the length of the record's part in bytes, the fourth the number of the table record that reads it. The first record is the
 * whole line's, with the start number. A part begins in the line behind as many bytes as there are Byte records before its own.
 *
 * The calls that take a reading refuse one with a length or a number that is not the true one.
 */
#define TRACE_READING_VOID 0      /* the empty line, by an Empty */
#define TRACE_READING_BYTE 1      /* the byte that is the argument, by a Range or an Other */
#define TRACE_READING_LEFT 2      /* of an Or; followed by a reading of its record a */
#define TRACE_READING_RIGHT 3     /* of an Or; followed by a reading of its record b */
#define TRACE_READING_SEQ 4       /* of a Seq; followed by a reading of its record a and one of b */
#define TRACE_READING_STARS 5     /* of a Star; followed by as many readings of its record a as the argument says */

/*
 * Refusals. The detail is 0 unless stated.
 * The rule author's: the table is wrong; the detail of 2 to 6 is the record's number.
 */
#define TRACE_REFUSED_SIZE 1      /* table of 0 bytes, over 1,020, or not a multiple of 4 */
#define TRACE_REFUSED_KIND 2      /* kind above 6 */
#define TRACE_REFUSED_UNUSED 3    /* an unused a or b is not 0 */
#define TRACE_REFUSED_BOUNDS 4    /* Range or Other with a above b */
#define TRACE_REFUSED_CHILD 5     /* child number not below its parent's */
#define TRACE_REFUSED_NAMED 6     /* a child named twice, anywhere in the table */
/* The line's. */
#define TRACE_REFUSED_LINE 7      /* line over 255 bytes, or Add to one of 255 */
#define TRACE_REFUSED_NO_READING 8 /* the start record does not spell the line */
/* The caller's. */
#define TRACE_REFUSED_START 9     /* start number, or the record number of trace_apart, not below the record count */
#define TRACE_REFUSED_WORK 10     /* work area shorter than trace_work_size */
#define TRACE_REFUSED_BUFFER 11   /* output buffer too short; the detail is the bytes needed */
/* The reading's. In trace_compare the detail of 12 is 0 for the first reading and 1 for the second. */
#define TRACE_REFUSED_UNFIT 12    /* the bytes are no reading of the start record, or a length or record number in them is not the true one */
#define TRACE_REFUSED_LONG 13     /* no longer given: a reading that spells over 255 bytes has a length that cannot be written, and is 12 */
#define TRACE_REFUSED_DIFFER 14   /* the two readings spell different lines */
/* The text's. */
#define TRACE_REFUSED_TEXT 15     /* text outside the notation, or over 4,096 bytes */
#define TRACE_REFUSED_RECORDS 16  /* the text's table has over 255 records */
/* Those of trace_order. */
#define TRACE_REFUSED_PAIRS 17    /* over 64 pairs */
#define TRACE_REFUSED_TOKEN_BYTES 18 /* token list whose bytes are not a multiple of 3 */
/* That of trace_live_take_back. */
#define TRACE_REFUSED_EMPTY_LINE 19 /* Take back on a line without bytes */
/* That of trace_page. Where it names one line, the detail of every refusal is that line's number, from 0. */
#define TRACE_REFUSED_LINES 20    /* page of over 255 lines */

/* An answer taken apart. */
static inline int trace_is_refused(uint64_t answer) { return (answer >> 32) != 0; }
static inline uint32_t trace_refusal(uint64_t answer) { return (uint32_t)(answer >> 32) & 0xFFFFFF; }
static inline uint32_t trace_detail(uint64_t answer) { return (uint32_t)answer; }

/* The one that a refusal of trace_page names. Of a result, and of what another call answers, it is 0. */
#define TRACE_WHO_PAGE 0          /* the page: 20, or its class bytes */
#define TRACE_WHO_LINE_RULES 1    /* the table and the start number by which the lines are read */
#define TRACE_WHO_PAGE_RULES 2    /* those by which the class bytes are read */
#define TRACE_WHO_LINE 3          /* one line; the detail is its number, from 0 */
static inline uint32_t trace_who(uint64_t answer) { return (uint32_t)(answer >> 56); }

/* What a refusal means, in words for a message; of a number that is no refusal's it says so. */
static inline const char *trace_refusal_text(uint32_t refusal)
{
    switch (refusal) {
    case 0: return "not refused";
    case TRACE_REFUSED_SIZE: return "the table is empty, over 1,020 bytes long, or not made of whole records of 4 bytes";
    case TRACE_REFUSED_KIND: return "a record of the table has a kind above 6";
    case TRACE_REFUSED_UNUSED: return "a record of the table has an a or b that its kind does not use and that is not 0";
    case TRACE_REFUSED_BOUNDS: return "a Range or Other record of the table has a above b";
    case TRACE_REFUSED_CHILD: return "a record of the table names a child whose number is not below its own";
    case TRACE_REFUSED_NAMED: return "a record of the table names a child that is named already";
    case TRACE_REFUSED_LINE: return "the line is over 255 bytes long";
    case TRACE_REFUSED_NO_READING: return "the start record does not spell the line";
    case TRACE_REFUSED_START: return "the table has no record with this number";
    case TRACE_REFUSED_WORK: return "the work area is too short";
    case TRACE_REFUSED_BUFFER: return "the output buffer is too short";
    case TRACE_REFUSED_UNFIT: return "the bytes are no reading of the start record";
    case TRACE_REFUSED_LONG: return "no longer given: a reading that spells over 255 bytes is no reading of the start record";
    case TRACE_REFUSED_DIFFER: return "the two readings spell different lines";
    case TRACE_REFUSED_TEXT: return "the text is outside the notation, or over 4,096 bytes long";
    case TRACE_REFUSED_RECORDS: return "the text's table has over 255 records";
    case TRACE_REFUSED_PAIRS: return "there are over 64 pairs of names";
    case TRACE_REFUSED_TOKEN_BYTES: return "the token list is not made of whole tokens of 3 bytes";
    case TRACE_REFUSED_EMPTY_LINE: return "the line has no byte to take back";
    case TRACE_REFUSED_LINES: return "the page has over 255 lines";
    default: return "no refusal has this number";
    }
}

/*
 * The sizes below are in bytes, for a table of so many records and a line of so many bytes, at most TRACE_MAX_LINE: a longer line is refused
 * before the work area is looked at.
 */

/* The work area that trace_read needs, and those of a live line for the bytes that it has after the call. */
static inline size_t trace_work_size(size_t records, size_t line_len) { return records * (line_len + 1) * (line_len + 2) / 2; }

/* A reading buffer that is always long enough. */
static inline size_t trace_reading_size(size_t records, size_t line_len) { return TRACE_READING_RECORD * records * (line_len ? line_len : 1); }

/* A token buffer that is always long enough, whatever the table: there is at most one token for each byte of the line. */
static inline size_t trace_tokens_size(size_t line_len) { return TRACE_TOKEN * line_len; }

/*
 * Checks a table. Result: its number of records. Refusals: 1 to 6; records are looked at upward, and the first fault is the answer.
 */
uint64_t trace_check(const uint8_t *table, size_t table_len);

/*
 * Reads a line by the record with number start: writes the POSIX reading to the front of out and leaves the later bytes as they were.
 * Result: the reading's number of records, 4 bytes each. Refusals, in this order: 1 to 6, 9, 7, 10, 8, 11; a refusal leaves out as it
 * was. The work area is untouched by 1 to 7, 9 and 10; its content is free after anything else.
 */
uint64_t trace_read(const uint8_t *table, size_t table_len, uint64_t start, const uint8_t *line, size_t line_len, uint8_t *work,
                    size_t work_len, uint8_t *out, size_t out_len);

/*
 * Spells a reading: writes the line that it stands for to the front of out and leaves the later bytes. Result: the line's length.
 * Refusals, in this order: 1 to 6, 9, 12, 11; a refusal leaves out as it was.
 */
uint64_t trace_spell(const uint8_t *table, size_t table_len, uint64_t start, const uint8_t *reading, size_t reading_len, uint8_t *out,
                     size_t out_len);

/*
 * Compares two readings of one line. Result: 1 if the first ranks ahead, 2 if the second does, 0 if their bytes are the same.
 * Refusals, in this order: 1 to 6, 9, 12 first, 12 second, 14.
 */
uint64_t trace_compare(const uint8_t *table, size_t table_len, uint64_t start, const uint8_t *first, size_t first_len,
                       const uint8_t *second, size_t second_len);

/*
 * Lists the tokens of a reading: for each outermost tagged part of at least one byte 3 bytes (tag, offset in the line, length) to the front
 * of out; the later bytes are left. Result: the number of tokens. Refusals, in this order: 1 to 6, 9, 12, 11; a refusal leaves out as it
 * was.
 */
uint64_t trace_tokens(const uint8_t *table, size_t table_len, uint64_t start, const uint8_t *reading, size_t reading_len, uint8_t *out,
                      size_t out_len);

/*
 * Makes the table of a text: writes it to the front of out and leaves the later bytes. It passes trace_check, and its last record is the text's
 * start record. Result: the table's number of records, 4 bytes each. Refusals, in this order: 15, 16, 11; a refusal leaves out as it was.
 *
 * A byte stands for itself, as a Range, unless it is one of | * ( ) [ ] \ #; behind a backslash every byte does. [p-q] is a Range, with any
 * bytes p and q, p not above q, and without escapes. () is Empty, and parentheses group. Each of these is an item. An item with * behind it
 * is an item, the Star; and so is an item with a tag, # and exactly three digits, 001 to 255, unless it has one already. Items side by side
 * are Seq, and | between such rows is Or; both group to the left. Neither side of | may be missing, nor the whole text. So [0-9]*#001C is
 * digits, token 1, and then the letter C.
 */
uint64_t trace_compile(const uint8_t *text, size_t text_len, uint8_t *out, size_t out_len);

/* Two names of tokens: a token with the second needs, earlier in its list, one with the first. 2 bytes, without padding. */
typedef struct { uint8_t first, second; } trace_pair;

/*
 * Says whether a token list keeps every pair: each token with the second name of a pair has, earlier in the list, a token with its first name.
 * A pair with one name twice is broken by the first token of that name. Result: the number, from 0, of the first token that breaks a pair, and
 * where every pair is kept the token count, tokens_len / TRACE_TOKEN. Refusals, in this order: 17, 18.
 *
 * The list is as trace_tokens writes it, 3 bytes for each token, and of any length. A name may be any byte; offsets and lengths are not looked
 * at. tokens_len counts bytes, pairs_len pairs. On 2^32 tokens and more, where a result may look like a refusal, the lengths tell them apart: it
 * is 17 exactly if pairs_len is above TRACE_MAX_PAIRS, and otherwise 18 exactly if tokens_len is not a multiple of TRACE_TOKEN. Of such a result
 * trace_refusal, trace_who and trace_detail are parts of a number and mean nothing.
 */
uint64_t trace_order(const uint8_t *tokens, size_t tokens_len, const trace_pair *pairs, size_t pairs_len);

/*
 * A line that is still being typed, with a copy of its table. It begins with trace_live_new, and the two calls below alter it. The first table_len
 * bytes of table and the first count bytes of bytes are the table and the line; on a line that these calls alone have filled the others are 0. The
 * fields may be read at any time, and the line may be copied. A line that was filled by hand is taken too, and refused where it is out of order.
 */
typedef struct {
    uint8_t table[TRACE_MAX_TABLE];
    size_t table_len;
    uint64_t start;
    uint8_t bytes[TRACE_MAX_LINE];
    size_t count;
} trace_live;

/* The two facts in a result of trace_live_add and trace_live_take_back. What has a reading can get one, so it is 0, 2 or 3. */
#define TRACE_LIVE_READS 1        /* the line has a reading */
#define TRACE_LIVE_EXTENDS 2      /* some bytes behind the line, of any number, none included, make it one that the start record spells */

/*
 * Makes a live line without bytes from a table and a start number, and holds a copy of both. What the struct held before is not looked at, and it
 * is written whatever the answer is. Result: the table's number of records. Refusals, in this order: 1 to 6, 9; the line then has a table of one
 * Nothing record, start number 0 and no bytes.
 */
uint64_t trace_live_new(trace_live *line, const uint8_t *table, size_t table_len, uint64_t start);

/*
 * Add puts a byte at the end of the line, Take back removes the last one. Result: the sum of the facts above, of the line as it then is. The bytes
 * that the result speaks of are of any number: a line of 255 bytes that needs more of them extends too. The work area has at least
 * trace_work_size(table_len / 4, the count after the call) bytes.
 *
 * Refusals, in this order: 1 to 6 (1 also for a table_len over TRACE_MAX_TABLE), 9, 7 for a count over TRACE_MAX_LINE; then 7 for Add at
 * TRACE_MAX_LINE bytes and 19 for Take back on a line without bytes; 10. A refusal leaves the line and the work area as they were. After anything
 * else the content of the work area is free. Take back leaves a 0 where the byte was; what else there is in the struct is kept.
 */
uint64_t trace_live_add(trace_live *line, uint8_t byte, uint8_t *work, size_t work_len);
uint64_t trace_live_take_back(trace_live *line, uint8_t *work, size_t work_len);

/*
 * Reads a page: up to TRACE_MAX_LINES lines, each ended by a byte 10, which the last may lack. A byte 10 that ends the page opens no further line,
 * and a page without bytes has no line. Each line is read by the line rules, line_table and line_start, and its tokens are listed. Its class is its
 * first token's name, or 0 if it has no token. Neighbouring lines are alike if their tokens have the same names in the same order, and each token the
 * same bytes of text; offsets do not count, nor do bytes that are in no token. A run of alike lines counts as its first line. So there is one class
 * byte for each run. The class bytes, in order, are then read as a line by the page rules, page_table and page_start: the reading is written to the
 * front of out, and the later bytes are left. Result: the reading's number of records, 4 bytes each.
 *
 * The reading of each line goes to reading, and its tokens to first for lines 0, 2, 4 and so on, to second for the others. Buffers that are always
 * long enough, for lines of up to n bytes, line_records and page_records:
 *     work     the larger of trace_work_size(line_records, n) and trace_work_size(page_records, the number of lines)
 *     reading  trace_reading_size(line_records, n)
 *     first    trace_tokens_size(n), and so for second
 *     out      trace_reading_size(page_records, the number of lines)
 *
 * Refusals, in this order, each with the one that it names (trace_who): 1 to 6 and 9 for the line rules, then for the page rules; 20 for the page;
 * then the lines, one after the other, each by 7, 10, 8, 11 of reading and 11 of its own one of first and second, with the line's number as the
 * detail; then 10, 8 and 11 for the page, as trace_read refuses its class bytes. A refusal leaves out as it was. Those that name the rules, and 20,
 * leave work, reading, first and second as they were; after anything else their content is free.
 */
uint64_t trace_page(const uint8_t *line_table, size_t line_table_len, uint64_t line_start, const uint8_t *page_table, size_t page_table_len,
                    uint64_t page_start, const uint8_t *page, size_t page_len, uint8_t *work, size_t work_len, uint8_t *reading,
                    size_t reading_len, uint8_t *first, size_t first_len, uint8_t *second, size_t second_len, uint8_t *out,
                    size_t out_len);

/*
 * Says whether the two alternatives of an Or record, its a and its b, are seen to share no line, by the bytes with which their lines start and end.
 * Result: 1 if not both spell the empty line, and either no byte starts lines of both or no byte ends lines of both; otherwise 0, and so for a record
 * that is no Or. Refusals, in this order: 1 to 6, 9 for a record number that is not below the record count.
 *
 * 1 means that no line, of any length, is spelled by both. Then a and b may be exchanged: the table passes as before, and by every start number the
 * same lines are read and give the same tokens, however deep the Or record stands. 0 says nothing: there may be a line that both spell, or none. A byte
 * that starts lines of a Seq's first part counts for the Seq, although its second part may spell no line at all; and so at the end.
 */
uint64_t trace_apart(const uint8_t *table, size_t table_len, uint64_t record);

#ifdef __cplusplus
}
#endif

#endif

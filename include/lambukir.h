/* lambukir.h

   Lambukir for C: S-63 user permits, cell permits, PERMIT.TXT files, read and
   mended, product lists (PRODUCTS.TXT) and enciphered cell files, with the
   cipher and the checksum that these are made of, and the book of cell keys
   that sixteen agents share.

   Link with liblambukir.so or liblambukir.a: pkg-config has the flags, under the
   name lambukir. Both need the C library and nothing else, and both are for
   x86-64 Linux.

   Calls

   Every function takes every input and comes back. None allocates, and none
   keeps anything between calls, so threads may call them at the same time; on
   one book see "How to keep a book". A call takes at most 6 KiB of stack, but
   for lambukir_product_standing and lambukir_carry_over, which say what they
   take, and for lambukir_crc32 and the four of "Cell files", which take at most
   12 KiB. None wipes the stack: what a call worked with, a key's words among
   it, stays there until something else is written over it.

   A call takes a microsecond or two, and some 35 more for each key of the
   cipher that it has to set up: where it does, it says "one key set-up". Only
   what goes through a long slice takes longer: a CRC-32, a permit file that is
   mended, a product list, a cell file.

   Slices

   A slice is two arguments: a pointer to its first byte, and its length in
   bytes. The caller owns the bytes, before and after. A call reads them, writes
   none but those of a slice that is not const, and keeps no pointer. Slices
   lent to one call do not overlap. Where the length is 0 the pointer may be
   anything, also NULL, and is not followed. Texts have no NUL at their end; a
   NUL is a byte like any other. (The quotas of lambukir_open_book are the one
   slice of other things than bytes: its length counts numbers.)

   Values

   An identifier is a number: its ASCII bytes, the first at the top. HW_ID
   "12348" is 0x3132333438, M_ID "01" is 0x3031, cell name "NO4D0613" is
   0x4E4F344430363133, Data Server ID "GB" is 0x4742. A cell key is any five
   bytes, likewise: C1 CB 51 8E 9C is 0xC1CB518E9C. Any other number is no
   identifier, and is refused as a bad text would be.

   Never copy the bytes of a text into such a number: x86-64 has the first byte
   at the bottom, so memcpy(&name, "NO4D0613", 8) is the name 3160D4ON, which is
   as good a name as any, and is entered and issued without a word. The checked
   way is lambukir_name_from_text, and its like for the others (see "Text").

     HW_ID            five of 0-9 A-F, a to f for A to F
     M_KEY            five of 0-9 A-F
     M_ID, server     two of A-Z 0-9; server is a Data Server ID
     producer         two of A-Z 0-9: the first two of a cell name
     cell name        eight of A-Z 0-9
     level            0 subscription, 1 single purchase
     edition          1 to 999
     update           0 to 999
     warning days     1 to 90
     tenant           0 to 15
     last expiry      a date, or 0 for none: how late a cell may be sold

   A date is the number YYYYMMDD: 20240229. It is a day of the calendar of the
   years 1900 to 2999, or it is no date.

   Small letters

   Crews type them, so a to f are taken for A to F in three places: in a user
   permit, in a HW_ID that is given, and in the three cipher parts of a cell
   permit, its characters 17 to 64. Whatever the case of a letter there, every
   answer is the same. Nowhere else: in cell names, M_IDs, Data Server IDs,
   registers and cell keys in hex a small letter is refused as any other wrong
   character. A comment stays as it was typed. What is written is in capitals,
   and so is a HW_ID that a call answers.

   An example

   Of the short programs beside the sources, sample/desk.c shows each call on a
   book, sample/keep.c keeps one in a file, sample/standing.c holds a ship's
   cells against a product list, and sample/cell_file.c enciphers a cell file
   and opens it. Here we make a user permit, and read a file to its end.
   It prints

     73871727080876A07E450C043031
     NO4D0613 until 20000830: 20, the permit expires soon
     12, wrong shape of line, row, header, place or cell file

     #include <inttypes.h>
     #include <lambukir.h>
     #include <stdio.h>

     static const char reg[] = "0198765"; // M_ID 01, M_KEY 98765
     static const char file[] =
       ":DATE 20000801 11:11\r\n:VERSION 2\r\n:ENC\r\n"
       "NO4D061320000830BEB9BFE3C7C6CE68B16411FD09F96982795C77B204F54D48"
       ",0,5,GB,\r\nSHORT\r\n:ECS\r\n";

     int main(void)
     {
       const uint64_t hw_id = lambukir_hw_id_from_text("12348", 5);
       const uint32_t m_id = lambukir_code_from_text("01", 2);
       uint8_t permit[LAMBUKIR_USER_PERMIT_SIZE];
       if (lambukir_make_user_permit((const uint8_t *)reg, 7, hw_id, m_id,
                                     permit, sizeof permit) == LAMBUKIR_DONE)
         printf("%.28s\n", (const char *)permit);

       const uint8_t *bytes = (const uint8_t *)file;
       const size_t length = sizeof file - 1;
       lambukir_place start = lambukir_open_file(bytes, length);
       lambukir_file_line line = { .next = start.place };
       while (start.number == LAMBUKIR_DONE) {
         size_t place = line.next;
         line = lambukir_read_file_line(hw_id, 20000801, 30, bytes, length,
                                        place);
         if (line.next == place)
           break; // the end, or 18, 14 or 103: not at_end alone, nor number 0
         if (lambukir_is_success(line.number))
           printf("%s until %" PRIu32 ": ",
                  lambukir_name_to_text(line.name).text, line.expiry);
         printf("%" PRIu32 ", %s\n", line.number,
                lambukir_meaning(line.number).text);
       }
       return line.at_end ? 0 : 1;
     } */

#ifndef LAMBUKIR_H_INCLUDED
#define LAMBUKIR_H_INCLUDED

#include <stddef.h>
#include <stdint.h>

/* The version of this header: as text, and as a number, 10000 for the first of
   its three, 100 for the second and 1 for the third. While the first is 0, a
   new second number may change the interface, and the shared library's name
   changes with it (liblambukir.so.0.14). */
#define LAMBUKIR_VERSION "0.14.0"
#define LAMBUKIR_VERSION_NUMBER 1400

/* The numbers that come back

   0, 15, 20 and 27 are success. Each other number is a refusal: every lent byte
   is as it was, and every field of the answer but number (and, for a file's
   line, next) is 0. Where there is more than one reason to refuse, the number
   is the first of the order that stands with the function. What stands here
   beside a number is what lambukir_meaning says of it. */
#define LAMBUKIR_DONE 0               /* done */
#define LAMBUKIR_NO_LINE 11           /* no line in the ENC part of the file */
#define LAMBUKIR_WRONG_SHAPE 12       /* wrong shape of line, row, header, place or cell file */
#define LAMBUKIR_WRONG_CHECK 13       /* the check part is wrong for this HW_ID */
#define LAMBUKIR_WRONG_TODAY 14       /* today is no date */
#define LAMBUKIR_EXPIRED 15           /* the permit has expired */
#define LAMBUKIR_WRONG_FILE_CRC 16    /* the CRC of the cell file is wrong */
#define LAMBUKIR_WRONG_CRC 17         /* the CRC of the user permit is wrong */
#define LAMBUKIR_WRONG_HW_ID 18       /* the HW_ID is not of its form */
#define LAMBUKIR_SOON 20              /* the permit expires soon */
#define LAMBUKIR_WRONG_PADDING 21     /* wrong padding, of a key or of a cell file */
#define LAMBUKIR_BEHIND 27            /* the ship is behind the product list */
#define LAMBUKIR_BOOK_DAMAGED 101     /* the book is damaged or of wrong length */
#define LAMBUKIR_WRONG_TENANT 102     /* the tenant is above 15 */
#define LAMBUKIR_OUT_OF_RANGE 103     /* a value is not of its form or range */
#define LAMBUKIR_NOT_HELD 104         /* the tenant does not hold that cell */
#define LAMBUKIR_QUOTA_USED 105       /* the quota is used */
#define LAMBUKIR_NO_USER_PERMIT 106   /* the user permit is not 28 of 0-9 A-F a-f */
#define LAMBUKIR_UNKNOWN_M_ID 107     /* the M_ID is not in the register */
#define LAMBUKIR_OUT_TOO_SHORT 108    /* the output is too short, or not of a book's length */
#define LAMBUKIR_REGISTER_DAMAGED 109 /* the register is damaged */
#define LAMBUKIR_CELL_TWICE 110       /* a cell has two rows in the product list */
#define LAMBUKIR_BRANCH 111           /* a branch cannot enter or withdraw */
#define LAMBUKIR_TOO_LATE 112         /* the expiry is later than the cell's last expiry */

/* Of a record 0 says that its permit is current; 15 and 20 are for subscriptions
   alone. 12 is also for a date in a line, row or header that is none; 18 for a
   HW_ID that was given, or that a user permit holds, in which a small letter is
   wrong; with 21 of a line the check part is right. Each function says of which
   values it gives 103, and for how short an output 108, which
   lambukir_carry_over gives for one that is too long, too. */
#define LAMBUKIR_CURRENT LAMBUKIR_DONE

/* Sizes, in bytes where nothing else is said. */
#define LAMBUKIR_USER_PERMIT_SIZE 28
#define LAMBUKIR_LINE_SIZE 76       /* the longest line written, with CR LF */
#define LAMBUKIR_LINE_READ_SIZE 160 /* the longest line read, without CR LF */
#define LAMBUKIR_REGISTER_SIZE 1792 /* the longest register: 256 entries */
#define LAMBUKIR_BOOK_SIZE 14437
#define LAMBUKIR_BOOK_SIZE_1 12389  /* a book of version 1, to carry over */
#define LAMBUKIR_TENANTS 16         /* how many tenants a book has */
#define LAMBUKIR_CELLS 512          /* the most cells of a book, all tenants' */
#define LAMBUKIR_IDS_SIZE 32        /* the Data Server IDs of all tenants */
#define LAMBUKIR_TEXT_SIZE 64       /* a text that is an answer, with its NUL */
#define LAMBUKIR_CELL_FILE_SIZE 16777216  /* the longest cell file, or part */
#define LAMBUKIR_ENCIPHERED_SIZE 16777224 /* the longest that is opened */

/* Service levels */
#define LAMBUKIR_SUBSCRIPTION 0
#define LAMBUKIR_SINGLE_PURCHASE 1

#ifdef __cplusplus
extern "C" {
#endif

/* The version of the library that was linked, as LAMBUKIR_VERSION_NUMBER has
   that of the header. */
uint32_t
lambukir_version(void);

/* 1 for a number that is success: 0, 15, 20 and 27. 0 for every other. */
uint32_t
lambukir_is_success(uint32_t number);

/* Text

   A text that is an answer has a NUL at its end, and zeros from there on. It
   comes by value: use it at once, as in printf("%s", f(x).text), or keep the
   struct. A pointer to the text of an answer that was not kept points nowhere
   as soon as the expression is over. (Before C11 keep the struct first.) */
typedef struct {
  char text[LAMBUKIR_TEXT_SIZE];
} lambukir_text;

/* What a number means, in a few words: of 105 "the quota is used". */
lambukir_text
lambukir_meaning(uint32_t number);

/* From text to value, and nothing but exactly the form is taken: no character
   more or less, none of another alphabet, no blank. The text need have no NUL.
   Of anything else the value is all ones, LAMBUKIR_NO_NAME and so on, which
   every call refuses, so that a wrong text is refused even where nobody asks.

     name    eight of A-Z 0-9: a cell name
     hw_id   five of 0-9 A-F, a to f for A to F; the value has capitals
     code    two of A-Z 0-9: an M_ID, a Data Server ID or a producer
     key     ten of 0-9 A-F: the five bytes of a cell key in hex
     date    eight digits YYYYMMDD that are a date */
#define LAMBUKIR_NO_NAME 0xFFFFFFFFFFFFFFFF
#define LAMBUKIR_NO_HW_ID 0xFFFFFFFFFFFFFFFF
#define LAMBUKIR_NO_CODE 0xFFFFFFFF
#define LAMBUKIR_NO_KEY 0xFFFFFFFFFFFFFFFF
#define LAMBUKIR_NO_DATE 0xFFFFFFFF

uint64_t
lambukir_name_from_text(const char *text, size_t length);

uint64_t
lambukir_hw_id_from_text(const char *text, size_t length);

uint32_t
lambukir_code_from_text(const char *text, size_t length);

uint64_t
lambukir_key_from_hex(const char *text, size_t length);

uint32_t
lambukir_date_from_text(const char *text, size_t length);

/* And back: the text that gives this value, and of a number that is not of the
   form the empty text. A HW_ID is written in capitals, also where its number
   has small letters. */
lambukir_text
lambukir_name_to_text(uint64_t name);

lambukir_text
lambukir_hw_id_to_text(uint64_t hw_id);

lambukir_text
lambukir_code_to_text(uint32_t code);

lambukir_text
lambukir_key_to_hex(uint64_t key);

lambukir_text
lambukir_date_to_text(uint32_t date);

/* User permits

   A register (reg) says which M_KEY an M_ID has: 0 to 256 entries of seven
   bytes, the M_ID and then the M_KEY as text, strictly rising by M_ID in the
   order of the bytes (digits before letters). One that is longer than 1,792
   bytes, is no multiple of 7, has another character or another order is 109.

   By one register a ship has one user permit. Two that are made are equal
   exactly when their M_IDs are equal and their HW_IDs, letters raised. One that
   is accepted is, with letters raised, what is made for the HW_ID and M_ID that
   it was read to; so two that are accepted are of one ship exactly when they
   are equal with letters raised. */

/* Writes the user permit of a HW_ID to the first 28 bytes of out, and answers
   0. The bytes after them stay as they were. One key set-up.

   Refusals, in this order: 109; 108, out has less than 28 bytes; 18; 107. */
uint32_t
lambukir_make_user_permit(const uint8_t *reg, size_t reg_length,
                          uint64_t hw_id, uint32_t m_id,
                          uint8_t *out, size_t out_length);

typedef struct {
  uint64_t hw_id;
  uint32_t m_id;
  uint32_t number;
} lambukir_user_permit;

/* Reads a user permit: its HW_ID and its M_ID, and number 0. One key set-up;
   none where the answer is 109, 106, 17 or 107.

   Refusals, in this order: 109, 106, 17, 107, 18. */
lambukir_user_permit
lambukir_read_user_permit(const uint8_t *reg, size_t reg_length,
                          const uint8_t *permit, size_t permit_length);

/* Permit lines

   A line is, with commas between: a cell permit of 64 characters, service
   level, edition, Data Server ID, comment. It has at most 160 bytes, CR LF not
   counted. No field but the edition and the comment may be empty. */

/* A record: cell name, both cell keys, expiry, service level, edition (0 where
   it is blank) and Data Server ID. Its number is the notice. Of a subscription,
   level 0:

     15  today is after the expiry
     20  less than the given days are left; none, on the expiry itself
     0   otherwise

   Of a single purchase, level 1, it is 0 whatever its expiry: it does not run
   out. Nothing else goes by the level: the expiry must be a date (12), and so
   must today (14), and the days must be warning days (103).

   S-63's check part is of the permit and not of the level. A level that was
   changed on the way, from 0 to 1 or back, is read as it came. */
typedef struct {
  uint64_t name;
  uint64_t key_one;
  uint64_t key_two;
  uint32_t expiry;
  uint32_t level;
  uint32_t edition;
  uint32_t server;
  uint32_t number;
} lambukir_line;

/* Reads one line, given without its CR LF, for the HW_ID it was made for. days
   is the warning days, 1 to 90. One key set-up; none where the answer is 18,
   14, 103 or 12.

   A line that was written or issued ends with CR LF: it is read with two bytes
   less than its length. With them it is 12.

   Refusals, in this order: 18; 14; 103, days is not 1 to 90; 12; 13; 21. */
lambukir_line
lambukir_read_line(uint64_t hw_id, uint32_t today, uint32_t days,
                   const uint8_t *line, size_t line_length);

/* A part of a slice: length bytes from the place start, counted from 0. */
typedef struct {
  uint64_t start;
  uint64_t length;
} lambukir_part;

/* The comment of a line, given without its CR LF: all that follows the fourth
   comma, further commas included. It is told as a part of the caller's own
   bytes, and nothing is copied: the comment begins at line + start.

   No HW_ID is needed, so the check part and the keys are not looked at. There
   is no refusal: a line that would give 12 has the empty part, start and length
   both 0. (Length 0 is also right for a line with an empty comment; its start
   is then the line's length.) */
lambukir_part
lambukir_comment(const uint8_t *line, size_t line_length);

/* How many bytes were written at the start of out, of a line with its CR LF. */
typedef struct {
  uint64_t length;
  uint32_t number;
} lambukir_written;

/* Writes a line for a HW_ID to the start of out: the cell permit, service
   level, edition, Data Server ID, an empty comment, and CR LF. The line has 74
   to 76 bytes; those after it stay as they were. One key set-up.

   Refusals, in this order: 108, out has less than 76 bytes, however short the
   line; 103, name, expiry, a key, level, edition or server is not of its form
   or range; 18. */
lambukir_written
lambukir_write_line(uint64_t hw_id, uint64_t name, uint32_t expiry,
                    uint64_t key_one, uint64_t key_two,
                    uint32_t level, uint32_t edition, uint32_t server,
                    uint8_t *out, size_t out_length);

/* PERMIT.TXT files

   A file is a slice that holds all of it, and is read line by line: open_file
   tells the place of the first line, and each answer of read_file_line the
   place of the next. Nothing is open in between, and nothing is to be closed.
   Places are counted in bytes from 0, at the file's first. */

typedef struct {
  uint64_t place;
  uint32_t number;
} lambukir_place;

/* Reads the header, which is exactly three lines, each ended by CR LF:

     :DATE YYYYMMDD HH:MM
     :VERSION 2
     :ENC

   and answers the place of the first line after it. The date is a date, the
   time 00:00 to 23:59.

   Refusals, in this order: 12, the header is not so; 11, nothing follows it, or
   :ECS does at once. */
lambukir_place
lambukir_open_file(const uint8_t *file, size_t file_length);

/* A record as lambukir_line has it, a refusal, or the end; and where to read
   on. at_end is 1 at the end and 0 else. */
typedef struct {
  uint64_t name;
  uint64_t key_one;
  uint64_t key_two;
  uint64_t next;
  uint32_t expiry;
  uint32_t level;
  uint32_t edition;
  uint32_t server;
  uint32_t number;
  uint32_t at_end;
} lambukir_file_line;

/* Reads the line that begins at a place. It ends before the next CR LF. Any
   place is read from as a line's start, whether a line begins there or not.

   The end is where the place is the file's length, or where the line is :ECS,
   ended by CR LF or by the file. Then at_end is 1, number 0, next the place
   that was given, and every other field 0.

   Refusals, in this order: 18; 14; 103, days is not 1 to 90; then, where it is
   not the end, 12; 13; 21. 12 is given too for a line without CR LF and for a
   place beyond the file.

   next is, after a record and after 12, 13 and 21, the place after the line's
   CR LF, or the file's length where there is none. So a bad line does not stop
   the reading. At the end and after 18, 14 and 103 it is the place that was
   given: whoever reads on from there gets the same answer for ever. No other
   answer gives that place back, so a loop ends where next is the place that it
   gave, as in the example above. number 0 alone does not tell: it is a current
   permit, or the end.

   One key set-up for each line that has its shape, and none for 12 and at the
   end. */
lambukir_file_line
lambukir_read_file_line(uint64_t hw_id, uint32_t today, uint32_t days,
                        const uint8_t *file, size_t file_length, size_t place);

/* Mailed PERMIT.TXT files

   Mail programs break a PERMIT.TXT, so that reading it gives 12. lambukir_mend
   writes a clean file of it, and a list of what it did.

   Each LF ends a line of the old file. The line's bytes are those before it,
   less one CR directly before it. What stands after the last LF, if anything,
   is a line too, an unended one, and a CR at its end is one of its bytes. Any
   other CR is a byte of its line. Lines are counted from 1. These four faults
   are mended, and nothing else is:

     EOL    the line's LF has no CR before it
     BLANK  blanks (20 hex) stand at the line's end, be it that of a comment:
            they go
     CASE   one of the first three lines has small letters, a to z: they are
            raised; or a later line is, blanks gone, :ecs in any case but
            capitals: it is :ECS then
     ECS    no line after the third is, mended, :ECS: that is added at the end,
            with CR LF

   The first three lines, mended, are a header as lambukir_open_file wants it.
   After them each line up to :ECS is kept, mended and with CR LF, where it then
   has the shape of a permit line, so that reading it would not give 12; else it
   is left out. An unended line is left out whatever it is, but for :ECS, which
   is kept without a line end. What follows a line :ECS that is ended is copied
   as it stands. A permit's 64 characters are never touched.

   The list tells of the lines in their order. For each fault of a line that was
   kept it has the line's count, a blank, the fault's word and LF, in the order
   above. For a line that was left out it has the count, a blank, OUT, a blank,
   the line's old bytes without the line end, blanks and all, and LF; these may
   be bytes of any kind. An added :ECS is counted one past the last line. Where
   the first line is :Date 20240131 09:30 with a lone LF, the fourth and last is
   Dear captain, and the others are as they should be, the list is

     1 EOL
     1 CASE
     4 OUT Dear captain,
     5 ECS

   Nothing is lost unsaid: each old line up to :ECS is kept, or its bytes are in
   the list. The list is empty exactly where the clean file is the old one, and
   a clean file that is mended again is such. Read line by line, a clean file
   never gives 12, and gives what the kept lines, mended, give one by one. */

/* How many bytes were written at the start of out and of list. */
typedef struct {
  uint64_t length;
  uint64_t list_length;
  uint32_t number;
} lambukir_mended;

/* Mends a file: writes the clean one to the start of out, and the list to the
   start of list. The bytes after them stay as they were. No key set-up: the
   time goes by the file's length, and make bench measures 60,000 bytes.

   The clean file has at most file_length + file_length / 72 + 9 bytes. The list
   has at most 11 * file_length bytes where the file is shorter than 100,000,
   and 26 * file_length where it is not; of most files it is far shorter.
   Whoever gets 108 can try again with longer outputs.

   Refusals, in this order: 12, the first three lines, mended, are no header, or
   the third is not ended; 108, the clean file is longer than out, or the list
   longer than list, and then neither is written. */
lambukir_mended
lambukir_mend(const uint8_t *file, size_t file_length,
              uint8_t *out, size_t out_length,
              uint8_t *list, size_t list_length);

/* Product lists

   A product list, PRODUCTS.TXT, tells for each cell of a service the latest
   edition and update. It is a slice that holds all of the file. Its lines end
   with CR LF; a CR or LF alone does not end a line, and is in no good one.

     :DATE YYYYMMDD HH:MM   or HH:MM:SS; a date, and 00:00 to 23:59, :00 to :59
     :VERSION 2             or any other of 1 to 99
     :CONTENT FULL          or PARTIAL, which changes no answer
     :ENC
     ..                     the rows, or none
     :ECS                   or the file ends here

   :ECS may be ended by the file, too. What follows its line is not looked at.
   Nothing else is taken: no other blank in the header, no empty line, no row
   that CR LF does not end.

   A row is 16 to 36 fields with commas between:

     name                   eight of A-Z 0-9, then .000
     base cell issue date   a date, YYYYMMDD
     edition                0 to 999; 0 is a cancelled cell
     date of the update     a date; this and every later field may be empty
     latest update          0 to 999; empty means 0
     file size              1 to 999999
     4 limits               each one to three digits, with - before them or not,
                            and with . and more digits after them or not
     0 to 20 coordinates    of the coverage, likewise; any number of them
     compression            0 to 99
     encryption             0 to 99
     base cell update       one to three digits
     previous update        one to three digits: the previous edition's last
     base cell location     B or U and 1 to 99, with M, 1 to 99 and ; before it
                            or not: B3, M1;U12
     replacements           bytes 20 to 7E hex, but no comma

   A number has no leading zero; what is one to three digits may have some. A
   space does not make a field empty. No field is held against another: an
   update may lack its date, and a cancelled cell may have any update. */

/* standing:

     0  up to date: the ship has what the list has, or later
     1  behind: its edition is lower, or the same with a lower update
     2  cancelled, whatever the ship has
     3  not listed: the cell has no row between :ENC and :ECS

   number is 27 where the ship is behind, and 0 with the other three. After a
   refusal standing is 0, so look at number first. */
#define LAMBUKIR_STANDING_UP_TO_DATE 0
#define LAMBUKIR_STANDING_BEHIND 1
#define LAMBUKIR_STANDING_CANCELLED 2
#define LAMBUKIR_STANDING_NOT_LISTED 3

typedef struct {
  uint32_t standing;
  uint32_t number;
} lambukir_standing;

/* How a cell of which a ship has an edition and an update stands against the
   list. update is 0 where the ship has none for that edition.

   Refusals, in this order: 103, name, edition or update is not of its form or
   range; 12, the header or a row is not so, wherever the row stands; 110, a
   name has two rows before :ECS, be it that of another cell.

   A call reads the whole list up to :ECS, and is lent nothing but the list.
   Where the names do not rise from row to row it needs up to 600 KiB of stack:
   mind that in threads. A list of 20,000 rows takes some 4 ms where they rise,
   and some 5 ms in any usual order, on the one machine where it was measured;
   make bench measures it on another. One that somebody made to be slow takes up
   to 20 times as long as one in name order: some 0.1 s. Where the names rise,
   twice the rows take twice the time, however many they are. Where they do not,
   a list of more than 32,768 rows is gone through once more for each further
   32,768, and the worst one takes four times the time for twice the rows. */
lambukir_standing
lambukir_product_standing(const uint8_t *list, size_t list_length,
                          uint64_t name, uint32_t edition, uint32_t update);

/* Cell files

   A cell file, be it a base cell or an update, is enciphered by Blowfish under
   a cell key: eight bytes at a time, each block by itself. S-63 packs it first
   (zip, 10.5.2). To pack and to unpack is for the caller: file is here what is
   to be enciphered, whatever its bytes are.

   Padding: what is enciphered is the file and 1 to 8 bytes more, each of them
   their count. After 13 bytes these are 03 03 03; after 16, or after none at
   all, eight times 08. So 8 * (length / 8 + 1) bytes come out, and they tell
   where the file ends. S-63 (4.2.3) asks for padding only where the length is
   no multiple of 8; here there always is some, and a file that somebody
   enciphered without any is not opened (21, and now and then 16).

   CRC-32: opening asks for the CRC-32 of the bytes that were enciphered, of the
   file without its padding. It tells the right key, and a file that went bad
   on the way; it does not tell one that somebody changed on purpose who has the
   key. This is our own rule: S-63 tells nobody this number, and the one in the
   catalogue of an exchange set is taken before the file is packed. So take it
   when the file is enciphered (lambukir_crc32), and keep it with what comes
   out, for whoever is to open that.

   A file or a part of one has at most LAMBUKIR_CELL_FILE_SIZE bytes, 16 MiB,
   and what is opened 8 bytes more; an output may have any length. What parts
   add up to is not bounded, but beyond 16 MiB lambukir_open_cell_file will not
   take it. The bytes of out after those that were written stay as they were,
   and file and out do not overlap. A call takes at most 12 KiB of stack for a
   file of any length, and beside its key set-ups its time goes by the length:
   make bench measures 64 KiB and 16 MiB. */

/* Enciphers a whole file to the start of out, and answers how many bytes that
   are, 8 * (file_length / 8 + 1). One key set-up; none after a refusal.

   Refusals, in this order: 103, key is not below 2 to the 40th, or file has
   more than 16 MiB; 108, out has less bytes than come out. */
lambukir_written
lambukir_encipher_file(uint64_t key, const uint8_t *file, size_t file_length,
                       uint8_t *out, size_t out_length);

/* length bytes were written at the start of out; carried_length bytes, 0 to 7,
   are left of what was given, not yet enciphered. carried is their number, the
   first byte at its top: 3 bytes 01 02 03 are 0x010203, and no bytes are 0.
   After a refusal both are 0: whoever wants to try again, with a longer out,
   still needs what it gave. */
typedef struct {
  uint64_t length;
  uint64_t carried;
  uint32_t carried_length;
  uint32_t number;
} lambukir_part_written;

/* Enciphers a part of a file: the carried bytes and then the part, as far as
   they make whole blocks. What is left is carried on to the next part, and at
   last to lambukir_encipher_end. Wherever a file is cut, and however often, the
   parts and the end give together what lambukir_encipher_file gives:

     uint8_t part[4096], out[4096];
     lambukir_part_written done = { 0, 0, 0, LAMBUKIR_DONE };
     lambukir_written end;
     size_t length;
     while ((length = fread(part, 1, sizeof part, from)) > 0) {
       done = lambukir_encipher_part(key, done.carried, done.carried_length,
                                     part, length, out, sizeof out);
       if (done.number != LAMBUKIR_DONE)
         return done.number;
       fwrite(out, 1, done.length, to);
     }
     end = lambukir_encipher_end(key, done.carried, done.carried_length,
                                 out, sizeof out);
     fwrite(out, 1, end.length, to);

   (sample/cell_file.c looks at what fread and fwrite say, too.) An out of the
   part's length, rounded up to a multiple of 8, is always long enough. A part
   may be empty. lambukir_crc32 takes the whole file at once: whoever has it in
   pieces alone takes the CRC-32 by other means, as by zlib.

   One key set-up, for each part; none after a refusal, and none for a part that
   gives no whole block. So let parts be long.

   Refusals, in this order: 103, key is not below 2 to the 40th, part has more
   than 16 MiB, carried_length is above 7, or carried is no number of so many
   bytes (for none, not 0); 108, out has less than 8 * ((carried_length +
   part_length) / 8) bytes. */
lambukir_part_written
lambukir_encipher_part(uint64_t key, uint64_t carried, uint32_t carried_length,
                       const uint8_t *part, size_t part_length,
                       uint8_t *out, size_t out_length);

/* Enciphers the end of a file that was enciphered by parts: the carried bytes
   with their padding, which is one block, 8 bytes. It is called once for each
   file, also where nothing is carried. One key set-up; none after a refusal.

   Refusals, in this order: 103, key, carried_length or carried as for a part;
   108, out has less than 8 bytes. */
lambukir_written
lambukir_encipher_end(uint64_t key, uint64_t carried, uint32_t carried_length,
                      uint8_t *out, size_t out_length);

/* length bytes, the file without its padding, were written at the start of out;
   key is 1 where key one opened it, and 2 where key two did. */
typedef struct {
  uint64_t length;
  uint32_t key;
  uint32_t number;
} lambukir_cell_file;

/* Opens an enciphered file, which is given whole, with the two keys of a cell
   permit and the CRC-32 of the bytes that were enciphered. Key one is tried
   first; the first key is taken under which padding and CRC-32 are both right.
   Both may be the same. One key set-up for each key that is tried: key two is
   tried only where key one fails.

   out is as long as file at least, though less is written: 1 to 8 bytes less,
   those of the padding. Nothing is written before all is judged, and after 21
   and 16 nothing was.

   Refusals, in this order:

     103  a key is not below 2 to the 40th, or file has more than 16 MiB and 8
     108  out is shorter than file
     12   file has no byte, or its length is no multiple of 8
     21   neither key gives right padding: the last block, deciphered, does not
          end with n bytes n, n from 1 to 8. Both keys are wrong, or the last
          block is
     16   under one key or both the padding is right, but the CRC-32 of what
          stands before it is another. The file or crc is wrong; or the keys
          are, since one block in some 256 ends as if it were padded, so that
          wrong keys give 16 now and then in the place of 21 */
lambukir_cell_file
lambukir_open_cell_file(const uint8_t *file, size_t file_length,
                        uint64_t key_one, uint64_t key_two, uint32_t crc,
                        uint8_t *out, size_t out_length);

/* The book

   A book holds the cell keys of sixteen tenants, who are the agents of one
   permit desk: at most 512 cells in all. It is a slice of 14,437 bytes
   (LAMBUKIR_BOOK_SIZE) that the caller keeps, in memory and in a file; nothing
   else is kept anywhere. lambukir_open_book makes the first one, and from then
   on it is changed by lambukir_enter, lambukir_withdraw and lambukir_set_days
   alone, or by the first two in the house's form (see "For the house alone").
   Where there is a book of version 1, lambukir_carry_over makes the first one
   of that (see "How to carry a book of version 1 over").

   A tenant is a number from 0 to 15. It has

     its cells         each a name, an edition, two keys and a last expiry, or
                       none; a name once at most
     a quota           the most cells that it may hold; the sixteen quotas sum
                       to at most 512, so that its room is its own, whatever the
                       others hold
     warning days      30 at first
     a Data Server ID  which stands in the lines that it issues

   A tenant reaches its own cells alone: whatever it is answered depends on
   these four, on whether it is a branch, on the register and on what it hands
   in, and on nothing else that another tenant has or does. Calls of different
   tenants may be mixed in any order: as long as each one's own calls keep
   theirs, the book at the end is the same to the last byte, and so is every
   answer, but for those of branches.

   Last expiries

   Producers tell agents how late a cell may be sold. A cell's last expiry is
   the latest that a line issued for it may have: a later one is 112, whatever
   the level; that very day is not. 0 is none, and then any date may be issued.
   It is entered with the cell, and changed by entering the cell again. No other
   call goes by it: a line that was issued is read and checked as before.

   Branches

   A tenant may be opened as a branch of another, its principal: an agent whose
   branch sells from the same list. A branch's own cells are its principal's.
   It asks for editions and producers and issues from that list, no later than
   the last expiries there, and sees at once what the principal enters and
   withdraws. Its Data Server ID and its warning days are its own, and it sets
   these as any tenant does. It cannot enter or withdraw (111), and its quota is
   0. A principal has no principal itself. It may have any number of branches,
   and a quota of 0, so that it has nothing to sell.

   A branch's call changes nobody's cells: whatever its branches do, a principal
   is answered what its own calls alone give. A branch's answers go by its own
   calls and by those with which its principal enters and withdraws. Where these
   keep their order among themselves, the branch is answered the same however
   all else is mixed; where they do not, that branch alone may be answered
   differently, and the book at the end is still the same to the last byte.

   Every call but lambukir_open_book judges the whole book first, which takes a
   microsecond or two where it is full, and longest where no record has the last
   expiry of the one before it. One of another length, or with a byte that no
   book can have, is 101, and so is one with a last expiry that is neither 0 nor
   a date. What is judged is the form: a book in which a key was changed is
   another good book, and the lines that are issued from it unlock nothing.

   How to keep a book (sample/keep.c does all of this)

   - Open it once, by lambukir_open_book, and never call that on a book that was
     read from the disk: it erases.
   - Calls whose book is const may run side by side on one book; a call that
     writes it runs alone.
   - Where several programs change one book in a file, each takes a lock (flock)
     before it reads the file and holds it until the new one is saved. Lock a
     file of its own beside the book, and not the book's: a rename puts another
     file in its place, and the lock stays with the old one.
   - Keep the CRC-32 of the book (lambukir_crc32) behind it in the same file, so
     that both change at once: LAMBUKIR_BOOK_SIZE bytes and four more. Compare
     it when the file is read. It tells a book that went bad on the disk; it
     does not tell one that somebody wrote on purpose, so see to it that nobody
     else can write yours, nor read the keys in it.
   - After a change write the whole book to a new file beside the old one, sync
     the new file, rename it over the old one, and sync their directory; then
     tell the tenant that it is done. A crash leaves the old book or the new
     one, and never a part of either. Several changes may be made on a copy in
     memory and saved once; a refusal among them leaves the copy as it was.
   - After a refusal there is nothing to write: every byte is as it was.
   - A book that gives 101 stays damaged. Take the last good copy.
   - A book's first byte is the version of its form, 2, and every library whose
     books have that form reads it. A library with another form refuses it (101)
     and brings a call that carries it over.

   How to carry a book of version 1 over (sample/keep.c does this, too)

   Libraries before 0.12 kept books of version 1, which have no last expiries.
   Every call but lambukir_carry_over refuses them (101).

   - Stop the programs that change the book, or take the lock that they take,
     and hold it until the last step is done: what the old library changes after
     the carry-over is not in the new book.
   - Read the old file, LAMBUKIR_BOOK_SIZE_1 bytes and four more, and compare
     the CRC-32 as ever.
   - Call lambukir_carry_over with the old book and a second buffer. Only that
     one is written.
   - Write the new book, with a CRC-32 of its own, to a new file beside the old
     one, sync it, rename it to a name that no file has, and sync the directory.
     A crash leaves the old file alone, or the old one and the whole new one.
   - Let programs over this library alone work from now on, with the new file,
     and keep the old one: it is the book as it was on that day.
   - A book is carried over once. There is no way back: no call makes a book of
     version 1, and the old library refuses the new book (101). To carry the old
     file over again is to lose what was changed since. */

/* ERASES the book, and makes an empty one: no cells, warning days 30, and for
   tenant t the quota quotas[t], the Data Server ID that stands at ids + 2 * t,
   and the principal principals[t]. What was in the book before is neither
   looked at nor kept.

   quotas is sixteen numbers (quotas_length is LAMBUKIR_TENANTS, not 32), ids
   LAMBUKIR_IDS_SIZE bytes, and principals LAMBUKIR_TENANTS bytes: 0 for a
   tenant that is no branch, otherwise its principal's number plus one. Two
   tenants may have the same Data Server ID.

   Refusals, in this order: 101, book is not LAMBUKIR_BOOK_SIZE bytes; 103, not
   sixteen quotas, they sum to more than 512, not 32 bytes of ids, a character
   of them is not A-Z 0-9, not sixteen principals, or a branch whose quota is
   not 0 or whose principal is above 15, is itself, or is a branch. */
uint32_t
lambukir_open_book(uint8_t *book, size_t book_length,
                   const uint16_t *quotas, size_t quotas_length,
                   const uint8_t *ids, size_t ids_length,
                   const uint8_t *principals, size_t principals_length);

/* Writes to new_book what a book of version 1 becomes: the book with the same
   settings and the same cells, none of them with a last expiry; and answers 0.
   What was in new_book before is neither looked at nor kept. book is only read.
   It takes 15 KiB of stack, where the new book is written and judged first.

   As long as every cell is entered with last expiry 0, each call answers on the
   new book what it answered on the old one, and carrying over before or after
   such calls makes the same book to the last byte.

   Refusals, in this order: 101, book is not an undamaged one of version 1, of
   LAMBUKIR_BOOK_SIZE_1 bytes (a book of version 2 is 101, too); 108, new_book is
   not LAMBUKIR_BOOK_SIZE bytes, and that is so for a longer one, too. */
uint32_t
lambukir_carry_over(const uint8_t *book, size_t book_length,
                    uint8_t *new_book, size_t new_book_length);

/* Enters a cell, and answers 0. Where the tenant holds one of that name, its
   edition, keys and last expiry are replaced, and the quota does not matter.
   last_expiry is a date, or 0 for none, which takes away one that was there.

   Refusals, in this order: 101; 102; 103, name, edition or a key is not of its
   form or range, or last_expiry is neither 0 nor a date; 111, the tenant is a
   branch; 105, the name is new, and the tenant holds as many cells as its quota
   allows. */
uint32_t
lambukir_enter(uint8_t *book, size_t book_length, uint32_t tenant,
               uint64_t name, uint32_t edition,
               uint64_t key_one, uint64_t key_two, uint32_t last_expiry);

/* Takes a cell out of the book, and answers 0. Its room is free at once, for
   the same tenant, and its keys are no longer in the book.

   Refusals, in this order: 101; 102; 103, name is not of its form; 111, the
   tenant is a branch; 104. */
uint32_t
lambukir_withdraw(uint8_t *book, size_t book_length, uint32_t tenant,
                  uint64_t name);

/* Sets the tenant's own warning days, and answers 0.

   Refusals, in this order: 101; 102; 103, days is not 1 to 90. */
uint32_t
lambukir_set_days(uint8_t *book, size_t book_length, uint32_t tenant,
                  uint32_t days);

typedef struct {
  uint32_t edition;
  uint32_t number;
} lambukir_edition;

/* The edition of a cell that the tenant holds, or for a branch its principal,
   and number 0.

   Refusals, in this order: 101; 102; 103, name is not of its form; 104. */
lambukir_edition
lambukir_ask_edition(const uint8_t *book, size_t book_length, uint32_t tenant,
                     uint64_t name);

typedef struct {
  uint32_t held;
  uint32_t number;
} lambukir_held;

/* Whether the tenant holds any cell of a producer, or for a branch its
   principal: any whose name begins with these two characters ("NO" is 0x4E4F).
   held is 1 or 0, and number is 0. After a refusal held is 0 too, so look at
   number first.

   Refusals, in this order: 101; 102; 103, producer is not of its form. */
lambukir_held
lambukir_ask_producer(const uint8_t *book, size_t book_length, uint32_t tenant,
                      uint32_t producer);

/* Issues a line for the ship that a user permit names, to the start of out: the
   line that lambukir_write_line writes for the ship's HW_ID, with keys and
   edition of the tenant's cell, for a branch its principal's, and with the
   tenant's own Data Server ID. It ends with CR LF, which length counts:
   lambukir_check takes it without. Two key set-ups.

   Refusals, in this order: 101; 109; 102; 108, out has less than 76 bytes; 103,
   name, expiry or level is not of its form or range; 106; 17; 107; 18, all four
   of the user permit; 104; 112, the cell has a last expiry, and expiry is later
   than it. */
lambukir_written
lambukir_issue(const uint8_t *book, size_t book_length,
               const uint8_t *reg, size_t reg_length,
               uint32_t tenant, uint64_t name, uint32_t expiry, uint32_t level,
               const uint8_t *permit, size_t permit_length,
               uint8_t *out, size_t out_length);

/* Reads one line, given without its CR LF, as lambukir_read_line does, with the
   tenant's own warning days. The line need not be one that the tenant issued,
   and its Data Server ID may be another. One key set-up; none where the answer
   is 101, 102, 18, 14 or 12.

   Refusals, in this order: 101; 102; 18; 14; 12; 13; 21. */
lambukir_line
lambukir_check(const uint8_t *book, size_t book_length, uint32_t tenant,
               uint64_t hw_id, uint32_t today,
               const uint8_t *line, size_t line_length);

/* For the house alone

   The house is who keeps the book, and its operator may want to know how much
   of it a change moved. These two do exactly what lambukir_enter and
   lambukir_withdraw do: the same book to the last byte, the same number, and
   the same refusals in the same order. Among calls that are mixed they count
   as that tenant's own.

   moved is how many records of the new book are later in order, by tenant and
   then by name, than the cell that was entered or withdrawn. Those are the
   records that now stand one further on, or one nearer to the start; every
   other stands where it stood. It is 0 where a held name was replaced, and
   after a refusal.

   moved counts the cells of other tenants. No other answer about a book tells
   anything of them: it is for the operator, and no tenant may be shown it. */
typedef struct {
  uint32_t moved;
  uint32_t number;
} lambukir_moved;

lambukir_moved
lambukir_house_enter(uint8_t *book, size_t book_length, uint32_t tenant,
                     uint64_t name, uint32_t edition,
                     uint64_t key_one, uint64_t key_two, uint32_t last_expiry);

lambukir_moved
lambukir_house_withdraw(uint8_t *book, size_t book_length, uint32_t tenant,
                        uint64_t name);

/* The checksum and the cipher */

/* CRC-32 as S-63, zlib and Ethernet have it: reflected, polynomial EDB88320
   hex, start all ones, final complement. The nine characters 123456789 give
   CBF43926 hex, no bytes at all give 0. */
uint32_t
lambukir_crc32(const uint8_t *data, size_t length);

/* An answer that is a block: number is 0, or number is 103 and block 0. A
   block of zero may also be right, so it is the number that tells. */
typedef struct {
  uint64_t block;
  uint32_t number;
} lambukir_block;

/* Blowfish on one block. The eight bytes of a block are one number, the first
   byte at its top: 01 23 45 67 89 AB CD EF is 0x0123456789ABCDEF.

   The key is 4 to 56 bytes; any other length is 103. One key set-up, which
   takes as long as 521 blocks.

   Deciphering after enciphering under the same key gives the block back. */
lambukir_block
lambukir_encipher_block(const uint8_t *key, size_t key_length, uint64_t block);

lambukir_block
lambukir_decipher_block(const uint8_t *key, size_t key_length, uint64_t block);

#ifdef __cplusplus
}
#endif

#endif /* LAMBUKIR_H_INCLUDED */

/*
 * A stand-in for tm_line_read and tm_line_write, by the rules of second.py. -DFAULT=NAME puts one fault into it.
 * mutants.py takes the faults from the list below.
 */
#include <string.h>

enum fault {
    NONE, /* no fault */
    /* reading, 19 */
    ONE_ENTRY, /* a row of one entry is allowed */
    ELEVEN_ENTRIES, /* an eleventh entry is allowed */
    NINE_ENTRIES, /* a tenth entry is not allowed */
    ROWS_24, /* Z's row is counted among the 25 */
    ROWS_26, /* 26 lettered rows are allowed */
    DASHES_AFTER_DIGIT, /* 1-- is an entry */
    ONE_DASH, /* any move and letter may follow a dash */
    SHORT_ROW, /* a later row may be shorter */
    SHORT_LAST_ROW, /* the last row may be shorter */
    LONG_ROW, /* a later row may be longer */
    BREAK_AT_END, /* the line may end after an underscore */
    NO_MOVE_READ, /* N is a move */
    NO_L_R, /* L and R are no letters of states */
    NO_Z, /* Z is no letter */
    SMALL_LETTERS, /* small letters are letters */
    SEVEN_BITS, /* the top bit of a byte is dropped */
    NEWLINE_DROPPED, /* a newline at the end is passed over */
    ENDS_AT_NUL, /* the line ends at a zero byte */
    PLACE_FROM_1, /* the place of 19 is counted from 1 */
    PLACE_OF_ENTRY, /* 19 gives the first byte of the entry */
    PLACE_IN_8_BITS, /* a place has 8 bits */
    EARLY_END_BEFORE, /* a line that ends early is malformed at its last byte */
    /* reading, 20 */
    ANY_DIGIT, /* digits are held to ten, not to the symbols */
    DIGIT_TOO_HIGH, /* the digit after the last symbol is allowed */
    LETTER_TOO_HIGH, /* the letter after the last row is allowed */
    Z_LACKING, /* Z is a letter that the rows lack */
    L_R_UNCHECKED, /* L and R as letters are taken for moves and not looked at */
    MOVES_CHECKED, /* L and R as moves are taken for letters */
    DIGITS_FIRST, /* all digits are looked at before the letters */
    LAST_LACKING, /* 20 gives the last such byte */
    LACKING_PLACE_OF_ENTRY, /* 20 gives the first byte of the entry */
    LACKING_FIRST, /* 20 comes before 19 */
    /* reading, 18 */
    ROOM_BEFORE_LACKING, /* 18 comes before 20 */
    NO_ROOM_FIRST, /* an empty table is refused by 18 before all else */
    ROOM_EQUAL, /* a table of the exact length is too short */
    ROOM_WITHOUT_Z, /* the room for Z's row is not asked for */
    OUT_AT_18, /* 18 gives the bytes needed in out[0] */
    /* reading, the table */
    NO_Z_ROW, /* Z's row is not added */
    Z_ROW_LEFT, /* Z's row is counted and not written */
    Z_IS_25, /* Z is state 25 */
    MOVE_ALONE, /* byte 6 is the move of tape 0 alone */
    MOVES_EXCHANGED, /* L is read as R */
    DASHES_HALT, /* --- is read as an entry that goes to Z */
    DASHES_LEFT, /* the bytes of undefined entries are not written */
    COLUMNS_FIRST, /* the table goes by symbol, then by state */
    HIGH_BYTE_FIRST, /* the next state has its high byte first */
    EARLY_WRITE, /* the first entry is written before 20 is looked for */
    EARLY_OUT, /* out is written before 18 is looked for */
    OUT_EXCHANGED, /* out[0] and out[1] are exchanged */
    OUT_START, /* out[2] is the start state */
    BYTE_TOO_MANY, /* one byte after the table is written */
    TABLE_WIPED, /* all the lent table is wiped first */
    /* writing, the table check */
    BYTE_NUMBER, /* 6 gives the number of the byte */
    LAST_BAD_ENTRY, /* 6 gives the highest bad entry */
    LOOSE_LAST_BYTE, /* byte 7 is not looked at */
    LOOSE_WRITES, /* the writes of tapes that the machine lacks are not looked at */
    LOOSE_MOVES, /* byte 6 of one tape may be anything below 27 */
    LOOSE_UNDEFINED, /* an entry is undefined if byte 0 is 0 */
    NEXT_TOO_HIGH, /* the next state may be the number of states */
    LOW_32_BITS, /* the numbers of the machine have 32 bits */
    LONGER_TABLE, /* a table may be longer */
    LENGTH_BEFORE_START, /* 5 comes before 4 */
    SHAPE_BEFORE_CHECK, /* 21 for the shape comes before the table check */
    SHAPE_BEFORE_ENTRIES, /* 21 for the shape comes before 6 */
    /* writing, 21 */
    START_ANY, /* any start is written */
    SEVERAL_TAPES, /* several tapes are written as tape 0 */
    ONE_SYMBOL, /* one symbol is written */
    ELEVEN_SYMBOLS, /* eleven symbols are written */
    NINE_SYMBOLS, /* ten symbols are not written */
    STATES_25, /* Z's row is counted among the 25 written */
    STATES_26, /* 26 lettered rows are written */
    NO_ROW, /* no lettered row gives an empty line */
    N_AS_R, /* N is written as R */
    N_IN_LAST_ROW, /* the last row's moves are not looked at */
    MIDDLE_ROW, /* an undefined row in the middle is written */
    FIRST_ROW, /* an undefined first row is written */
    LAST_IS_Z, /* the last row is Z's although it has an entry */
    LAST_IS_LETTERED, /* a last row that is all undefined has a letter */
    FIRST_ENTRY_ALONE, /* a row is undefined if its first entry is */
    PLACE_AT_21, /* 21 gives a place in out[0] */
    /* writing, 18 */
    ROOM_BEFORE_21, /* 18 comes before 21 */
    LINE_ROOM_EQUAL, /* a line buffer of the exact length is too short */
    ROOM_WITHOUT_BREAKS, /* the room for the underscores is not asked for */
    PART_WRITTEN, /* what fits is written before 18 */
    LINE_OUT_AT_18, /* 18 gives the bytes needed in out[0] for a line */
    /* writing, the line */
    Z_AS_NEXT_LETTER, /* Z is written as the letter after the last row's */
    LAST_NEXT_Z, /* the last row's state is written as Z also where it has an entry */
    UNDEFINED_AS_HALT, /* an undefined entry is written as 1RZ */
    COUNT_OF_ENTRIES, /* out[0] is the number of entries */
    NUL_WRITTEN, /* a zero byte is written after the line */
    BREAK_WRITTEN /* an underscore is written after the last row where it fits */
};

#ifndef FAULT
#define FAULT NONE
#endif
#define WRONG(name) (FAULT == (name))

enum { MOST_SYMBOLS = 10, MOST_ROWS = 25, OTHER_TAPES = 24 };

struct form {
    size_t rows, width;
};

/* ---- reading ---- */

static int is_letter(uint8_t byte)
{
    if (WRONG(NO_L_R) && (byte == 'L' || byte == 'R'))
        return 0;
    if (WRONG(SMALL_LETTERS) && byte >= 'a' && byte <= 'z')
        return 1;
    return byte >= 'A' && byte <= 'Z' && !(WRONG(NO_Z) && byte == 'Z');
}

/* Whether the byte at a place may be part 0, 1 or 2 of an entry. */
static int fits(const uint8_t *line, size_t place, size_t part)
{
    uint8_t byte = WRONG(SEVEN_BITS) ? line[place] & 127 : line[place];

    if (part == 0)
        return byte == '-' || (byte >= '0' && byte <= '9');
    if (byte == '-')
        return line[place - part] == '-' || (WRONG(DASHES_AFTER_DIGIT) && (part == 1 || line[place - 1] == '-'));
    if (line[place - part] == '-' && !WRONG(ONE_DASH))
        return 0;
    if (part == 1)
        return byte == 'L' || byte == 'R' || (WRONG(NO_MOVE_READ) && byte == 'N');
    return is_letter(byte) && line[place - 1] != '-';
}

static size_t bad_place(size_t place, size_t part, size_t len)
{
    if (WRONG(PLACE_FROM_1))
        return place + 1;
    if (WRONG(PLACE_OF_ENTRY))
        return place - part;
    if (WRONG(EARLY_END_BEFORE) && place == len && len > 0)
        return place - 1;
    return WRONG(PLACE_IN_8_BITS) ? place & 255 : place;
}

/* Whether a row may end after so many entries; form->width is 0 in the first row. */
static int may_end(const struct form *form, size_t entries, int at_end)
{
    if (form->width == 0)
        return entries >= (WRONG(ONE_ENTRY) ? 1 : 2);
    if (WRONG(SHORT_ROW) || (WRONG(SHORT_LAST_ROW) && at_end))
        return entries <= form->width;
    return WRONG(LONG_ROW) ? entries >= form->width : entries == form->width;
}

static int may_go_on(const struct form *form, size_t entries)
{
    if (form->width == 0 || WRONG(LONG_ROW))
        return entries < (WRONG(ELEVEN_ENTRIES) ? 11 : WRONG(NINE_ENTRIES) ? 9 : MOST_SYMBOLS);
    return entries < form->width;
}

/* Whether the line is of the form, with its rows and width; else the place where it is not. */
static int formed(const uint8_t *line, size_t len, struct form *form, size_t *bad)
{
    size_t most = WRONG(ROWS_24) ? 24 : WRONG(ROWS_26) ? 26 : MOST_ROWS;
    size_t place = 0, entries = 0, part;

    form->rows = 1;
    form->width = 0;
    for (;;) {
        for (part = 0; part < 3; part++, place++) {
            if (place < len && fits(line, place, part))
                continue;
            *bad = bad_place(place, part, len);
            form->rows -= place == len && entries == 0 && form->rows > 1;
            return WRONG(BREAK_AT_END) && place == len && part == 0 && entries == 0 && form->width > 0;
        }
        entries++;
        if (may_end(form, entries, place == len) && (place == len || (line[place] == '_' && form->rows < most))) {
            form->width = form->width == 0 ? entries : form->width;
            if (place == len)
                return 1;
            form->rows++;
            entries = 0;
            place++;
        } else if (place == len || !may_go_on(form, entries)) {
            *bad = bad_place(place, 0, len);
            return 0;
        }
    }
}

/* Whether the rows lack the byte, which is part 0, 1 or 2 of an entry. */
static int is_lacking(uint8_t byte, size_t part, struct form form)
{
    if (byte == '-' || (part == 1 && !WRONG(MOVES_CHECKED)))
        return 0;
    if (part == 0)
        return (size_t)(byte - '0') >= (WRONG(ANY_DIGIT) ? 10 : form.width + WRONG(DIGIT_TOO_HIGH));
    if (byte == 'Z' && !WRONG(Z_LACKING))
        return 0;
    if (WRONG(L_R_UNCHECKED) && (byte == 'L' || byte == 'R'))
        return 0;
    return (size_t)(byte - 'A') >= form.rows + WRONG(LETTER_TOO_HIGH);
}

/* Whether the rows lack a byte of the line, and its place. `parts` are the parts looked at: 1 the first, 2 the others. */
static int lacking(const uint8_t *line, size_t len, struct form form, int parts, size_t *bad)
{
    size_t place, part = 0;
    int found = 0;

    for (place = 0; place < len; place++) {
        if (line[place] == '_') {
            part = 0;
            continue;
        }
        if ((part == 0 ? parts & 1 : parts & 2) && is_lacking(line[place], part, form)) {
            *bad = WRONG(LACKING_PLACE_OF_ENTRY) ? place - part : WRONG(PLACE_IN_8_BITS) ? place & 255 : place;
            found = 1;
            if (!WRONG(LAST_LACKING))
                return 1;
        }
        part = (part + 1) % 3;
    }
    return found;
}

static void put_entry(uint8_t *entry, uint8_t next, uint8_t write, uint8_t move)
{
    memset(entry, 0, 8);
    entry[0] = 1;
    entry[WRONG(HIGH_BYTE_FIRST) ? 2 : 1] = next;
    entry[3] = write;
    entry[6] = (uint8_t)(WRONG(MOVE_ALONE) ? move : OTHER_TAPES + move);
}

static void read_entry(const uint8_t *text, size_t rows, uint8_t *entry)
{
    uint8_t halt = (uint8_t)(WRONG(Z_IS_25) ? 25 : rows);
    uint8_t next = text[2] == 'Z' ? halt : (uint8_t)(text[2] - 'A');

    if (text[0] == '-' || text[1] == '-') {
        if (WRONG(DASHES_HALT))
            put_entry(entry, halt, 1, 1);
        else if (!WRONG(DASHES_LEFT))
            memset(entry, 0, 8);
        return;
    }
    put_entry(entry, next, (uint8_t)(text[0] - '0'), (text[1] == 'R') ^ WRONG(MOVES_EXCHANGED));
}

/* Fills the table, Z's row last. `states` is the number of rows in it. */
static void fill(const uint8_t *line, size_t len, struct form form, size_t states, uint8_t *table, size_t table_len)
{
    size_t used = 8 * states * form.width, place = 0, row = 0, column = 0;
    size_t first_of_z = 8 * form.rows * form.width;

    if (!WRONG(DASHES_LEFT) && !WRONG(Z_ROW_LEFT))
        memset(table, 0, used < table_len ? used : table_len);
    if (WRONG(DASHES_LEFT) && used > first_of_z)
        memset(table + first_of_z, 0, used - first_of_z);
    while (place < len) {
        if (line[place] == '_') {
            row++;
            column = 0;
            place++;
            continue;
        }
        if (column < form.width)
            read_entry(line + place, form.rows,
                table + 8 * (WRONG(COLUMNS_FIRST) ? column * states + row : row * form.width + column));
        column++;
        place += 3;
    }
}

static size_t line_end(const uint8_t *line, size_t len)
{
    const uint8_t *nul = WRONG(ENDS_AT_NUL) && len > 0 ? memchr(line, 0, len) : NULL;

    if (WRONG(NEWLINE_DROPPED) && len > 0 && line[len - 1] == '\n')
        return len - 1;
    return nul != NULL ? (size_t)(nul - line) : len;
}

/* 20 for a line that need not be of the form. */
static int lacking_at_once(const uint8_t *line, size_t len, size_t *bad)
{
    struct form form = {1, 0};
    size_t place;

    for (place = 0; place < len; place++)
        form.rows += line[place] == '_';
    for (place = 0; place < len && line[place] != '_'; place++)
        form.width = (place + 1) / 3;
    return lacking(line, len, form, 3, bad);
}

static void put_read_outs(uint64_t out[8], struct form form, size_t states)
{
    out[WRONG(OUT_EXCHANGED) ? 1 : 0] = form.width;
    out[WRONG(OUT_EXCHANGED) ? 0 : 1] = states;
    if (WRONG(OUT_START))
        out[2] = 0;
}

uint8_t tm_line_read(const uint8_t *line, size_t line_len, uint8_t *table, size_t table_len, uint64_t out[8])
{
    struct form form;
    size_t bad = 0, len = line_end(line, line_len), states, used, needed;

    if (WRONG(NO_ROOM_FIRST) && table_len == 0)
        return 18;
    if (WRONG(LACKING_FIRST) && lacking_at_once(line, len, &bad))
        return out[0] = bad, 20;
    if (!formed(line, len, &form, &bad))
        return out[0] = bad, 19;
    states = form.rows + !WRONG(NO_Z_ROW);
    used = 8 * states * form.width;
    needed = WRONG(ROOM_WITHOUT_Z) ? 8 * form.rows * form.width : used;
    if (WRONG(EARLY_WRITE) && table_len >= 8)
        read_entry(line, form.rows, table);
    if (WRONG(ROOM_BEFORE_LACKING) && table_len < needed)
        return 18;
    if (WRONG(DIGITS_FIRST) && lacking(line, len, form, 1, &bad))
        return out[0] = bad, 20;
    if (lacking(line, len, form, 3, &bad))
        return out[0] = bad, 20;
    if (WRONG(EARLY_OUT) || (WRONG(OUT_AT_18) && table_len < needed))
        out[0] = WRONG(OUT_AT_18) ? needed : form.width;
    if (table_len < needed || (WRONG(ROOM_EQUAL) && table_len == needed))
        return 18;
    if (WRONG(TABLE_WIPED) && table_len > 0)
        memset(table, 0, table_len);
    if (WRONG(BYTE_TOO_MANY) && table_len > used)
        table[used] = 0;
    fill(line, len, form, states, table, table_len);
    put_read_outs(out, form, states);
    return 0;
}

/* ---- writing ---- */

static int is_undefined(const uint8_t *entry)
{
    static const uint8_t undefined[8];

    return WRONG(LOOSE_UNDEFINED) ? entry[0] == 0 : memcmp(entry, undefined, 8) == 0;
}

static int entry_fits(const uint8_t *entry, uint64_t tapes, uint64_t symbols, uint64_t states)
{
    uint64_t next = entry[1] + 256u * entry[2], tape;
    unsigned moves = entry[6];

    if (is_undefined(entry))
        return 1;
    if (entry[0] != 1 || next >= states + WRONG(NEXT_TOO_HIGH) || entry[6] > 26)
        return 0;
    if (entry[7] != 0 && !WRONG(LOOSE_LAST_BYTE))
        return 0;
    for (tape = 0; tape < 3; tape++, moves /= 3) {
        if (tape < tapes ? entry[3 + tape] >= symbols : entry[3 + tape] != 0 && !WRONG(LOOSE_WRITES))
            return 0;
        if (tape >= tapes && moves % 3 != 2 && !WRONG(LOOSE_MOVES))
            return 0;
    }
    return 1;
}

static uint8_t check_entries(
    uint64_t tapes, uint64_t symbols, uint64_t states, const uint8_t *table, uint64_t entries, uint64_t out[8])
{
    uint8_t code = 0;
    uint64_t number;

    for (number = 0; number < entries; number++) {
        if (entry_fits(table + 8 * number, tapes, symbols, states))
            continue;
        out[0] = WRONG(BYTE_NUMBER) ? 8 * number : number;
        code = 6;
        if (!WRONG(LAST_BAD_ENTRY))
            break;
    }
    return code;
}

static uint64_t power(uint64_t base, uint64_t exponent)
{
    return exponent == 0 ? 1 : base * power(base, exponent - 1);
}

/* Refusals 1 to 5. */
static uint8_t check_numbers(uint64_t tapes, uint64_t symbols, uint64_t states, uint64_t start, size_t table_len)
{
    uint64_t size;

    if (tapes < 1 || tapes > 3)
        return 1;
    if (symbols < 1 || symbols > 256)
        return 2;
    if (states < 1 || states > 65536)
        return 3;
    size = 8 * states * power(symbols, tapes);
    if (WRONG(LENGTH_BEFORE_START) && table_len != size)
        return 5;
    if (start >= states)
        return 4;
    return (WRONG(LONGER_TABLE) ? table_len < size : table_len != size) ? 5 : 0;
}

static int undefined_row(const uint8_t *row, uint64_t symbols)
{
    uint64_t i;

    for (i = 0; i < symbols; i++) {
        if (!is_undefined(row + 8 * i))
            return 0;
        if (WRONG(FIRST_ENTRY_ALONE))
            return 1;
    }
    return 1;
}

/* 21 for the numbers alone. */
static int shape_fits(uint64_t tapes, uint64_t symbols, uint64_t start)
{
    if (tapes != 1 && !WRONG(SEVERAL_TAPES))
        return 0;
    if (symbols < (WRONG(ONE_SYMBOL) ? 1 : 2))
        return 0;
    if (symbols > (WRONG(ELEVEN_SYMBOLS) ? 11 : WRONG(NINE_SYMBOLS) ? 9 : MOST_SYMBOLS))
        return 0;
    return start == 0 || WRONG(START_ANY);
}

/* The number of lettered rows, 0 where 21 applies. `z` is set where the last row is Z's. */
static uint64_t lettered(uint64_t symbols, uint64_t states, const uint8_t *table, int *z)
{
    uint64_t row, rows, i, looked_at, most = WRONG(STATES_26) ? 26 : MOST_ROWS;

    *z = undefined_row(table + 8 * symbols * (states - 1), symbols) && !WRONG(LAST_IS_LETTERED);
    if (WRONG(LAST_IS_Z))
        *z = 1;
    rows = states - (uint64_t)*z;
    if (rows < 1 || rows > most || (WRONG(STATES_25) && states > MOST_ROWS))
        return 0;
    for (row = WRONG(FIRST_ROW) ? 1 : 0; row + 1 < states; row++)
        if (undefined_row(table + 8 * symbols * row, symbols) && !WRONG(MIDDLE_ROW))
            return 0;
    looked_at = WRONG(N_IN_LAST_ROW) ? states - 1 : rows;
    for (i = 0; i < symbols * looked_at; i++)
        if (!is_undefined(table + 8 * i) && table[8 * i + 6] % 3 == 2 && !WRONG(N_AS_R))
            return 0;
    return rows;
}

static void write_entry(const uint8_t *entry, uint64_t rows, int z, uint8_t text[3])
{
    uint64_t next = entry[1] + 256u * entry[2];
    uint8_t halt = WRONG(Z_AS_NEXT_LETTER) ? (uint8_t)('A' + rows) : 'Z';

    if (is_undefined(entry)) {
        memcpy(text, WRONG(UNDEFINED_AS_HALT) ? "1RZ" : "---", 3);
        return;
    }
    text[0] = (uint8_t)('0' + entry[3]);
    text[1] = entry[6] % 3 == 0 ? 'L' : 'R';
    text[2] = next == rows || (WRONG(LAST_NEXT_Z) && !z && next + 1 == rows) ? halt : (uint8_t)('A' + next);
}

/* Writes as many bytes of the line as there is room for. */
static void write_rows(uint64_t symbols, uint64_t rows, int z, const uint8_t *table, uint8_t *line, size_t room)
{
    uint64_t row, column, place = 0, i;

    for (row = 0; row < rows; row++) {
        for (column = 0; column < symbols; column++) {
            uint8_t text[3];

            write_entry(table + 8 * (row * symbols + column), rows, z, text);
            for (i = 0; i < 3; i++, place++)
                if (place < room)
                    line[place] = text[i];
        }
        if (place < room && (row + 1 < rows || WRONG(BREAK_WRITTEN)))
            line[place] = '_';
        place++;
    }
    if (WRONG(NUL_WRITTEN) && place <= room)
        line[place - 1] = 0;
}

static uint8_t write_checked(
    uint64_t symbols, uint64_t states, const uint8_t *table, uint8_t *line, size_t line_len, uint64_t out[8])
{
    int z;
    uint64_t rows = lettered(symbols, states, table, &z), used = rows * (3 * symbols + 1) - 1;
    uint64_t needed = WRONG(ROOM_WITHOUT_BREAKS) ? 3 * symbols * rows : used;

    if (rows == 0 && WRONG(NO_ROW) && states == 1)
        return out[0] = 0, 0;
    if (rows == 0) {
        out[0] = WRONG(PLACE_AT_21) ? 0 : out[0];
        return 21;
    }
    if (line_len < needed || (WRONG(LINE_ROOM_EQUAL) && line_len == needed)) {
        if (WRONG(PART_WRITTEN))
            write_rows(symbols, rows, z, table, line, line_len);
        if (WRONG(LINE_OUT_AT_18))
            out[0] = needed;
        return 18;
    }
    write_rows(symbols, rows, z, table, line, line_len);
    out[0] = WRONG(COUNT_OF_ENTRIES) ? rows * symbols : used;
    return 0;
}

uint8_t tm_line_write(
    uint64_t tapes, uint64_t symbols, uint64_t states, uint64_t start,
    const uint8_t *table, size_t table_len,
    uint8_t *line, size_t line_len,
    uint64_t out[8])
{
    uint8_t code;

    if (WRONG(LOW_32_BITS)) {
        tapes = (uint32_t)tapes;
        symbols = (uint32_t)symbols;
        states = (uint32_t)states;
        start = (uint32_t)start;
    }
    if (WRONG(SHAPE_BEFORE_CHECK) && !shape_fits(tapes, symbols, start))
        return 21;
    code = check_numbers(tapes, symbols, states, start, table_len);
    if (code != 0)
        return code;
    if (WRONG(SHAPE_BEFORE_ENTRIES) && !shape_fits(tapes, symbols, start))
        return 21;
    code = check_entries(tapes, symbols, states, table, states * power(symbols, tapes), out);
    if (code != 0)
        return code;
    if (WRONG(ROOM_BEFORE_21) && line_len < 3 * symbols * (states - 1))
        return 18;
    if (!shape_fits(tapes, symbols, start))
        return 21;
    return write_checked(symbols, states, table, line, line_len, out);
}

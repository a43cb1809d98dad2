/* Calls of libsleetrick.a with a fault in them, for trying the comparison: the variable FAULT names which. Rows are asked of the
   proved calls, which faults.sh has renamed, one at a time, and then damaged. */

#include <stdint.h>
#include <stdlib.h>
#include <string.h>

typedef uint64_t column(uint32_t layout, const uint8_t *read, size_t read_length, uint8_t *written, size_t written_length);
typedef uint64_t stamp(const uint8_t *bytes, size_t bytes_length, uint8_t *instant, size_t length);
column proved_decode_column, proved_encode_column;
stamp proved_oracle_date, proved_cp56time2a, proved_udf;
uint64_t proved_decode(uint32_t layout, int64_t word, uint8_t *instant, size_t length);
uint64_t proved_encode(uint32_t layout, int64_t seconds, uint32_t nanos, uint8_t *word, size_t length);
uint64_t proved_filetime_hilo(uint32_t low, uint32_t high, uint8_t *instant, size_t length);
uint64_t proved_vmsd(int32_t high, int32_t low, uint8_t *instant, size_t length);
uint64_t proved_unix_sec_nsec(int64_t seconds, uint32_t nanos, uint8_t *instant, size_t length);

enum { WORD = 8, INSTANT = 12, MOST_ROWS = 1048576 };

static const int64_t YEAR_1900 = -2208988800, DAY = 86400, NANOS = 1000000000;

static int fault(const char *name) {
    const char *planted = getenv("FAULT");
    return planted && strcmp(planted, name) == 0;
}

static int64_t number(const uint8_t *row) {
    int64_t number;
    memcpy(&number, row, sizeof number);
    return number;
}

static uint32_t nanos(const uint8_t *instant) {
    uint32_t nanos;
    memcpy(&nanos, instant + 8, sizeof nanos);
    return nanos;
}

static void put(uint8_t *row, int64_t number) {
    memcpy(row, &number, sizeof number);
}

static void put_instant(uint8_t *row, int64_t seconds, uint32_t nanos) {
    put(row, seconds);
    memcpy(row + 8, &nanos, sizeof nanos);
}

/* A decoded row and its refusal, 0 if none: damaged, and the refusal then. */
static unsigned decoded(uint32_t layout, const uint8_t *word, uint8_t *instant, unsigned refusal) {
    if (fault("a second more on one day of layout 9") && layout == 9 && !refusal && number(instant) / DAY == 20773)
        put(instant, number(instant) + 1);
    if (fault("ticks of layout 16 to the nearest nanosecond") && layout == 16 && !refusal && nanos(instant) % 10 == 6)
        put_instant(instant, number(instant), nanos(instant) + 1);
    if (fault("1900 is leap in layout 3") && refusal == 3 && layout == 3 && (number(word) >> 11 & 0x3FFFF) == (2 << 5 | 29)) {
        put_instant(instant, YEAR_1900 + 59 * DAY, 0);
        return 0;
    }
    if (fault("a refused word is instant zero") && refusal) {
        put_instant(instant, 0, 0);
        return 0;
    }
    if (fault("a refused row is written") && refusal)
        put_instant(instant, 0, 0);
    return refusal;
}

/* The same of an encoded row. */
static unsigned encoded(uint32_t layout, const uint8_t *instant, uint8_t *word, unsigned refusal) {
    int64_t in_day = ((number(instant) - YEAR_1900) % DAY + DAY) % DAY * NANOS + nanos(instant);
    if (fault("a half tick of layout 16 goes down") && layout == 16 && !refusal && 3 * in_day % 10000000 == 5000000)
        put(word, number(word) - 1);
    if (fault("layout 16 does not roll") && layout == 16 && !refusal && in_day > DAY / 2 * NANOS && (uint32_t)number(word) == 0)
        put(word, number(word) - ((int64_t)1 << 32) + 25920000);
    if (fault("seconds before 1970 are cut towards zero") && layout == 15 && !refusal && number(instant) < 0 && nanos(instant))
        put(word, number(word) + (1 << 24));
    if (fault("the window ends a second later") && refusal == 6 && layout == 10 && number(instant) == 253402207201) {
        put(word, 0x270F0C1E160001);
        return 0;
    }
    return refusal;
}

static uint64_t rows(column *proved, unsigned damage(uint32_t, const uint8_t *, uint8_t *, unsigned), uint32_t layout,
                     const uint8_t *read, size_t read_length, size_t read_row, uint8_t *written, size_t written_length,
                     size_t written_row) {
    size_t rows = read_length / read_row;
    if (rows == 0 || rows > MOST_ROWS || rows * read_row != read_length || rows * written_row != written_length)
        return proved(layout, read, read_length, written, written_length);
    for (size_t row = 0; row < rows; row++) {
        if (fault("the last row is not written") && rows > 1 && row == rows - 1)
            break;
        const uint8_t *from = read + row * read_row;
        uint8_t *to = written + row * written_row;
        unsigned refusal = damage(layout, from, to, proved(layout, from, read_row, to, written_row) % 16);
        if (refusal && fault("the row behind a refused one is written") && row + 1 < rows)
            memset(to + written_row, 0, written_row);
        if (refusal)
            return 16 * (row + fault("a refused row is counted")) + refusal;
    }
    return 16 * (rows + fault("a row too many is counted"));
}

/* A call of which a fault is planted below; faults.sh renames the proved one. */
#define PLANTED(call) sleetrick_##call

uint64_t PLANTED(decode_column)(uint32_t layout, const uint8_t *words, size_t words_length, uint8_t *instants,
                                size_t instants_length) {
    return rows(proved_decode_column, decoded, layout, words, words_length, WORD, instants, instants_length, INSTANT);
}

uint64_t PLANTED(encode_column)(uint32_t layout, const uint8_t *instants, size_t instants_length, uint8_t *words,
                                size_t words_length) {
    return rows(proved_encode_column, encoded, layout, instants, instants_length, INSTANT, words, words_length, WORD);
}

uint64_t PLANTED(decode)(uint32_t layout, int64_t word, uint8_t *instant, size_t length) {
    uint64_t refusal = proved_decode(layout, word, instant, length);
    if (fault("a refused word alone is instant zero") && refusal) {
        put_instant(instant, 0, 0);
        return 0;
    }
    return refusal;
}

uint64_t PLANTED(encode)(uint32_t layout, int64_t seconds, uint32_t nanos, uint8_t *word, size_t length) {
    if (fault("an instant alone loses its nanoseconds"))
        nanos = 0;
    return proved_encode(layout, seconds, nanos, word, length);
}

uint64_t PLANTED(filetime_hilo)(uint32_t low, uint32_t high, uint8_t *instant, size_t length) {
    if (fault("the halves of a FILETIME are exchanged"))
        return proved_filetime_hilo(high, low, instant, length);
    return proved_filetime_hilo(low, high, instant, length);
}

uint64_t PLANTED(vmsd)(int32_t high, int32_t low, uint8_t *instant, size_t length) {
    int less = fault("the low half of a VMSD is signed") && low < 0;
    return proved_vmsd((int32_t)((uint32_t)high - less), low, instant, length);
}

uint64_t PLANTED(unix_sec_nsec)(int64_t seconds, uint32_t nanos, uint8_t *instant, size_t length) {
    if (fault("nanoseconds do not carry"))
        nanos %= NANOS;
    return proved_unix_sec_nsec(seconds, nanos, instant, length);
}

/* A stamp in bytes: its refusal, and the instant, damaged. */
static uint64_t stamped(stamp *proved, const uint8_t *bytes, size_t bytes_length, uint8_t *instant, size_t length) {
    uint64_t refusal = proved(bytes, bytes_length, instant, length);
    if (fault("a refused stamp is instant zero") && refusal) {
        put_instant(instant, 0, 0);
        return 0;
    }
    if (fault("a stamp's last millisecond is one less") && !refusal && nanos(instant) == 999000000)
        put_instant(instant, number(instant), 998000000);
    return refusal;
}

uint64_t PLANTED(oracle_date)(const uint8_t *bytes, size_t bytes_length, uint8_t *instant, size_t length) {
    return stamped(proved_oracle_date, bytes, bytes_length, instant, length);
}

uint64_t PLANTED(cp56time2a)(const uint8_t *bytes, size_t bytes_length, uint8_t *instant, size_t length) {
    return stamped(proved_cp56time2a, bytes, bytes_length, instant, length);
}

uint64_t PLANTED(udf)(const uint8_t *bytes, size_t bytes_length, uint8_t *instant, size_t length) {
    uint8_t zoned[12];
    if (fault("zone 0x800 of a UDF stamp is none") && bytes_length == 12 && bytes[0] == 0 && bytes[1] % 16 == 8) {
        memcpy(zoned, bytes, 12);
        zoned[0] = 1;
        bytes = zoned;
    }
    return stamped(proved_udf, bytes, bytes_length, instant, length);
}

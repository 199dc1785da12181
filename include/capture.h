/*
 * Blossomaxle for C: readers and writers of the MGL EFIS feed (format 1), the OnFlight log (2) and NMEA with the LARUS
 * sentences (3), and the tables of contents of bench files. docs/INTERFACE.md says what each function gives.
 *
 * Every call ends, for any bytes and lengths. A number answered is 0 for done, or the number of a refusal; a refusal's values are
 * zeros, and it changes no lent byte. (Only capture_fresh, refusing an unknown format, writes the refused reader to the
 * reader's bytes.) capture_frame_len and capture_gyro refuse nothing: they answer a length and a rate.
 *
 * Lent areas must not overlap and must be initialised. A pointer may be null only with length 0.
 */
#ifndef CAPTURE_H
#define CAPTURE_H

#include <stddef.h>
#include <stdint.h>

#ifdef __cplusplus
extern "C" {
#endif

/* The bytes of a reader: five words of four bytes, low byte first (format, closed, framed, skipped, pending), and 275 held bytes. */
#define CAPTURE_READER_LEN 295

/* The longest piece, and an output that takes the frames of every piece: a piece, and what can be pending. */
#define CAPTURE_LONGEST_PIECE 4096
#define CAPTURE_MAX_OUTPUT 4371

/* The longest table of contents of a bench file. */
#define CAPTURE_LONGEST_TOC 97

/* A number, and the values of a field function in the order of its row below; those that it does not have are 0. */
#define CAPTURE_VALUES 21
struct capture_values {
    uint32_t number;
    int64_t values[CAPTURE_VALUES];
};

struct capture_ratio {
    uint32_t number;
    double value;
};

/* A number, and how many bytes were written. */
struct capture_written {
    uint32_t number;
    size_t length;
};

/* ---- readers: refusals 11, 2, 1, 3, 4 */

/* Writes a fresh reader of a format to the reader's bytes. */
uint32_t capture_fresh(uint32_t format, uint8_t *reader, size_t reader_len);

/* Reads a piece. Its frames are copied back to back to the start of out, as many bytes as the reader's framed grows by. */
uint32_t capture_piece(uint8_t *reader, size_t reader_len, const uint8_t *piece, size_t piece_len, uint8_t *out, size_t out_len);

/* Ends the line: what the closing reading adds is copied to out in the same way. */
uint32_t capture_close(uint8_t *reader, size_t reader_len, uint8_t *out, size_t out_len);

/* ---- frames */

/* The length of the frame that the bytes begin with, or 0 where they begin with none or the format is unknown. */
size_t capture_frame_len(uint32_t format, const uint8_t *bytes, size_t bytes_len);

/* ---- field functions, of one whole frame: refusals 7, 8, 9 */

/* capture_read, by the field function's number; item is the tank's number, from 0, and is not looked at by the others */
#define CAPTURE_MGL_BODY 100            /* start, end */
#define CAPTURE_MGL_HEADER 101          /* message type, rate, count, version */
#define CAPTURE_MGL_GPS 102             /* latitude, longitude, altitude, AGL, north, east, down, ground speed, track, variation, mode,
                                           tracked, visible, horizontal and vertical accuracy, capability, RAIM, its horizontal and
                                           vertical error, valid (0 in mode 0, where nothing is, else 1), altitude valid (1 or 0) */
#define CAPTURE_MGL_FUEL_COUNT 103      /* tanks */
#define CAPTURE_MGL_FUEL_TANK 104       /* level, type, on, sensors */
#define CAPTURE_MGL_CLOCK 105           /* clock answer, seconds */
#define CAPTURE_ONFLIGHT_BODY 200       /* start, end */
#define CAPTURE_ONFLIGHT_STATUS 201     /* status bytes 0 to 5 */
#define CAPTURE_ONFLIGHT_SET_BITS 202   /* named status bits that are set */
#define CAPTURE_ONFLIGHT_BOOT_TIME 203  /* milliseconds */
#define CAPTURE_ONFLIGHT_CLOCK 204      /* clock answer, seconds */
#define CAPTURE_ONFLIGHT_VOLTAGES 205   /* input, filtered: 25 a volt */
#define CAPTURE_ONFLIGHT_ACCELERATIONS 206 /* x, y, z */
#define CAPTURE_ONFLIGHT_GYROS 207      /* x, y, z */
#define CAPTURE_ONFLIGHT_PRESSURE 208   /* pascals */
#define CAPTURE_ONFLIGHT_FIX 209        /* fix, satellites */
#define CAPTURE_ONFLIGHT_GNSS_POSITION 210 /* latitude, longitude */
#define CAPTURE_ONFLIGHT_INS_POSITION 211  /* latitude, longitude */
#define CAPTURE_ONFLIGHT_GNSS_ALTITUDE 212 /* feet */
#define CAPTURE_ONFLIGHT_INS_ALTITUDE 213  /* feet */
#define CAPTURE_NMEA_BODY 300           /* start, end */
#define CAPTURE_RMC_CLOCK 301           /* clock answer, seconds */
#define CAPTURE_RMC_POSITION 302        /* latitude, longitude */
#define CAPTURE_RMC_STATUS 303          /* the letter: 'A' or 'V' */
#define CAPTURE_PLARS_SETTING 304       /* source letter, parameter, value in steps of the last decimal */
struct capture_values capture_read(uint32_t function, uint32_t item, const uint8_t *frame, size_t frame_len);

/* capture_ratio */
#define CAPTURE_ONFLIGHT_INPUT_VOLTAGE 214 /* volts */
#define CAPTURE_ONFLIGHT_LOAD_FACTOR 215   /* g */
struct capture_ratio capture_ratio(uint32_t function, const uint8_t *frame, size_t frame_len);

/* Milliseconds from one OnFlight frame to another; one value. */
struct capture_values capture_elapsed(const uint8_t *from, size_t from_len, const uint8_t *to, size_t to_len);

/* The clock answers, first of a clock's two values: the seconds since 1970-01-01 00:00:00 are 0 for all but a good one. */
#define CAPTURE_CLOCK_UNSET 0
#define CAPTURE_CLOCK_GOOD 1
#define CAPTURE_CLOCK_WRONG_MONTH 2
#define CAPTURE_CLOCK_WRONG_DAY 3
#define CAPTURE_CLOCK_WRONG_HOUR 4
#define CAPTURE_CLOCK_WRONG_MINUTE 5
#define CAPTURE_CLOCK_WRONG_SECOND 6
#define CAPTURE_CLOCK_WRONG_YEAR 7

/* ---- MGL gyro numbers, in hundredths of a degree a second: read, and written (one value, or refusal 9) */
int32_t capture_gyro(int16_t number);
struct capture_values capture_write_gyro(int32_t rate);

/* ---- writers: refusals 5 or 9, then 6 */

/* A whole frame. The header is MGL's message type, rate, count and version, low byte first; other formats do not look at it. */
struct capture_written capture_write(uint32_t format, uint32_t header, const uint8_t *body, size_t body_len, uint8_t *out, size_t out_len);

/* A PLARS sentence: source 'L' or 'H', parameter 0 to 3 for MC, BAL, BUGS, QNH, value in steps of the last decimal. */
struct capture_written capture_write_setting(uint8_t source, uint8_t parameter, uint32_t value, uint8_t *out, size_t out_len);

/* ---- bench files: refusals 10, 9 */

/* An entry of a file of file_len bytes, from its first bytes: the number of entries, and the item's format, port, length and start. */
struct capture_values capture_entry(const uint8_t *first, size_t first_len, uint64_t file_len, uint32_t item);

#ifdef __cplusplus
}
#endif

#endif

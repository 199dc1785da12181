/* Calls every function of capture.h once and more, with null pointers and length 0 too, and compares with document 01's examples. */
#include "capture.h"

#include <stdio.h>
#include <string.h>

static int failures = 0;

static void expect(int right, const char *what)
{
    if (!right) {
        fprintf(stderr, "smoke: %s\n", what);
        failures++;
    }
}

static uint32_t word(const uint8_t *reader, int k)
{
    const uint8_t *at = reader + 4 * k;
    return at[0] | (uint32_t)at[1] << 8 | (uint32_t)at[2] << 16 | (uint32_t)at[3] << 24;
}

/* The line of document 01's sheet, in two pieces, and a close. */
static void readers(void)
{
    const char *line = "x$$PLARB,12.33*4C\r\n";
    const uint8_t *bytes = (const uint8_t *)line;
    uint8_t reader[CAPTURE_READER_LEN], before[CAPTURE_READER_LEN], out[CAPTURE_MAX_OUTPUT];

    memset(reader, 0xAA, sizeof reader);
    memset(out, 0x55, sizeof out);
    expect(capture_fresh(3, reader, sizeof reader) == 0, "a fresh reader");
    expect(capture_piece(reader, sizeof reader, bytes, 9, out, sizeof out) == 0, "a first piece");
    expect(word(reader, 4) == 7 && word(reader, 3) == 2, "pending and skipped");
    memcpy(before, reader, sizeof reader);
    expect(capture_piece(reader, sizeof reader, bytes + 9, 10, out, 16) == 4, "an output that is too small");
    expect(memcmp(before, reader, sizeof reader) == 0 && out[0] == 0x55, "a refusal changes nothing");
    expect(capture_piece(reader, sizeof reader, bytes + 9, 10, out, sizeof out) == 0, "a second piece");
    expect(word(reader, 2) == 17 && memcmp(out, line + 2, 17) == 0 && out[17] == 0x55, "the frame");
    expect(capture_piece(reader, sizeof reader, NULL, 0, NULL, 0) == 0, "nothing");
    expect(capture_close(reader, sizeof reader, NULL, 0) == 0, "a close");
    expect(capture_close(reader, sizeof reader, NULL, 0) == 2, "a close of a closed reader");
    expect(capture_fresh(4, reader, sizeof reader) == 11, "an unknown format");
    expect(word(reader, 0) == 0 && word(reader, 1) == 1, "the refused reader");
    expect(capture_fresh(1, NULL, 0) == 11, "a reader of no bytes");
    expect(capture_piece(NULL, 0, NULL, 0, NULL, 0) == 11, "a piece for a reader of no bytes");
    expect(capture_close(NULL, 0, NULL, 0) == 11, "a close of a reader of no bytes");
}

/* The frames of what a reader handed out, one by one. */
static void lengths(void)
{
    const uint8_t *bytes = (const uint8_t *)"$A*41\r\n$PLARB,12.33*4C\r\n";

    expect(capture_frame_len(3, bytes, 24) == 7, "the first frame");
    expect(capture_frame_len(3, bytes + 7, 17) == 17, "the second frame");
    expect(capture_frame_len(3, bytes + 24, 0) == 0, "no frame after the last");
    expect(capture_frame_len(3, bytes, 6) == 0, "a proper start is no frame");
    expect(capture_frame_len(3, bytes + 1, 23) == 0, "noise before a frame");
    expect(capture_frame_len(1, bytes, 24) == 0, "a frame of another format");
    expect(capture_frame_len(4, bytes, 24) == 0, "a frame of no format");
    expect(capture_frame_len(3, NULL, 0) == 0, "the first frame of no bytes");
}

/* What is written reads back. */
static void frames(void)
{
    uint8_t body[152] = {0}, frame[276];
    struct capture_written w;
    struct capture_values v;

    body[24] = 13, body[25] = 49, body[26] = 43, body[27] = 17, body[28] = 6, body[29] = 23;
    w = capture_write(1, 0x01000501, body, 32, frame, sizeof frame);
    expect(w.number == 0 && w.length == 44, "an MGL frame");
    expect(capture_frame_len(1, frame, sizeof frame) == 44, "its length");
    v = capture_read(CAPTURE_MGL_HEADER, 0, frame, 44);
    expect(v.number == 0 && v.values[0] == 1 && v.values[1] == 5 && v.values[2] == 0 && v.values[3] == 1, "its header");
    v = capture_read(CAPTURE_MGL_CLOCK, 0, frame, 44);
    expect(v.number == 0 && v.values[0] == CAPTURE_CLOCK_GOOD && v.values[1] == 1687009783, "its clock");
    expect(capture_read(CAPTURE_MGL_GPS, 0, frame, 44).number == 8, "another message");
    expect(capture_read(CAPTURE_MGL_CLOCK, 0, frame, 43).number == 7, "no whole frame");
    expect(capture_read(CAPTURE_MGL_CLOCK, 0, NULL, 0).number == 7, "no bytes");
    expect(capture_read(0, 0, frame, 44).number == 7, "no field function");
    expect(capture_write(1, 0, body, 13, frame, sizeof frame).number == 5, "a body of 13 bytes");
    expect(capture_write(9, 0, NULL, 0, NULL, 0).number == 5, "a frame of no format");

    memset(body, 0, sizeof body);
    body[6] = 250, body[10] = 100;
    w = capture_write(2, 0, body, 152, frame, sizeof frame);
    expect(w.number == 0 && w.length == 158, "an OnFlight frame");
    expect(capture_read(CAPTURE_ONFLIGHT_BOOT_TIME, 0, frame, 158).values[0] == 250, "time since boot");
    expect(capture_ratio(CAPTURE_ONFLIGHT_INPUT_VOLTAGE, frame, 158).value == 4.0, "input voltage");
    expect(capture_ratio(CAPTURE_ONFLIGHT_LOAD_FACTOR, NULL, 0).number == 7, "load factor of no bytes");
    v = capture_elapsed(frame, 158, frame, 158);
    expect(v.number == 0 && v.values[0] == 0, "elapsed");
    expect(capture_elapsed(NULL, 0, frame, 158).number == 7, "elapsed from no bytes");

    w = capture_write_setting('L', 3, 10132, frame, sizeof frame);
    expect(w.number == 0 && memcmp(frame, "$PLARS,L,QNH,1013.2*", 20) == 0, "a setting");
    v = capture_read(CAPTURE_PLARS_SETTING, 0, frame, w.length);
    expect(v.number == 0 && v.values[0] == 'L' && v.values[1] == 3 && v.values[2] == 10132, "the setting read");
    expect(capture_write_setting('L', 3, 10132, NULL, 0).number == 6, "no output");
    expect(capture_write_setting('X', 3, 10132, NULL, 0).number == 9, "no source");
}

static void numbers(void)
{
    const uint8_t toc[] = {1, 3, 2, 0, 0, 0, 0};
    const uint8_t longer[] = {1, 3, 2, 0, 0, 0, 0, 255};
    struct capture_values v;

    expect(capture_gyro(16953) == 34530 && capture_gyro(-32768) == -192680, "gyro numbers");
    v = capture_write_gyro(34530);
    expect(v.number == 0 && v.values[0] == 16953, "a gyro number written");
    expect(capture_write_gyro(34531).number == 9, "a rate that no gyro number gives");
    v = capture_entry(toc, sizeof toc, 7, 0);
    expect(v.number == 0 && v.values[0] == 1 && v.values[1] == 3 && v.values[2] == 2 && v.values[4] == 7, "an entry");
    expect(capture_entry(toc, sizeof toc, 8, 0).number == 10, "another length");
    expect(capture_entry(longer, sizeof longer, 7, 0).number == 0, "more bytes than the file has");
    expect(capture_entry(toc, sizeof toc, 7, 1).number == 9, "an entry past the last");
    expect(capture_entry(NULL, 0, 0, 0).number == 10, "a table of contents of no bytes");
}

int main(void)
{
    readers();
    lengths();
    frames();
    numbers();
    if (failures == 0)
        puts("smoke: all as expected");
    return failures != 0;
}

/* Log-like entries, as MessagePack and as text; entries.h says what each function does. */

#include "entries.h"

#include <stdio.h>
#include <stdlib.h>
#include <string.h>

static const char *const methods[] = {"GET", "POST", "PUT", "GET"};
static const char *const paths[] = {"/api/v1/orders/18823/items", "/index.html", "/static/js/app.3f2a.js", "/login"};
static const unsigned statuses[] = {200, 304, 201, 500};

/* A big-endian number of so many bytes, behind its head. */
static void add_number(struct bytes *out, unsigned char head, uint32_t number, int size) {
    bytes_add_byte(out, head);
    for (int shift = 8 * (size - 1); shift >= 0; shift -= 8)
        bytes_add_byte(out, (unsigned char)(number >> shift));
}

static void add_str(struct bytes *out, const char *text) {
    size_t len = strlen(text);
    if (len < 32)
        bytes_add_byte(out, (unsigned char)(0xa0 | len));
    else
        add_number(out, 0xd9, (uint32_t)len, 1);
    bytes_add(out, text, len);
}

static void add_uint(struct bytes *out, uint32_t number) {
    if (number < 128)
        bytes_add_byte(out, (unsigned char)number);
    else if (number < 65536)
        add_number(out, 0xcd, number, 2);
    else
        add_number(out, 0xce, number, 4);
}

static void add_text(struct bytes *out, const char *key, const char *value) {
    add_str(out, key);
    add_str(out, value);
}

static void add_count(struct bytes *out, const char *key, uint32_t value) {
    add_str(out, key);
    add_uint(out, value);
}

void add_entry(struct bytes *out, unsigned number) {
    char id[20];
    snprintf(id, sizeof id, "%016x", number * 2654435761u);
    bytes_add_byte(out, 0x92);
    add_number(out, 0xce, 1700000000u + number / 100, 4);
    bytes_add_byte(out, 0x89);
    add_text(out, "host", "web-17.example.org");
    add_text(out, "level", "info");
    add_text(out, "method", methods[number & 3]);
    add_text(out, "path", paths[number >> 2 & 3]);
    add_count(out, "status", statuses[number >> 4 & 3]);
    add_count(out, "bytes", number * 40503u % 100000u);
    add_text(out, "agent", "Mozilla/5.0 (X11; Linux x86_64) Chrome/120.0");
    add_text(out, "request_id", id);
    add_text(out, "message", "request served");
}

void add_message(struct bytes *out, unsigned number) {
    char text[400];
    int len = snprintf(text, sizeof text,
                       "<14>Nov 24 12:00:%02u web-17 app: level=info method=%s path=%s status=%u bytes=%u "
                       "agent=\"Mozilla/5.0 (X11; Linux x86_64) Chrome/120.0\" request_id=%016x "
                       "message=\"request served\"",
                       number / 100 % 60, methods[number & 3], paths[number >> 2 & 3], statuses[number >> 4 & 3],
                       number * 40503u % 100000u, number * 2654435761u);
    if (len < 0 || (size_t)len >= sizeof text)
        die("a message of %d bytes", len);
    bytes_add(out, text, (size_t)len);
}

/* What stands before the entries, which have so many bytes. */
static void add_front(struct bytes *out, enum mode mode, const char *tag, unsigned entries, size_t len) {
    bytes_add_byte(out, mode == MESSAGE ? 0x94 : 0x93);
    add_str(out, tag);
    if (mode == PACKED_FORWARD)
        add_number(out, 0xc6, (uint32_t)len, 4);
    else if (mode == FORWARD && entries < 16)
        bytes_add_byte(out, (unsigned char)(0x90 | entries));
    else if (mode == FORWARD)
        add_number(out, 0xdc, entries, 2);
}

/* The options: the size in PackedForward mode alone, where the entries need not be walked to know it. */
static void add_option(struct bytes *out, enum mode mode, unsigned entries) {
    static const char no_chunk[CHUNK_LEN];
    bytes_add_byte(out, mode == PACKED_FORWARD ? 0x82 : 0x81);
    if (mode == PACKED_FORWARD)
        add_count(out, "size", entries);
    add_str(out, "chunk");
    bytes_add_byte(out, 0xa0 | CHUNK_LEN);
    bytes_add(out, no_chunk, CHUNK_LEN);
}

size_t add_request(struct bytes *out, enum mode mode, const char *tag, unsigned entries, unsigned first) {
    struct bytes packed = {0};
    for (unsigned i = 0; i < entries; i++)
        add_entry(&packed, first + i);
    size_t len = packed.len, skipped = mode == MESSAGE; /* the head of the entry's array */
    add_front(out, mode, tag, entries, len);
    bytes_add(out, packed.at + skipped, len - skipped);
    add_option(out, mode, entries);
    free(packed.at);
    return len;
}

size_t event_len(const unsigned char *at, size_t len) {
    if (len < 6)
        return 0;
    if (at[0] != 0xce || (at[5] & 0xf0) != 0x80)
        die("an entry that generator.c does not send");
    size_t place = 5, values = 1;
    for (; values && place < len; values--) {
        unsigned char head = at[place++];
        if (head >= 0xa0 && head < 0xc0) /* a short str */
            place += head & 31u;
        else if (head >= 0x80 && head < 0x90) /* a short map */
            values += 2 * (head & 15u);
        else if (head >= 0xcc && head < 0xd4) /* an integer, behind its head */
            place += 1u << (head & 3);
        else if (head == 0xd9) /* a str of at most 255 bytes */
            place += 1u + (place < len ? at[place] : 0u);
        else if (head >= 0x80 && head < 0xe0) /* all others are small integers */
            die("an item that generator.c does not send");
    }
    return values || place > len ? 0 : place;
}

size_t entry_len(const unsigned char *at, size_t len) {
    if (!len)
        return 0;
    if (at[0] != 0x92)
        die("an entry that generator.c does not send");
    size_t event = event_len(at + 1, len - 1);
    return event ? 1 + event : 0;
}

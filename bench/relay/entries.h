/* Log-like entries, as MessagePack and as text. */

#ifndef ENTRIES_H
#define ENTRIES_H

#include "common.h"

/* Adds the entry of this number, about 200 bytes: an integer time and a record. */
void add_entry(struct bytes *out, unsigned number);

/* Adds a message of syslog of about the same length, without a line feed, that says the same. */
void add_message(struct bytes *out, unsigned number);

/* The modes of the Forward Protocol: the packed entries are one bin, or there is an array of entries, or the time and
 * the record of one entry. */
enum mode { PACKED_FORWARD, FORWARD, MESSAGE };

/* Adds a request with so many entries (one in Message mode), whose last CHUNK_LEN bytes are the chunk's, and says how
 * many bytes the entries have once they are packed. */
size_t add_request(struct bytes *out, enum mode mode, const char *tag, unsigned entries, unsigned first);

/* How many bytes the entry at the front has, walked item by item, or 0 where it is not whole. The program ends where
 * it is none that add_entry adds. */
size_t entry_len(const unsigned char *at, size_t len);

/* The same for the time and the record of an entry, without the array around them. */
size_t event_len(const unsigned char *at, size_t len);

#endif

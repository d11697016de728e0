/* The ring's commands, spelled as the guide spells them, as words to write down in a table: each command is its word
   and then its parameters. */
#ifndef RING_WORDS_H
#define RING_WORDS_H

#define DLSTART() 0xFFFFFF00
#define SWAP() 0xFFFFFF01
#define COLDSTART() 0xFFFFFF32
#define MEMSET(address, value, count) 0xFFFFFF1B, (address), (value), (count)
#define MEMZERO(address, count) 0xFFFFFF1C, (address), (count)
#define MEMCPY(target, source, count) 0xFFFFFF1D, (target), (source), (count)
#define APPEND(address, count) 0xFFFFFF1E, (address), (count)

/* The first words of those that have parameters. */
enum { MEMSET_BYTE = 0x1B, MEMZERO_BYTE = 0x1C, MEMCPY_BYTE = 0x1D, APPEND_BYTE = 0x1E };
#define FIRST_WORD(byte) (0xFFFFFF00 | (byte))

#endif

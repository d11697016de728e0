/* The rings whose runs are measured, and the host's words. */
#ifndef RINGS_H
#define RINGS_H

/* Has the ring of this name run so many times, each time from the same marks, by the library (ours) or by the second
   program of the tests (theirs):
     words    1023 words that go to RAM_DL
     small    448 commands: each kind but SWAP in turn, of 8 bytes where it has a count
     memset   four times MEMSET of 65536 bytes
     up       four times MEMCPY of 65520 bytes to 16 bytes further up
     down     four times MEMCPY of 65520 bytes to 16 bytes further down
     append   four times DLSTART and APPEND of 8192 bytes
   or, by the name of host, 1023 words of the host's written so many times. Prints how many things there are in one of
   them: words, commands or bytes. Gives the exit status, 2 where there is no such program or ring. */
int measure_ring(const char *program, const char *name, unsigned long times);

#endif

/* Writing over a file where it is, for one that cannot be replaced. What it held can be put back. */
#ifndef OVERWRITE_H
#define OVERWRITE_H

#include <stdbool.h>
#include <stddef.h>
#include <stdint.h>
#include <sys/types.h>

typedef struct {
    int descriptor;
    off_t old_size;
    uint8_t *old; /* what the new bytes take the place of */
    size_t old_length;
} overwriting;

/* Gets ready to write so many bytes over the file of this descriptor, which is open for reading and writing: keeps what
   they take the place of, and has the disk set room aside, without any change that can be seen. Returns false, with the
   reason in errno, if that fails. Call end_overwriting in either case. */
bool begin_overwriting(overwriting *w, int descriptor, size_t length);

/* Writes the bytes, as many as were announced. What lay behind them stays until cut_overwritten. Returns false, with
   the reason in errno, if that fails; some bytes may have been written then. */
bool overwrite(overwriting *w, const void *bytes, size_t length);

/* Ends the file after so many bytes, and has all of it written to the disk. */
bool cut_overwritten(const overwriting *w, size_t length);

/* Makes the file what it was. */
bool put_back(const overwriting *w);

/* Closes the file. */
void end_overwriting(overwriting *w);

/* Writes all bytes, however often that takes. */
bool write_all(int descriptor, const void *bytes, size_t length);

/* Has the file or folder written to the disk, where the file system can do that. */
bool sync_file(int descriptor);

#endif

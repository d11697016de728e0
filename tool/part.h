/* Parts: files beside a place, under names of their own, until they take it. A signal that ends the program removes
   them first. */
#ifndef PART_H
#define PART_H

#include <signal.h>
#include <stdbool.h>
#include <sys/types.h>

/* Stands before a signal handler. The emulator qemu 7.2 enters one with a stack that is not aligned as the compiler
   takes for granted. */
#ifdef __x86_64__
#define HANDLER __attribute__((force_align_arg_pointer))
#else
#define HANDLER
#endif

enum { MOST_PART_NAME = 32 };

/* Its folder must stay open as long as it exists. */
typedef struct {
    volatile sig_atomic_t exists;
    int folder;
    char name[MOST_PART_NAME];
} part;

/* Makes an empty file in this folder, under a name that no file has yet, and opens it for writing. Returns NULL, with
   the reason in errno, if that fails. */
part *make_part(int folder, mode_t mode, int *descriptor);

/* Gives a file of this folder a second name, as a part. Returns NULL, with the reason in errno, if that fails. */
part *link_part(int folder, const char *last);

/* Has the part take a name in its folder, in place of the file that has that name. Returns false, with the reason in
   errno, if that fails. Otherwise the file is no part any more, and *p is NULL. */
bool move_part(part **p, const char *last);

/* Leaves the file where it is. It is no part any more, and *p is NULL. */
void forget_part(part **p);

/* Removes the part, if *p is not NULL, and makes it NULL. */
void remove_part(part **p);

/* Removes all parts. May be called by a signal handler. */
void remove_parts(void);

/* From here on signals that end the program remove all parts first. Signals that the caller ignores stay ignored. */
void guard_parts(void);

/* Between these two calls those signals wait, SIGALRM among them. */
void hold_signals(sigset_t *before);
void release_signals(const sigset_t *before);

#endif

/* For openat and its kin, sigaction and the attributes of files. */
#define _GNU_SOURCE

#include "output.h"

#include <errno.h>
#include <fcntl.h>
#include <signal.h>
#include <stdio.h>
#include <string.h>
#include <sys/xattr.h>
#include <unistd.h>

#include "clock.h"
#include "file.h"
#include "message.h"
#include "overwrite.h"
#include "part.h"
#include "place.h"

typedef enum {
    AS_STREAM, /* a descriptor or a device, which has no old content to keep */
    IN_PLACE,  /* a file that cannot be replaced without a change of more than its content */
    BESIDE     /* a part, which takes the place */
} manner;

typedef struct {
    const output *output;
    place place;
    manner manner;
    int descriptor;    /* of a stream or a part */
    overwriting over;  /* in place */
    part *part, *kept; /* the new file, and the old one while it may have to be put back */
} target;

static const char *spoken(const target *t)
{
    return is_standard(t->output->name) ? "standard output" : t->output->name;
}

static bool complain_of(const target *t)
{
    return complain(spoken(t), "%s", strerror(errno));
}

/* ---- Opening ---- */

static bool open_stream(target *t)
{
    t->manner = AS_STREAM;
    if (t->place.descriptor >= 0)
        t->descriptor = fcntl(t->place.descriptor, F_DUPFD_CLOEXEC, STDERR_FILENO + 1);
    else
        t->descriptor =
            keep_above_standard(openat(t->place.folder, t->place.last, O_WRONLY | O_NOCTTY | O_CLOEXEC));
    return t->descriptor >= 0;
}

static bool open_in_place(target *t)
{
    int link = t->place.is_fixed ? 0 : O_NOFOLLOW;
    t->manner = IN_PLACE;
    int descriptor = keep_above_standard(openat(t->place.folder, t->place.last, O_RDWR | O_CLOEXEC | link));
    return descriptor >= 0 && begin_overwriting(&t->over, descriptor, t->output->length);
}

/* A list of permissions besides the mode. The mode alone would let in others than the list does. */
#define ACCESS_LIST "system.posix_acl_access"

static bool has_access_list(const place *p)
{
    char path[MOST_LAST_NAME + 64];
    snprintf(path, sizeof path, "/proc/self/fd/%d/%s", p->folder, p->last);
    return getxattr(path, ACCESS_LIST, NULL, 0) > 0;
}

static bool is_replaceable(const place *p)
{
    return !p->is_fixed && p->found.st_nlink == 1 && !has_access_list(p);
}

/* Gives the part the owner and the mode of the file whose place it is to take, and takes away the list of permissions
   that the folder may have given it, since the old file has none. */
static bool is_made_alike(int descriptor, const struct stat *old)
{
    struct stat new;
    fremovexattr(descriptor, ACCESS_LIST);
    if (fstat(descriptor, &new) != 0)
        return false;
    bool is_owned = new.st_uid == old->st_uid && new.st_gid == old->st_gid;
    bool has_mode = is_owned && new.st_mode == old->st_mode;
    return (is_owned || fchown(descriptor, old->st_uid, old->st_gid) == 0) &&
           (has_mode || fchmod(descriptor, old->st_mode & 07777) == 0);
}

static void drop_part(target *t)
{
    close(t->descriptor);
    t->descriptor = -1;
    remove_part(&t->part);
}

/* Whoever may not read the old file must not be able to open the part before it has the same mode. */
static bool open_beside(target *t)
{
    t->manner = BESIDE;
    t->part = make_part(t->place.folder, t->place.exists ? 0600 : 0666, &t->descriptor);
    if (t->part == NULL)
        return false;
    if (!t->place.exists || is_made_alike(t->descriptor, &t->place.found))
        return true;
    drop_part(t);
    return false;
}

/* A file can be replaced even if it may not be written, so that is asked first. */
static bool open_over(target *t)
{
    if (!may_be_written(&t->place))
        return false;
    return (is_replaceable(&t->place) && open_beside(t)) || open_in_place(t);
}

static bool find_output(target *t)
{
    if (!is_standard(t->output->name))
        return find_place(t->output->name, &t->place);
    t->place.descriptor = STDOUT_FILENO;
    return true;
}

static bool open_target(target *t, const output *o)
{
    *t = (target){ o, { .descriptor = -1, .folder = -1 }, BESIDE, -1, { .descriptor = -1 }, NULL, NULL };
    if (!find_output(t))
        return complain_of(t);
    bool is_stream = t->place.descriptor >= 0 || (t->place.exists && !S_ISREG(t->place.found.st_mode));
    bool is_open = is_stream ? open_stream(t) : t->place.exists ? open_over(t) : open_beside(t);
    return is_open || complain_of(t);
}

/* Removes what has not taken its place. */
static void close_target(target *t)
{
    if (t->descriptor >= 0)
        close(t->descriptor);
    end_overwriting(&t->over);
    remove_part(&t->part);
    leave_place(&t->place);
}

/* ---- Writing ---- */

static bool write_target(target *t)
{
    bool is_written = write_all(t->descriptor, t->output->bytes, t->output->length);
    return (is_written && (t->manner == AS_STREAM || sync_file(t->descriptor))) || complain_of(t);
}

static bool write_all_of(manner m, target *targets, size_t count)
{
    for (size_t n = 0; n < count; n++)
        if (targets[n].manner == m && !write_target(&targets[n]))
            return false;
    return true;
}

/* ---- Taking the places ---- */

static bool tell_loss(const target *t)
{
    return complain(spoken(t), "has already been overwritten, and its old content is lost");
}

static bool write_over(target *t)
{
    if (overwrite(&t->over, t->output->bytes, t->output->length))
        return true;
    complain_of(t);
    return put_back(&t->over) ? false : tell_loss(t);
}

/* A file that something is mounted on can only be written where it is. */
static bool write_over_mount(target *t)
{
    bool is_mount = errno == EBUSY && t->place.exists;
    return is_mount && open_in_place(t) ? write_over(t) : complain_of(t);
}

/* The old file is kept as long as another place is still to be taken. Some file systems have no links; there it cannot
   be kept. */
static bool replace(target *t, bool is_last)
{
    if (t->place.exists && !is_last)
        t->kept = link_part(t->place.folder, t->place.last);
    if (move_part(&t->part, t->place.last))
        return true;
    int reason = errno;
    remove_part(&t->kept);
    errno = reason;
    return write_over_mount(t);
}

static bool take_place(target *t, bool is_last)
{
    return t->manner == AS_STREAM || (t->manner == IN_PLACE ? write_over(t) : replace(t, is_last));
}

/* Puts the old file back into its place, or nothing where there was none. */
static bool restore(target *t)
{
    if (!t->place.exists)
        return unlinkat(t->place.folder, t->place.last, 0) == 0 || complain(spoken(t), "has already been written");
    if (t->kept == NULL)
        return tell_loss(t);
    if (move_part(&t->kept, t->place.last))
        return true;
    complain(spoken(t), "has already been replaced; its old content is in %s in the same folder", t->kept->name);
    forget_part(&t->kept);
    return false;
}

static void give_back_place(target *t)
{
    if (t->manner == AS_STREAM)
        complain(spoken(t), "has already been written");
    else if (t->manner == BESIDE)
        restore(t);
    else if (!put_back(&t->over))
        tell_loss(t);
}

/* What goes to streams has been written before any place is taken. */
static void give_back_places(target *targets, size_t count, size_t taken)
{
    for (size_t n = 0; n < count; n++)
        if (n < taken || targets[n].manner == AS_STREAM)
            give_back_place(&targets[n]);
}

/* A folder that may not be read cannot be synced. */
static bool is_folder_synced(const place *p)
{
    int folder = keep_above_standard(openat(p->folder, ".", O_RDONLY | O_DIRECTORY | O_CLOEXEC));
    bool is_synced = folder < 0 || sync_file(folder);
    int reason = errno;
    if (folder >= 0)
        close(folder);
    errno = reason;
    return is_synced;
}

static bool finish(target *t)
{
    remove_part(&t->kept);
    bool is_finished = t->manner == AS_STREAM || (t->manner == BESIDE && is_folder_synced(&t->place)) ||
                       (t->manner == IN_PLACE && cut_overwritten(&t->over, t->output->length));
    return is_finished || complain(spoken(t), "is written, but may not be on the disk yet: %s", strerror(errno));
}

static bool finish_all(target *targets, size_t count)
{
    bool are_finished = true;
    for (size_t n = 0; n < count; n++)
        are_finished = finish(&targets[n]) && are_finished;
    return are_finished;
}

static bool take_all(target *targets, size_t count)
{
    size_t taken = 0;
    while (taken < count && take_place(&targets[taken], taken + 1 == count))
        taken++;
    if (taken == count)
        return finish_all(targets, count);
    give_back_places(targets, count, taken);
    return false;
}

/* Nothing may end the program halfway. */
static bool take_places(target *targets, size_t count)
{
    sigset_t before;
    hold_signals(&before);
    stop_clock();
    bool are_taken = take_all(targets, count);
    release_signals(&before);
    return are_taken;
}

/* ---- The whole ---- */

static bool write_targets(target *targets, size_t count)
{
    return write_all_of(BESIDE, targets, count) && write_all_of(AS_STREAM, targets, count) &&
           take_places(targets, count);
}

bool write_outputs(const output *outputs, size_t count)
{
    target targets[MOST_OUTPUTS];
    size_t opened = 0;
    bool are_open = true;
    signal(SIGXFSZ, SIG_IGN);
    guard_parts();
    while (are_open && opened < count) {
        are_open = open_target(&targets[opened], &outputs[opened]);
        opened++;
    }
    bool are_written = are_open && write_targets(targets, count);
    for (size_t n = 0; n < opened; n++)
        close_target(&targets[n]);
    return are_written;
}

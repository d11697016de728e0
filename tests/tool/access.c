/* Lists of permissions besides the mode, where the file system has them:

     access give FOLDER     has new files of the folder let in someone else too
     access set FILE        has the file do so
     access has FILE        says whether the file has such a list, by 0, or not, by 1

   The exit status is 2 where there can be none. */
#include <stdint.h>
#include <string.h>
#include <sys/xattr.h>

enum { OWNER = 1, USER = 2, GROUP = 4, MASK = 0x10, OTHERS = 0x20, SOMEONE = 65534, NOBODY = -1 };

typedef struct {
    uint16_t tag, permissions;
    uint32_t id;
} entry;

static const struct {
    uint32_t version;
    entry entries[5];
} list = { 2,
           { { OWNER, 7, (uint32_t)NOBODY },
             { USER, 7, SOMEONE },
             { GROUP, 5, (uint32_t)NOBODY },
             { MASK, 7, (uint32_t)NOBODY },
             { OTHERS, 0, (uint32_t)NOBODY } } };

static int set(const char *name, const char *attribute)
{
    return setxattr(name, attribute, &list, sizeof list, 0) == 0 ? 0 : 2;
}

int main(int count, char **arguments)
{
    if (count != 3)
        return 2;
    if (strcmp(arguments[1], "give") == 0)
        return set(arguments[2], "system.posix_acl_default");
    if (strcmp(arguments[1], "set") == 0)
        return set(arguments[2], "system.posix_acl_access");
    return getxattr(arguments[2], "system.posix_acl_access", NULL, 0) > 0 ? 0 : 1;
}

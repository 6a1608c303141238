/* What the system's calls of our tools cost with nothing else: each entry and each file is asked by its whole path, as ours are.
 *
 * usage: cc -O2 -o floor floor.c
 *        floor walk [-c] TREE
 *        floor compare [-n|-o|-c|-noc] TREE COPY
 *        floor copy [-n|-o|-c|-noc] TREE TARGET
 *        floor remove [-c] TREE
 *        floor order PATHS
 *
 * A walk asks one statx an entry, for a link readlink, and for a directory open, getdents64 and close. A comparison walks both trees,
 * which are to be equal, and asks for each file that is not empty, on each side, statx, open, statx of the open file, pread and close. A
 * copy makes each directory and each link, and asks for each file statx, open, statx of the open file, preads and close, and open,
 * pwrites and close. A removal walks, and removes from the last path to the first. With -n there is no statx before a file is opened, with -o none of the open file,
 * and with -no neither. With -c the directory of each entry becomes the working directory, and the entry is asked by its last name; of two files
 * that are compared or copied only the second one is. The last one asks what a walk asks, in the order in which the paths stand in a file, one a line:
 * `mfu dwalk --trace` tells in which order ranks handled them. It prints how many entries there are.
 */
#define _GNU_SOURCE
#include <dirent.h>
#include <fcntl.h>
#include <stdio.h>
#include <stdlib.h>
#include <string.h>
#include <sys/stat.h>
#include <sys/syscall.h>
#include <unistd.h>

struct entry {
    char *path;
    mode_t mode;
    long size;
    char *text;
};

struct list {
    struct entry *entries;
    size_t len, room;
};

static char names[32768], one[65536], other[65536];
static int looks = 1, looks_again = 1, moves = 0;

/* The path as the system is asked for it: whole, or its last name in the working directory, which becomes the one of the path. */
static const char *way(const char *path) {
    static char here[8192];
    const char *slash = strrchr(path, '/');
    size_t len = slash - path;
    if (!moves || !len || len >= sizeof here) return path;
    if (strncmp(here, path, len) || here[len]) {
        memcpy(here, path, len);
        here[len] = 0;
        if (chdir(here)) perror(here);
    }
    return slash + 1;
}

static void *grown(void *old, size_t bytes) {
    void *room = realloc(old, bytes);
    if (!room) exit(3);
    return room;
}

static void look(const char *path, struct statx *told) {
    if (statx(AT_FDCWD, path, AT_SYMLINK_NOFOLLOW, STATX_BASIC_STATS, told)) perror(path);
}

static int by_name(const void *a, const void *b) { return strcmp(*(char **)a, *(char **)b); }

static char *below(const char *path, const char *name) {
    size_t len = strlen(path);
    char *child = grown(NULL, len + strlen(name) + 2);
    sprintf(child, "%s/%s", path, name);
    return child;
}

/* The paths of the children of a directory, in the order of their names. */
static size_t children(const char *path, char ***paths) {
    size_t count = 0, room = 0;
    int folder = open(path, O_RDONLY | O_DIRECTORY | O_CLOEXEC);
    for (long n; (n = syscall(SYS_getdents64, folder, names, sizeof names)) > 0;) {
        for (long at = 0; at < n;) {
            struct dirent64 *found = (struct dirent64 *)(names + at);
            at += found->d_reclen;
            if (!strcmp(found->d_name, ".") || !strcmp(found->d_name, "..")) continue;
            if (count == room) *paths = grown(*paths, (room = room ? 2 * room : 64) * sizeof **paths);
            (*paths)[count++] = below(path, found->d_name);
        }
    }
    close(folder);
    if (count) qsort(*paths, count, sizeof **paths, by_name);
    return count;
}

/* The text of a link. */
static char *text_of(const char *path) {
    ssize_t len = readlink(path, one, sizeof one - 1);
    one[len < 0 ? 0 : len] = 0;
    return strcpy(grown(NULL, strlen(one) + 1), one);
}

static void walk(struct list *list, char *path) {
    struct statx told;
    look(way(path), &told);
    if (list->len == list->room) {
        list->room = list->room ? 2 * list->room : 1024;
        list->entries = grown(list->entries, list->room * sizeof *list->entries);
    }
    char *text = S_ISLNK(told.stx_mode) ? text_of(way(path)) : NULL;
    list->entries[list->len++] = (struct entry){path, told.stx_mode, told.stx_size, text};
    if (!S_ISDIR(told.stx_mode)) return;
    char **paths = NULL;
    size_t count = children(path, &paths);
    for (size_t k = 0; k < count; k++) walk(list, paths[k]);
    free(paths);
}

static int opened(const char *path) {
    struct statx told;
    if (looks) look(path, &told);
    int file = open(path, O_RDONLY | O_CLOEXEC);
    if (looks_again && statx(file, "", AT_EMPTY_PATH, STATX_BASIC_STATS, &told)) perror(path);
    return file;
}

static int same_bytes(const char *here, const char *there) {
    int in = opened(here), to = opened(way(there)), same = 1;
    long n = sizeof one, m;
    for (long at = 0; same && n == sizeof one; at += n) {
        n = pread(in, one, sizeof one, at);
        m = pread(to, other, sizeof other, at);
        same = n == m && n >= 0 && !memcmp(one, other, n);
    }
    close(in);
    close(to);
    return same;
}

static int compare(const struct list *here, const struct list *there) {
    if (here->len != there->len) return 1;
    for (size_t k = 0; k < here->len; k++) {
        const struct entry *entry = &here->entries[k];
        if (S_ISREG(entry->mode) && entry->size > 0 && !same_bytes(entry->path, there->entries[k].path)) return 1;
    }
    return 0;
}

static void copy_file(const char *from, const char *to, long left) {
    int in = opened(from), out = open(way(to), O_WRONLY | O_CREAT | O_EXCL | O_CLOEXEC, 0666);
    for (long at = 0, n; left > 0 && (n = pread(in, one, left < (long)sizeof one ? left : (long)sizeof one, at)) > 0; left -= n, at += n)
        if (pwrite(out, one, n, at) != n) perror(to);
    close(in);
    close(out);
}

static void copy(const struct list *list, size_t top, const char *target) {
    char to[8192];
    for (size_t k = 0; k < list->len; k++) {
        const struct entry *entry = &list->entries[k];
        snprintf(to, sizeof to, "%s%s", target, entry->path + top);
        if (S_ISDIR(entry->mode)) mkdir(to, 0777);
        if (entry->text && symlink(entry->text, to)) perror(to);
        if (S_ISREG(entry->mode)) copy_file(entry->path, to, entry->size);
    }
}

static void remove_all(const struct list *list) {
    for (size_t k = list->len; k-- > 0;) {
        const struct entry *entry = &list->entries[k];
        if (S_ISDIR(entry->mode) ? rmdir(way(entry->path)) : unlink(way(entry->path))) perror(entry->path);
    }
}

static size_t in_order(const char *name) {
    FILE *file = fopen(name, "r");
    if (!file) exit(2);
    char path[8192];
    size_t count = 0;
    for (struct statx told; fgets(path, sizeof path, file); count++) {
        path[strcspn(path, "\n")] = 0;
        look(path, &told);
        if (!S_ISDIR(told.stx_mode)) continue;
        char **paths = NULL;
        for (size_t left = children(path, &paths); left > 0; left--) free(paths[left - 1]);
        free(paths);
    }
    fclose(file);
    return count;
}

int main(int count, char **words) {
    struct list here = {0}, there = {0};
    int at = 2;
    if (count > 2 && words[2][0] == '-') looks = !strchr(words[2], 'n'), looks_again = !strchr(words[2], 'o'), moves = !!strchr(words[2], 'c'), at = 3;
    if (count == 3 && !strcmp(words[1], "order")) return printf("%zu\n", in_order(words[2])), 0;
    int paired = count > 1 && (!strcmp(words[1], "compare") || !strcmp(words[1], "copy"));
    if (count != at + 1 + paired) return fputs("usage: floor walk|compare|copy|remove [-n|-o|-c|-noc] TREE [OTHER], or floor order PATHS\n", stderr), 2;
    walk(&here, words[at]);
    if (!strcmp(words[1], "compare")) {
        walk(&there, words[at + 1]);
        if (compare(&here, &there)) return fputs("the trees differ\n", stderr), 1;
    } else if (!strcmp(words[1], "copy")) {
        copy(&here, strlen(words[at]), words[at + 1]);
    } else if (!strcmp(words[1], "remove")) {
        remove_all(&here);
    }
    printf("%zu\n", here.len);
    return 0;
}

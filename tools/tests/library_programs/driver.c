/* Plays pcscd for the reader driver: driver LIBRARY FOLDER. The last line is "driver: N passed, M failed". */
#include <debuglog.h>
#include <dirent.h>
#include <dlfcn.h>
#include <fcntl.h>
#include <ifdhandler.h>
#include <reader.h>
#include <signal.h>
#include <stdarg.h>
#include <stdbool.h>
#include <stdio.h>
#include <stdlib.h>
#include <string.h>
#include <sys/resource.h>
#include <sys/stat.h>
#include <sys/syscall.h>
#include <sys/sysmacros.h>
#include <time.h>
#include <unistd.h>

enum { PATH_ROOM = 4096, CARD_SIZE = 65536 };

static int passed, failed;
static char told[4096]; /* what the driver said to the log since the last look */

/* The log of pcscd. */
void log_msg(const int priority, const char *form, ...)
{
    size_t at = strlen(told);
    va_list given;

    (void)priority;
    va_start(given, form);
    vsnprintf(told + at, sizeof told - at, form, given);
    va_end(given);
}

static void same(long came, long wanted, const char *what)
{
    if (came == wanted) {
        passed++;
    } else {
        failed++;
        printf("FAIL %s: %ld, wanted %ld\n", what, came, wanted);
    }
}

/* The driver's clock: it stands still until the test sets it forward. */
static time_t clock_now = 1000;

int clock_gettime(clockid_t clock, struct timespec *now)
{
    (void)clock;
    *now = (struct timespec){clock_now, 0};
    return 0;
}

/* The driver's link: another program may be a moment faster. */
static bool is_raced;

int link(const char *from, const char *to)
{
    int file = is_raced ? open(to, O_WRONLY | O_CREAT | O_EXCL, 0600) : -1;

    if (file >= 0 && (write(file, "precious", 8) != 8 || close(file) != 0))
        exit(1);
    return (int)syscall(SYS_linkat, AT_FDCWD, from, AT_FDCWD, to, 0);
}

/* The folders that the driver brought to the disk, and the files at a number of a standard stream. */
static int synced_folders, synced_streams;

int fsync(int file)
{
    struct stat it;

    synced_folders += fstat(file, &it) == 0 && S_ISDIR(it.st_mode);
    synced_streams += S_ISREG(it.st_mode) && file <= STDERR_FILENO;
    return (int)syscall(SYS_fsync, file);
}

/* The driver's write: the disk may take a part of it. */
static bool takes_a_part;

ssize_t pwrite(int file, const void *bytes, size_t size, off_t offset)
{
    return syscall(SYS_pwrite64, file, bytes, takes_a_part ? size / 2 : size, offset);
}

/* The driver said this, in words, and nothing that says nothing. */
static void says(const char *what)
{
    bool is_said = what[0] == 0 ? told[0] == 0 : strstr(told, what) != NULL;

    same(is_said && strstr(told, "Success") == NULL && strstr(told, "Bad file descriptor") == NULL, 1, what);
    if (!is_said)
        printf("it said: %s\n", told);
    told[0] = 0;
}

static RESPONSECODE (*create)(DWORD, LPSTR);
static RESPONSECODE (*end)(DWORD);
static RESPONSECODE (*power)(DWORD, DWORD, PUCHAR, PDWORD);
static RESPONSECODE (*transmit)(DWORD, SCARD_IO_HEADER, PUCHAR, DWORD, PUCHAR, PDWORD, PSCARD_IO_HEADER);
static RESPONSECODE (*presence)(DWORD);
static RESPONSECODE (*control)(DWORD, DWORD, PUCHAR, DWORD, PUCHAR, DWORD, LPDWORD);
static RESPONSECODE (*capabilities)(DWORD, DWORD, PDWORD, PUCHAR);

/* (POSIX lets a function's address be in an object pointer) */
static void find(void *library, const char *name, void *function)
{
    void *found = dlsym(library, name);

    if (found == NULL) {
        fprintf(stderr, "driver: %s\n", dlerror());
        exit(1);
    }
    memcpy(function, &found, sizeof found);
}

static void load(const char *path)
{
    void *library = dlopen(path, RTLD_NOW | RTLD_LOCAL);

    if (library == NULL) {
        fprintf(stderr, "driver: %s\n", dlerror());
        exit(1);
    }
    find(library, "IFDHCreateChannelByName", &create);
    find(library, "IFDHCloseChannel", &end);
    find(library, "IFDHPowerICC", &power);
    find(library, "IFDHTransmitToICC", &transmit);
    find(library, "IFDHICCPresence", &presence);
    find(library, "IFDHControl", &control);
    find(library, "IFDHGetCapabilities", &capabilities);
}

static size_t bytes_of(const char *hex, UCHAR *bytes)
{
    size_t size = 0;

    for (unsigned byte; sscanf(hex + 2 * size, "%2x", &byte) == 1; size++)
        bytes[size] = (UCHAR)byte;
    return size;
}

/* A command, the code that it has, and the answer where that is success. */
static void ask(DWORD lun, const char *command, RESPONSECODE wanted, const char *answer)
{
    UCHAR sent[600], got[600], expected[600];
    DWORD size = sizeof got;
    SCARD_IO_HEADER header = {1, 0}, received;
    DWORD count = bytes_of(command, sent);

    same(transmit(lun, header, sent, count, got, &size, &received), wanted, command);
    same((long)size, (long)bytes_of(answer, expected), "the size of the answer");
    same(memcmp(got, expected, size), 0, "the answer");
}

static void start(DWORD lun, RESPONSECODE wanted)
{
    UCHAR atr[33];
    DWORD size = sizeof atr;

    same(power(lun, IFD_POWER_UP, atr, &size), wanted, "power");
    same((long)size, wanted == IFD_SUCCESS ? 7 : 0, "the size of the answer to reset");
    same(size == 7 && memcmp(atr, "\x3B\x80\x81\x31\xFE\x45\x8B", 7) != 0, 0, "the answer to reset");
}

static void arm(DWORD lun, DWORD code, const char *data, RESPONSECODE wanted)
{
    UCHAR sent[16] = {0};
    DWORD returned = 99;

    same(control(lun, SCARD_CTL_CODE(code), sent, bytes_of(data, sent), NULL, 0, &returned), wanted, "control");
    same((long)returned, 0, "what control returns");
}

/* What a program of the test needs from the system. */
static void must(bool is_done, const char *what)
{
    if (!is_done) {
        perror(what);
        exit(1);
    }
}

static char *path_of(const char *folder, const char *name)
{
    char *path = malloc(strlen(folder) + strlen(name) + 2);

    sprintf(path, "%s/%s", folder, name);
    return path;
}

/* A file of so many bytes of 0. */
static char *file_of(const char *folder, const char *name, long size)
{
    char *path = path_of(folder, name);
    FILE *file = fopen(path, "wb");

    must(file != NULL && ftruncate(fileno(file), size) == 0 && fclose(file) == 0, path);
    return path;
}

/* The files in a folder. */
static int files_in(const char *folder)
{
    DIR *open = opendir(folder);
    int count = -2; /* (the folder, and the one above) */

    while (open != NULL && readdir(open) != NULL)
        count++;
    closedir(open);
    return count;
}

/* Copies a file over another one, as cp does. */
static void copy(const char *from, const char *to)
{
    static char bytes[CARD_SIZE];
    int source = open(from, O_RDONLY), target = open(to, O_WRONLY | O_CREAT | O_TRUNC, 0600);

    must(source >= 0 && target >= 0 && read(source, bytes, sizeof bytes) == sizeof bytes, from);
    must(write(target, bytes, sizeof bytes) == sizeof bytes && close(source) == 0 && close(target) == 0, to);
}

/* A card that lost power is out for two seconds. */
static void wait_for_card(DWORD lun)
{
    clock_now++;
    same(presence(lun), IFD_ICC_NOT_PRESENT, "the card is out for more than a second");
    clock_now++;
    same(presence(lun), IFD_ICC_PRESENT, "the card comes back");
}

/* An update that is cut, over a card that is kept. */
static void torn_session(char *path)
{
    start(0, IFD_SUCCESS);
    ask(0, "00A4000C022FE2", IFD_SUCCESS, "9000");
    ask(0, "002000010831323334FFFFFFFF", IFD_SUCCESS, "9000");
    ask(0, "00D600000411223344", IFD_SUCCESS, "9000");
    arm(0, 1, "000000030001", IFD_SUCCESS); /* (the update's first write is the third one) */
    ask(0, "00D6000004AABBCCDD", IFD_ICC_NOT_PRESENT, "");
    same(presence(0), IFD_ICC_NOT_PRESENT, "a card that lost power is out");
    wait_for_card(0);
    start(0, IFD_SUCCESS);
    ask(0, "00A4000C022FE2", IFD_SUCCESS, "9000");
    ask(0, "00B0000004", IFD_SUCCESS, "112233449000");
    same(end(0), IFD_SUCCESS, "the reader ends");
    same(create(0, path), IFD_SUCCESS, "the reader begins again");
    start(0, IFD_SUCCESS);
    ask(0, "00A4000C022FE2", IFD_SUCCESS, "9000");
    ask(0, "00B0000004", IFD_SUCCESS, "112233449000");
}

static void faults_of_the_line(void)
{
    arm(0, 2, "00000001", IFD_SUCCESS);
    arm(0, 3, "00000002", IFD_SUCCESS);
    ask(0, "00B0000004", IFD_SUCCESS, "112233449000");
    arm(0, 1, "000000000001", IFD_ERROR_NOT_SUPPORTED);
    arm(0, 1, "0000000300", IFD_ERROR_NOT_SUPPORTED);
    arm(0, 2, "00000000", IFD_ERROR_NOT_SUPPORTED);
    arm(0, 9, "00000001", IFD_ERROR_NOT_SUPPORTED);
    arm(0, 3400, "", IFD_SUCCESS);
}

/* A client takes back what it or another one set. */
static void cleared_faults(void)
{
    ask(0, "00B0000004", IFD_SUCCESS, "112233449000");
    arm(0, 4, "", IFD_SUCCESS);
    ask(0, "00B0000004", IFD_SUCCESS, "112233449000");
    arm(0, 1, "000000010000", IFD_SUCCESS);
    arm(0, 4, "00", IFD_ERROR_NOT_SUPPORTED);
    arm(0, 4, "", IFD_SUCCESS);
    same(presence(0), IFD_ICC_NOT_PRESENT, "a card whose faults are cleared is out");
    wait_for_card(0);
    start(0, IFD_SUCCESS);
    ask(0, "002000010831323334FFFFFFFF", IFD_SUCCESS, "9000");
    ask(0, "00A4000C022FE2", IFD_SUCCESS, "9000");
}

/* A charge of which no word is new: no try is gone. */
static void empty_cut(void)
{
    arm(0, 1, "000000010000", IFD_SUCCESS);
    ask(0, "002000010839323334FFFFFFFF", IFD_ICC_NOT_PRESENT, "");
    wait_for_card(0);
    start(0, IFD_SUCCESS);
    ask(0, "00200001", IFD_SUCCESS, "63C3");
}

static void sizes(void)
{
    UCHAR sent[600] = {0}, got[300];
    DWORD size = 257;
    SCARD_IO_HEADER header = {1, 0};

    same(transmit(0, header, sent, 5, got, &size, NULL), IFD_ERROR_INSUFFICIENT_BUFFER, "a small buffer");
    size = sizeof got;
    same(transmit(0, header, sent, 262, got, &size, NULL), IFD_SUCCESS, "a long command");
    same(size == 2 && got[0] == 0x67 && got[1] == 0, 1, "a long command has the wrong length");
    size = sizeof got;
    same(transmit(0, header, sent, 0, got, &size, NULL), IFD_COMMUNICATION_ERROR, "no command");
    ask(0, "00A4", IFD_SUCCESS, "6700");
    size = 1;
    same(capabilities(0, TAG_IFD_SIMULTANEOUS_ACCESS, &size, got), IFD_SUCCESS, "the number of readers");
    same(got[0], 4, "the number of readers");
    same(presence(7), IFD_NO_SUCH_DEVICE, "another reader");
}

/* A card that is taken out stays out. */
static void is_out(DWORD lun, const char *why)
{
    ask(lun, "002000010831323334FFFFFFFF", IFD_COMMUNICATION_ERROR, "");
    says(why);
    same(presence(lun), IFD_ICC_NOT_PRESENT, why);
    ask(lun, "00B0820004", IFD_COMMUNICATION_ERROR, "");
    start(lun, IFD_ERROR_POWER_ACTION);
    same(presence(lun), IFD_ICC_NOT_PRESENT, why);
    says("");
}

/* A reader with a new card. */
static void begin(DWORD lun, char *path)
{
    told[0] = 0;
    same(create(lun, path), IFD_SUCCESS, "a further reader");
    says("a new card is made, with the factory card's PINs");
    start(lun, IFD_SUCCESS);
}

/* A file that doesn't take the writes of VERIFY: the client gets no answer, and the card stays out. */
static void full_file(DWORD lun)
{
    struct rlimit all, none = {0, 0};

    getrlimit(RLIMIT_FSIZE, &all);
    none.rlim_max = all.rlim_max;
    setrlimit(RLIMIT_FSIZE, &none);
    is_out(lun, "File too large");
    setrlimit(RLIMIT_FSIZE, &all);
}

/* A folder without room for a new card: no part of it is left. */
static void full_folder(const char *folder)
{
    struct rlimit all, few = {1000, 0};
    int before = files_in(folder);

    getrlimit(RLIMIT_FSIZE, &all);
    few.rlim_max = all.rlim_max;
    setrlimit(RLIMIT_FSIZE, &few);
    same(create(1, path_of(folder, "half")), IFD_COMMUNICATION_ERROR, "no room for a new card");
    setrlimit(RLIMIT_FSIZE, &all);
    says("File too large");
    same(files_in(folder), before, "a part of a card is left");
}

/* A file that is at a new card's path meanwhile stays, and so does one beside it. */
static void precious_files(const char *folder)
{
    char *path = path_of(folder, "raced"), *beside = path_of(folder, "raced.new");
    struct stat there;
    int before = files_in(folder);

    must(close(open(beside, O_WRONLY | O_CREAT, 0640)) == 0, beside);
    is_raced = true;
    same(create(1, path), IFD_COMMUNICATION_ERROR, "a file that is there meanwhile");
    is_raced = false;
    says("File exists");
    must(stat(path, &there) == 0, path);
    same(there.st_size, 8, "a file that is there meanwhile stays");
    must(unlink(path) == 0, path);
    same(create(1, path), IFD_SUCCESS, "a file beside a new card");
    says("a new card is made");
    same(end(1), IFD_SUCCESS, "the reader ends");
    must(stat(beside, &there) == 0, beside);
    same(there.st_size == 0 && there.st_mode == (S_IFREG | 0640), 1, "a file beside a new card stays");
    same(files_in(folder), before + 2, "files beside a new card");
}

/* Whether the descriptor of a card's file is one that syncs each write. */
static bool has_sync(const char *path)
{
    char name[64], target[PATH_ROOM];

    for (int file = 3; file < 64; file++) {
        snprintf(name, sizeof name, "/proc/self/fd/%d", file);
        ssize_t size = readlink(name, target, sizeof target - 1);
        if (size > 0 && (target[size] = 0, strcmp(target, path) == 0))
            return (fcntl(file, F_GETFL) & O_DSYNC) != 0;
    }
    must(false, "the card's file is not open");
    return false;
}

/* Files that are gone, cut short, overwritten or replaced while readers use them: the clients get no answer. */
static void lost_files(const char *folder, char *names[])
{
    char *other = path_of(folder, "other"), *link_to = path_of(folder, "link_to");
    struct stat before;

    copy(names[0], other);
    must(unlink(names[1]) == 0, "unlink");
    is_out(1, "the file is gone");
    must(stat(names[2], &before) == 0 && truncate(names[2], 0) == 0, "truncate");
    must(utimensat(AT_FDCWD, names[2], (struct timespec[]){before.st_atim, before.st_mtim}, 0) == 0, "utimensat");
    is_out(2, "another program wrote the file");
    same(end(1), IFD_SUCCESS, "the reader ends");
    same(end(2), IFD_SUCCESS, "the reader ends");
    must(unlink(names[2]) == 0, "unlink");
    begin(1, names[1]);
    begin(2, names[2]);
    usleep(20000); /* (a clock's tick of the file system) */
    copy(other, names[1]);
    is_out(1, "another program wrote the file");
    must(link(names[2], link_to) == 0 && rename(other, names[2]) == 0, "rename");
    is_out(2, "another file is in its place");
}

/* Files that are no card's: each stays as it is, and the log says why. */
static void other_files(const char *folder)
{
    struct stat before, after;
    char *pipe = path_of(folder, "pipe"), *symlink_to = path_of(folder, "symlink"), *target = path_of(folder, "target");
    char *null = path_of(folder, "null"), *null_sync = path_of(folder, "null:sync");

    must(mkfifo(pipe, 0600) == 0 && symlink(target, symlink_to) == 0, "files");
    /* (a node of its own: a driver that replaces it does no harm. Without root's rights another FIFO stands for it.) */
    must(mknod(null, S_IFCHR | 0600, makedev(1, 3)) == 0 || mkfifo(null, 0600) == 0, "a device");
    must(stat(null, &before) == 0, null);
    char *none[] = {null, null_sync, pipe, symlink_to, (char *)folder};
    for (size_t i = 0; i < sizeof none / sizeof *none; i++) {
        same(create(1, none[i]), IFD_COMMUNICATION_ERROR, none[i]);
        says(i < 4 ? "it is no regular file (DEVICENAME names the file of a card)" : "soffitfennel");
    }
    must(stat(null, &after) == 0 && access(target, F_OK) != 0, "a file was made or replaced");
    same(after.st_mode == before.st_mode && after.st_ino == before.st_ino, 1, "a device is replaced");
    same(create(1, file_of(folder, "empty", 0)), IFD_COMMUNICATION_ERROR, "a file that is empty");
    says("it is empty");
    same(create(1, file_of(folder, "short", 65535)), IFD_COMMUNICATION_ERROR, "a file that is short");
    says("its size is no memory's");
    same(create(1, file_of(folder, "blank", 65536)), IFD_COMMUNICATION_ERROR, "a file without a card");
    says("its words are no card's");
    same(create(1, path_of(folder, "none/card")), IFD_COMMUNICATION_ERROR, "a folder that is not there");
    says("No such file or directory");
}

/* A folder that others may write is refused, and so is one below it. */
static void open_folders(const char *folder)
{
    char *open = path_of(folder, "open"), *below = path_of(open, "below");
    mode_t modes[] = {0707, 0770, 01777};

    must(mkdir(open, 0700) == 0 && mkdir(below, 0700) == 0, "mkdir");
    for (size_t i = 0; i < sizeof modes / sizeof *modes; i++) {
        must(chmod(open, modes[i]) == 0, "chmod");
        same(create(1, path_of(open, "card")), IFD_COMMUNICATION_ERROR, "an open folder");
        says("other users may write this folder");
        same(files_in(open), 1, "a file in an open folder");
        /* (in a folder with the sticky bit nobody moves what isn't his) */
        bool is_sticky = (modes[i] & S_ISVTX) != 0;
        same(create(1, path_of(below, "card")), is_sticky ? IFD_SUCCESS : IFD_COMMUNICATION_ERROR, "a folder below");
        says(is_sticky ? "a new card is made" : "other users may write this folder");
        if (is_sticky)
            same(end(1), IFD_SUCCESS, "the reader ends");
    }
}

/* The code of a reader that begins while the standard streams are closed, and how many of them are open then. */
static RESPONSECODE begin_without_streams(DWORD lun, char *path, int *open_streams)
{
    int above[STDERR_FILENO + 1];

    for (int it = 0; it <= STDERR_FILENO; it++)
        must((above[it] = fcntl(it, F_DUPFD_CLOEXEC, STDERR_FILENO + 1)) >= 0 && close(it) == 0, "a stream");
    RESPONSECODE code = create(lun, path);
    *open_streams = 0;
    for (int it = 0; it <= STDERR_FILENO; it++)
        *open_streams += fcntl(it, F_GETFD) >= 0;
    for (int it = 0; it <= STDERR_FILENO; it++)
        must(dup2(above[it], it) == it && close(above[it]) == 0, "a stream");
    return code;
}

/* What the service prints goes into no card, new or old, that gets the number of a closed stream. */
static void closed_streams(const char *folder)
{
    char *path = path_of(folder, "streams");
    int open_streams;

    for (int is_there = 0; is_there < 2; is_there++) {
        same(begin_without_streams(1, path, &open_streams), IFD_SUCCESS, "a reader without standard streams");
        says(is_there ? "" : "a new card is made");
        same(open_streams, 0, "a card in place of a standard stream");
        if (open_streams != 0) /* (the reader's end would close a stream of this program) */
            exit(1);
        same(synced_streams, 0, "a new card in place of a standard stream");
        start(1, IFD_SUCCESS);
        same(end(1), IFD_SUCCESS, "the reader ends");
    }
}

static void readers(const char *folder, char *path)
{
    char *names[] = {path, path_of(folder, "card1"), path_of(folder, "card2"), path_of(folder, "card3")};
    struct stat made;

    same(create(1, path), IFD_COMMUNICATION_ERROR, "a file of two readers");
    says("another program uses it");
    other_files(folder);
    full_folder(folder);
    open_folders(folder);
    precious_files(folder);
    closed_streams(folder);
    for (DWORD lun = 1; lun < 4; lun++)
        begin(lun, names[lun]);
    same(has_sync(names[0]), true, "a card whose name says so has each write on the disk");
    same(has_sync(names[1]), false, "a card whose name doesn't say so");
    must(stat(names[1], &made) == 0, names[1]);
    same(made.st_mode, S_IFREG | 0600, "the mode of a new card");
    same(create(4, path_of(folder, "card4")), IFD_COMMUNICATION_ERROR, "a fifth reader");
    says("there is no room for a fifth reader");
    arm(2, 1, "000000010001", IFD_ERROR_NOT_SUPPORTED); /* (without :faults) */
    ask(2, "00A4000C022FE2", IFD_SUCCESS, "9000");
    ask(2, "00B0000004", IFD_SUCCESS, "981032549000");
    lost_files(folder, names);
    full_file(3);
    for (DWORD lun = 0; lun < 4; lun++)
        same(end(lun), IFD_SUCCESS, "the reader ends");
    same(create(3, names[3]), IFD_SUCCESS, "a file that failed has a card");
    says("");
    start(3, IFD_SUCCESS);
    takes_a_part = true;
    is_out(3, "the file took a part of a write");
    takes_a_part = false;
    same(end(3), IFD_SUCCESS, "the reader ends");
}

int main(int argc, char **argv)
{
    if (argc != 3)
        return 2;
    load(argv[1]);
    char *path = path_of(argv[2], "card"), *options = path_of(argv[2], "card:sync:faults");
    same(create(0, options), IFD_SUCCESS, "the reader begins");
    says("a new card is made, with the factory card's PINs");
    same(files_in(argv[2]), 1, "one file is made");
    same(synced_folders, 1, "the disk has the new card's name");
    same(presence(0), IFD_ICC_PRESENT, "the card is there");
    torn_session(options);
    faults_of_the_line();
    cleared_faults();
    empty_cut();
    sizes();
    says("");
    readers(argv[2], path);
    printf("driver: %d passed, %d failed\n", passed, failed);
    return failed != 0;
}

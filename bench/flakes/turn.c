/* Waits until a command of a flaky project is due, whatever the speed of the machine.

   turn NAME PID [need|share]

   The file `turns/NAME` has lines `begun OTHER` and `ended OTHER`. A command has begun where `turns/OTHER.begun` is
   there. It has ended where `turns/OTHER.ended` is there and Ninja has taken the end of the process that this file
   names. `turn` writes `turns/NAME.begun`, waits for the lines, and writes PID, that of the command's shell, to
   `turns/NAME.ended`. Where `turns/failed` is there, a command failed, and `turn` does not wait. After LONGEST seconds
   it ends with 3.

   With a third word it listens at an address of the kernel, as at a port, for as long as it waits. Where another
   process has the address, `need` is an error (1), and `share` goes on without it. */

#define _POSIX_C_SOURCE 200809L
#include <errno.h>
#include <signal.h>
#include <stdio.h>
#include <string.h>
#include <sys/socket.h>
#include <sys/un.h>
#include <time.h>
#include <unistd.h>

enum { LONGEST = 900, LOOK = 2 };

static void name_of(char *path, const char *name, const char *what) {
    snprintf(path, FILENAME_MAX, "turns/%s%s", name, what);
}

/* Lets some milliseconds pass. */
static void pass(long milliseconds) {
    struct timespec time = {milliseconds / 1000, milliseconds % 1000 * 1000000};
    nanosleep(&time, NULL);
}

/* Writes a text to a file that is whole as soon as it is there. Gives whether that failed. */
static int write_file(const char *name, const char *what, const char *text) {
    char path[FILENAME_MAX], half[FILENAME_MAX];
    name_of(path, name, what);
    name_of(half, name, ".half");
    FILE *file = fopen(half, "w");
    return !file || fputs(text, file) < 0 || fclose(file) || rename(half, path);
}

/* Whether a line of the file is so, or a command failed. */
static int is_so(const char *what, const char *other) {
    char path[FILENAME_MAX];
    long process = 0;
    if (access("turns/failed", F_OK) == 0) return 1;
    name_of(path, other, strcmp(what, "ended") ? ".begun" : ".ended");
    FILE *file = fopen(path, "r");
    if (!file) return 0;
    int read = fscanf(file, "%ld", &process);
    fclose(file);
    return read != 1 || kill((pid_t)process, 0) != 0;
}

/* Listens at the address of this folder. Gives whether another process has it. */
static int is_taken(void) {
    struct sockaddr_un address = {.sun_family = AF_UNIX};
    char folder[FILENAME_MAX] = "";
    if (!getcwd(folder, sizeof folder)) return 1;
    size_t length = strlen(folder), room = sizeof address.sun_path - 1, from = length > room ? length - room : 0;
    memcpy(address.sun_path + 1, folder + from, length - from); /* the first byte is 0: no folder has the name */
    int held = socket(AF_UNIX, SOCK_STREAM, 0);
    return bind(held, (struct sockaddr *)&address, sizeof address) != 0;
}

int main(int count, char **words) {
    char path[FILENAME_MAX], what[16], other[256];
    time_t begin = time(NULL);
    if (count < 3) return 2;
    if (count > 3 && is_taken() && !strcmp(words[3], "need")) {
        fprintf(stderr, "%s: %s\n", words[1], strerror(errno));
        return 1;
    }
    name_of(path, words[1], "");
    FILE *file = fopen(path, "r");
    if (!file || write_file(words[1], ".begun", "")) return 2;
    while (fscanf(file, "%15s %255s", what, other) == 2)
        while (!is_so(what, other)) {
            if (time(NULL) - begin > LONGEST) return 3;
            pass(LOOK);
        }
    fclose(file);
    pass(LOOK);
    return write_file(words[1], ".ended", words[2]);
}

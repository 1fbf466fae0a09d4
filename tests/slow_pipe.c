// Runs a program with a full, nonblocking pipe for its output and reads it slowly: slow_pipe PROGRAM.
#define _GNU_SOURCE
#include <fcntl.h>
#include <stdio.h>
#include <sys/wait.h>
#include <time.h>
#include <unistd.h>

int main(int count, char **words) {
    int ends[2];
    char bytes[4096];
    ssize_t got;
    struct timespec pause = {0, 5000000};
    if (count != 2 || pipe2(ends, O_NONBLOCK) || fcntl(ends[1], F_SETPIPE_SZ, 4096) < 0)
        return 2;
    if (fork() == 0) {
        dup2(ends[1], STDOUT_FILENO);
        close(ends[0]);
        close(ends[1]);
        execl(words[1], words[1], (char *)0);
        _exit(2);
    }
    close(ends[1]);
    fcntl(ends[0], F_SETFL, 0);
    while ((got = read(ends[0], bytes, sizeof bytes)) > 0) {
        fwrite(bytes, 1, (size_t)got, stdout);
        nanosleep(&pause, 0);
    }
    wait(0);
    return 0;
}

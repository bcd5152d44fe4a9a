/* Runs a command whose standard input is a socket, with all that this program reads on its own: socket COMMAND [WORD...] */
#include <sys/socket.h>
#include <unistd.h>

int main(int count, char **words)
{
    int ends[2];
    char bytes[4096];
    ssize_t n;
    if (count < 2 || socketpair(AF_UNIX, SOCK_STREAM, 0, ends) != 0)
        return 2;
    switch (fork()) {
    case -1:
        return 2;
    case 0:
        close(ends[0]);
        while ((n = read(0, bytes, sizeof bytes)) > 0)
            if (write(ends[1], bytes, (size_t)n) != n)
                return 2;
        return 0;
    }
    close(ends[1]);
    if (dup2(ends[0], 0) != 0)
        return 2;
    execvp(words[1], words + 1);
    return 2;
}

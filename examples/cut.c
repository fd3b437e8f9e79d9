/* Gives a program an input that breaks off: cut FILE BYTES PROGRAM runs PROGRAM with the first BYTES bytes of FILE for its standard input, behind which a read fails (EIO). The input is
 * the master side of a terminal whose other side wrote the bytes and was closed. Ends with PROGRAM's exit status; with 77 if there is no such terminal here. */
#define _XOPEN_SOURCE 600
#include <fcntl.h>
#include <stdio.h>
#include <stdlib.h>
#include <termios.h>
#include <unistd.h>

int main(int argc, char **argv) {
    static char bytes[4000]; /* what a terminal holds without a reader */
    if (argc != 4) return 2;
    FILE *file = fopen(argv[1], "rb");
    size_t most = strtoul(argv[2], NULL, 10);
    if (!file || most > sizeof bytes || fread(bytes, 1, most, file) != most) return 2;
    int master = posix_openpt(O_RDWR | O_NOCTTY);
    if (master < 0 || grantpt(master) || unlockpt(master)) return 77;
    int side = open(ptsname(master), O_RDWR | O_NOCTTY);
    struct termios plain;
    if (side < 0 || tcgetattr(side, &plain)) return 77;
    plain.c_oflag = 0; /* a newline stays one byte */
    plain.c_lflag = 0;
    if (tcsetattr(side, TCSANOW, &plain) || write(side, bytes, most) != (ssize_t)most) return 77;
    close(side);
    dup2(master, 0);
    execl(argv[3], argv[3], (char *)NULL);
    return 2;
}

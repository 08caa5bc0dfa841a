/* terminal.c: runs a command with a terminal for standard input.
 *
 *   terminal COMMAND ..
 */
#define _XOPEN_SOURCE 600
#include <fcntl.h>
#include <stdio.h>
#include <stdlib.h>
#include <unistd.h>

int main(int argc, char **argv)
{
    int here = posix_openpt(O_RDWR | O_NOCTTY), there;
    if (argc < 2 || here < 0 || grantpt(here) || unlockpt(here))
        return 3;
    there = open(ptsname(here), O_RDWR | O_NOCTTY);
    if (there < 0 || dup2(there, STDIN_FILENO) < 0)
        return 3;
    execv(argv[1], argv + 1);
    return 3;
}

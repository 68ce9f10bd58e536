// Feeds a pseudoterminal of the kernel the keys that the pairs of tn_bench get: as many lines as fit are written to the
// master at once, and read from the slave line by line; what is echoed is read from the master.
//
//   cc -O2 -o kernel_terminal tools/speed/kernel_terminal.c && ./kernel_terminal
#define _GNU_SOURCE
#include "measure.h"
#include <fcntl.h>
#include <stdlib.h>
#include <string.h>
#include <termios.h>
#include <unistd.h>

struct typing {
    int master, slave, lines, length, echo;
    char keys[4096];
};

static void fail(const char *what) {
    perror(what);
    exit(1);
}

static struct done once(void *load) {
    struct typing *typing = load;
    int size = typing->lines * typing->length, line;
    char got[65536];
    if (write(typing->master, typing->keys, size) != size) fail("write");
    for (line = 0; line < typing->lines; line++)
        if (read(typing->slave, got, sizeof got) <= 0) fail("read");
    if (typing->echo && read(typing->master, got, sizeof got) <= 0) fail("echo");
    return (struct done){size, typing->lines};
}

static void measure(const char *name, int length, int erases, int echo) {
    struct typing typing = {0};
    struct termios settings;
    int place;
    typing.master = posix_openpt(O_RDWR | O_NOCTTY);
    if (typing.master < 0 || grantpt(typing.master) || unlockpt(typing.master)) fail("master");
    typing.slave = open(ptsname(typing.master), O_RDWR | O_NOCTTY);
    if (typing.slave < 0 || tcgetattr(typing.slave, &settings)) fail("slave");
    settings.c_lflag |= ICANON | ISIG | ECHOE | ECHOK;
    settings.c_lflag &= ~(ECHO | IEXTEN);
    if (echo) settings.c_lflag |= ECHO;
    settings.c_iflag = ICRNL;
    if (tcsetattr(typing.slave, TCSANOW, &settings)) fail("settings");
    typing.length = length, typing.echo = echo;
    typing.lines = 3000 / length;
    for (place = 1; place <= typing.lines * length; place++)
        typing.keys[place - 1] = place % length == 0 ? '\n' : erases && place % length % 3 == 0 ? 127 : 'x';
    tell(name, once, &typing);
    close(typing.slave);
    close(typing.master);
}

int main(void) {
    puts("kernel_terminal");
    measure("no echo, lines of 2", 2, 0, 0);
    measure("no echo, lines of 64", 64, 0, 0);
    measure("no echo, lines of 254", 254, 0, 0);
    measure("no echo, each third key ERASE", 64, 1, 0);
    measure("echo, lines of 2", 2, 0, 1);
    measure("echo, lines of 64", 64, 0, 1);
    measure("echo, lines of 254", 254, 0, 1);
    measure("echo, each third key ERASE", 64, 1, 1);
    return 0;
}

/* There are no devices: what asks for a terminal learns that there is none. */
#include <stdio.h>
#include <string.h>
#include <sys/ioctl.h>
#include <termios.h>
#include <unistd.h>
#include <errno.h>

static int refuse(void)
{
    errno = ENOTTY;
    return -1;
}

int ioctl(int descriptor, unsigned long request, ...)
{
    (void)descriptor;
    (void)request;
    return refuse();
}

int tcgetattr(int descriptor, struct termios *settings)
{
    (void)descriptor;
    (void)settings;
    return refuse();
}

int tcsetattr(int descriptor, int when, const struct termios *settings)
{
    (void)descriptor;
    (void)when;
    (void)settings;
    return refuse();
}

int tcdrain(int descriptor)
{
    (void)descriptor;
    return refuse();
}

int tcflow(int descriptor, int action)
{
    (void)descriptor;
    (void)action;
    return refuse();
}

int tcflush(int descriptor, int queue)
{
    (void)descriptor;
    (void)queue;
    return refuse();
}

int tcsendbreak(int descriptor, int duration)
{
    (void)descriptor;
    (void)duration;
    return refuse();
}

pid_t tcgetsid(int descriptor)
{
    (void)descriptor;
    return refuse();
}

pid_t tcgetpgrp(int descriptor)
{
    (void)descriptor;
    return refuse();
}

int tcsetpgrp(int descriptor, pid_t group)
{
    (void)descriptor;
    (void)group;
    return refuse();
}

char *ttyname(int descriptor)
{
    (void)descriptor;
    refuse();
    return NULL;
}

int ttyname_r(int descriptor, char *text, size_t size)
{
    (void)descriptor;
    (void)text;
    (void)size;
    return ENOTTY;
}

char *ctermid(char *text)
{
    static char name[] = "/dev/tty";
    return text ? strcpy(text, name) : name;
}

speed_t cfgetispeed(const struct termios *settings)
{
    return settings->c_ispeed;
}

speed_t cfgetospeed(const struct termios *settings)
{
    return settings->c_ospeed;
}

int cfsetispeed(struct termios *settings, speed_t speed)
{
    settings->c_ispeed = speed;
    return 0;
}

int cfsetospeed(struct termios *settings, speed_t speed)
{
    settings->c_ospeed = speed;
    return 0;
}

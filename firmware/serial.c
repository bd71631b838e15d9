#define _DEFAULT_SOURCE /* cfmakeraw, CRTSCTS, and rates over 38400 */
#include "serial.h"

#include <errno.h>
#include <fcntl.h>
#include <stddef.h>
#include <termios.h>
#include <unistd.h>

static const struct {
    unsigned long rate;
    speed_t speed;
} rates[] = {
    {1200, B1200}, {2400, B2400}, {4800, B4800}, {9600, B9600}, {19200, B19200}, {38400, B38400}, {57600, B57600}, {115200, B115200},
};

static bool find_speed(unsigned long rate, speed_t *speed)
{
    for (size_t i = 0; i < sizeof rates / sizeof *rates; i++) {
        if (rates[i].rate == rate) {
            *speed = rates[i].speed;
            return true;
        }
    }
    return false;
}

bool serial_has_rate(unsigned long rate)
{
    speed_t speed;
    return find_speed(rate, &speed);
}

static bool set_up(int device, unsigned long rate)
{
    struct termios settings;
    speed_t speed;
    if (tcgetattr(device, &settings) != 0)
        return false;
    cfmakeraw(&settings);
    /* 8 data bits, no parity, one stop bit, and three wires: no line says whether a host is there or may be sent to. */
    settings.c_cflag &= ~(tcflag_t)(CSTOPB | CRTSCTS);
    settings.c_cflag |= CLOCAL | CREAD;
    if (find_speed(rate, &speed) && cfsetspeed(&settings, speed) != 0)
        return false;
    /* What came before was not meant for us, or half of it is lost. */
    return tcsetattr(device, TCSANOW, &settings) == 0 && tcflush(device, TCIFLUSH) == 0;
}

int serial_open(const char *path, unsigned long rate)
{
    int device = open(path, O_RDWR | O_NOCTTY | O_NONBLOCK | O_CLOEXEC);
    if (device >= 0 && !set_up(device, rate)) {
        int why = errno;
        close(device);
        errno = why;
        return -1;
    }
    return device;
}

/*
 * libmodbus answering from memory: its RTU server on a line that is two arrays. It reads, waits and writes by read, select and write of the
 * C library; those of this file stand before them, serve the one descriptor of the line, and hand all others on to the kernel. Before some of its
 * exceptions it sleeps and flushes the line, for half a second: this line has nothing to wait for, and nothing to flush.
 */
#define _GNU_SOURCE
#include <modbus/modbus.h>
#include <string.h>
#include <sys/ioctl.h>
#include <sys/select.h>
#include <sys/syscall.h>
#include <termios.h>
#include <time.h>
#include <unistd.h>

enum { LINE = 1000, REGISTERS = 500 };

static const uint8_t *request;
static size_t request_left;
static uint8_t reply[MODBUS_RTU_MAX_ADU_LENGTH];
static size_t reply_length;

ssize_t read(int fd, void *buffer, size_t size)
{
    if (fd != LINE) return syscall(SYS_read, fd, buffer, size);
    size_t n = size < request_left ? size : request_left;
    memcpy(buffer, request, n);
    request += n;
    request_left -= n;
    return (ssize_t)n;
}

ssize_t write(int fd, const void *buffer, size_t size)
{
    if (fd != LINE) return syscall(SYS_write, fd, buffer, size);
    memcpy(reply, buffer, size);
    reply_length = size;
    return (ssize_t)size;
}

int select(int n, fd_set *r, fd_set *w, fd_set *e, struct timeval *timeout)
{
    if (n != LINE + 1) return (int)syscall(SYS_select, n, r, w, e, timeout);
    return request_left > 0;
}

int nanosleep(const struct timespec *wanted, struct timespec *left)
{
    (void)wanted;
    if (left) memset(left, 0, sizeof *left);
    return 0;
}

int tcflush(int fd, int queue)
{
    return fd == LINE ? 0 : (int)syscall(SYS_ioctl, fd, TCFLSH, queue);
}

/* The reply's length to a frame; 0 where the frame gets none. */
size_t line_frame(const uint8_t *frame, size_t length)
{
    static modbus_t *server;
    static modbus_mapping_t *registers;
    uint8_t query[MODBUS_RTU_MAX_ADU_LENGTH];
    if (!server) {
        server = modbus_new_rtu("/dev/null", 19200, 'E', 8, 1);
        modbus_set_slave(server, 1);
        modbus_set_socket(server, LINE);
        registers = modbus_mapping_new(0, 0, REGISTERS, 0);
    }
    request = frame;
    request_left = length;
    reply_length = 0;
    int received = modbus_receive(server, query);
    if (received > 0) modbus_reply(server, query, received, registers);
    return reply_length;
}

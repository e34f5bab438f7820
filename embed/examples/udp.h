/*
 * A bus over UDP between two processes, for udp_drive.c, udp_controller.c and udp_estop.c, which has one for each
 * connection. Each datagram has one frame.
 *
 * UDP may lose a datagram, and it may deliver one after a later one. Against the first, the last frame is sent again
 * until there is a new one: an end drops the frame that it took last, if it comes again. Against the second, each
 * datagram begins with a number. It rises with each datagram, also when a frame is sent again and when the program
 * starts anew, and a datagram whose number doesn't rise is thrown away. A late frame would end the session.
 *
 * Within one machine UDP does neither, so the bus itself does both, by chance. A folder has files with the ports, which
 * the system chooses, and the session ids that were used last: drive2.port is the port of the slave of connection 2.
 */
#ifndef UDP_H
#define UDP_H

#define _GNU_SOURCE
#include <arpa/inet.h>
#include <errno.h>
#include <fcntl.h>
#include <gatepast.h>
#include <stdio.h>
#include <stdlib.h>
#include <string.h>
#include <sys/socket.h>
#include <time.h>
#include <unistd.h>

enum { MASTER_LEN = 2, SLAVE_LEN = 2 };
enum { ADDRESS = 1 };               /* of the slave of connection k: k more */
enum { MOST_FRAMES = 4 };           /* delivered in a millisecond, so that ticks never wait for frames */
enum { MOST_RESETS = 100 };         /* after so many a person has to look */
enum { MOST_MILLISECONDS = 20000 }; /* before the example gives up */
enum { WATCHDOG = 1000 };           /* long, so that a busy machine doesn't stop the example */
enum { MOTOR = 1, LEAVING = 2 };    /* bits of an order: the motor is enabled; the controller will end its session */
enum { READY = 0x80 };              /* the bit by which a drive says that it is ready */
enum { LATE = 2, OVERTAKING = 5 };  /* of a hundred datagrams so many come late, after so many others */
enum { NUMBER_LEN = 8, MOST_DATAGRAM = NUMBER_LEN + GP_MOST_FRAME };

/* This end of a connection. All zeros but for the connection before bus_open. */
typedef struct udp_bus {
    uint16_t connection; /* its id, and its number in the names of files */
    int socket;
    bool connected;
    uint64_t number, newest; /* of the last datagram that was sent, and that came */
    gp_frame last;           /* the last frame that was sent, and when */
    unsigned last_time;
    uint8_t late[MOST_DATAGRAM]; /* a datagram that waits until so many were sent */
    size_t late_len;
    unsigned late_after;
    unsigned resets; /* since the program started */
} udp_bus;

static const char *folder, *name, *peer; /* name and peer: "drive" and "controller", or the other way round */
static uint16_t connection = 1;          /* of a program that has one */
static unsigned lost = 10;               /* of a hundred datagrams */
static unsigned again = 3;               /* the last frame is sent again after so many milliseconds; 0: it isn't */
static uint32_t seed = 1;
static unsigned now;                     /* the time in milliseconds */
static struct timespec wake;             /* when the last millisecond that was counted came */

/* Reads a number from a file of the folder. It stays as it is if there is no such file. False if it can't be read. */
static bool read_number(const udp_bus *bus, const char *of, const char *what, unsigned long *value) {
    char path[4096];
    const int len = snprintf(path, sizeof path, "%s/%s%u.%s", folder, of, bus->connection, what);
    if (len < 0 || (size_t)len >= sizeof path) return false;
    FILE *file = fopen(path, "r");
    if (file == NULL) return errno == ENOENT;
    const bool done = fscanf(file, "%lu", value) == 1;
    (void)fclose(file);
    return done;
}

/* Whether the names in the folder are stored, so that a new file is there also after the power went off. */
static bool names_are_stored(void) {
    const int at = open(folder, O_RDONLY | O_DIRECTORY);
    if (at < 0) return false;
    const bool done = fsync(at) == 0;
    return close(at) == 0 && done;
}

/* Puts a new file in the place of the old one, so that whoever reads finds one of them whole. */
static bool write_number(const udp_bus *bus, const char *what, unsigned long value) {
    char path[4096], fresh[4096];
    const int len = snprintf(path, sizeof path, "%s/%s%u.%s", folder, name, bus->connection, what);
    const int fresh_len = snprintf(fresh, sizeof fresh, "%s/%s%u.%s.new", folder, name, bus->connection, what);
    if (len < 0 || fresh_len < 0 || (size_t)fresh_len >= sizeof fresh) return false;
    FILE *file = fopen(fresh, "w");
    if (file == NULL) return false;
    const bool done = fprintf(file, "%lu\n", value) > 0 && fflush(file) == 0 && fsync(fileno(file)) == 0;
    return fclose(file) == 0 && done && rename(fresh, path) == 0 && names_are_stored();
}

/* Ends this program, which says how: safely. */
static void stop(const char *why);

/* A session id that no session of this end had, stored before it is used. A slave counts by 2, a master by 1. This
   begins anew if the file is gone, as no device may: see docs/duties.md. */
static uint16_t fresh_id(const udp_bus *bus, unsigned step) {
    unsigned long used = 0;
    if (!read_number(bus, name, "id", &used) || used + step > 0xFFFF) stop("no session id is left");
    if (!write_number(bus, "id", used + step)) stop("the session id can't be kept");
    return (uint16_t)(used + step);
}

/* Tells a reset, and returns the id of the session after it. */
static uint16_t id_after_reset(udp_bus *bus, unsigned step, uint8_t code) {
    printf("the session of connection %u ended with code %02x\n", bus->connection, code);
    if (++bus->resets > MOST_RESETS) stop("too many resets");
    return fresh_id(bus, step);
}

/* The address of a port of this machine. */
static struct sockaddr_in at_port(unsigned long port) {
    struct sockaddr_in address = {.sin_family = AF_INET, .sin_port = htons((uint16_t)port)};
    address.sin_addr.s_addr = htonl(INADDR_LOOPBACK);
    return address;
}

/* Opens the bus at the port that this end had before, else at one that the system chooses. Its datagrams have higher
   numbers than those of earlier starts, since the id is higher. */
static bool bus_open(udp_bus *bus, uint32_t id) {
    unsigned long port = 0;
    if (!read_number(bus, name, "port", &port)) return false;
    struct sockaddr_in own = at_port(port);
    socklen_t len = sizeof own;
    bus->socket = socket(AF_INET, SOCK_DGRAM | SOCK_NONBLOCK, 0);
    bus->number = (uint64_t)id << 32;
    return bus->socket >= 0 && bind(bus->socket, (struct sockaddr *)&own, sizeof own) == 0 &&
           getsockname(bus->socket, (struct sockaddr *)&own, &len) == 0 &&
           write_number(bus, "port", ntohs(own.sin_port));
}

/* Looks for the peer's port until there is one. From then on the bus takes no datagram of anybody else. */
static bool bus_connected(udp_bus *bus) {
    unsigned long port = 0;
    if (bus->connected || !read_number(bus, peer, "port", &port) || port == 0) return bus->connected;
    const struct sockaddr_in other = at_port(port);
    bus->connected = connect(bus->socket, (const struct sockaddr *)&other, sizeof other) == 0;
    return bus->connected;
}

static uint32_t by_chance(void) {
    seed ^= seed << 13;
    seed ^= seed >> 17;
    seed ^= seed << 5;
    return seed;
}

/* Loses a datagram, or keeps it until some later ones were sent, or sends it. What can't be sent is lost, too. */
static void pass(udp_bus *bus, const uint8_t *datagram, size_t len) {
    const uint32_t chance = by_chance() % 100;
    if (chance < lost) return;
    if (chance < lost + LATE && bus->late_after == 0) {
        memcpy(bus->late, datagram, len);
        bus->late_len = len;
        bus->late_after = OVERTAKING;
        return;
    }
    (void)send(bus->socket, datagram, len, 0);
    if (bus->late_after != 0 && --bus->late_after == 0) (void)send(bus->socket, bus->late, bus->late_len, 0);
}

/* Sends the last frame, in a datagram with the next number. */
static void send_last(udp_bus *bus) {
    uint8_t datagram[MOST_DATAGRAM];
    bus->last_time = now;
    if (bus->last.len == 0 || !bus_connected(bus)) return;
    bus->number++;
    for (int i = 0; i < NUMBER_LEN; i++) datagram[i] = (uint8_t)(bus->number >> (8 * (NUMBER_LEN - 1 - i)));
    memcpy(datagram + NUMBER_LEN, bus->last.bytes, bus->last.len);
    pass(bus, datagram, NUMBER_LEN + bus->last.len);
}

/* Keeps a frame, and sends it. */
static void bus_send(udp_bus *bus, const gp_frame *frame) {
    bus->last = *frame;
    send_last(bus);
}

/* Sends a program's last frame some times at once, since no loop is left that sends it again. */
static inline void bus_send_end(udp_bus *bus, const gp_frame *frame) {
    for (int i = 0; i < 10; i++) bus_send(bus, frame);
}

/* Sends the last frame again, if it was sent long enough ago. */
static void bus_send_again(udp_bus *bus) {
    if (again != 0 && now - bus->last_time >= again) send_last(bus);
}
/* Waits for the next millisecond, or not if one was missed: each is ticked. False if the program is to end. */
static bool next_millisecond(void) {
    if (now == 0 && clock_gettime(CLOCK_MONOTONIC, &wake) != 0) return false;
    wake.tv_nsec += 1000000;
    if (wake.tv_nsec >= 1000000000) {
        wake.tv_nsec -= 1000000000;
        wake.tv_sec++;
    }
    while (clock_nanosleep(CLOCK_MONOTONIC, TIMER_ABSTIME, &wake, NULL) == EINTR) {
    }
    return ++now <= MOST_MILLISECONDS;
}

/* Whether a millisecond passed that isn't ticked yet. Then a frame that waits may be old: it comes after the ticks. */
static bool is_late(void) {
    struct timespec time;
    if (clock_gettime(CLOCK_MONOTONIC, &time) != 0) return true;
    return (time.tv_sec - wake.tv_sec) * 1000000000LL + (time.tv_nsec - wake.tv_nsec) >= 1000000;
}

/* A frame that came, or NULL at once: if ticks come first, none came, no peer is there, or the number didn't rise. */
static const uint8_t *bus_receive(udp_bus *bus, size_t *len) {
    static uint8_t datagram[MOST_DATAGRAM + 1]; /* one byte more, so that what is too long stays too long */
    uint64_t its_number = 0;
    const ssize_t got = !is_late() && bus_connected(bus) ? recv(bus->socket, datagram, sizeof datagram, 0) : -1;
    if (got < NUMBER_LEN) return NULL;
    for (int i = 0; i < NUMBER_LEN; i++) its_number = its_number << 8 | datagram[i];
    if (its_number <= bus->newest) return NULL;
    bus->newest = its_number;
    *len = (size_t)got - NUMBER_LEN;
    return datagram + NUMBER_LEN;
}

/* The settings of a connection's master, with a fresh id. */
static inline gp_master_settings master_settings(const udp_bus *bus) {
    return (gp_master_settings){.master_len = MASTER_LEN,
                                .slave_len = SLAVE_LEN,
                                .conn = bus->connection,
                                .address = (uint16_t)(ADDRESS + bus->connection),
                                .watchdog = WATCHDOG,
                                .profile = 1,
                                .nonce = fresh_id(bus, 1)};
}

/* The words of the command: FOLDER [LOST [AGAIN [SEED [CONNECTION]]]]. False if there are too few or too many. */
static bool read_words(int count, char **words) {
    if (count < 2 || count > 6) return false;
    folder = words[1];
    if (count > 2) lost = (unsigned)strtoul(words[2], NULL, 10);
    if (count > 3) again = (unsigned)strtoul(words[3], NULL, 10);
    if (count > 4) seed = (uint32_t)strtoul(words[4], NULL, 10);
    if (count > 5) connection = (uint16_t)strtoul(words[5], NULL, 10);
    seed = 2 * seed + 1; /* never 0 */
    return true;
}

#endif

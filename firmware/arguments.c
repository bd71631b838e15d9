#include "arguments.h"

#include <errno.h>
#include <getopt.h>
#include <stddef.h>
#include <stdio.h>
#include <stdlib.h>

#include "serial.h"
#include "tcp.h"

static const char help[] = "Usage: tyurkanim [OPTION]...\n"
                           "Answers as a ROC Plus device, over TCP and over a serial device.\n"
                           "\n"
                           "  --unit UNIT      unit of its own address, 1 to 255 (1)\n"
                           "  --group GROUP    group of its own address, 0 to 255 (2)\n"
                           "  --level LEVEL    what whoever asks may do, 0 to 3 (3)\n"
                           "  --listen ADDRESS numeric address to listen at (127.0.0.1)\n"
                           "  --port PORT      TCP port, 0 for any free one (4000)\n"
                           "  --serial PATH    serve this serial device or pseudo-terminal too\n"
                           "  --rate RATE      its bits a second, such as 9600 (as it is set)\n"
                           "  --verbose        print each request and its outcome\n"
                           "  --help           print this and end\n"
                           "\n"
                           "There is no login: whoever reaches it may do what the level allows.\n"
                           "The store is fresh at each start. SIGTERM and SIGINT end it.\n";

static _Noreturn void refuse(const char *option, const char *word, const char *wanted)
{
    fprintf(stderr, "tyurkanim: %s '%s': %s\n", option, word, wanted);
    exit(STATUS_BAD_ARGUMENTS);
}

static unsigned long number(const char *option, const char *word, unsigned long least, unsigned long most)
{
    char *end;
    errno = 0;
    unsigned long value = strtoul(word, &end, 10);
    if (word[0] < '0' || word[0] > '9' || *end != '\0' || errno != 0 || value < least || value > most) {
        char wanted[64];
        snprintf(wanted, sizeof wanted, "not a number from %lu to %lu", least, most);
        refuse(option, word, wanted);
    }
    return value;
}

static unsigned long rate(const char *word)
{
    unsigned long value = number("--rate", word, 1, 115200);
    if (!serial_has_rate(value))
        refuse("--rate", word, "not a rate of serial devices");
    return value;
}

struct arguments arguments_read(int count, char **words)
{
    static const struct option options[] = {
        {"unit", required_argument, NULL, 'u'},  {"group", required_argument, NULL, 'g'},
        {"level", required_argument, NULL, 'l'}, {"listen", required_argument, NULL, 'a'},
        {"port", required_argument, NULL, 'p'},  {"serial", required_argument, NULL, 's'},
        {"rate", required_argument, NULL, 'r'},  {"verbose", no_argument, NULL, 'v'},
        {"help", no_argument, NULL, 'h'},        {NULL, 0, NULL, 0},
    };
    struct arguments said = {.unit = 1, .group = 2, .level = 3, .listen = "127.0.0.1", .port = "4000"};
    int option;
    while ((option = getopt_long(count, words, "", options, NULL)) != -1) {
        switch (option) {
        case 'u':
            said.unit = (uint8_t)number("--unit", optarg, 1, 255);
            break;
        case 'g':
            said.group = (uint8_t)number("--group", optarg, 0, 255);
            break;
        case 'l':
            said.level = (uint8_t)number("--level", optarg, 0, 3);
            break;
        case 'a':
            if (!tcp_is_address(optarg))
                refuse("--listen", optarg, "not a numeric address");
            said.listen = optarg;
            break;
        case 'p':
            number("--port", optarg, 0, 65535);
            said.port = optarg;
            break;
        case 's':
            said.serial = optarg;
            break;
        case 'r':
            said.rate = rate(optarg);
            break;
        case 'v':
            said.verbose = true;
            break;
        case 'h':
            fputs(help, stdout);
            exit(EXIT_SUCCESS);
        default: /* getopt_long has said what is wrong */
            exit(STATUS_BAD_ARGUMENTS);
        }
    }
    if (optind < count)
        refuse("argument", words[optind], "not an option");
    return said;
}

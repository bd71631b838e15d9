/* A gateway that answers as a ROC Plus device. */
#include <stdio.h>
#include <stdlib.h>

#include "arguments.h"
#include "server.h"

int main(int argc, char **argv)
{
    static struct server server;
    struct arguments arguments = arguments_read(argc, argv);
    setvbuf(stdout, NULL, _IOLBF, 0); /* each line is seen when it is written, in a file or a pipe too */
    int status = server_start(&server, &arguments);
    return status == EXIT_SUCCESS ? server_run(&server) : status;
}

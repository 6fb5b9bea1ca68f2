/* A plain client that reads and writes as the turns of a worker do, for bench/turn_time.sh: READS times it reads the
 * eight registers of the limit, and before every so many of them it writes the six registers of a limit. It prints how
 * many seconds all took. Usage: libmodbus_turns HOST PORT READS WRITES */
#include <modbus/modbus.h>
#include <stdio.h>
#include <stdlib.h>
#include <time.h>

enum { LIMIT = 40310, WRITTEN = 6, SHOWN = 8 };

static double seconds(void)
{
    struct timespec now;
    clock_gettime(CLOCK_MONOTONIC, &now);
    return now.tv_sec + now.tv_nsec / 1e9;
}

int main(int count, char **words)
{
    if (count != 5)
        return 2;
    long reads = atol(words[3]), writes = atol(words[4]), written = 0;
    const uint16_t limit[WRITTEN] = {1, 1000, 100, 1, 0, 1};
    uint16_t shown[SHOWN];
    modbus_t *link = modbus_new_tcp(words[1], atoi(words[2]));
    if (link == NULL || modbus_set_slave(link, 1) != 0 || modbus_connect(link) != 0)
        return 1;
    double begin = seconds();
    for (long read = 0; read < reads; read++) {
        while (written * reads < writes * (read + 1) && written < writes) {
            if (modbus_write_registers(link, LIMIT, WRITTEN, limit) != WRITTEN)
                return 1;
            written++;
        }
        if (modbus_read_registers(link, LIMIT, SHOWN, shown) != SHOWN)
            return 1;
    }
    printf("%.6f\n", seconds() - begin);
    modbus_close(link);
    modbus_free(link);
    return 0;
}

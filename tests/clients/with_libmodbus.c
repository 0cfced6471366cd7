/*
 * A libmodbus master for with_libmodbus.py: with_libmodbus DEVICE polls as the lines that it reads say, a line for each:
 *
 *   03 UNIT MS ADDRESS QUANTITY    modbus_read_registers; MS is the time-out in milliseconds
 *   01 UNIT MS ADDRESS QUANTITY    modbus_read_bits
 *   06 UNIT MS ADDRESS VALUE       modbus_write_register
 *   02, 04, 16 UNIT MS ADDRESS QUANTITY    the functions that a gateway has not
 *   raw UNIT MS ADDRESS QUANTITY   03 as a raw request, its reply taken as it comes
 *
 * 'ok' and what was read, in hex, a flag as 00 or 01, or 'no' and the error's name. One context serves all, so that what one reply
 * leaves behind spoils the next.
 */
#include <errno.h>
#include <stdint.h>
#include <stdio.h>
#include <stdlib.h>
#include <string.h>

#include <modbus/modbus.h>

#define HEADER 3 /* of a reply to 03: unit, function, byte count */
#define CRC 2

struct poll {
    char function[8];
    int unit, ms, address, quantity;
};

static const char *name_of(int error)
{
    static const struct {
        int error;
        const char *name;
    } names[] = {{EMBXILFUN, "illegal function"}, {EMBXILADD, "illegal data address"}, {EMBXILVAL, "illegal data value"},
                 {EMBBADDATA, "refused"},         {EMBMDATA, "not sent"},              {ETIMEDOUT, "time-out"}};
    for (size_t i = 0; i < sizeof names / sizeof names[0]; i++)
        if (names[i].error == error)
            return names[i].name;
    return modbus_strerror(error);
}

/* The bytes that 03 or 04 reads, and their number; -1 on an error. */
static int read_bytes(modbus_t *line, const struct poll *poll, uint8_t *bytes)
{
    uint16_t registers[MODBUS_MAX_READ_REGISTERS];
    int count = strcmp(poll->function, "03") == 0 ? modbus_read_registers(line, poll->address, poll->quantity, registers)
                                                  : modbus_read_input_registers(line, poll->address, poll->quantity, registers);
    for (int i = 0; i < count; i++) {
        bytes[2 * i] = (uint8_t)(registers[i] >> 8);
        bytes[2 * i + 1] = (uint8_t)registers[i];
    }
    return count < 0 ? -1 : 2 * count;
}

/* libmodbus adds the CRC to a raw request, and checks that of its reply; nothing more. */
static int read_raw(modbus_t *line, const struct poll *poll, uint8_t *bytes)
{
    uint8_t reply[MODBUS_RTU_MAX_ADU_LENGTH];
    const uint8_t request[] = {(uint8_t)poll->unit,          3, (uint8_t)(poll->address >> 8), (uint8_t)poll->address,
                               (uint8_t)(poll->quantity >> 8), (uint8_t)poll->quantity};
    if (modbus_send_raw_request(line, (uint8_t *)request, sizeof request) < 0)
        return -1;
    int length = modbus_receive_confirmation(line, reply);
    if (length < 0)
        return -1;
    if (length < HEADER + CRC || reply[0] != poll->unit || reply[1] != 3 || length != HEADER + reply[2] + CRC) {
        errno = length == HEADER + CRC && reply[1] == (0x80 | 3) ? MODBUS_ENOBASE + reply[2] : EMBBADDATA;
        return -1;
    }
    memcpy(bytes, reply + HEADER, reply[2]);
    return reply[2];
}

/* The flags that 01 or 02 reads, a byte each, and their number; -1 on an error. */
static int read_bits(modbus_t *line, const struct poll *poll, uint8_t *bits)
{
    return strcmp(poll->function, "01") == 0 ? modbus_read_bits(line, poll->address, poll->quantity, bits)
                                             : modbus_read_input_bits(line, poll->address, poll->quantity, bits);
}

/* The number of bytes read, or -1. */
static int answer(modbus_t *line, const struct poll *poll, uint8_t *bytes)
{
    static const uint16_t values[MODBUS_MAX_WRITE_REGISTERS] = {0};
    modbus_set_slave(line, poll->unit);
    modbus_set_response_timeout(line, (uint32_t)poll->ms / 1000, (uint32_t)poll->ms % 1000 * 1000);
    if (strcmp(poll->function, "raw") == 0)
        return read_raw(line, poll, bytes);
    if (strcmp(poll->function, "06") == 0)
        return modbus_write_register(line, poll->address, (uint16_t)poll->quantity) == 1 ? 0 : -1;
    if (strcmp(poll->function, "16") == 0)
        return modbus_write_registers(line, poll->address, poll->quantity, values) == poll->quantity ? 0 : -1;
    if (strcmp(poll->function, "03") == 0 || strcmp(poll->function, "04") == 0)
        return read_bytes(line, poll, bytes);
    return read_bits(line, poll, bytes);
}

static void serve(modbus_t *line)
{
    struct poll poll;
    uint8_t bytes[MODBUS_MAX_READ_BITS]; /* more than of any registers */
    while (scanf("%7s %d %d %d %d", poll.function, &poll.unit, &poll.ms, &poll.address, &poll.quantity) == 5) {
        errno = 0;
        int length = answer(line, &poll, bytes);
        printf("%s %s", length < 0 ? "no" : "ok", length < 0 ? name_of(errno) : "");
        for (int i = 0; i < length; i++)
            printf("%02x", bytes[i]);
        printf("\n");
        fflush(stdout);
    }
}

int main(int count, char **words)
{
    modbus_t *line = count == 2 ? modbus_new_rtu(words[1], 19200, 'N', 8, 1) : NULL;
    if (line == NULL || modbus_connect(line) != 0) {
        fprintf(stderr, "with_libmodbus: no line: %s\n", modbus_strerror(errno));
        return EXIT_FAILURE;
    }
    serve(line);
    modbus_close(line);
    modbus_free(line);
    return EXIT_SUCCESS;
}

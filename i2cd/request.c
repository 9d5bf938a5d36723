/* request.c: requests of programs, done on the bus. */
#include "request.h"

#include <errno.h>
#include <string.h>

#include "wire.h"

/* Adds a part to what follows the head of the reply. */
static void add_part(struct request *request, void *bytes, size_t length)
{
    request->data[request->parts++] = (struct iovec){ bytes, length };
}

static int transfer(struct request *request, struct adapter *adapter, uint64_t count)
{
    struct i2c_msg messages[MOST_MESSAGES];
    size_t at = sizeof(struct wire_request);
    if (count < 1 || count > MOST_MESSAGES ||
        request->length < at + count * sizeof(struct wire_message))
        return -EBADE;
    uint8_t *buffer = request->packet + at + count * sizeof(struct wire_message);
    size_t left = request->length - (size_t)(buffer - request->packet);
    for (size_t i = 0; i < count; i++, at += sizeof(struct wire_message)) {
        struct wire_message head;
        memcpy(&head, request->packet + at, sizeof head);
        if (head.length > MOST_LENGTH || head.length > left)
            return -EBADE;
        messages[i] = (struct i2c_msg){ head.address, head.flags, head.length, buffer };
        if (head.flags & I2C_M_RD)
            add_part(request, buffer, head.length);
        buffer += head.length;
        left -= head.length;
    }
    return left == 0 ? file_transfer(adapter, messages, (size_t)count) : -EBADE;
}

static int smbus(struct request *request, const struct open_file *file, struct adapter *adapter)
{
    static struct wire_smbus access;
    union i2c_smbus_data data;
    if (request->length != sizeof(struct wire_request) + sizeof access)
        return -EBADE;
    memcpy(&access, request->packet + sizeof(struct wire_request), sizeof access);
    memcpy(&data, access.data, sizeof data);
    int result = file_smbus(file, adapter, access.read_write, access.command, access.size,
                            access.has_data ? &data : NULL);
    memcpy(access.data, &data, sizeof data);
    add_part(request, access.data, sizeof access.data);
    return result;
}

static int bytes(struct request *request, const struct open_file *file, struct adapter *adapter,
                 int is_read, uint64_t length)
{
    uint8_t *data = request->packet + sizeof(struct wire_request);
    size_t following = request->length - sizeof(struct wire_request);
    if (length > MOST_LENGTH || following != (is_read ? 0 : length))
        return -EBADE;
    if (!is_read)
        return file_write(file, adapter, data, (uint16_t)length);
    add_part(request, data, (size_t)length);
    return file_read(file, adapter, data, (uint16_t)length);
}

static int functions(struct request *request)
{
    static uint64_t mask = ADAPTER_FUNCTIONS;
    add_part(request, &mask, sizeof mask);
    return 0;
}

int perform(struct request *request, struct open_file *file, struct adapter *adapter)
{
    struct wire_request head;
    if (request->length < sizeof head)
        return -EBADE;
    memcpy(&head, request->packet, sizeof head);
    if (head.mark != WIRE_MARK)
        return -EBADE;
    switch (head.kind) {
    case I2C_RDWR:
        return transfer(request, adapter, head.argument);
    case I2C_SMBUS:
        return smbus(request, file, adapter);
    case WIRE_READ:
    case WIRE_WRITE:
        return bytes(request, file, adapter, head.kind == WIRE_READ, head.argument);
    default:
        break;
    }
    if (request->length != sizeof head)
        return -EBADE;
    if (head.kind == I2C_FUNCS)
        return functions(request);
    int result = file_control(file, head.kind, head.argument);
    return result == -ENOTTY ? -EBADE : result;
}

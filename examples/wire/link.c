#include "link.h"

#include <errno.h>
#include <poll.h>
#include <string.h>
#include <unistd.h>

#include "pewterslug.h"

bool link_write(int link, const void *bytes, size_t length)
{
    const uint8_t *from = bytes;
    while (length > 0) {
        ssize_t written = write(link, from, length);
        if (written < 0 && errno == EINTR)
            continue;
        if (written <= 0)
            return false;
        from += written;
        length -= (size_t)written;
    }
    return true;
}

bool link_read(int link, void *bytes, size_t length)
{
    uint8_t *to = bytes;
    while (length > 0) {
        ssize_t got = read(link, to, length);
        if (got < 0 && errno == EINTR)
            continue;
        if (got <= 0)
            return false;
        to += got;
        length -= (size_t)got;
    }
    return true;
}

bool link_ready(int link)
{
    struct pollfd waiting = {.fd = link, .events = POLLIN};
    return poll(&waiting, 1, 0) > 0;
}

bool link_send(int link, const uint8_t *message, size_t length)
{
    uint8_t frame[1 + PEWTERSLUG_MESSAGE_BYTES];
    if (length == 0 || length > PEWTERSLUG_MESSAGE_BYTES)
        return false;
    frame[0] = (uint8_t)length;
    memcpy(frame + 1, message, length);
    return link_write(link, frame, 1 + length);
}

size_t link_receive(int link, uint8_t *message)
{
    uint8_t length;
    if (!link_read(link, &length, 1) || length == 0 || length > PEWTERSLUG_MESSAGE_BYTES)
        return 0;
    return link_read(link, message, length) ? length : 0;
}

/* Data packets and pages by hand (E1.31, 4 to 8). */
#include "plain.h"
#include <string.h>

static uint32_t u16_at(const uint8_t *octets, size_t at) { return (uint32_t)octets[at] << 8 | octets[at + 1]; }
static uint32_t u32_at(const uint8_t *octets, size_t at) { return u16_at(octets, at) << 16 | u16_at(octets, at + 2); }

static const uint8_t front[16] = {0, 16, 0, 0, 'A', 'S', 'C', '-', 'E', '1', '.', '1', '7', 0, 0, 0};

bool plain_read(const uint8_t *octets, size_t count, struct plain_packet *packet) {
    if (count < 126 || memcmp(octets, front, sizeof front)) return false;
    uint32_t size = u16_at(octets, 16);
    if (size >> 12 != 7 || u32_at(octets, 18) != 4) return false;
    if (u16_at(octets, 38) != size - 22 || u32_at(octets, 40) != 2 || octets[108] > 200) return false;
    uint32_t universe = u16_at(octets, 113);
    if (universe < 1 || universe > 63999) return false;
    if (u16_at(octets, 115) != size - 99 || octets[117] != 2 || octets[118] != 0xa1 || u32_at(octets, 119) != 1) return false;
    size_t values = u16_at(octets, 123);
    if (values < 1 || values > FRAME || count != 125 + values || (size & 0xfff) != 109 + values) return false;
    *packet = (struct plain_packet){octets + 22, octets[108], octets[111], octets[112], octets[125], (uint16_t)universe, values - 1, octets + 126};
    return true;
}

void plain_head(const uint8_t cid[16], const char name[64], uint16_t universe, uint8_t number, uint8_t out[DATA_OCTETS]) {
    static const uint8_t root[22] = {0, 16, 0, 0, 'A', 'S', 'C', '-', 'E', '1', '.', '1', '7', 0, 0, 0, 0x72, 0x6e, 0, 0, 0, 4};
    static const uint8_t framing[6] = {0x72, 0x58, 0, 0, 0, 2}, dmp[11] = {0x72, 0x0b, 2, 0xa1, 0, 0, 0, 1, 2, 1, 0};
    memcpy(out, root, 22), memcpy(out + 22, cid, 16), memcpy(out + 38, framing, 6), memcpy(out + 44, name, 64);
    out[108] = 100, out[109] = out[110] = 0, out[111] = number, out[112] = 0;
    out[113] = (uint8_t)(universe >> 8), out[114] = (uint8_t)universe;
    memcpy(out + 115, dmp, 11);
}

static void put_size(uint8_t *out, size_t length, size_t from) {
    size_t size = 0x7000 + ((length - from) & 0xfff);
    out[from] = (uint8_t)(size >> 8), out[from + 1] = (uint8_t)size;
}

void plain_page_head(const uint8_t cid[16], const char name[64], size_t page, size_t pages, size_t length, uint8_t *out) {
    memcpy(out, front, 16), put_size(out, length, 16), memcpy(out + 18, "\0\0\0\10", 4), memcpy(out + 22, cid, 16);
    put_size(out, length, 38), memcpy(out + 40, "\0\0\0\2", 4), memcpy(out + 44, name, 64), memset(out + 108, 0, 4);
    put_size(out, length, 112), memcpy(out + 114, "\0\0\0\1", 4);
    out[118] = (uint8_t)page, out[119] = (uint8_t)(pages - 1);
}

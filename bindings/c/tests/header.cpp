// The header in C++: the functions have the names that the library gives them.
#include "../lefkanu.h"

int main()
{
    const uint8_t header[5] = {0x00, 0x10, 0x05, 0x00, 0x00};
    uint8_t crc = 0;
    return lefkanu_calculate_header_crc(LEFKANU_ANNEX_G, header, &crc) == 0 && crc == 0x8C ? 0 : 1;
}

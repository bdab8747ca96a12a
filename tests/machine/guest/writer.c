/*
 * Programs the serial ROM of the emulated 21143 with a file of 128 bytes: writer ADDRESS FILE. Plain, and of its own: it shares
 * nothing with bench/dump.c, and is for an emulated part alone, since a real one takes milliseconds for each word.
 */
#include <fcntl.h>
#include <stdint.h>
#include <stdio.h>
#include <stdlib.h>
#include <sys/mman.h>

enum { WORDS = 64, ADDRESS_BITS = 6, CSR9 = 0x48, PAGE = 4096 };

/* The part's commands behind the start bit: two bits, and where the first are 00, the address's upper two. */
enum { DISABLE = 0x00, WRITE = 0x40, ENABLE = 0x30, ERASE = 0xc0 };

static volatile uint32_t *csr9;

/* One bit behind another, the highest first, to the selected part: each is there before the clock rises and until it falls. */
static void send(uint32_t bits, int count)
{
    while (count-- > 0) {
        uint32_t data = bits >> count & 1 ? 0x4805 : 0x4801;
        *csr9 = data;
        *csr9 = data | 2;
        *csr9 = data;
    }
}

/* A start bit, a command with its address, and so many data bits; the part carries it out when it is no longer selected. */
static void command(unsigned command_and_address, uint16_t data, int data_bits)
{
    *csr9 = 0x4800;
    *csr9 = 0x4801;
    send(1, 1);
    send(command_and_address, 2 + ADDRESS_BITS);
    send(data, data_bits);
    *csr9 = 0x4800;
}

static void fail(const char *what)
{
    perror(what);
    exit(1);
}

int main(int argc, char **argv)
{
    char path[128];
    uint8_t image[2 * WORDS];
    unsigned long long start = 0;
    if (argc != 3)
        return 1;
    FILE *file = fopen(argv[2], "rb");
    if (file == NULL || fread(image, 1, sizeof image, file) != sizeof image)
        fail(argv[2]);
    snprintf(path, sizeof path, "/sys/bus/pci/devices/%s/resource", argv[1]);
    FILE *resource = fopen(path, "r");
    if (resource == NULL || fscanf(resource, "%*x %*x %*x %llx", &start) != 1)
        fail(path);
    snprintf(path, sizeof path, "/sys/bus/pci/devices/%s/resource1", argv[1]);
    int memory = open(path, O_RDWR | O_SYNC);
    uint8_t *page = mmap(NULL, PAGE, PROT_READ | PROT_WRITE, MAP_SHARED, memory, 0);
    if (page == MAP_FAILED)
        fail(path);
    csr9 = (volatile uint32_t *)(page + start % PAGE + CSR9);
    command(ENABLE, 0, 0);
    for (unsigned i = 0; i < WORDS; i++) {
        /* QEMU's part clears bits and sets none, so each word is erased first. */
        command(ERASE | i, 0, 0);
        command(WRITE | i, (uint16_t)(image[2 * i] | image[2 * i + 1] << 8), 16);
    }
    command(DISABLE, 0, 0);
    return 0;
}

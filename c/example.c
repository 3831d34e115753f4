/*
 * Document 01's example image, asked through include/liskobran.h: accepted, with the points of its pair and the listings
 * of its cores and the ages of its chain; damaged as in "Numbers to test against", refused with the number and at the
 * place given there; and no image at all, said by a null pointer, refused as the empty one. Ends with status 0 where all
 * is as the document says.
 */
#include <stdio.h>
#include <string.h>

#include "liskobran.h"

static int wrong = 0;

static void expect_read(const char *what, const uint8_t *image, size_t length, uint32_t number, uint64_t place)
{
    LiskobranAnswer answer = liskobran_read(image, length);
    if (answer.number != number || answer.place != place) {
        printf("%s: number %lu, place %llu; document 01: number %lu, place %llu\n", what, (unsigned long)answer.number,
               (unsigned long long)answer.place, (unsigned long)number, (unsigned long long)place);
        wrong = 1;
    }
}

static void expect_points(const uint8_t *image, size_t length, uint64_t writer, uint64_t reader, uint64_t n,
                          uint32_t number, uint64_t publishing, uint64_t reading)
{
    LiskobranPoints answer = liskobran_points(image, length, writer, reader, n);
    if (answer.number != number || answer.place != 0 || answer.publishing != publishing || answer.reading != reading) {
        printf("points %llu %llu %llu: number %lu, place %llu, publishing %llu, reading %llu\n",
               (unsigned long long)writer, (unsigned long long)reader, (unsigned long long)n,
               (unsigned long)answer.number, (unsigned long long)answer.place,
               (unsigned long long)answer.publishing, (unsigned long long)answer.reading);
        wrong = 1;
    }
}

/* The bytes that a lent buffer holds where the listing does not reach. */
#define HELD 0xa5

/* Lends a buffer of so much room, of which the expected listing takes the first bytes. */
static void expect_listing(const uint8_t *image, size_t length, uint64_t core, size_t room, uint32_t number,
                           const uint8_t *listing, size_t bytes)
{
    uint8_t buffer[32], expected[32];
    memset(buffer, HELD, sizeof buffer);
    memset(expected, HELD, sizeof expected);
    memcpy(expected, listing, bytes);
    LiskobranListing answer = liskobran_listing(image, length, core, buffer, room);
    if (answer.number != number || answer.place != 0 || answer.bytes != bytes ||
        memcmp(buffer, expected, sizeof buffer) != 0) {
        printf("listing of core %llu in %llu bytes: number %lu, place %llu, bytes %llu:", (unsigned long long)core,
               (unsigned long long)room, (unsigned long)answer.number, (unsigned long long)answer.place,
               (unsigned long long)answer.bytes);
        for (size_t byte = 0; byte < sizeof buffer; byte++) {
            printf(" %02x", (unsigned)buffer[byte]);
        }
        printf("\n");
        wrong = 1;
    }
}

static void listings(const uint8_t *image)
{
    /* W0 at 0 and 4; R0:1 at 0 and 5. */
    static const uint8_t core_0[17] = {0x00, 0x00, 0x14, 0x00, 0x00, 0x40, 0x00, 0x00, 0x00,
                                       0x20, 0x00, 0x00, 0x00, 0x80, 0x02, 0x00, 0x00};
    static const uint8_t core_1[17] = {0x20, 0x00, 0x14, 0x00, 0x00, 0x40, 0x00, 0x00, 0x00,
                                       0x30, 0x02, 0x00, 0x00, 0xa0, 0x03, 0x00, 0x20};
    expect_listing(image, 16, 0, 17, 0, core_0, 17);
    expect_listing(image, 16, 0, 32, 0, core_0, 17);
    expect_listing(image, 16, 1, 17, 0, core_1, 17);
    expect_listing(image, 16, 0, 16, 11, core_0, 0);
    expect_listing(image, 16, 1, 0, 11, core_0, 0);
    expect_listing(image, 16, 2, 32, 12, core_0, 0);
    expect_listing(NULL, 0, 0, 32, 1, core_0, 0);
    if (liskobran_listing(image, 16, 0, NULL, 0).number != 11 || liskobran_listing(NULL, 0, 0, NULL, 0).number != 1) {
        printf("no buffer, said by a null pointer, is not one without room\n");
        wrong = 1;
    }
}

static void expect_ages(const uint8_t *image, size_t length, uint64_t chain, uint32_t number, const uint32_t ages[5])
{
    LiskobranAges answer = liskobran_ages(image, length, chain);
    if (answer.number != number || answer.place != 0 || answer.paths != ages[0] || answer.longest != ages[1] ||
        answer.worst != ages[2] || answer.best != ages[3] || answer.jitter != ages[4]) {
        printf("ages of chain %llu: number %lu, place %llu, paths %lu, long %lu, worst %lu, best %lu, jitter %lu\n",
               (unsigned long long)chain, (unsigned long)answer.number, (unsigned long long)answer.place,
               (unsigned long)answer.paths, (unsigned long)answer.longest, (unsigned long)answer.worst,
               (unsigned long)answer.best, (unsigned long)answer.jitter);
        wrong = 1;
    }
}

static void ages(const uint8_t *image)
{
    static const uint32_t chain_0[5] = {2, 1, 13, 12, 1}, none[5] = {0, 0, 0, 0, 0};
    expect_ages(image, 16, 0, 0, chain_0);
    expect_ages(image, 16, 1, 12, none);
    expect_ages(NULL, 0, 0, 1, none);
}

int main(void)
{
    uint8_t image[17] = {0x12, 0x08, 0x08, 0x40, 0x00, 0x01, 0x10, 0x00, 0x05,
                         0x02, 0x00, 0x00, 0x00, 0x01, 0x00, 0x20, 0x00};
    expect_read("the example", image, 16, 0, 0);
    expect_read("the empty image", image, 0, 1, 0);
    expect_read("no image", NULL, 0, 1, 0);
    expect_read("one more byte", image, 17, 9, 128);
    /* Periods 2 and 5. */
    expect_points(image, 16, 0, 1, 1, 0, 4, 5);
    expect_points(image, 16, 0, 1, 2, 0, 10, 10);
    expect_points(image, 16, 1, 0, 1, 13, 0, 0);
    expect_points(image, 16, 0, 2, 1, 12, 0, 0);
    expect_points(image, 16, 0, 1, 1000001, 12, 0, 0);
    expect_points(NULL, 0, 0, 1, 1, 1, 0, 0);
    listings(image);
    ages(image);
    image[15] = 0x21;
    expect_read("last byte 21", image, 16, 9, 127);
    if (!wrong) {
        printf("the example is answered as document 01 says, and its damaged forms are refused\n");
    }
    return wrong;
}

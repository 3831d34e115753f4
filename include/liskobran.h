/*
 * Liskobran from C99 and C++: questions about a table image, answered by libcapi.a (`bash .ci/archive`).
 *
 * Every function may be asked about any bytes; none of them keeps a pointer, writes to the image, allocates or fails
 * in another way than by the numbers below. An image is given by the address of its first byte and its length in bytes.
 * Where the length is 0 the image is empty, and the address may be anything, also a null pointer. Where it is above 0,
 * that many bytes have to be readable at the address, which no function of C can find out: there a null pointer is an
 * error of the caller's, as is every other address without those bytes. A lent buffer is given likewise, by its address
 * and its room in bytes; they have to be writable, and none of them may be a byte of the image.
 *
 * Every answer begins with a number. It is 0 where the question is answered. Else it is one of document 01's numbers
 * that say no, `place` is the bit of the image at which the refusal arose (bit 0 is the top bit of the first byte), and
 * every other field of the answer is 0, and a lent buffer holds what it held. Where the number is 0, the place is 0.
 *
 *   No.  When                                                               Place
 *    1   the image ends inside or before the next field                     start of that field
 *    2   version is not 1                                                   0
 *    3   a count in the head outside its range                              start of the field
 *    4   a task's core is not below the core count                          start of the field
 *    5   period 0 or above 1,000,000                                        start of the field
 *    6   writer is no task of the table                                     start of the field
 *    7   a reader is no task of the table, or is the writer                 start of the field
 *    8   chain length outside 2 to 8; chain task not in the table;          start of the field; for a step,
 *        no label for the step                                              of its second task
 *    9   a fill bit is 1, or bytes follow                                   first such bit
 *   10   hyperperiod above 1,000,000                                        0
 *   11   lent buffer shorter than the listing                               0
 *   12   asked core, chain or task not in the table, or n above 1,000,000   0
 *   13   no label goes from the asked writer to the asked reader            0
 *
 * The first condition to hold decides: 1 to 8 by image order, then 9, then 10, then 12, 13, 11.
 */
#ifndef LISKOBRAN_H
#define LISKOBRAN_H

#include <stddef.h>
#include <stdint.h>

#ifdef __cplusplus
extern "C" {
#endif

/* Of an image: accepted (number 0), or refused. */
typedef struct LiskobranAnswer {
    uint32_t number;
    uint64_t place;
} LiskobranAnswer;

/* The points of a pair of tasks: P(n) and Q(n), in ticks (number 0), or refused. */
typedef struct LiskobranPoints {
    uint32_t number;
    uint64_t place;
    uint64_t publishing;
    uint64_t reading;
} LiskobranPoints;

/* The copy listing of a core: how many bytes of the lent buffer it takes (number 0), or refused. */
typedef struct LiskobranListing {
    uint32_t number;
    uint64_t place;
    uint64_t bytes;
} LiskobranListing;

/* The ages of a chain: how many basic paths, the longest length up to the release of the chain's last task, the worst and
   the best age in ticks up to the valve, which moves one period of that task after its release, and the worst less the
   best (number 0), or refused. */
typedef struct LiskobranAges {
    uint32_t number;
    uint64_t place;
    uint32_t paths;
    uint32_t longest;
    uint32_t worst;
    uint32_t best;
    uint32_t jitter;
} LiskobranAges;

/*
 * The functions of the archive. They are proved of slices, whose address is not a null pointer even where the length is
 * 0. The functions below give them such an address: call those.
 */
LiskobranAnswer liskobran_read_slice(const uint8_t *image, size_t length);
LiskobranPoints liskobran_points_slice(const uint8_t *image, size_t length, uint64_t writer, uint64_t reader,
                                       uint64_t n);
LiskobranListing liskobran_listing_slice(const uint8_t *image, size_t length, uint64_t core, uint8_t *buffer,
                                         size_t room);
LiskobranAges liskobran_ages_slice(const uint8_t *image, size_t length, uint64_t chain);

/* An address for bytes of which there are none, read or lent: nothing is ever read or written there. */
static inline uint8_t *liskobran_no_bytes(void)
{
    static uint8_t none;
    return &none;
}

/* Is the image accepted, or with which number (1 to 10) and at which place is it refused? */
static inline LiskobranAnswer liskobran_read(const uint8_t *image, size_t length)
{
    return liskobran_read_slice(length == 0 ? liskobran_no_bytes() : image, length);
}

/*
 * The publishing point P(n) and the reading point Q(n) of the tasks `writer` and `reader` of the image's table. Refused
 * with the image's own number and place; with 12 where a task is not in the table or n is above 1,000,000; with 13
 * where no label goes from the writer to the reader.
 */
static inline LiskobranPoints liskobran_points(const uint8_t *image, size_t length, uint64_t writer, uint64_t reader,
                                               uint64_t n)
{
    return liskobran_points_slice(length == 0 ? liskobran_no_bytes() : image, length, writer, reader, n);
}

/*
 * The copy listing of a core, into the first bytes of the buffer; those after it keep their values. Refused with the
 * image's own number and place; with 12 where the core is not in the table; with 11 where the listing needs more bytes
 * than the buffer has. No listing needs more than 2,980,000,102.
 */
static inline LiskobranListing liskobran_listing(const uint8_t *image, size_t length, uint64_t core, uint8_t *buffer,
                                                 size_t room)
{
    return liskobran_listing_slice(length == 0 ? liskobran_no_bytes() : image, length, core,
                                   room == 0 ? liskobran_no_bytes() : buffer, room);
}

/*
 * The ages of a chain of the image's table. Refused with the image's own number and place; with 12 where the chain is
 * not in the table.
 */
static inline LiskobranAges liskobran_ages(const uint8_t *image, size_t length, uint64_t chain)
{
    return liskobran_ages_slice(length == 0 ? liskobran_no_bytes() : image, length, chain);
}

#ifdef __cplusplus
}
#endif

#endif

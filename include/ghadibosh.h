/*
 * Ghadibosh: checks the schedule of a ring switch from its graph file.
 *
 * Link target/staticlib/libexports.a, which `./build exports` writes. It needs
 * nothing but the C library's memcpy and memset. The functions keep no state,
 * so threads may call them at the same time, and ask for no heap. A call takes
 * less than 256 KiB of stack.
 *
 * Every function hands back the number of its reply and stores the place and
 * the job that belong to it:
 *
 *   no.  given exactly when                                  *place
 *    0   accepted (checked, read or written)                 number of tasks
 *    1   a record's kind is none of 1 to 4                   byte offset of the kind
 *    2   a record's body runs past the end of the file       same
 *    3   the order of kinds or of rate records goes down     same
 *    4   a field is out of range or names nothing            same
 *    5   one record more than a count allows                 same
 *    6   the file has no task                                0
 *    7   a side of a channel has no cycle                    2 * channel + side
 *    8   two tasks have the same priority                    the later task
 *    9   the report has fewer places than there are tasks    number of tasks
 *   10   a relation does not hold                            relation
 *   11   a task may be late                                  task
 *   12   the load is too high (never: a task is late then)   0
 *   13   a channel starts with more tokens than its size     channel
 *   14   a channel's rates are not balanced                  channel
 *   15   a channel's window is too long to test              channel
 *   16   a channel may run empty                             channel; *job the first job that is short
 *   17   a channel may run over                              channel; *job the first job that finds no room
 *   19   the output is shorter than the file                 length needed
 *
 * 18 is of graphs in memory, which these functions do not take. *job is 0
 * unless the table says otherwise. Tasks, channels, relations and jobs are
 * numbered from 0; side 0 is production, 1 consumption. Where several rows
 * apply, rows 1 to 5 are tested at each record from the front of the file,
 * then 6 to 12 in turn, each with the smallest place, and then 13 to 17
 * channel by channel.
 *
 * What the caller owes. Every pointer is aligned for its type and not null,
 * also where its length is 0, and is valid for its length. What a function
 * writes to (report or out, *place, *job) overlaps neither the file nor one
 * another. Nothing else is asked: any bytes may stand in the file, and any
 * length may be given, also 0.
 */
#ifndef GHADIBOSH_H
#define GHADIBOSH_H

#include <stddef.h>
#include <stdint.h>

#ifdef __cplusplus
extern "C" {
#endif

/* No graph file has more tasks, and no file that is read is longer. */
#define GHADIBOSH_TASKS 32
#define GHADIBOSH_FILE 39104

/*
 * Judges a file: 0 to 17.
 *
 * On 0 the first *place places of the report hold the response time of task
 * 0, 1, 2 and so on, in ticks; later places stay. On any other number the
 * whole report stays. A report of GHADIBOSH_TASKS places is always enough; a
 * shorter one gives 9 where the file has more tasks than it has places.
 */
uint32_t ghadibosh_check(const uint8_t *file, size_t file_len,
                         uint32_t *report, size_t report_len,
                         uint64_t *place, uint64_t *job);

/*
 * Reads a file and writes its graph back: 0 to 7, or 19.
 *
 * On 0 the first file_len bytes of the output are the file again; later bytes
 * stay. On any other number the whole output stays.
 */
uint32_t ghadibosh_rewrite(const uint8_t *file, size_t file_len,
                           uint8_t *out, size_t out_len,
                           uint64_t *place, uint64_t *job);

/* Reads a file and says whether it is one: 0 to 7. */
uint32_t ghadibosh_read(const uint8_t *file, size_t file_len,
                        uint64_t *place, uint64_t *job);

#ifdef __cplusplus
}
#endif

#endif

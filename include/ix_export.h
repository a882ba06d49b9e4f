/* ix_export.h: the exporter of content graphs, for C. See docs/EMBEDDING.md for its use.
 *
 * GUARANTEES. A call that returns uint32_t returns a status (below). It starts no thread, never waits and
 * never ends the process. If memory runs out, the status is IX_MEMORY and each handle keeps its contents; an
 * open store into which a file is read may have more blocks then (ix_store_read_car). If the status isn't
 * IX_DONE, what the other pointers lead to is unchanged.
 *
 * PRECONDITIONS, which the calls can't check:
 *  - A handle is initialized to IX_EMPTY, and only the calls below write it. It isn't copied: using a copy
 *    beside it would free twice. Freeing an empty handle does nothing.
 *  - A handle is passed to one call at a time, and not twice to one call. It may be used in another thread
 *    than it was made in, if the two are ordered by a lock, the start or the join of a thread, or a
 *    sequentially consistent atomic.
 *  - A pointer and the length after it lead to so many bytes that may be read (const) or written, and that
 *    nobody changes meanwhile. No pointer is NULL, even if the length is 0. Every other pointer leads to a
 *    whole object of its type that may be written.
 *  - malloc, realloc and free are those of one allocator, which aligns a block to each power of two up to 16
 *    that divides its size. No call comes from a signal handler, nor from a forked child of a process with
 *    threads.
 *  - A thread that reads a file, a job or a selector, exports, or checks an archive has a stack of IX_STACK bytes (1 MiB). */
#ifndef IX_EXPORT_H
#define IX_EXPORT_H

#include <stdbool.h>
#include <stddef.h>
#include <stdint.h>

#ifdef __cplusplus
extern "C" {
#endif

/* A handle. The calls give it its contents: a store, a job, a result, what was found of an archive, a text or an error. */
typedef struct ix_handle {
  bool is_held;
  void *held;
} ix_handle;

#define IX_EMPTY {false, NULL}

/* The stack, in bytes, that a thread needs for its calls. For input nested to the limit, ix_store_read_car takes up to 312 KiB,
 * ix_job_new and ix_job_from_line 367, ix_selector_from_json 358, ix_export 133 and ix_archive_check 131 (the greatest of what
 * was measured in November 2026 with the kits 13f and 13b, the last with 13b alone, on an Intel Xeon at 2.50 GHz). With less
 * stack such input ends the process by SIGSEGV. */
#define IX_STACK (1 << 20)

/* Statuses. */
enum {
  IX_DONE = 0,    /* success */
  IX_MEMORY = 1,  /* memory ran out; nothing is changed (but see ix_store_read_car) */
  IX_REFUSED = 2, /* the input is rejected; the handle to be filled has the line that says why (IX_TEXT) */
  IX_HANDLE = 3,  /* a handle is empty or has other contents than the call needs; nothing is changed */
  IX_KNOWN = 4,   /* there is already a block under the CID, which stays */
  IX_NO_CID = 5,  /* the bytes are not one CID; nothing is changed */
  IX_RANGE = 6    /* there is no part, skip or flag with the number; nothing is changed */
};

/* Parts of a handle's contents. */
enum {
  IX_ARCHIVE = 0, /* of a result: the CARv1 archive */
  IX_REPORT = 1,  /* of a result: the report, as the program prints it */
  IX_TEXT = 2     /* the text of a selector, or the line of an error */
};

/* Blocks that may be missing from an archive, by the codec of their CIDs: the sum of these, or 0 for none. */
enum { IX_MISSING_RAW = 1, IX_MISSING_DAG_CBOR = 2 };

/* How a job ended. IX_END_WRITE: out of memory for the archive; IX_END_START doesn't occur here. */
enum { IX_END_DONE = 0, IX_END_LIMIT = 1, IX_END_MEMORY = 2, IX_END_WRITE = 3, IX_END_START = 4 };

/* Why a visit was skipped. */
enum { IX_WHY_CODEC = 0, IX_WHY_HASH = 1, IX_WHY_MISSING = 2, IX_WHY_DAMAGED = 3, IX_WHY_MALFORMED = 4 };

/* The counts of a job. */
typedef struct ix_counts {
  uint32_t end;      /* how it ended */
  uint32_t visits;   /* links visited, the roots included */
  uint32_t kept;     /* visits that aren't below what is damaged or skipped */
  uint32_t sections; /* blocks in the archive */
  uint64_t bytes;    /* length of the archive */
  uint64_t skips;    /* number of skipped visits */
} ix_counts;

/* A skipped visit: its number, from 0, and why. */
typedef struct ix_skip {
  uint32_t visit;
  uint32_t why;
} ix_skip;

/* The counts of an archive that is a job's own. */
typedef struct ix_check {
  uint32_t visits;  /* links visited over the archive's sections, the roots included */
  uint32_t missing; /* those of them whose block is missing */
} ix_check;

/* Returns the version of this interface, which grows with each added call and each change of one: 5. From 5 on
 * there are ix_archive_check, ix_check_counts and ix_check_fault; from 4 on ix_job_without and ix_result_known; from 3 on
 * ix_store_read_car adds to an open store, which it replaced before. */
uint32_t ix_version(void);

/* Frees the contents of a handle, which is then empty. The other three are the same call, named by the contents. */
void ix_free(ix_handle *handle);
void ix_store_free(ix_handle *store);
void ix_job_free(ix_handle *job);
void ix_result_free(ix_handle *result);

/* Fills a handle with an open store without blocks, and frees what it had before. IX_DONE, IX_MEMORY. */
uint32_t ix_store_new(ix_handle *store);

/* Adds copies of the blocks of a CARv1 file to an open store. A handle with other contents, a frozen store too, is
 * filled with an open store of the file's blocks. So a store is filled from several files: it has the blocks of all their
 * sections put end to end, after those that were added before, and of blocks with one CID the first, whatever its bytes.
 * IX_REFUSED: the handle has the line that says why, and the store is freed. IX_MEMORY: an open store has its blocks, and
 * maybe those of the file's first sections; the rest follow if the file is read again. IX_DONE, IX_MEMORY, IX_REFUSED. */
uint32_t ix_store_read_car(ix_handle *store, const uint8_t *car, size_t car_length);

/* Adds a copy of a block to an open store under its CID, unless there is one. Whether its hash matches the
 * CID is checked when it is exported. IX_DONE, IX_KNOWN, IX_NO_CID, IX_MEMORY, IX_HANDLE. */
uint32_t ix_store_add(ix_handle *store, const uint8_t *cid, size_t cid_length, const uint8_t *block, size_t block_length);

/* Freezes an open store: from then on it doesn't change and can be shared. IX_DONE, IX_MEMORY, IX_HANDLE. */
uint32_t ix_store_freeze(ix_handle *store);

/* Fills another handle with the same frozen store, for another thread. The store is freed with its last handle.
 * IX_DONE, IX_MEMORY, IX_HANDLE. */
uint32_t ix_store_share(ix_handle *store, ix_handle *other);

/* Fills a handle with the job of a line of a job file: NAME ROOTS LIMIT SELECTOR. IX_DONE, IX_MEMORY, IX_REFUSED. */
uint32_t ix_job_from_line(ix_handle *job, const uint8_t *line, size_t line_length);

/* Fills a handle with the job of these parts: the CIDs of its roots in binary, 1 to 64 of them concatenated, its
 * selector as DAG-CBOR, and its limit of visits, from 1 to 1000000. Its name is "job". IX_DONE, IX_MEMORY, IX_REFUSED. */
uint32_t ix_job_new(ix_handle *job, const uint8_t *roots, size_t roots_length, const uint8_t *selector,
                    size_t selector_length, uint32_t limit);

/* Makes a job expand a block only at its first visit with the same residual selector, and not at every link to it. The
 * archive is the same if both are within the limit, and there are fewer visits. IX_DONE, IX_HANDLE. */
uint32_t ix_job_once(ix_handle *job);

/* Makes a job leave out what its receiver has: a block that is sound in the base, a frozen store, has no section in the
 * archive. Visits and skips are as without a base, and ix_result_known says how many blocks are left out. The job shares the
 * base, whose handle may be freed; a second call replaces the base. Each export looks up every block of its store in the base,
 * and hashes those that it finds there, each at most once for a base. A receiver that reads the archive into a store and then
 * the file of the base has what restores the whole archive, if the job is done and the base has no sound block under a CID
 * that it skips. IX_DONE, IX_MEMORY, IX_HANDLE. */
uint32_t ix_job_without(ix_handle *job, ix_handle *base);

/* Fills a handle with a text: the hex of the selector of a JSON text, which is the last field of a job's line.
 * ix_bytes reads it (IX_TEXT). IX_DONE, IX_MEMORY, IX_REFUSED. */
uint32_t ix_selector_from_json(ix_handle *text, const uint8_t *json, size_t json_length);

/* Exports a job over a frozen store on the caller's thread, and fills a handle with the result. How the job ended is in
 * the result: IX_DONE says that there is one. IX_DONE, IX_MEMORY, IX_HANDLE. */
uint32_t ix_export(ix_handle *store, ix_handle *job, ix_handle *result);

/* Checks that the bytes of a CARv1 file are the own archive of a job, and fills a handle with what is found. They are if the
 * header is the one that is written for the job's roots, each section is sound and as it is written, the job, traversed as
 * after ix_job_once and within its limit, visits the sections in their order and asks for each, and no block is missing but
 * those that may be (IX_MISSING_RAW, IX_MISSING_DAG_CBOR). The sender's blocks aren't needed, and the job's base isn't used.
 * IX_DONE: the archive is accepted, and ix_check_counts has its counts. IX_REFUSED: it is rejected; the handle has the line
 * that says why (ix_fault_line), and ix_check_fault the offset. IX_RANGE: there is no such flag.
 * IX_DONE, IX_MEMORY, IX_REFUSED, IX_RANGE, IX_HANDLE. */
uint32_t ix_archive_check(ix_handle *job, const uint8_t *archive, size_t archive_length, uint32_t missing, ix_handle *found);

/* Gets the counts of an archive that was accepted. IX_DONE, IX_HANDLE. */
uint32_t ix_check_counts(ix_handle *found, ix_check *counts);

/* Gets the offset in bytes at which an archive was rejected: 0 for its header, where its length begins for a section, or the
 * end. With it comes the CID in binary of the block that is missing, or else of the section that is refused, which stays there
 * until the handle is filled or freed. If the header or a section can't be read, or the end is refused for another reason,
 * there is none, and its length is 0. IX_DONE, IX_HANDLE. */
uint32_t ix_check_fault(ix_handle *found, size_t *place, const uint8_t **cid, size_t *length);

/* Gets how the job of a result ended (IX_END_DONE ..). IX_DONE, IX_HANDLE. */
uint32_t ix_result_end(ix_handle *result, uint32_t *end);

/* Gets how the job of a result ended, and its counts. IX_DONE, IX_HANDLE. */
uint32_t ix_result_counts(ix_handle *result, ix_counts *counts);

/* Gets how many sound blocks a result's archive leaves out since the base has them, each counted once: 0 for a job without a
 * base. IX_DONE, IX_HANDLE. */
uint32_t ix_result_known(ix_handle *result, uint32_t *known);

/* Gets the address and length of a result's archive. It may be read, and stays there until the handle is filled or
 * freed. IX_DONE, IX_HANDLE. */
uint32_t ix_result_archive(ix_handle *result, const uint8_t **archive, size_t *length);

/* Gets a skip of a result by its number, from 0, and its CID in binary, which stays there until the handle is filled or freed.
 * IX_DONE, IX_RANGE, IX_HANDLE. */
uint32_t ix_result_skip(ix_handle *result, size_t number, ix_skip *skip, const uint8_t **cid, size_t *length);

/* Gets the address and length of a result's report, as the program prints it for the job alone. IX_DONE, IX_HANDLE. */
uint32_t ix_result_report(ix_handle *result, const uint8_t **report, size_t *length);

/* Gets the address and length of the line of an error, in a handle for which a call returned IX_REFUSED. IX_DONE, IX_HANDLE. */
uint32_t ix_fault_line(ix_handle *handle, const uint8_t **line, size_t *length);

/* Gets the address and length of a part by its number, of any handle's contents. IX_DONE, IX_RANGE, IX_HANDLE. */
uint32_t ix_bytes(ix_handle *handle, uint32_t part, const uint8_t **start, size_t *length);

/* Copies a part of a handle's contents to the front of a buffer, from an offset and as far as there is room, and returns
 * how many bytes. IX_DONE, IX_RANGE, IX_HANDLE. */
uint32_t ix_copy(ix_handle *handle, uint32_t part, size_t from, uint8_t *buffer, size_t buffer_length, size_t *count);

#ifdef __cplusplus
}
#endif

#endif

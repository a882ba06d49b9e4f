/* The calls of the library, with answers from the formats; what nests as deep as it may, on a small stack; sixty-four threads
 * over one store; and each request for memory failed in turn. The linker gives the library the allocator that is below
 * (--wrap), which counts what is held. */
#include <ix_export.h>
#include <pthread.h>
#include <stdatomic.h>
#include <stdio.h>
#include <stdlib.h>
#include <string.h>

#define EXPECT(it) \
  do { \
    if (!(it)) { \
      fprintf(stderr, "tests/embed/calls.c:%d: FAILED: %s\n", __LINE__, #it); \
      exit(1); \
    } \
  } while (0)

_Static_assert(sizeof(ix_handle) == 16 && sizeof(ix_counts) == 32 && sizeof(ix_skip) == 8 && sizeof(ix_check) == 8, "sizes");

/* The CID of the three bytes abc, raw under SHA-256 (FIPS 180-2, B.1), and the archive of it alone (CARv1). */
#define ABC_CID \
  "\x01\x55\x12\x20\xba\x78\x16\xbf\x8f\x01\xcf\xea\x41\x41\x40\xde\x5d\xae\x22\x23\xb0\x03\x61\xa3\x96\x17\x7a\x9c\xb4\x10" \
  "\xff\x61\xf2\x00\x15\xad"
#define HEADER_OF(cid) "\x3a\xa2\x65roots\x81\xd8\x2a\x58\x25\x00" cid "\x67version\x01"
#define HEADER HEADER_OF(ABC_CID)
#define ARCHIVE HEADER "\x27" ABC_CID "abc"
#define LINE "a bafkreif2pall7dybz7vecqka3zo24irdwabwdi4wc55jznaq75q7eaavvu 1 a1612ea0"
#define REPORT_BEHIND " done visits=1 kept=1 sections=1 bytes=99\ntotal jobs=1 done=1 skips=0\n"
#define REPORT "a" REPORT_BEHIND
#define MISSING \
  "a done visits=1 kept=1 sections=0 bytes=59\n  0 missing bafkreif2pall7dybz7vecqka3zo24irdwabwdi4wc55jznaq75q7eaavvu\n" \
  "total jobs=1 done=1 skips=1\n"

/* Selectors as DAG-CBOR: the matcher, and everything over however many links. */
#define MATCHER "\xa1\x61.\xa0"
#define ALL "\xa1\x61R\xa2\x61l\xa1\x64none\xa0\x62:>\xa1\x61" "a\xa1\x61>\xa1\x61@\xa0"

/* A list of a link to abc, and a list of two links to that list, as DAG-CBOR, and their CIDs under SHA-256. */
#define LINK_TO(cid) "\xd8\x2a\x58\x25\x00" cid
#define INNER "\x81" LINK_TO(ABC_CID)
#define INNER_CID \
  "\x01\x71\x12\x20\x21\xe2\x88\xdd\x95\xd2\x0c\x03\x22\x7d\xc4\xc4\x49\xb3\xa8\x88\x5f\xcb\x42\x0f\x61\x41\x35\x14" \
  "\x24\x35\xf3\xb3\x3b\x42\x88\x32"
#define INNER_ARCHIVE HEADER_OF(INNER_CID) "\x4e" INNER_CID INNER "\x27" ABC_CID "abc"
#define OUTER "\x82" LINK_TO(INNER_CID) LINK_TO(INNER_CID)
#define OUTER_CID \
  "\x01\x71\x12\x20\xcd\xa8\xfb\xc6\x6c\xb5\x95\xcf\x39\xe0\xd0\x82\xac\x70\x25\x97\xd7\x54\xbb\x15\x66\x1e\xde\x9c" \
  "\xd7\x04\x55\xee\x41\x96\x72\xa7"
#define OUTER_ARCHIVE HEADER_OF(OUTER_CID) "\x77" OUTER_CID OUTER "\x4e" INNER_CID INNER "\x27" ABC_CID "abc"

/* The archives of the outer list that leave out the inner one and abc, and the inner one alone. */
#define OUTER_ALONE HEADER_OF(OUTER_CID) "\x77" OUTER_CID OUTER
#define OUTER_AND_ABC OUTER_ALONE "\x27" ABC_CID "abc"

/* A file with other bytes under the CID of abc, and with the list of a link to it. */
#define OTHER_FILE HEADER "\x27" ABC_CID "abd" "\x4e" INNER_CID INNER

void *__real_malloc(size_t size);
void *__real_realloc(void *old, size_t size);
void __real_free(void *old);

/* Requests that were made, which of them fails, from 1 on, and how many blocks are held. */
static atomic_ulong requests, refused;
static atomic_long blocks_held;

static bool is_refused(void) { return ++requests == refused; }

void *__wrap_malloc(size_t size) {
  void *got = is_refused() ? NULL : __real_malloc(size);
  if (got) blocks_held++;
  return got;
}

void *__wrap_realloc(void *old, size_t size) {
  void *got = is_refused() ? NULL : __real_realloc(old, size);
  if (got && !old) blocks_held++;
  return got;
}

void __wrap_free(void *old) {
  if (old) blocks_held--;
  __real_free(old);
}

static const uint8_t *bytes(const char *text) { return (const uint8_t *)text; }

static void expect_part(ix_handle *handle, uint32_t part, const char *wanted, size_t length) {
  const uint8_t *start = NULL;
  size_t had = 0;
  EXPECT(ix_bytes(handle, part, &start, &had) == IX_DONE && had == length && !memcmp(start, wanted, length));
  uint8_t buffer[256];
  size_t count = 0, from = 0;
  do {
    EXPECT(ix_copy(handle, part, from, buffer, 7, &count) == IX_DONE && count <= 7);
    EXPECT(from + count <= length && !memcmp(buffer, wanted + from, count));
    from += count;
  } while (count);
  EXPECT(from == length);
}

/* The same by the call that has the name of the part. */
static void expect_named(uint32_t (*call)(ix_handle *, const uint8_t **, size_t *), ix_handle *handle, const char *wanted,
                         size_t length) {
  const uint8_t *start = NULL;
  size_t had = 0;
  EXPECT(call(handle, &start, &had) == IX_DONE && had == length && !memcmp(start, wanted, length));
}

#define EXPECT_NAMED(call, handle, wanted) expect_named(call, handle, wanted, sizeof(wanted) - 1)
#define BYTES(text) bytes(text), sizeof(text) - 1

#define EXPECT_PART(handle, part, wanted) expect_part(handle, part, wanted, sizeof(wanted) - 1)

static ix_handle store_of_abc(void) {
  ix_handle store = IX_EMPTY;
  EXPECT(ix_store_new(&store) == IX_DONE);
  EXPECT(ix_store_add(&store, bytes(ABC_CID), 36, bytes("abc"), 3) == IX_DONE);
  EXPECT(ix_store_add(&store, bytes(ABC_CID), 36, bytes("other"), 5) == IX_KNOWN);
  EXPECT(ix_store_add(&store, bytes(ABC_CID), 35, bytes("abc"), 3) == IX_NO_CID);
  EXPECT(ix_store_add(&store, bytes(ABC_CID "a"), 37, bytes("abc"), 3) == IX_NO_CID);
  return store;
}

static void exports_one_block(void) {
  ix_handle store = store_of_abc(), job = IX_EMPTY, out = IX_EMPTY;
  EXPECT(ix_job_from_line(&job, bytes(LINE), strlen(LINE)) == IX_DONE);
  EXPECT(ix_export(&store, &job, &out) == IX_HANDLE && !out.is_held);
  EXPECT(ix_store_freeze(&store) == IX_DONE && ix_store_freeze(&store) == IX_HANDLE);
  EXPECT(ix_store_add(&store, bytes(ABC_CID), 36, bytes("abc"), 3) == IX_HANDLE);
  EXPECT(ix_export(&store, &job, &out) == IX_DONE);
  EXPECT_PART(&out, IX_ARCHIVE, ARCHIVE);
  EXPECT_PART(&out, IX_REPORT, REPORT);
  ix_counts counts;
  EXPECT(ix_result_counts(&out, &counts) == IX_DONE && counts.end == IX_END_DONE && counts.visits == 1 && counts.kept == 1);
  EXPECT(counts.sections == 1 && counts.bytes == 99 && counts.skips == 0);
  ix_skip skip;
  const uint8_t *cid;
  size_t length;
  EXPECT(ix_result_skip(&out, 0, &skip, &cid, &length) == IX_RANGE);
  EXPECT(ix_bytes(&out, IX_TEXT, &cid, &length) == IX_HANDLE && ix_bytes(&out, 3, &cid, &length) == IX_RANGE);
  uint32_t end = 9;
  EXPECT(ix_result_counts(&job, &counts) == IX_HANDLE && ix_result_end(&job, &end) == IX_HANDLE && end == 9);
  EXPECT(ix_result_end(&out, &end) == IX_DONE && end == IX_END_DONE);
  EXPECT_NAMED(ix_result_archive, &out, ARCHIVE);
  EXPECT_NAMED(ix_result_report, &out, REPORT);
  EXPECT(ix_result_archive(&job, &cid, &length) == IX_HANDLE && ix_result_report(&store, &cid, &length) == IX_HANDLE);
  ix_store_free(&store), ix_job_free(&job), ix_result_free(&out), ix_result_free(&out);
}

/* A job of its parts is that of the line, but for its name; it has so many roots as stand end to end. */
static void exports_a_job_of_parts(void) {
  ix_handle store = store_of_abc(), job = IX_EMPTY, out = IX_EMPTY;
  EXPECT(ix_store_freeze(&store) == IX_DONE);
  EXPECT(ix_job_new(&job, BYTES(ABC_CID), BYTES(MATCHER), 1) == IX_DONE && ix_export(&store, &job, &out) == IX_DONE);
  EXPECT_NAMED(ix_result_archive, &out, ARCHIVE);
  EXPECT_NAMED(ix_result_report, &out, "job" REPORT_BEHIND);
  ix_counts counts;
  EXPECT(ix_job_new(&job, BYTES(ABC_CID ABC_CID INNER_CID), BYTES(ALL), 2) == IX_DONE);
  EXPECT(ix_export(&store, &job, &out) == IX_DONE && ix_result_counts(&out, &counts) == IX_DONE);
  EXPECT(counts.end == IX_END_LIMIT && counts.visits == 2 && counts.sections == 1);
  ix_store_free(&store), ix_job_free(&job), ix_result_free(&out);
}

static void expect_no_job(ix_handle *job, const char *roots, size_t roots_length, const char *selector, size_t selector_length,
                          uint32_t limit, const char *line) {
  EXPECT(ix_job_new(job, bytes(roots), roots_length, bytes(selector), selector_length, limit) == IX_REFUSED);
  expect_named(ix_fault_line, job, line, strlen(line));
}

static void refuses_parts(void) {
  ix_handle job = IX_EMPTY;
  char many[65 * 36];
  for (int i = 0; i < 65; i++) memcpy(many + 36 * i, ABC_CID, 36);
  EXPECT(ix_job_new(&job, bytes(many), 64 * 36, BYTES(MATCHER), 1000000) == IX_DONE);
  expect_no_job(&job, many, 65 * 36, MATCHER, 4, 1, "job: too many roots");
  expect_no_job(&job, "", 0, MATCHER, 4, 1, "job: no root");
  expect_no_job(&job, ABC_CID, 35, MATCHER, 4, 1, "root: truncated");
  expect_no_job(&job, ABC_CID "\x02", 37, MATCHER, 4, 1, "root: version 2");
  expect_no_job(&job, ABC_CID, 36, MATCHER, 3, 1, "selector: truncated at 3");
  expect_no_job(&job, ABC_CID, 36, "\xa0", 1, 1, "selector: wrong keys");
  expect_no_job(&job, ABC_CID, 36, MATCHER, 4, 0, "job: limit");
  expect_no_job(&job, ABC_CID, 36, MATCHER, 4, 1000001, "job: limit");
  ix_free(&job);
}

/* The inner list is linked twice: the job goes into it at each of its arrivals, and once with the same archive. */
static void goes_in_once(void) {
  ix_handle store = store_of_abc(), job = IX_EMPTY, out = IX_EMPTY, text = IX_EMPTY;
  ix_counts counts;
  EXPECT(ix_store_add(&store, BYTES(INNER_CID), BYTES(INNER)) == IX_DONE);
  EXPECT(ix_store_add(&store, BYTES(OUTER_CID), BYTES(OUTER)) == IX_DONE && ix_store_freeze(&store) == IX_DONE);
  EXPECT(ix_job_new(&job, BYTES(OUTER_CID), BYTES(ALL), 100) == IX_DONE && ix_export(&store, &job, &out) == IX_DONE);
  EXPECT_NAMED(ix_result_archive, &out, OUTER_ARCHIVE);
  EXPECT(ix_result_counts(&out, &counts) == IX_DONE && counts.visits == 5 && counts.kept == 5 && counts.sections == 3);
  EXPECT(ix_job_once(&job) == IX_DONE && ix_export(&store, &job, &out) == IX_DONE);
  EXPECT_NAMED(ix_result_archive, &out, OUTER_ARCHIVE);
  EXPECT(ix_result_counts(&out, &counts) == IX_DONE && counts.visits == 4 && counts.kept == 4 && counts.sections == 3);
  EXPECT(ix_job_once(&store) == IX_HANDLE && ix_job_once(&text) == IX_HANDLE && !text.is_held && ix_job_once(&job) == IX_DONE);
  ix_store_free(&store), ix_job_free(&job), ix_result_free(&out);
}

/* A store of one or two files, frozen. */
static ix_handle store_of(const char *first, size_t first_length, const char *second, size_t second_length) {
  ix_handle store = IX_EMPTY;
  EXPECT(ix_store_read_car(&store, bytes(first), first_length) == IX_DONE);
  if (second_length) EXPECT(ix_store_read_car(&store, bytes(second), second_length) == IX_DONE);
  EXPECT(ix_store_freeze(&store) == IX_DONE);
  return store;
}

#define STORE_OF(first, second) store_of(first, sizeof(first) - 1, second, sizeof(second) - 1)

/* Exports the job over the store without the blocks of a base, whose own handle is freed before; the receiver, which reads the
 * difference and then the base's file, has the whole archive. */
static void expect_difference(ix_handle *store, ix_handle *job, ix_handle *whole_job, const char *base_file, size_t base_length,
                              const char *wanted, size_t length, const ix_counts *counts, uint32_t known) {
  ix_handle base = store_of(base_file, base_length, "", 0), out = IX_EMPTY, restored;
  ix_counts had;
  uint32_t count = 9;
  EXPECT(ix_job_without(job, &base) == IX_DONE && base.is_held);
  ix_store_free(&base);
  EXPECT(ix_export(store, job, &out) == IX_DONE);
  expect_named(ix_result_archive, &out, wanted, length);
  EXPECT(ix_result_counts(&out, &had) == IX_DONE && !memcmp(&had, counts, sizeof had));
  EXPECT(ix_result_known(&out, &count) == IX_DONE && count == known);
  restored = store_of(wanted, length, base_file, base_length);
  EXPECT(ix_export(&restored, whole_job, &out) == IX_DONE);
  EXPECT_NAMED(ix_result_archive, &out, OUTER_ARCHIVE);
  EXPECT(ix_result_known(&out, &count) == IX_DONE && count == 0);
  ix_store_free(&restored), ix_result_free(&out);
}

#define EXPECT_DIFFERENCE(job, file, wanted, counts, known) \
  expect_difference(&store, job, &whole_job, BASE(file), wanted, sizeof(wanted) - 1, counts, known)
#define BASE(file) file, sizeof(file) - 1

/* The base has the inner list and abc, sound; or abc damaged, which is then sent again; or nothing of the job. */
static void leaves_out_what_is_known(void) {
  ix_handle store = STORE_OF(OUTER_ARCHIVE, ""), job = IX_EMPTY, whole_job = IX_EMPTY, out = IX_EMPTY, empty = IX_EMPTY;
  ix_handle open = store_of_abc();
  ix_counts counts = {IX_END_DONE, 5, 5, 1, sizeof OUTER_ALONE - 1, 0};
  EXPECT(ix_job_new(&job, BYTES(OUTER_CID), BYTES(ALL), 100) == IX_DONE);
  EXPECT(ix_job_new(&whole_job, BYTES(OUTER_CID), BYTES(ALL), 100) == IX_DONE);
  EXPECT_DIFFERENCE(&job, INNER_ARCHIVE, OUTER_ALONE, &counts, 2);
  EXPECT(ix_export(&store, &job, &out) == IX_DONE);
  EXPECT_PART(&out, IX_REPORT, "job done visits=5 kept=5 sections=1 bytes=179 known=2\ntotal jobs=1 done=1 skips=0\n");
  EXPECT(ix_job_without(&job, &open) == IX_HANDLE && ix_job_without(&job, &empty) == IX_HANDLE && !empty.is_held);
  EXPECT(ix_job_without(&job, &whole_job) == IX_HANDLE && ix_job_without(&empty, &store) == IX_HANDLE && !empty.is_held);
  EXPECT(ix_job_without(&open, &store) == IX_HANDLE && ix_job_without(&out, &store) == IX_HANDLE);
  EXPECT(ix_job_once(&job) == IX_DONE && ix_export(&store, &job, &out) == IX_DONE);
  EXPECT_NAMED(ix_result_archive, &out, OUTER_ALONE);
  EXPECT(ix_result_counts(&out, &counts) == IX_DONE && counts.visits == 4 && counts.kept == 4 && counts.sections == 1);
  EXPECT(ix_job_new(&job, BYTES(OUTER_CID), BYTES(ALL), 100) == IX_DONE);
  counts = (ix_counts){IX_END_DONE, 5, 5, 2, sizeof OUTER_AND_ABC - 1, 0};
  EXPECT_DIFFERENCE(&job, OTHER_FILE, OUTER_AND_ABC, &counts, 1);
  counts = (ix_counts){IX_END_DONE, 5, 5, 3, sizeof OUTER_ARCHIVE - 1, 0};
  EXPECT_DIFFERENCE(&job, HEADER, OUTER_ARCHIVE, &counts, 0);
  ix_store_free(&store), ix_store_free(&open), ix_job_free(&job), ix_job_free(&whole_job), ix_result_free(&out);
}

/* A store of two files has the blocks of both, and of the CID that both have the copy of the first. So the list's link leads to
 * abc, or to a damaged block where the files come in the other order. */
static void fills_a_store_from_files(void) {
  ix_handle store = IX_EMPTY, job = IX_EMPTY, out = IX_EMPTY;
  ix_counts counts;
  EXPECT(ix_job_new(&job, BYTES(INNER_CID), BYTES(ALL), 9) == IX_DONE);
  EXPECT(ix_store_read_car(&store, BYTES(ARCHIVE)) == IX_DONE && ix_store_read_car(&store, BYTES(OTHER_FILE)) == IX_DONE);
  EXPECT(ix_store_freeze(&store) == IX_DONE && ix_export(&store, &job, &out) == IX_DONE);
  EXPECT_NAMED(ix_result_archive, &out, INNER_ARCHIVE);
  EXPECT(ix_store_read_car(&store, BYTES(OTHER_FILE)) == IX_DONE && ix_store_read_car(&store, BYTES(ARCHIVE)) == IX_DONE);
  EXPECT(ix_store_add(&store, BYTES(ABC_CID), BYTES("abc")) == IX_KNOWN);
  EXPECT(ix_store_freeze(&store) == IX_DONE && ix_export(&store, &job, &out) == IX_DONE);
  EXPECT(ix_result_counts(&out, &counts) == IX_DONE && counts.sections == 1 && counts.skips == 1);
  ix_free(&store), store = store_of_abc();
  EXPECT(ix_store_read_car(&store, BYTES(OTHER_FILE)) == IX_DONE && ix_store_freeze(&store) == IX_DONE);
  EXPECT(ix_export(&store, &job, &out) == IX_DONE);
  EXPECT_NAMED(ix_result_archive, &out, INNER_ARCHIVE);
  EXPECT(ix_store_read_car(&store, BYTES(ARCHIVE)) == IX_DONE && ix_export(&store, &job, &out) == IX_HANDLE);
  EXPECT(ix_store_read_car(&store, BYTES(OTHER_FILE "\x27")) == IX_REFUSED);
  EXPECT_NAMED(ix_fault_line, &store, "blocks: truncated at 178");
  EXPECT(ix_store_add(&store, BYTES(ABC_CID), BYTES("abc")) == IX_HANDLE);
  ix_free(&store), ix_free(&job), ix_free(&out);
}

static void expect_found(ix_handle *job, const char *archive, size_t length, uint32_t missing, uint32_t visits,
                         uint32_t lacked) {
  ix_handle found = IX_EMPTY;
  ix_check counts;
  EXPECT(ix_archive_check(job, bytes(archive), length, missing, &found) == IX_DONE && job->is_held);
  EXPECT(ix_check_counts(&found, &counts) == IX_DONE && counts.visits == visits && counts.missing == lacked);
  ix_free(&found);
}

static void expect_rejected(ix_handle *job, const char *archive, size_t length, uint32_t missing, size_t place, const char *cid,
                            const char *line) {
  ix_handle found = IX_EMPTY;
  const uint8_t *start = NULL;
  size_t at = 0, had = 1, wanted = *cid ? 36 : 0;
  EXPECT(ix_archive_check(job, bytes(archive), length, missing, &found) == IX_REFUSED && job->is_held);
  EXPECT(ix_check_fault(&found, &at, &start, &had) == IX_DONE && at == place && had == wanted && !memcmp(start, cid, wanted));
  expect_named(ix_fault_line, &found, line, strlen(line));
  expect_part(&found, IX_TEXT, line, strlen(line));
  ix_free(&found);
}

#define EXPECT_FOUND(job, archive, ...) expect_found(job, archive, sizeof(archive) - 1, __VA_ARGS__)
#define EXPECT_REJECTED(job, archive, ...) expect_rejected(job, archive, sizeof(archive) - 1, __VA_ARGS__)

/* The archive of the outer list with its last two sections swapped, and with abc damaged. */
#define OUTER_SWAPPED OUTER_AND_ABC "\x4e" INNER_CID INNER
#define OUTER_AND_INNER OUTER_ALONE "\x4e" INNER_CID INNER
#define OUTER_DAMAGED OUTER_AND_INNER "\x27" ABC_CID "abd"

/* An archive is checked against its job alone: accepted, or rejected with its offset and the CID that is missing or refused. */
static void checks_archives(void) {
  ix_handle job = IX_EMPTY, store = store_of_abc(), found = IX_EMPTY;
  const uint8_t *start;
  size_t at, length;
  ix_check counts;
  enum { OUTER_END = sizeof OUTER_ALONE - 1, INNER_END = sizeof OUTER_AND_INNER - 1 };
  EXPECT(ix_job_new(&job, BYTES(OUTER_CID), BYTES(ALL), 100) == IX_DONE);
  EXPECT_FOUND(&job, OUTER_ARCHIVE, 0, 4, 0);
  EXPECT_REJECTED(&job, OUTER_SWAPPED, 0, OUTER_END, INNER_CID, "archive: refused: a block is missing at 179");
  EXPECT_REJECTED(&job, OUTER_SWAPPED, IX_MISSING_RAW, OUTER_END, INNER_CID, "archive: refused: a block is missing at 179");
  EXPECT_REJECTED(&job, OUTER_SWAPPED, IX_MISSING_DAG_CBOR, OUTER_END, ABC_CID, "archive: refused: not asked for at 179");
  EXPECT_REJECTED(&job, OUTER_DAMAGED, IX_MISSING_RAW, INNER_END, ABC_CID, "archive: refused: damaged at 258");
  EXPECT_REJECTED(&job, OUTER_AND_INNER, 0, INNER_END, ABC_CID, "archive: unfinished: a block is missing at 258");
  EXPECT_REJECTED(&job, OUTER_AND_INNER, 2, INNER_END, ABC_CID, "archive: unfinished: a block is missing at 258");
  EXPECT_FOUND(&job, OUTER_AND_INNER, IX_MISSING_RAW, 4, 1);
  EXPECT_FOUND(&job, OUTER_ALONE, IX_MISSING_RAW + IX_MISSING_DAG_CBOR, 3, 2);
  expect_rejected(&job, OUTER_ARCHIVE, sizeof OUTER_ARCHIVE - 2, 0, INNER_END, "", "archive: section: truncated at 258");
  EXPECT_REJECTED(&job, INNER_ARCHIVE, 0, 0, "", "archive: another header at 0");
  EXPECT_REJECTED(&job, "", 0, 0, "", "archive: header: truncated at 0");
  EXPECT(ix_job_new(&job, BYTES(OUTER_CID), BYTES(ALL), 3) == IX_DONE);
  EXPECT(ix_archive_check(&job, BYTES(OUTER_ARCHIVE), 0, &found) == IX_REFUSED);
  EXPECT(ix_check_counts(&found, &counts) == IX_HANDLE);
  EXPECT(ix_archive_check(&store, BYTES(OUTER_ARCHIVE), 0, &found) == IX_HANDLE);
  EXPECT(ix_archive_check(&job, BYTES(OUTER_ARCHIVE), 4, &found) == IX_RANGE);
  EXPECT(ix_check_fault(&found, &at, &start, &length) == IX_DONE && ix_export(&store, &found, &job) == IX_HANDLE);
  ix_free(&job);
  EXPECT(ix_archive_check(&job, BYTES(OUTER_ARCHIVE), 0, &found) == IX_HANDLE && found.is_held);
  ix_free(&store), ix_free(&found);
}

static void tells_a_skip(void) {
  ix_handle store = IX_EMPTY, job = IX_EMPTY, out = IX_EMPTY;
  EXPECT(ix_store_new(&store) == IX_DONE && ix_store_freeze(&store) == IX_DONE);
  EXPECT(ix_job_from_line(&job, bytes(LINE "\n"), strlen(LINE) + 1) == IX_DONE && ix_export(&store, &job, &out) == IX_DONE);
  EXPECT_PART(&out, IX_ARCHIVE, HEADER);
  EXPECT_PART(&out, IX_REPORT, MISSING);
  ix_counts counts;
  ix_skip skip;
  const uint8_t *cid;
  size_t length;
  EXPECT(ix_result_counts(&out, &counts) == IX_DONE && counts.sections == 0 && counts.bytes == 59 && counts.skips == 1);
  EXPECT(ix_result_skip(&out, 0, &skip, &cid, &length) == IX_DONE && skip.visit == 0 && skip.why == IX_WHY_MISSING);
  EXPECT(length == 36 && !memcmp(cid, ABC_CID, 36) && ix_result_skip(&out, 1, &skip, &cid, &length) == IX_RANGE);
  ix_free(&store), ix_free(&job), ix_free(&out);
}

static void tells_refusals(void) {
  ix_handle handle = IX_EMPTY, other = IX_EMPTY;
  EXPECT(ix_store_read_car(&handle, bytes(""), 0) == IX_REFUSED);
  EXPECT_PART(&handle, IX_TEXT, "blocks: truncated at 0");
  EXPECT_NAMED(ix_fault_line, &handle, "blocks: truncated at 0");
  EXPECT(ix_job_from_line(&handle, bytes("a"), 1) == IX_REFUSED);
  EXPECT_PART(&handle, IX_TEXT, "jobs: fields at line 1");
  EXPECT(ix_job_from_line(&handle, bytes(""), 0) == IX_REFUSED);
  EXPECT_PART(&handle, IX_TEXT, "jobs: not one job");
  EXPECT(ix_job_from_line(&handle, bytes(LINE "\nb" LINE), 2 * strlen(LINE) + 2) == IX_REFUSED);
  EXPECT_PART(&handle, IX_TEXT, "jobs: not one job");
  EXPECT(ix_selector_from_json(&handle, bytes("{\"R\":{}}"), 8) == IX_REFUSED);
  EXPECT_PART(&handle, IX_TEXT, "selector: wrong keys");
  EXPECT(ix_store_share(&handle, &other) == IX_HANDLE && !other.is_held);
  EXPECT(ix_selector_from_json(&handle, bytes("{\".\":{}}"), 8) == IX_DONE);
  EXPECT_PART(&handle, IX_TEXT, "a1612ea0");
  EXPECT(ix_store_read_car(&handle, bytes(ARCHIVE), sizeof ARCHIVE - 1) == IX_DONE && ix_version() == 5);
  ix_free(&handle);
}

/* What the calls fill that tell something. A call that isn't done leaves it as it was, by marks that no call writes. */
typedef struct told {
  const uint8_t *start;
  size_t length, count;
  uint8_t buffer[8];
  ix_counts counts;
  ix_skip skip;
  ix_check found;
  uint32_t end;
} told;

#define EXPECT_LEFT(wanted, call) \
  do { \
    told it, marks; \
    memset(&it, 0xa5, sizeof it), memset(&marks, 0xa5, sizeof marks); \
    EXPECT((call) == wanted && !memcmp(&it, &marks, sizeof it)); \
  } while (0)

static void expect_no_part(ix_handle *handle, uint32_t part, uint32_t wanted) {
  EXPECT_LEFT(wanted, ix_bytes(handle, part, &it.start, &it.length));
  EXPECT_LEFT(wanted, ix_copy(handle, part, 0, it.buffer, sizeof it.buffer, &it.count));
}

static void expect_no_finding(ix_handle *handle) {
  EXPECT_LEFT(IX_HANDLE, ix_check_counts(handle, &it.found));
  EXPECT_LEFT(IX_HANDLE, ix_check_fault(handle, &it.count, &it.start, &it.length));
}

static void expect_no_result(ix_handle *handle) {
  EXPECT_LEFT(IX_HANDLE, ix_result_end(handle, &it.end));
  EXPECT_LEFT(IX_HANDLE, ix_result_counts(handle, &it.counts));
  EXPECT_LEFT(IX_HANDLE, ix_result_known(handle, &it.end));
  EXPECT_LEFT(IX_HANDLE, ix_result_archive(handle, &it.start, &it.length));
  EXPECT_LEFT(IX_HANDLE, ix_result_report(handle, &it.start, &it.length));
  EXPECT_LEFT(IX_HANDLE, ix_result_skip(handle, 0, &it.skip, &it.start, &it.length));
  expect_no_finding(handle);
  expect_no_part(handle, IX_ARCHIVE, IX_HANDLE), expect_no_part(handle, IX_REPORT, IX_HANDLE);
}

static void expect_no_text(ix_handle *handle) {
  EXPECT_LEFT(IX_HANDLE, ix_fault_line(handle, &it.start, &it.length));
  expect_no_part(handle, IX_TEXT, IX_HANDLE), expect_no_part(handle, IX_TEXT + 1, IX_RANGE);
}

/* Handles that are empty or hold something else than a call is for: whatever its pointers lead to is left, and so is what the
 * handles hold that it was to fill. */
static void leaves_what_it_does_not_fill(void) {
  ix_handle store = store_of_abc(), job = IX_EMPTY, out = IX_EMPTY, text = IX_EMPTY, empty = IX_EMPTY, found = IX_EMPTY;
  EXPECT(ix_selector_from_json(&text, BYTES("{\".\":{}}")) == IX_DONE);
  EXPECT(ix_job_new(&job, BYTES(ABC_CID INNER_CID), BYTES(MATCHER), 9) == IX_DONE);
  expect_no_result(&store), expect_no_text(&store);
  EXPECT(ix_export(&store, &job, &text) == IX_HANDLE && ix_store_share(&store, &text) == IX_HANDLE);
  EXPECT(ix_store_freeze(&store) == IX_DONE);
  EXPECT(ix_export(&store, &empty, &text) == IX_HANDLE && ix_export(&empty, &job, &text) == IX_HANDLE);
  EXPECT(ix_store_share(&job, &text) == IX_HANDLE && ix_store_share(&empty, &text) == IX_HANDLE);
  EXPECT_PART(&text, IX_TEXT, "a1612ea0");
  EXPECT(ix_export(&store, &job, &out) == IX_DONE);
  EXPECT_LEFT(IX_HANDLE, ix_fault_line(&text, &it.start, &it.length));
  expect_no_result(&empty), expect_no_result(&store), expect_no_result(&job), expect_no_result(&text);
  expect_no_text(&empty), expect_no_text(&store), expect_no_text(&job), expect_no_text(&out), expect_no_finding(&out);
  EXPECT(ix_archive_check(&empty, BYTES(ARCHIVE), 0, &text) == IX_HANDLE);
  EXPECT(ix_archive_check(&job, BYTES(ARCHIVE), 4, &text) == IX_RANGE);
  EXPECT_PART(&text, IX_TEXT, "a1612ea0");
  EXPECT(ix_archive_check(&job, BYTES(ARCHIVE), 0, &found) == IX_REFUSED);
  EXPECT_LEFT(IX_HANDLE, ix_check_counts(&found, &it.found));
  EXPECT_LEFT(IX_RANGE, ix_result_skip(&out, 1, &it.skip, &it.start, &it.length));
  EXPECT_LEFT(IX_RANGE, ix_result_skip(&out, SIZE_MAX, &it.skip, &it.start, &it.length));
  expect_no_part(&out, IX_TEXT + 1, IX_RANGE), expect_no_part(&out, UINT32_MAX, IX_RANGE);
  EXPECT(!empty.is_held && ix_job_once(&job) == IX_DONE && ix_export(&store, &job, &text) == IX_DONE);
  ix_store_free(&store), ix_job_free(&job), ix_result_free(&out), ix_result_free(&text), ix_free(&found);
}

/* Sixty-four jobs, each with three roots of the four below, and what is wanted of each, from the formats: the roots that stand
 * for the digits of its number at base 4. The last root's block is damaged. */
enum { JOBS = 64, ROOTS = 3, CHOICES = 4 };

#define DAMAGED_CID \
  "\x01\x55\x12\x20\xba\x78\x16\xbf\x8f\x01\xcf\xea\x41\x41\x40\xde\x5d\xae\x22\x23\xb0\x03\x61\xa3\x96\x17\x7a\x9c\xb4\x10" \
  "\xff\x61\xf2\x00\x15\xae"
#define DAMAGED_TEXT "bafkreif2pall7dybz7vecqka3zo24irdwabwdi4wc55jznaq75q7eaavvy"

static const char *const root_cids[CHOICES] = {ABC_CID, INNER_CID, OUTER_CID, DAMAGED_CID};
static const unsigned root_visits[CHOICES] = {1, 2, 5, 1};

/* The blocks that a root leads to, in the order of their sections: as many as its visits have different ones. */
typedef struct block {
  const char *cid, *bytes;
  size_t length;
} block;

static const block abc_block = {ABC_CID, "abc", 3};
static const block inner_block = {INNER_CID, INNER, sizeof INNER - 1};
static const block outer_block = {OUTER_CID, OUTER, sizeof OUTER - 1};
static const block *const reached[CHOICES][ROOTS] = {
    {&abc_block}, {&inner_block, &abc_block}, {&outer_block, &inner_block, &abc_block}, {NULL}};

typedef struct wanted {
  char roots[ROOTS * 36], archive[1024], report[1024];
  size_t archive_length, report_length;
  ix_counts counts;
} wanted;

static void append(wanted *it, const char *bytes, size_t length) {
  EXPECT(it->archive_length + length <= sizeof it->archive);
  memcpy(it->archive + it->archive_length, bytes, length);
  it->archive_length += length;
}

/* Appends a section, unless it is there. */
static void append_section(wanted *it, const block *block) {
  char section[256];
  size_t length = 36 + block->length;
  section[0] = (char)length;
  memcpy(section + 1, block->cid, 36), memcpy(section + 37, block->bytes, block->length);
  for (size_t at = 0; at + length < it->archive_length; at++)
    if (!memcmp(it->archive + at, section, length + 1)) return;
  append(it, section, length + 1);
  it->counts.sections++;
}

static wanted wanted_of(unsigned number) {
  wanted it = {.counts = {.end = IX_END_DONE}};
  char skips[512] = "";
  append(&it, "\x8c\x01\xa2\x65roots\x83", 10);
  for (unsigned i = 0, rest = number; i < ROOTS; i++, rest /= CHOICES) {
    const char *cid = root_cids[rest % CHOICES];
    memcpy(it.roots + 36 * i, cid, 36);
    append(&it, "\xd8\x2a\x58\x25\x00", 5), append(&it, cid, 36);
  }
  append(&it, "\x67version\x01", 9);
  for (unsigned i = 0, rest = number; i < ROOTS; i++, rest /= CHOICES) {
    for (unsigned at = 0; at < ROOTS && reached[rest % CHOICES][at]; at++) append_section(&it, reached[rest % CHOICES][at]);
    if (rest % CHOICES == CHOICES - 1) {
      size_t length = strlen(skips);
      snprintf(skips + length, sizeof skips - length, "  %u damaged " DAMAGED_TEXT "\n", it.counts.visits);
      it.counts.skips++;
    }
    it.counts.visits += root_visits[rest % CHOICES];
  }
  it.counts.kept = it.counts.visits, it.counts.bytes = it.archive_length;
  ix_counts *c = &it.counts;
  it.report_length = (size_t)snprintf(
      it.report, sizeof it.report, "job done visits=%u kept=%u sections=%u bytes=%u\n%stotal jobs=1 done=1 skips=%u\n", c->visits,
      c->kept, c->sections, (unsigned)c->bytes, skips, (unsigned)c->skips);
  return it;
}

static void expect_result(ix_handle *out, const wanted *it) {
  ix_counts counts;
  ix_skip skip;
  const uint8_t *cid;
  size_t length;
  expect_named(ix_result_archive, out, it->archive, it->archive_length);
  expect_named(ix_result_report, out, it->report, it->report_length);
  EXPECT(ix_result_counts(out, &counts) == IX_DONE && !memcmp(&counts, &it->counts, sizeof counts));
  for (size_t i = 0; i < counts.skips; i++) {
    EXPECT(ix_result_skip(out, i, &skip, &cid, &length) == IX_DONE && skip.why == IX_WHY_DAMAGED && skip.visit < counts.visits);
    EXPECT(length == 36 && !memcmp(cid, DAMAGED_CID, 36));
  }
  EXPECT(ix_result_skip(out, counts.skips, &skip, &cid, &length) == IX_RANGE);
}

static ix_handle store_of_four(void) {
  ix_handle store = store_of_abc();
  EXPECT(ix_store_add(&store, BYTES(INNER_CID), BYTES(INNER)) == IX_DONE);
  EXPECT(ix_store_add(&store, BYTES(OUTER_CID), BYTES(OUTER)) == IX_DONE);
  EXPECT(ix_store_add(&store, BYTES(DAMAGED_CID), bytes("abd"), 3) == IX_DONE && ix_store_freeze(&store) == IX_DONE);
  return store;
}

static ix_handle job_of(const wanted *it) {
  ix_handle job = IX_EMPTY;
  EXPECT(ix_job_new(&job, bytes(it->roots), sizeof it->roots, BYTES(ALL), 100) == IX_DONE);
  return job;
}

/* What nests as deep as it may: 512 lists and maps in a block, in the header of a file, in a selector's block and in JSON, and
 * 128 selectors, of which each but the matcher inside takes two maps. */
enum { LEVELS = 512, SELECTORS = 128 };

#define FIELD "\xa1\x61\x66\xa1\x62\x66>\xa1\x61x"
#define FIELD_HEX "a16166a162663ea16178"
#define FIELD_JSON "{\"f\":{\"f>\":{\"x\":"

/* 512 lists in one another round a link to abc. */
#define DEEP_CID \
  "\x01\x71\x12\x20\xc8\xfc\x9d\x91\x2a\x03\x64\xdd\xa3\xb3\x07\x49\xe6\x0c\xb8\x6d\x57\xdc\x04\x67\x3d\x32\x17\xc0" \
  "\x50\x38\xc2\x0a\xc8\xf5\x72\x7d"

typedef struct text {
  char bytes[8192];
  size_t length;
} text;

static void add(text *it, const char *bytes, size_t length) {
  EXPECT(it->length + length <= sizeof it->bytes);
  memcpy(it->bytes + it->length, bytes, length);
  it->length += length;
}

/* Adds so many of one text, what is inside, and as many of another. */
static void add_nested(text *it, unsigned count, const char *open, const char *inside, size_t length, const char *close) {
  for (unsigned i = 0; i < count; i++) add(it, open, strlen(open));
  add(it, inside, length);
  for (unsigned i = 0; i < count; i++) add(it, close, strlen(close));
}

#define ADD_NESTED(it, count, open, inside, close) add_nested(it, count, open, inside, sizeof(inside) - 1, close)
#define TEXT(it) bytes((it).bytes), (it).length

static void does_nothing(void) {}

/* A file of a header with a key that says nothing, under which so many lists and maps nest, the header's map included. */
static uint32_t read_header(ix_handle *store, unsigned levels) {
  static text file;
  static const char ends[] = "\x65roots\x80\x67version\x01";
  size_t length = 3 + (levels - 1) + sizeof ends - 1;
  file.length = 0;
  add(&file, (char[]){(char)(length % 128 + 128), (char)(length / 128)}, 2), add(&file, "\xa3\x61x", 3);
  ADD_NESTED(&file, levels - 2, "\x81", "\x80", ""), add(&file, ends, sizeof ends - 1);
  return ix_store_read_car(store, TEXT(file));
}

static void reads_a_deep_header(void) {
  ix_handle store = IX_EMPTY;
  EXPECT(read_header(&store, LEVELS) == IX_DONE && read_header(&store, LEVELS + 1) == IX_REFUSED);
  ix_free(&store);
}

static void makes_a_deep_job(void) {
  static text deep, lists, more;
  ix_handle job = IX_EMPTY;
  deep.length = lists.length = more.length = 0;
  ADD_NESTED(&deep, SELECTORS - 1, FIELD, MATCHER, "");
  ADD_NESTED(&lists, LEVELS - 1, "\x81", "\x80", ""), ADD_NESTED(&more, LEVELS, "\x81", "\x80", "");
  EXPECT(ix_job_new(&job, BYTES(ABC_CID), TEXT(deep), 1) == IX_DONE);
  expect_no_job(&job, ABC_CID, 36, lists.bytes, lists.length, 1, "selector: no map where a selector should stand");
  expect_no_job(&job, ABC_CID, 36, more.bytes, more.length, 1, "selector: nested too deep at 512");
  ix_free(&job);
}

static void reads_a_deep_line(void) {
  static const char front[] = "a bafkreif2pall7dybz7vecqka3zo24irdwabwdi4wc55jznaq75q7eaavvu 1 ";
  static text line;
  ix_handle job = IX_EMPTY;
  line.length = 0, add(&line, front, sizeof front - 1), ADD_NESTED(&line, SELECTORS - 1, FIELD_HEX, "a1612ea0", "");
  EXPECT(ix_job_from_line(&job, TEXT(line)) == IX_DONE);
  line.length = sizeof front - 1, ADD_NESTED(&line, LEVELS - 1, "81", "80", "");
  EXPECT(ix_job_from_line(&job, TEXT(line)) == IX_REFUSED);
  EXPECT_PART(&job, IX_TEXT, "jobs: selector at line 1");
  ix_free(&job);
}

static void reads_deep_json(void) {
  static text deep, wanted;
  ix_handle handle = IX_EMPTY;
  const uint8_t *hex = NULL;
  size_t length = 0;
  deep.length = wanted.length = 0;
  ADD_NESTED(&deep, SELECTORS - 1, FIELD_JSON, "{\".\":{}}", "}}}"), ADD_NESTED(&wanted, SELECTORS - 1, FIELD_HEX, "a1612ea0", "");
  EXPECT(ix_selector_from_json(&handle, TEXT(deep)) == IX_DONE && ix_bytes(&handle, IX_TEXT, &hex, &length) == IX_DONE);
  EXPECT(length == wanted.length && !memcmp(hex, wanted.bytes, length));
  deep.length = 0, ADD_NESTED(&deep, LEVELS, "[", "", "]");
  EXPECT(ix_selector_from_json(&handle, TEXT(deep)) == IX_REFUSED);
  EXPECT_NAMED(ix_fault_line, &handle, "selector: no map where a selector should stand");
  ix_free(&handle);
}

static void exports_a_deep_block(void) {
  static text deep;
  ix_handle store = store_of_abc(), job = IX_EMPTY, out = IX_EMPTY;
  ix_counts counts;
  deep.length = 0, ADD_NESTED(&deep, LEVELS, "\x81", LINK_TO(ABC_CID), "");
  EXPECT(ix_store_add(&store, BYTES(DEEP_CID), TEXT(deep)) == IX_DONE && ix_store_freeze(&store) == IX_DONE);
  EXPECT(ix_job_new(&job, BYTES(DEEP_CID), BYTES(ALL), 9) == IX_DONE && ix_export(&store, &job, &out) == IX_DONE);
  EXPECT(ix_result_counts(&out, &counts) == IX_DONE && counts.end == IX_END_DONE && counts.sections == 2);
  ix_free(&store), ix_free(&job), ix_free(&out);
}

static void checks_a_deep_archive(void) {
  static text file;
  static const char ends[] = LINK_TO(ABC_CID);
  size_t length = 36 + LEVELS + sizeof ends - 1;
  ix_handle job = IX_EMPTY, found = IX_EMPTY;
  ix_check counts;
  file.length = 0, add(&file, HEADER_OF(DEEP_CID), sizeof HEADER_OF(DEEP_CID) - 1);
  add(&file, (char[]){(char)(length % 128 + 128), (char)(length / 128)}, 2), add(&file, DEEP_CID, 36);
  ADD_NESTED(&file, LEVELS, "\x81", LINK_TO(ABC_CID), ""), add(&file, "\x27" ABC_CID "abc", 40);
  EXPECT(ix_job_new(&job, BYTES(DEEP_CID), BYTES(ALL), 9) == IX_DONE);
  EXPECT(ix_archive_check(&job, TEXT(file), 0, &found) == IX_DONE);
  EXPECT(ix_check_counts(&found, &counts) == IX_DONE && counts.visits == 2 && counts.missing == 0);
  ix_free(&job), ix_free(&found);
}

static const struct deep {
  const char *call;
  void (*run)(void);
} deep[] = {{"nothing", does_nothing},
            {"ix_store_read_car", reads_a_deep_header},
            {"ix_job_new", makes_a_deep_job},
            {"ix_job_from_line", reads_a_deep_line},
            {"ix_selector_from_json", reads_deep_json},
            {"ix_export", exports_a_deep_block},
            {"ix_archive_check", checks_a_deep_archive}};

enum { DEEP = sizeof deep / sizeof *deep };

static void *run_deep(void *given) {
  ((const struct deep *)given)->run();
  return NULL;
}

/* Each on a thread with the stack that the header asks for. */
static void nests_on_a_small_stack(void) {
  pthread_t thread;
  pthread_attr_t small;
  EXPECT(!pthread_attr_init(&small) && !pthread_attr_setstacksize(&small, IX_STACK));
  for (unsigned i = 0; i < DEEP; i++)
    EXPECT(!pthread_create(&thread, &small, run_deep, (void *)&deep[i]) && !pthread_join(thread, NULL));
  pthread_attr_destroy(&small);
}

/* Prints how much of its stack each takes, in KiB: what isn't as it was painted. */
static void measures_stacks(void) {
  static _Alignas(65536) uint8_t stack[4 << 20];
  pthread_t thread;
  pthread_attr_t painted;
  EXPECT(!pthread_attr_init(&painted) && !pthread_attr_setstack(&painted, stack, sizeof stack));
  for (unsigned i = 0; i < DEEP; i++) {
    size_t left = 0;
    memset(stack, 0xa5, sizeof stack);
    EXPECT(!pthread_create(&thread, &painted, run_deep, (void *)&deep[i]) && !pthread_join(thread, NULL));
    while (left < sizeof stack && stack[left] == 0xa5) left++;
    printf("%-22s %4zu KiB\n", deep[i].call, (sizeof stack - left + 1023) / 1024);
  }
  pthread_attr_destroy(&painted);
}

/* Each job on one thread. */
static void exports_each_job(void) {
  ix_handle store = store_of_four();
  for (unsigned number = 0; number < JOBS; number++) {
    ix_handle out = IX_EMPTY;
    wanted it = wanted_of(number);
    ix_handle job = job_of(&it);
    EXPECT(ix_export(&store, &job, &out) == IX_DONE);
    expect_result(&out, &it);
    ix_job_free(&job), ix_result_free(&out);
  }
  ix_store_free(&store);
}

/* The same by sixty-four threads at once over one store whose blocks nobody has judged, each its own job again and again, with
 * handles of its own and the stack that the header asks for. */
static pthread_barrier_t all_there;

typedef struct worker {
  pthread_t thread;
  unsigned number;
  ix_handle store;
} worker;

static void *export_often(void *given) {
  worker *self = given;
  ix_handle out = IX_EMPTY;
  wanted it = wanted_of(self->number);
  ix_handle job = job_of(&it);
  pthread_barrier_wait(&all_there);
  for (int i = 0; i < 50; i++) {
    EXPECT(ix_export(&self->store, &job, &out) == IX_DONE);
    expect_result(&out, &it);
  }
  ix_store_free(&self->store), ix_job_free(&job), ix_result_free(&out);
  return NULL;
}

static void shares_a_store(void) {
  static worker workers[JOBS];
  pthread_attr_t small;
  EXPECT(!pthread_attr_init(&small) && !pthread_attr_setstacksize(&small, IX_STACK));
  EXPECT(!pthread_barrier_init(&all_there, NULL, JOBS));
  ix_handle store = store_of_four();
  for (unsigned i = 0; i < JOBS; i++) {
    workers[i].number = i, workers[i].store = (ix_handle)IX_EMPTY;
    EXPECT(ix_store_share(&store, &workers[i].store) == IX_DONE);
  }
  ix_store_free(&store);
  for (unsigned i = 0; i < JOBS; i++) EXPECT(!pthread_create(&workers[i].thread, &small, export_often, &workers[i]));
  for (unsigned i = 0; i < JOBS; i++) pthread_join(workers[i].thread, NULL);
  pthread_attr_destroy(&small), pthread_barrier_destroy(&all_there);
}

/* Each call that takes memory once, of which any may find none: it answers IX_MEMORY then, and its handles are as they were. */
static bool any_without_memory(void) {
  ix_handle store = IX_EMPTY, other = IX_EMPTY, job = IX_EMPTY, line = IX_EMPTY, out = IX_EMPTY, text = IX_EMPTY, no = IX_EMPTY;
  ix_handle less = IX_EMPTY, found = IX_EMPTY;
  bool without = false;
#define STEP_TO(wanted, call, handle) \
  do { \
    ix_handle before = handle; \
    uint32_t status = call; \
    EXPECT(status == wanted || (status == IX_MEMORY && before.is_held == handle.is_held && before.held == handle.held)); \
    if (status == IX_MEMORY) { \
      without = true; \
      goto end; \
    } \
  } while (0)
#define STEP(call, handle) STEP_TO(IX_DONE, call, handle)
  STEP(ix_store_read_car(&store, bytes(ARCHIVE), sizeof ARCHIVE - 1), store);
  STEP(ix_store_read_car(&store, BYTES(OTHER_FILE)), store);
  STEP(ix_store_new(&store), store);
  STEP(ix_store_add(&store, bytes(ABC_CID), 36, bytes("abc"), 3), store);
  STEP(ix_store_freeze(&store), store);
  STEP(ix_store_share(&store, &other), other);
  STEP(ix_selector_from_json(&text, bytes("{\".\":{}}"), 8), text);
  STEP(ix_job_from_line(&line, BYTES(LINE)), line);
  STEP(ix_job_new(&job, BYTES(ABC_CID INNER_CID), BYTES(ALL), 9), job);
  STEP(ix_job_new(&job, BYTES(ABC_CID), BYTES(MATCHER), 1), job);
  STEP(ix_job_once(&job), job);
  STEP(ix_job_new(&less, BYTES(ABC_CID), BYTES(MATCHER), 1), less);
  STEP(ix_job_without(&less, &other), less);
  STEP(ix_archive_check(&job, BYTES(ARCHIVE), 0, &found), found);
  STEP_TO(IX_REFUSED, ix_archive_check(&job, BYTES(HEADER), 0, &no), no);
  STEP_TO(IX_REFUSED, ix_archive_check(&job, BYTES(INNER_ARCHIVE), 0, &no), no);
  STEP_TO(IX_REFUSED, ix_store_read_car(&no, bytes(""), 0), no);
  STEP_TO(IX_REFUSED, ix_job_from_line(&no, BYTES("a")), no);
  STEP_TO(IX_REFUSED, ix_job_new(&no, BYTES(ABC_CID), bytes(MATCHER), 3, 1), no);
  STEP_TO(IX_REFUSED, ix_job_new(&no, BYTES(ABC_CID), BYTES(MATCHER), 0), no);
  STEP_TO(IX_REFUSED, ix_selector_from_json(&no, BYTES("{}")), no);
  STEP(ix_export(&other, &less, &out), out);
  uint32_t end, known;
  EXPECT(ix_result_end(&out, &end) == IX_DONE && ix_result_known(&out, &known) == IX_DONE);
  if (end == IX_END_DONE) {
    EXPECT_PART(&out, IX_ARCHIVE, HEADER);
    EXPECT(known == 1);
  } else {
    without = true;
  }
  STEP(ix_export(&other, &line, &out), out);
  STEP(ix_export(&other, &job, &out), out);
  unsigned long made = requests;
  ix_counts counts;
  EXPECT(ix_result_counts(&out, &counts) == IX_DONE);
  if (counts.end == IX_END_MEMORY || counts.end == IX_END_WRITE) {
    without = true;
  } else {
    EXPECT(counts.end == IX_END_DONE);
    EXPECT_PART(&out, IX_ARCHIVE, ARCHIVE);
    EXPECT_NAMED(ix_result_archive, &out, ARCHIVE);
    EXPECT_NAMED(ix_result_report, &out, "job" REPORT_BEHIND);
    EXPECT_NAMED(ix_fault_line, &no, "selector: wrong keys");
  }
  ix_skip skip;
  const uint8_t *cid;
  size_t length;
  EXPECT(ix_result_end(&out, &end) == IX_DONE && end == counts.end);
  EXPECT(ix_result_skip(&out, counts.skips, &skip, &cid, &length) == IX_RANGE && requests == made);
  ix_check check;
  EXPECT(ix_check_counts(&found, &check) == IX_DONE && check.visits == 1 && check.missing == 0 && requests == made);
end:
  made = requests;
  ix_store_free(&store), ix_store_free(&other), ix_job_free(&job), ix_job_free(&line), ix_result_free(&out);
  ix_free(&text), ix_free(&no), ix_job_free(&less), ix_free(&found);
  EXPECT(requests == made);
  return without;
}

/* Each request of these refused in turn, up to the first number that isn't reached, and how many of them a status or an end
 * told of: the others were made up for, as the archive was right. Nothing is held behind any of them. */
static unsigned long refuses_each_request(void) {
  unsigned long number = 0, told = 0;
  do {
    requests = 0;
    refused = ++number;
    bool without = any_without_memory();
    EXPECT(blocks_held == 0 && (!without || requests >= number));
    told += without;
  } while (requests >= number);
  refused = 0;
  return told;
}

/* A word names the one part that is run: calls, threads or memory; with `stack` it measures stacks alone. */
int main(int count, char **words) {
  const char *only = count > 1 ? words[1] : NULL;
  if (!only || !strcmp(only, "calls")) {
    exports_one_block();
    exports_a_job_of_parts();
    refuses_parts();
    goes_in_once();
    leaves_out_what_is_known();
    fills_a_store_from_files();
    checks_archives();
    tells_a_skip();
    tells_refusals();
    leaves_what_it_does_not_fill();
    nests_on_a_small_stack();
    exports_each_job();
    EXPECT(blocks_held == 0);
  }
  if (!only || !strcmp(only, "threads")) {
    shares_a_store();
    EXPECT(blocks_held == 0);
  }
  if (!only || !strcmp(only, "memory")) {
    unsigned long told = refuses_each_request();
    EXPECT(told > 80);
    printf("%lu refused requests\n", told);
  }
  if (only && !strcmp(only, "stack")) measures_stacks();
  return 0;
}

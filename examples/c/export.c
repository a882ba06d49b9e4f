/* Four threads export jobs over one store: usage: export FILE.car.. FILE.jobs FOLDER
 *
 * Each archive is written to FOLDER/NAME.car, and the reports are printed in the order of the jobs. */
#include <ix_export.h>
#include <pthread.h>
#include <stdio.h>
#include <stdlib.h>
#include <string.h>

enum { THREADS = 4, MOST_JOBS = 1000 };

typedef struct job {
  const char *line;
  size_t length;
  ix_handle result;
  uint32_t status;
} job;

typedef struct worker {
  pthread_t thread;
  ix_handle store;
  job *jobs;
  size_t first, count;
} worker;

static void fail(const char *what) {
  fprintf(stderr, "export: %s\n", what);
  exit(2);
}

/* Every fourth job, each on this thread. */
static void *work(void *given) {
  worker *self = given;
  for (size_t i = self->first; i < self->count; i += THREADS) {
    ix_handle wanted = IX_EMPTY;
    job *it = &self->jobs[i];
    it->status = ix_job_from_line(&wanted, (const uint8_t *)it->line, it->length);
    if (it->status == IX_DONE) {
      it->status = ix_export(&self->store, &wanted, &it->result);
      ix_job_free(&wanted);
    } else {
      it->result = wanted; /* the line of the refusal */
    }
  }
  ix_store_free(&self->store);
  return NULL;
}

static char *whole_file(const char *path, size_t *length) {
  FILE *file = fopen(path, "rb");
  if (!file || fseek(file, 0, SEEK_END)) fail(path);
  long end = ftell(file);
  char *bytes = malloc((size_t)end + 1);
  rewind(file);
  if (!bytes || fread(bytes, 1, (size_t)end, file) != (size_t)end) fail(path);
  fclose(file);
  *length = (size_t)end;
  return bytes;
}

/* A call that tells where the bytes of a handle begin. */
typedef uint32_t reader(ix_handle *handle, const uint8_t **start, size_t *length);

/* Prints what a call tells of, without what stands from this word on. */
static void print_bytes(reader *read, ix_handle *handle, FILE *out, const char *until) {
  const uint8_t *start;
  size_t length;
  if (read(handle, &start, &length) != IX_DONE) return;
  size_t shown = length;
  for (size_t i = 0; until && i + strlen(until) <= length; i++)
    if (!memcmp(start + i, until, strlen(until))) shown = i;
  fwrite(start, 1, shown, out);
}

static void write_archive(job *it, const char *folder) {
  char path[4096];
  snprintf(path, sizeof path, "%s/%.*s.car", folder, (int)strcspn(it->line, " "), it->line);
  FILE *file = fopen(path, "wb");
  if (!file) fail(path);
  print_bytes(ix_result_archive, &it->result, file, NULL);
  if (fclose(file)) fail(path);
}

int main(int count, char **words) {
  if (count < 4) fail("usage: export FILE.car.. FILE.jobs FOLDER");
  static job jobs[MOST_JOBS];
  static worker workers[THREADS];
  size_t car_length, list_length, job_count = 0;
  char *list = whole_file(words[count - 2], &list_length);
  list[list_length] = 0;

  ix_handle store = IX_EMPTY;
  for (int i = 1; i < count - 2; i++) {
    char *car = whole_file(words[i], &car_length);
    if (ix_store_read_car(&store, (const uint8_t *)car, car_length) != IX_DONE) {
      print_bytes(ix_fault_line, &store, stderr, NULL);
      fail(" no store");
    }
    free(car);
  }
  if (ix_store_freeze(&store) != IX_DONE) fail("memory");

  for (char *line = strtok(list, "\n"); line; line = strtok(NULL, "\n"))
    if (*line != '#' && job_count < MOST_JOBS) jobs[job_count++] = (job){line, strlen(line), IX_EMPTY, IX_DONE};
  for (size_t i = 0; i < THREADS; i++) {
    workers[i].jobs = jobs, workers[i].first = i, workers[i].count = job_count;
    if (ix_store_share(&store, &workers[i].store) != IX_DONE) fail("memory");
    if (pthread_create(&workers[i].thread, NULL, work, &workers[i])) fail("no thread");
  }
  for (size_t i = 0; i < THREADS; i++) pthread_join(workers[i].thread, NULL);
  ix_store_free(&store);

  int status = 0;
  for (size_t i = 0; i < job_count; i++) {
    if (jobs[i].status == IX_DONE) {
      print_bytes(ix_result_report, &jobs[i].result, stdout, "total ");
      write_archive(&jobs[i], words[count - 1]);
    } else {
      print_bytes(ix_fault_line, &jobs[i].result, stdout, NULL);
      printf(" status %u\n", jobs[i].status);
      status = 2;
    }
    ix_result_free(&jobs[i].result);
  }
  free(list);
  return status;
}

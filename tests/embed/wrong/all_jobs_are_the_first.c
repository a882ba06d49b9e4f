/* rejected by: test calls threads cases c python rust */
/* Every line is taken for the first one, and the roots of every job for those of the first. */
#include <ix_export.h>
#include <pthread.h>
#include <string.h>

uint32_t true_ix_job_from_line(ix_handle *job, const uint8_t *line, size_t length);
uint32_t true_ix_job_new(ix_handle *job, const uint8_t *roots, size_t roots_length, const uint8_t *selector,
                         size_t selector_length, uint32_t limit);

typedef struct first {
  uint8_t bytes[4096];
  size_t length;
} first;

static pthread_mutex_t lock = PTHREAD_MUTEX_INITIALIZER;
static first first_line, first_roots;

/* The bytes that were given first. */
static const first *first_of(first *it, const uint8_t *bytes, size_t length) {
  pthread_mutex_lock(&lock);
  if (!it->length && length <= sizeof it->bytes) {
    memcpy(it->bytes, bytes, length);
    it->length = length;
  }
  pthread_mutex_unlock(&lock);
  return it;
}

uint32_t ix_job_from_line(ix_handle *job, const uint8_t *line, size_t length) {
  const first *it = first_of(&first_line, line, length);
  return true_ix_job_from_line(job, it->bytes, it->length);
}

uint32_t ix_job_new(ix_handle *job, const uint8_t *roots, size_t roots_length, const uint8_t *selector, size_t selector_length,
                    uint32_t limit) {
  const first *it = first_of(&first_roots, roots, roots_length);
  return true_ix_job_new(job, it->bytes, it->length, selector, selector_length, limit);
}

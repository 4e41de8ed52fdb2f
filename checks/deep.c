/* deep FILE: what `reader_run` writes of a file with one stored text (a line with its name, the text, a record separator), from the C library and with buffers that take no
   stack: what is left of the stack is the library's. */
#include "tlsf.h"
#include <inttypes.h>
#include <stdio.h>
#include <string.h>

enum { READ = -1, LISTED = 40 };

static uint8_t file[65536], work[TLSF_WORK_BYTES];
static uint32_t nodes[TLSF_MAX_NODES], signals[TLSF_MAX_SIGNALS];
static const uint8_t *text;
static size_t text_size;

static uint32_t checksum(const uint32_t *words, uint32_t count) {
  uint64_t sum = 0;
  for (uint32_t i = 0; i < count; i++) {
    sum = (sum * 257 + words[i]) % 4294967291u;
  }
  return (uint32_t)sum;
}

/* Calls with so much room lent, and prints the answer. */
static tlsf_answer call(const char *title, int form, size_t work_room, size_t node_room, size_t signal_room) {
  tlsf_answer answer = form == READ ? tlsf_read(text, text_size, work, work_room, nodes, node_room, signals, signal_room)
                                    : tlsf_convert(text, text_size, (uint32_t)form, work, work_room, nodes, node_room, signals, signal_room);
  printf("%s", title);
  if (tlsf_is_refused(answer)) {
    printf("refused %" PRIu32 " %" PRIu32, tlsf_refusal_number(answer), tlsf_refusal_place(answer));
  } else {
    uint32_t n = tlsf_node_count(answer), s = tlsf_signal_count(answer);
    printf("accepted %" PRIu32 " %" PRIu32 " sums %" PRIu32 " %" PRIu32, n, s, checksum(nodes, n), checksum(signals, s));
  }
  return answer;
}

/* With ample room, with a work buffer one byte short, with the room that is due and with one node or one signal less. */
static void tries(const char *title, int form) {
  tlsf_answer answer = call(title, form, TLSF_WORK_BYTES, TLSF_MAX_NODES, TLSF_MAX_SIGNALS);
  size_t n = tlsf_node_count(answer), s = tlsf_signal_count(answer);
  call("; work a byte short ", form, TLSF_WORK_BYTES - 1, TLSF_MAX_NODES, TLSF_MAX_SIGNALS);
  if (!tlsf_is_refused(answer)) {
    call("; room as due ", form, TLSF_WORK_BYTES, n, s);
    call("; a node short ", form, TLSF_WORK_BYTES, n - (n > 0), s);
    call("; a signal short ", form, TLSF_WORK_BYTES, n, s - (s > 0));
  }
  printf("\n");
}

/* The nodes and the signals of a small accepted text. */
static void list(void) {
  tlsf_answer answer = tlsf_read(text, text_size, work, TLSF_WORK_BYTES, nodes, TLSF_MAX_NODES, signals, TLSF_MAX_SIGNALS);
  uint32_t n = tlsf_node_count(answer), s = tlsf_signal_count(answer);
  if (tlsf_is_refused(answer) || n > LISTED) {
    return;
  }
  for (uint32_t i = 0; i < n; i++) {
    printf("%" PRIu32 " %" PRIu32 " %" PRIu32 " %" PRIu32 "\n", i, tlsf_kind(nodes[i]), tlsf_first(nodes[i]), tlsf_second(nodes[i]));
  }
  for (uint32_t i = 0; i < s; i++) {
    uint32_t entry = signals[i];
    printf("signal %" PRIu32 " %d %zu %" PRIu32 " %" PRIu32 "\n", i, tlsf_is_output(entry), tlsf_name_offset(entry), tlsf_bus_index(entry), tlsf_bus_width(entry));
  }
}

int main(int count, char **words) {
  FILE *stream = count == 2 ? fopen(words[1], "rb") : NULL;
  if (!stream) {
    fprintf(stderr, "usage: deep FILE\n");
    return 2;
  }
  size_t size = fread(file, 1, sizeof file, stream);
  fclose(stream);
  const uint8_t *line = memchr(file, '\n', size);
  const uint8_t *end = memchr(file, 30, size);
  if (!line || !end) {
    fprintf(stderr, "deep: %s holds no stored text\n", words[1]);
    return 2;
  }
  text = line + 1;
  text_size = (size_t)(end - text);
  printf("%.*s\n", (int)(line - file), (const char *)file);
  tries("read ", READ);
  tries("form 0 ", 0);
  tries("form 1 ", 1);
  tries("form 2 ", 2);
  list();
  return 0;
}

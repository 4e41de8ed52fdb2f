/* From a TLSF text to its formula to the verdict of a recording, over include/tlsf.h.

   Usage: example TEXT RECORDING [FORM]. Exit status: 0 it holds, 1 it fails, 2 refused, 3 a file cannot be read. */
#include "tlsf.h"

#include <stdio.h>
#include <stdlib.h>

/* What is read: one byte more than the library accepts, so that a longer file is refused and not cut. */
static uint8_t text[TLSF_MAX_TEXT_BYTES + 1];
static uint8_t recording[TLSF_MAX_RECORDING_BYTES + 1];

/* What the library is lent: room for every result. */
static uint8_t work[TLSF_WORK_BYTES];
static uint32_t nodes[TLSF_MAX_NODES];
static uint32_t signals[TLSF_MAX_SIGNALS];
static uint8_t rows[TLSF_MAX_NODES * (TLSF_MAX_POSITIONS / 8)];

static size_t load(const char *name, uint8_t *buffer, size_t room) {
  FILE *file = fopen(name, "rb");
  if (file == NULL) {
    perror(name);
    exit(3);
  }
  size_t size = fread(buffer, 1, room, file);
  if (ferror(file)) {
    perror(name);
    exit(3);
  }
  fclose(file);
  return size;
}

/* A word that is no number names no form, and is refused (21). */
static uint32_t form_of(const char *word) {
  char *end;
  unsigned long form = strtoul(word, &end, 10);
  return *end == '\0' ? (uint32_t)form : UINT32_MAX;
}

static int refused(tlsf_answer answer) {
  uint32_t number = tlsf_refusal_number(answer);
  printf("refused %u %u\n", (unsigned)number, (unsigned)tlsf_refusal_place(answer));
  fprintf(stderr, "%s\n", tlsf_refusal_title(number));
  return 2;
}

/* A signal by its name in the text, a bus bit with its index. */
static void print_signal(size_t text_size, uint32_t entry) {
  size_t offset = tlsf_name_offset(entry);
  fwrite(text + offset, 1, tlsf_name_length(text, text_size, offset), stdout);
  if (tlsf_bus_width(entry) > 0) {
    printf("[%u]", (unsigned)tlsf_bus_index(entry));
  }
}

static void print_formula(size_t text_size, uint32_t number) {
  static const char *const words[] = {"true", "false", "", "!", " && ", " || ", " -> ", " <-> ", "X ", "G ", "F ", " U ", " R ", " W "};
  uint32_t node = nodes[number];
  const char *word = words[tlsf_kind(node)];
  switch (tlsf_kind(node)) {
  case TLSF_TRUE:
  case TLSF_FALSE:
    fputs(word, stdout);
    break;
  case TLSF_SIGNAL:
    print_signal(text_size, signals[tlsf_first(node)]);
    break;
  case TLSF_NOT:
  case TLSF_NEXT:
  case TLSF_GLOBALLY:
  case TLSF_FINALLY:
    fputs(word, stdout);
    print_formula(text_size, tlsf_first(node));
    break;
  default:
    putchar('(');
    print_formula(text_size, tlsf_first(node));
    fputs(word, stdout);
    print_formula(text_size, tlsf_second(node));
    putchar(')');
  }
}

int main(int count, char **words) {
  if (count < 3 || count > 4) {
    fputs("usage: example TEXT RECORDING [FORM]\n", stderr);
    return 3;
  }
  size_t text_size = load(words[1], text, sizeof text);
  size_t recording_size = load(words[2], recording, sizeof recording);
  uint32_t form = TLSF_AS_EXPANDED;
  if (count == 4) {
    form = form_of(words[3]);
  }

  /* From the text to the formula. */
  tlsf_answer answer = tlsf_convert(text, text_size, form, work, sizeof work, nodes, TLSF_MAX_NODES, signals, TLSF_MAX_SIGNALS);
  if (tlsf_is_refused(answer)) {
    return refused(answer);
  }
  uint32_t node_count = tlsf_node_count(answer);
  uint32_t signal_count = tlsf_signal_count(answer);
  printf("accepted %u %u\n", (unsigned)node_count, (unsigned)signal_count);
  for (uint32_t k = 0; k < signal_count; k++) {
    printf("%u %s ", (unsigned)k, tlsf_is_output(signals[k]) ? "output" : "input");
    print_signal(text_size, signals[k]);
    putchar('\n');
  }
  print_formula(text_size, node_count - 1);
  putchar('\n');

  /* How many letters a recording needs: after the last that counts no other does. */
  answer = tlsf_reach(nodes, node_count);
  if (tlsf_is_refused(answer)) {
    return refused(answer);
  }
  if (tlsf_reach_is_bounded(answer)) {
    printf("letters 0 to %u decide\n", (unsigned)tlsf_reach_last(answer));
  } else {
    puts("no number of letters decides");
  }

  /* From the formula to the verdict: the root at position 0. */
  answer = tlsf_evaluate(nodes, node_count, signal_count, recording, recording_size, rows, sizeof rows);
  if (tlsf_is_refused(answer)) {
    return refused(answer);
  }
  int holds = tlsf_row_bit(rows, tlsf_positions(recording), node_count - 1, 0);
  puts(holds ? "holds" : "fails");
  return holds ? 0 : 1;
}

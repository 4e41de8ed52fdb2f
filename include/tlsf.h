/* tlsf.h: the proved TLSF library for C and C++: from a TLSF v1.1 text to the nodes of an LTL formula, its forms, and where they hold in a recorded run.

   Link with crates/tlsf_c/out/libtlsf_c.a, which `./build tlsf_c` makes, for x86-64 Linux; examples/c goes from text to formula to verdict with it.

   Slices. A pointer is followed by the number of its elements, not of its bytes. It is aligned for its elements and not null, also where that number is 0; what a
   call writes overlaps nothing else that it is passed. The proofs rest on that and nothing checks it: everything else, any bytes in any buffer, is checked and
   answered. A result is written to the front of its buffer, and the elements after it are left as they were. A refused call changes no result buffer.

   Memory and threads. The library has no variables of its own, allocates nothing and calls nothing but memcpy and memset: any number of threads may call it at once,
   each with buffers of its own. The stack is not checked: the deepest tables take tlsf_rewrite 1.5 MB of it, the shortest text takes tlsf_convert 0.54 MB, the deepest
   ones take 0.9 MB (1.4 MB in negation form), one that holds 1,335 sets of 256 elements at once takes 1.95 MB, and two such sets for each of 880 names of big operators
   2.9 MB, the most that was made. So a thread that reads texts of strangers wants 4 MB (README.md, 'Stack and time'). */
#ifndef TLSF_H
#define TLSF_H

#include <stddef.h>
#include <stdint.h>

#ifdef __cplusplus
extern "C" {
#endif

/* The library's version, and that of this header. */
#define TLSF_VERSION "0.2.0"

/* Limits. A buffer of the size TLSF_MAX_.. is large enough for every result. */
enum {
  TLSF_WORK_BYTES = 65536,         /* the work buffer's bytes, at least */
  TLSF_MAX_TEXT_BYTES = 32768,     /* a longer text is refused (1) */
  TLSF_MAX_NODES = 8192,           /* the nodes of a table */
  TLSF_MAX_SIGNALS = 255,          /* the entries of a signal list */
  TLSF_MAX_POSITIONS = 2048,       /* the positions of a recording */
  TLSF_MAX_RECORDING_BYTES = 65284 /* its bytes: 4, and 2,048 letters of 255 bits */
};

/* Forms. */
enum {
  TLSF_AS_EXPANDED = 0,   /* nothing shared, nothing simplified */
  TLSF_NEGATION_FORM = 1, /* ! only on signals, no -> and no <-> */
  TLSF_CORE_FORM = 2      /* only true, signal, !, ||, X, U */
};

/* ---- Answers: accepted with two counts, or refused with a number and a place ---- */

/* accepted = nodes * 2^32 + signals; refused = 2^63 + number * 2^32 + place. What each number means, where its place is and how to mend it: docs/REFUSALS.md. */
typedef uint64_t tlsf_answer;

static inline int tlsf_is_refused(tlsf_answer answer) {
  return (int)(answer >> 63);
}

/* Of a refusal: its number, 1 to 23, and its place, a byte's offset in the text or recording, a node's number or a signal's (22). */
static inline uint32_t tlsf_refusal_number(tlsf_answer answer) {
  return (uint32_t)(answer >> 32) & 0x7fffffffu;
}

static inline uint32_t tlsf_refusal_place(tlsf_answer answer) {
  return (uint32_t)(answer & 0xffffffffu);
}

/* The title of a refusal's page in docs/REFUSALS.md, for a message; "refused" for a number that has none. */
static inline const char *tlsf_refusal_title(uint32_t number) {
  static const char *const titles[] = {"refused",
    "The text is too long",
    "What begins here is no token",
    "Too many tokens",
    "A token that cannot stand there",
    "An expression is nested too deep",
    "A name that is not visible",
    "A name that is declared twice",
    "Too many names",
    "A wrong type",
    "Words of an enumeration that do not fit",
    "A value out of range",
    "A set that is too large",
    "A width or an index that does not fit",
    "Not used: TARGET and SEMANTICS may name different models",
    "Too many signals",
    "Too many nodes",
    "The work buffer is too short",
    "A result buffer is too short",
    "A node against the format",
    "A recording against its format",
    "A form that does not exist",
    "A name that cannot be written",
    "A signal was not recorded"};
  return number < sizeof titles / sizeof titles[0] ? titles[number] : titles[0];
}

/* Of an accepted answer: how many nodes and how many signals. */
static inline uint32_t tlsf_node_count(tlsf_answer answer) {
  return (uint32_t)(answer >> 32);
}

static inline uint32_t tlsf_signal_count(tlsf_answer answer) {
  return (uint32_t)(answer & 0xffffffffu);
}

/* Of an accepted answer of tlsf_write_basic: how many bytes. */
static inline uint32_t tlsf_byte_count(tlsf_answer answer) {
  return (uint32_t)(answer >> 32);
}

/* ---- The calls ---- */

/* Reads a text.
     text, text_size      its bytes; any are answered
     work, work_size      TLSF_WORK_BYTES bytes or more, whatever they hold. The first TLSF_WORK_BYTES are zero after every answer, and no other is touched; a
                          shorter buffer is refused (17) and left as it was
     nodes, node_room     receives the formula's nodes in postorder, the root last
     signals, signal_room receives the signal list: entry k is signal k, inputs first
   A text that states one model and targets the other is converted: from Moore to Mealy an X stands directly above every input's node, from Mealy to Moore above
   every output's; the signal list does not show it.
   Accepted with the numbers of nodes and signals written. Refused by 17, then 1 to 16 (14 is not used), then 18 if either result does not fit. */
tlsf_answer tlsf_read(const uint8_t *text, size_t text_size, uint8_t *work, size_t work_size, uint32_t *nodes, size_t node_room, uint32_t *signals, size_t signal_room);

/* Reads a text and writes its formula in a form: as tlsf_read and then tlsf_rewrite, with nothing written by a refusal.
     form                 TLSF_AS_EXPANDED, TLSF_NEGATION_FORM or TLSF_CORE_FORM
   Accepted with the form's nodes and the text's signals. Refused by 17, then 1 to 16 for the text, then 21, 16 and 18 for the form. */
tlsf_answer tlsf_convert(const uint8_t *text, size_t text_size, uint32_t form, uint8_t *work, size_t work_size, uint32_t *nodes, size_t node_room, uint32_t *signals,
                         size_t signal_room);

/* Reads a text and writes a basic one of its nodes, for tools that read basic TLSF alone: no parameters, definitions, buses or sections but one line of GUARANTEE. Bit i of
   bus b is called b@i. If it keeps to the reader's limits it is accepted, as the specification without lines with these nodes in the place of GUARANTEE's.
     out, out_room        receives the bytes of the text; at most 2^20 for a text that is accepted
   Accepted with the number of bytes in the upper half: tlsf_byte_count. Refused by 17, then 1 to 16 as tlsf_read, then 22, the smallest signal number whose written name is
   longer than 64 bytes or that of a smaller number, then 18 at 0 if the bytes do not fit. */
tlsf_answer tlsf_write_basic(const uint8_t *text, size_t text_size, uint8_t *work, size_t work_size, uint8_t *out, size_t out_room);

/* Writes a form of a table's root.
     nodes, node_count    the table: 1 to TLSF_MAX_NODES nodes, operands before their operators; it may share nodes
     form                 as above
     out, out_room        receives the form's nodes in postorder, nothing shared
   Accepted with the number of nodes written, and 0 signals. Refused by 21, 19, 16, 18. */
tlsf_answer tlsf_rewrite(const uint32_t *nodes, size_t node_count, uint32_t form, uint32_t *out, size_t out_room);

/* Works out where every node of a table holds in a recorded run.
     nodes, node_count    the table
     signals              how many signals it may name, at most TLSF_MAX_SIGNALS: the text's
     recording, recording_size
                          bits, most significant first: 12 positions N, 12 loop start L, 8 signals K, then N letters of K bits, signal 0 first, zero bits to a full
                          byte. After position N-1 comes L. K is the signal count: fewer is 23, more is 20
     rows, row_room       receives tlsf_row_bytes(N) bytes for every node, node 0's first: bit p, most significant first, is 1 where the node holds at p
   Accepted with node_count and signals. Refused by 15, 19, 20, 23, 18. The verdict is the root at position 0: tlsf_row_bit(rows, N, node_count - 1, 0). */
tlsf_answer tlsf_evaluate(const uint32_t *nodes, size_t node_count, uint32_t signals, const uint8_t *recording, size_t recording_size, uint8_t *rows, size_t row_room);

/* Tells which line of a text failed on a recorded run: the first line of PRESET that is false at position 0; if there is none, at the smallest position where ASSERT is
   broken (in strict files: with REQUIRE true up to it) the first line of ASSERT that is false there; else the first line of GUARANTEE that is false at position 0.
     text, work           as for tlsf_read
     recording            as for tlsf_evaluate, with the text's signals
     rows, row_room       as for tlsf_evaluate, for as many nodes as tlsf_read tells; TLSF_MAX_NODES * tlsf_row_bytes(N) bytes are always enough
   Lines count from 1 in their section, those that enumerations imply after the written, in the order of their signals. Accepted: tlsf_section and tlsf_line, below. A run
   on which the text holds, also because INITIALLY or REQUIRE fails, has neither. Refused by 17, then 1 to 16 for the text, then 20, 23 and 18. */
tlsf_answer tlsf_diagnose(const uint8_t *text, size_t text_size, const uint8_t *recording, size_t recording_size, uint8_t *work, size_t work_size, uint8_t *rows,
                          size_t row_room);

/* Tells how far ahead a table's root looks, and so how many letters to record.
     nodes, node_count    the table; it may share nodes, and name any signal that a node can hold
   Accepted: tlsf_reach_is_bounded and tlsf_reach_last, below. Refused by 19. It writes nothing; its time grows with the nodes, whatever tree they share. */
tlsf_answer tlsf_reach(const uint32_t *nodes, size_t node_count);

/* ---- Results taken apart ---- */

/* Of an accepted tlsf_reach: is there a letter after which no letter counts? accepted = reach * 2^32, or 1 where there is no bound. */
static inline int tlsf_reach_is_bounded(tlsf_answer answer) {
  return (answer & 0xffffffffu) == 0;
}

/* The reach, if it is bounded: letters 0 to this one, one more than its number, decide whether the root holds at position 0, whatever follows them. */
static inline uint32_t tlsf_reach_last(tlsf_answer answer) {
  return (uint32_t)(answer >> 32);
}

/* Of an accepted tlsf_diagnose: the section whose line failed, and the line's number; 0 and 0 where the run holds. accepted = section * 2^32 + line. */
enum {
  TLSF_HOLDS = 0,
  TLSF_PRESET = 1,
  TLSF_ASSERT = 2,
  TLSF_GUARANTEE = 3
};

static inline uint32_t tlsf_section(tlsf_answer answer) {
  return (uint32_t)(answer >> 32);
}

static inline uint32_t tlsf_line(tlsf_answer answer) {
  return (uint32_t)(answer & 0xffffffffu);
}

/* A node is 32 bits, most significant first: 4 kind, 14 first operand, 14 second; fields that a kind does not use are 0. An operand is a node's number. */
enum {
  TLSF_TRUE = 0,
  TLSF_FALSE = 1,
  TLSF_SIGNAL = 2, /* its number in the first field */
  TLSF_NOT = 3,
  TLSF_AND = 4,
  TLSF_OR = 5,
  TLSF_IMPLIES = 6,
  TLSF_IFF = 7,
  TLSF_NEXT = 8,
  TLSF_GLOBALLY = 9,
  TLSF_FINALLY = 10,
  TLSF_UNTIL = 11,
  TLSF_RELEASE = 12,
  TLSF_WEAK_UNTIL = 13
};

static inline uint32_t tlsf_kind(uint32_t node) {
  return node >> 28;
}

static inline uint32_t tlsf_first(uint32_t node) {
  return node >> 14 & 0x3fffu;
}

static inline uint32_t tlsf_second(uint32_t node) {
  return node & 0x3fffu;
}

/* An entry of the signal list: 1 bit output flag, 15 offset of the name in the text, 8 index in the bus, 8 width of the bus; a single signal has width 0. */
static inline int tlsf_is_output(uint32_t entry) {
  return (int)(entry >> 31);
}

static inline size_t tlsf_name_offset(uint32_t entry) {
  return entry >> 16 & 0x7fffu;
}

static inline uint32_t tlsf_bus_index(uint32_t entry) {
  return entry >> 8 & 0xffu;
}

static inline uint32_t tlsf_bus_width(uint32_t entry) {
  return entry & 0xffu;
}

/* The length of the name that stands in a text at an offset: letters, digits, _, @ and '. */
static inline size_t tlsf_name_length(const uint8_t *text, size_t text_size, size_t offset) {
  size_t end = offset;
  while (end < text_size && ((text[end] >= 'a' && text[end] <= 'z') || (text[end] >= 'A' && text[end] <= 'Z') || (text[end] >= '0' && text[end] <= '9') ||
                             text[end] == '_' || text[end] == '@' || text[end] == '\'')) {
    end++;
  }
  return end - offset;
}

/* The positions N of a recording of at least 4 bytes, and the bytes of a row. */
static inline uint32_t tlsf_positions(const uint8_t *recording) {
  return (uint32_t)recording[0] << 4 | recording[1] >> 4;
}

static inline size_t tlsf_row_bytes(uint32_t positions) {
  return ((size_t)positions + 7) / 8;
}

/* Does a node hold at a position? Of the rows that an accepted tlsf_evaluate has filled, for a recording of so many positions. */
static inline int tlsf_row_bit(const uint8_t *rows, uint32_t positions, size_t node, uint32_t position) {
  return rows[tlsf_row_bytes(positions) * node + position / 8] >> (7 - position % 8) & 1;
}

#ifdef __cplusplus
}
#endif

#endif

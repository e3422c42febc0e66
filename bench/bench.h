/* What the benchmarks share: a row of the table, the inputs, and the numbers that they are made of. */
#ifndef BENCH_H
#define BENCH_H

#include <stddef.h>
#include <stdint.h>

enum { MIB16 = 16 << 20, FIELDS = 9 };

/* The peer in plain C is the reference, compiled by whichever compiler builds this program. */
#if defined __clang__
#define PLAIN_C "C, clang"
#elif defined __GNUC__
#define PLAIN_C "C, gcc"
#else
#define PLAIN_C "C, cc"
#endif

/* What a job came to, field by field. The other side's must be the same. */
typedef struct {
    const char *names[FIELDS]; /* null where there is no such field */
    size_t values[FIELDS];
} Answer;

/* One side of a row. */
typedef struct {
    const char *name;
    int (*job)(void *context);       /* timed; 0: it cannot be run on this machine */
    Answer (*answer)(void *context); /* of the last job; not timed */
    void *context;
} Side;

/* A row: ours beside a peer. */
typedef struct {
    const char *name;
    size_t size; /* of the input in bytes */
    Side ours, peer;
} Row;

void table_begin(int runs);
void table_row(const Row *row);
void table_end(void);

void fail(const char *what);
void *buffer(size_t length);

/* Random numbers, the same in each run. */
uint64_t next_random(void);
size_t below(size_t n);
void fill_random(uint8_t *bytes, size_t length);

/* Whole files. The bytes of a new file are written where they stand, and `unload` ends that too. */
uint8_t *load(const char *path, size_t *length);
uint8_t *new_file(const char *path, size_t length);
void unload(uint8_t *bytes, size_t length);
void store(const char *path, const uint8_t *bytes, size_t length);

/* ---- MCS text ---- */

/* A random image of 16 MiB, and its text. */
typedef struct {
    uint8_t *image, *text;
    size_t length; /* of the text */
} Made;

Made make_text(void);
void free_text(Made made);

/* ---- Programs ---- */

/* A program's run: its command, the file that comes out, and whether that is the one that it must be. */
typedef struct {
    char **command;
    const char *out;
    int (*is_right)(const Made *made, const uint8_t *file, size_t length);
    const Made *made;
} Process;

/* A row of a job from file to file: ours beside another program. A file that is not right ends the benchmark. */
void process_row(const char *job, size_t bytes, Process *ours, Process *peer);

/* ---- Inputs ---- */

/* An image or a chip of `length` bytes that loads: one type 2 packet of random words, then DESYNC. */
void make_long_packet(uint8_t *bytes, size_t length);

/* Chips of 16 MiB. The packets are of any register that may be written, but CMD, where nothing else is said. */
void make_long(uint8_t *chip);     /* one type 2 packet */
void make_ones(uint8_t *chip);     /* packets of one word */
void make_twos(uint8_t *chip);     /* of two */
void make_threes(uint8_t *chip);   /* of three */
void make_type2s(uint8_t *chip);   /* type 2 packets of one word */
void make_nops(uint8_t *chip);     /* no-operations */
void make_commands(uint8_t *chip); /* packets of one word of CMD */
void make_mixed(uint8_t *chip);    /* packets of 0 to 8 words, of CMD too, and no-operations */
void make_heaviest(uint8_t *chip); /* one packet of CMD, with as many words as there can be */
void make_erased(uint8_t *chip);   /* FF */
void make_noise(uint8_t *chip);    /* random bytes, no sync word */

/* Images with the packets of the two kinds of bitstream, in a buffer of 16 MiB; how long they are. */
size_t make_plain_bitstream(uint8_t *image);      /* one long packet of FDRI */
size_t make_compressed_bitstream(uint8_t *image); /* thousands of packets of FAR, FDRI and MFWR */

/* ---- The rows ---- */

/* Beside other programs, memmem, and our own reader. Files are made in `directory`, and `self` runs this program again. */
void mcs_file_rows(const char *directory, char *self);
void mcs_write_file_rows(const char *directory, char *self);
void mcs_reader_row(void);
void search_rows(void);
int mcs_read_file(const char *in, const char *out);
int mcs_write_file(const char *in, const char *out);

/* Beside the reference. */
void mcs_call_rows(void);
void mcs_write_rows(void);
void boot_rows(void);
void image_rows(char *const *bitstreams, int count);
void list_rows(void);
void heaviest_rows(void);
void update_rows(void);

#endif

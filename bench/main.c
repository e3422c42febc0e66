/* The benchmarks.
 *
 *   bench others DIR RUNS                    prints the table beside other programs; files are made in DIR
 *   bench reference RUNS [BITSTREAM ...]     prints the table beside the reference, also on these BIT files
 *   bench read IN OUT                        is one job of the table: reads the MCS text file IN, writes its image to OUT
 *   bench write IN OUT                       is another: reads the image file IN, writes its MCS text to OUT */
#include "bench.h"

#include <stdio.h>
#include <stdlib.h>
#include <string.h>

static int others(const char *directory, int runs, char *self)
{
    if (runs < 1)
        return 2;
    table_begin(runs);
    mcs_file_rows(directory, self);
    mcs_write_file_rows(directory, self);
    mcs_reader_row();
    search_rows();
    table_end();
    return 0;
}

static int reference(int runs, char *const *bitstreams, int count)
{
    if (runs < 1)
        return 2;
    table_begin(runs);
    mcs_call_rows();
    mcs_write_rows();
    boot_rows();
    image_rows(bitstreams, count);
    list_rows();
    heaviest_rows();
    update_rows();
    table_end();
    return 0;
}

int main(int argc, char **argv)
{
    const char *table = argc > 1 ? argv[1] : "";
    int status = 2;
    if (argc == 4 && strcmp(table, "read") == 0)
        return mcs_read_file(argv[2], argv[3]);
    if (argc == 4 && strcmp(table, "write") == 0)
        return mcs_write_file(argv[2], argv[3]);
    if (argc == 4 && strcmp(table, "others") == 0)
        status = others(argv[2], atoi(argv[3]), argv[0]);
    if (argc >= 3 && strcmp(table, "reference") == 0)
        status = reference(atoi(argv[2]), argv + 3, argc - 3);
    if (status == 2)
        fprintf(stderr, "usage: %s others DIR RUNS | reference RUNS [BITSTREAM ...] | read IN OUT | write IN OUT\n", argv[0]);
    return status;
}

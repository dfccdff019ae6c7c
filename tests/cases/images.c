/* Runs the cases of a data file, whose head says how they are written, through bg_configure and bg_handle. */
#include <stdio.h>

#include "data.h"
#include "requests.h"

/* Reads the data file on standard input, and runs its cases. */
int main(void)
{
    struct counts counts;

    read_file(read_request_line);
    counts = finish_requests();
    printf("%u cases, %u of them refused, %u wrong\n", counts.cases, counts.refused, counts.wrong);
    return counts.wrong == 0 ? 0 : 1;
}

/* Reads cases of requests and runs them through bg_configure and bg_handle: what the programs that run such cases share. */
#ifndef REQUESTS_H
#define REQUESTS_H

/* How many cases were run, how many of them are refused and how many write to the memory, and how often a call did other
 * than its case wants. */
struct counts {
    unsigned cases, refused, written, wrong;
};

/* Reads one line of a case, whose form the data file's head says, and runs the case before it where a new one begins. */
void read_request_line(char *line);

/* Runs the last case; gives the counts of all. */
struct counts finish_requests(void);

#endif

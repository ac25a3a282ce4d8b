/* What the sources of tools/races share: a search over the runs of a COMMAND, which sends lines of `nicbench serve`
 * through a pipe. Each line is answered in this process, and before some of them, the search lets the adapter take
 * steps. */
#ifndef RACES_H
#define RACES_H

#include "inside.h"
#include <sys/types.h>

enum { MOST_JOBS = 64, MOST_LINE = 1 << 18, MOST_NAME = 160 };

/* words.c: what the words of the command ask for, besides those of the search */
extern struct races {
    char **command; /* ends with NULL */
    unsigned jobs;
    const char *shrink; /* the file of a schedule that is made smaller, or NULL */
    const char *rows, *color; /* of its chart */
    uint64_t registers, seed; /* of the server */
} xr_given;
void xr_take_words(int count, char **words);

/* options.c: the options of the server */
bool xr_is_option(const char *word);
void xr_take_option(const char *option, const char *value);
void xr_take_schedules_options(const char *path);

/* command.c: the process of COMMAND, and what it writes */
void xr_prepare_command(void);
void xr_adopt_orphans(void);
void xr_begin_command(bool is_new);
bool xr_next_line(char **line, size_t *size);
void xr_tell(const void *bytes, size_t size);
const char *xr_end_command(void);
void xr_close_command(void);
bool xr_resets(void);

/* end.c: why a run has failed */
const char *xr_fault(const char *format, ...) __attribute__((format(printf, 1, 2)));
const char *xr_status_fault(int status, const char *errors, size_t size);

/* served.c: the adapter, and the answers to lines */
extern struct nic82540em_server xr_server;
size_t xr_answer(const char *line, size_t size);
const char *xr_told(void);
void xr_note_offers(void);

/* run.c: the places of a run */
extern unsigned xr_options; /* about how many schedules of one deviation the run has shown so far */
extern bool xr_is_at_place; /* whether the line that is answered is one */




/* shown.c: the lines of the log */
extern bool xr_is_shown; /* whether this run is logged */
void xr_begin_shown(void);
bool xr_answers_shown(const char *line, size_t size);
void xr_show_answer(const char *line, size_t size, const char *told, size_t told_size);
const char *xr_show_step(void);
bool xr_is_raised(void);

/* chart.c: the chart of a run */
void xr_begin_chart(void);
void xr_end_chart(void);

/* kept.c: names of places, each of which is kept once */
const char *xr_kept(const char *name);

/* first.c: the runs without deviations */
int xr_play_first(void);
void xr_keep_line(const char *line, size_t size);

/* jobs.c: runs in several processes */
unsigned xr_processors(int *into);
unsigned xr_begin_jobs(uint64_t most, void (*work)(unsigned job, unsigned all));
void xr_end_jobs(bool are_done);
unsigned xr_jobs(void);
void xr_send(const void *bytes, size_t size);
bool xr_receive(unsigned job, void *into, size_t size);
void xr_send_path(const struct deviation *path, unsigned length);
bool xr_receive_path(unsigned job, struct deviation *path, unsigned length);

/* drawn.c: drawn runs of jobs */
void xr_deal_drawn(void);

/* explored.c: searches of all schedules, by jobs */
void xr_begin_share(void);
void xr_explore(int deviations, bool holds, bool all_that_fail, size_t most, struct found *found);

/* known.c: what is compared of a state */
void xr_set_depth(int deviations);
void xr_begin_told(void);
void xr_add_told(const char *text, size_t size);
bool xr_has_key(void);

#endif

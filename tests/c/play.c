/* Plays a script through the C interface, and prints the report.
 *
 *     play SCRIPT [REPORT]             in the order of turns of a report; with none, lane after lane
 *     play --refuse SCRIPT [REPORT]    once for each allocation that the library makes, which is refused: the call that then finds no
 *                                      memory is made again, and the report has to be the same. Prints how many were refused
 *
 * Status 0: played; 1: something is wrong, which standard error tells; 4: the script names what it dropped, which C answers by a status
 * in place of a fault, and is played up to that call alone. */
#include "play.h"
#include "refuse.h"
#include <inttypes.h>
#include <stdlib.h>
#include <string.h>

enum { LANES = 64, UNTOUCHED = 0xA5, NAMES_DROPPED = 4 };

/* A play of a script: the phase in which it is, and how far each lane is. */
typedef struct play {
    player player;
    const json_t *script;
    size_t phase, at[LANES];
} play;

void call_begins(player *p) {
    memset(&p->reply, UNTOUCHED, sizeof p->reply);
    refuse_begin();
}

int call_is_again(player *p) {
    static wethlorn_reply untouched;
    int was_refused = refuse_end();
    memset(&untouched, UNTOUCHED, sizeof untouched);
    if (p->status != WETHLORN_OK && memcmp(&p->reply, &untouched, sizeof untouched))
        p->wrong = "a reply was written that is none";
    if (p->status != WETHLORN_NO_MEMORY || !was_refused)
        return 0;
    p->again++;
    return 1;
}

static int is_over(const play *it) {
    return it->player.wrong || it->player.names_dropped;
}

static const json_t *lane_of(const play *it, size_t lane) {
    return json_array_get(json_array_get(json_object_get(it->script, "phases"), it->phase), lane);
}

/* Plays calls of a lane up to its next entry. False: there is none. */
static int play_turn(play *it, size_t lane) {
    player *p = &it->player;
    const json_t *calls = lane_of(it, lane);
    wethlorn_item item;
    wethlorn_settlement settled;
    while (!is_over(it) && it->at[lane] < json_array_size(calls)) {
        play_call(p, json_array_get(calls, it->at[lane]++));
        if (p->names_dropped && (wethlorn_next_item(&p->device, &item) != WETHLORN_END || wethlorn_next_settlement(&p->device, &settled) != WETHLORN_END))
            p->wrong = "a call that was not made has done something";
        if (is_over(it) || !p->word)
            continue;
        if (!report_call(&it->player.report, &p->device, (uint32_t)lane, p->word, &p->reply))
            p->wrong = "what is told of a call does not fit together";
        return 1;
    }
    return 0;
}

/* Plays what is left of a phase, lane after lane, and goes on to the next. False: there is no next one. */
static int leave_phase(play *it) {
    for (size_t lane = 0; lane < LANES; lane++)
        while (play_turn(it, lane))
            continue;
    memset(it->at, 0, sizeof it->at);
    return ++it->phase < json_array_size(json_object_get(it->script, "phases"));
}

/* Plays all turns of the entries of a report, whose callers are the second word of each line up to the line "trace", and then what is left. */
static void play_all(play *it, const char *report) {
    const char *line = report ? strchr(report, '\n') : NULL;
    int is_more = json_array_size(json_object_get(it->script, "phases")) > 0;
    for (; line && line[1] && strncmp(line, "\ntrace", 6) && !is_over(it); line = strchr(line + 1, '\n')) {
        size_t lane = strtoul(strchr(line + 1, ' '), NULL, 10);
        while (is_more && lane < LANES && !is_over(it) && !play_turn(it, lane))
            is_more = leave_phase(it);
    }
    while (is_more && !is_over(it))
        is_more = leave_phase(it);
}

static size_t count_calls(const json_t *script) {
    size_t phase, lane, count = 0;
    json_t *lanes, *calls;
    json_array_foreach(json_object_get(script, "phases"), phase, lanes)
        json_array_foreach(lanes, lane, calls)
            count += json_array_size(calls);
    return count;
}

/* Plays a script on a new device. Gives its report, which the caller frees, or null where something is wrong. */
static char *played(play *it, const json_t *script, const char *report) {
    static uint64_t serial;
    player *p = &it->player;
    wethlorn_left left = {1, 1};
    char *text;
    memset(it, 0, sizeof *it);
    it->script = script;
    p->names = json_object();
    p->all = calloc(count_calls(script) + 1, sizeof *p->all);
    p->encoders = calloc(count_calls(script) + 1, sizeof *p->encoders);
    if (!report_begin(&p->report))
        p->wrong = "no memory for the report";
    play_open(p, script, ++serial);
    if (p->status != WETHLORN_OK)
        p->wrong = "the device is not opened";
    play_all(it, report);
    if (wethlorn_close(&p->device, &left) != WETHLORN_OK || p->device.inside || wethlorn_close(&p->device, &left) != WETHLORN_CLOSED)
        p->wrong = "the device is not closed";
    if (!p->wrong && (left.items || left.settlements))
        p->wrong = "something is left of a device that was drained";
    for (size_t at = 0; at < p->encoder_count; at++)
        if (p->encoders[at].inside && (wethlorn_close_encoder(&p->encoders[at]) != WETHLORN_OK || p->encoders[at].inside))
            p->wrong = "an encoder is not closed";
    json_decref(p->names);
    free(p->all);
    free(p->encoders);
    text = report_end(&p->report);
    if (!p->wrong)
        return text;
    free(text);
    return NULL;
}

/* Plays a script with each allocation refused, one after another, up to the play in which none is left to be refused. */
static int play_refused(play *it, const json_t *script, const char *report, const char *expected) {
    unsigned long number = 0;
    uint64_t again = 0;
    for (int is_refused = 1; is_refused;) {
        refuse_at(++number);
        char *text = played(it, script, report);
        is_refused = refuse_done();
        again += it->player.again;
        if (!text || strcmp(text, expected)) {
            fprintf(stderr, "allocation %lu refused: %s\n", number, it->player.wrong ? it->player.wrong : "another report");
            free(text);
            return 1;
        }
        free(text);
    }
    printf("%lu allocations refused, %" PRIu64 " calls made again\n", number - 1, again);
    return 0;
}

static char *read_file(const char *path) {
    FILE *file = fopen(path, "rb");
    char *text = NULL;
    long size = file && !fseek(file, 0, SEEK_END) ? ftell(file) : -1;
    if (size >= 0 && (text = malloc((size_t)size + 1))) {
        rewind(file);
        text[fread(text, 1, (size_t)size, file)] = 0;
    }
    if (file)
        fclose(file);
    return text;
}

/* Plays what the words of the command name, and prints what comes of it. */
static int play_files(const char *script_path, const char *report_path, int is_refusing) {
    static play it;
    json_t *script = json_load_file(script_path, 0, NULL);
    char *report = report_path ? read_file(report_path) : NULL;
    char *text = script && (report || !report_path) ? played(&it, script, report) : NULL;
    int status = 1;
    if (!script || (report_path && !report))
        fprintf(stderr, "%s: no script, or no report\n", script_path);
    else if (it.player.wrong)
        fprintf(stderr, "%s: %s (status %u)\n", script_path, it.player.wrong, (unsigned)it.player.status);
    else if (is_refusing)
        status = play_refused(&it, script, report, text);
    else if (text && fputs(text, stdout) >= 0 && !fflush(stdout))
        status = it.player.names_dropped ? NAMES_DROPPED : 0;
    free(text);
    free(report);
    json_decref(script);
    return status;
}

int main(int count, char **words) {
    int is_refusing = count > 1 && !strcmp(words[1], "--refuse");
    words += is_refusing;
    count -= is_refusing;
    if (count < 2 || count > 3)
        return 2;
    return play_files(words[1], count == 3 ? words[2] : NULL, is_refusing);
}

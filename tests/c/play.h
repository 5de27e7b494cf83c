/* Plays a script (docs/script.md) by calls of the C interface. */
#ifndef PLAY_H
#define PLAY_H
#include "../../examples/c/report.h"
#include <jansson.h>

/* What a name of the script stands for: an object, a pass of an encoder, or a canvas. */
typedef struct named {
    uint64_t number;        /* of the object, of the encoder of a pass, or of a canvas's current texture */
    wethlorn_encoder *encoder; /* of an encoder, or of a pass its encoder's; else null */
    uint32_t pass;          /* WETHLORN_ON_ENCODER where it is no pass */
    uint32_t width, height; /* of a canvas */
    uint32_t format, usage;
    int is_canvas, is_current; /* whether it is a canvas, and has a current texture */
    int is_dropped;
} named;

typedef struct player {
    wethlorn_device device;
    wethlorn_reply reply;
    report report;
    uint32_t status;
    const char *word;   /* of the call that was made, or null where none was */
    json_t *names;      /* from each name to its place in `all` */
    named *all;
    size_t count;
    wethlorn_encoder *encoders; /* as many as calls were made may be open */
    size_t encoder_count;
    uint32_t pass;      /* which the call has begun, if it begins one */
    uint64_t again;     /* how many calls found no memory, and were made again */
    const char *wrong;  /* what is wrong, or null */
    int names_dropped;  /* a call names what was dropped, which C answers by a status and a script by a fault */
} player;

/* Makes one call of the library into `p->status`, and once more as long as it finds no memory because it was refused some. Tests that
 * `reply` is not written where it is not made. */
#define CALL(p, made)              \
    do {                           \
        call_begins(p);            \
        (p)->status = (made);      \
    } while (call_is_again(p))

void call_begins(player *p);
int call_is_again(player *p);

/* Makes a call of a script, and gives its name to what it makes. `p->word` is then the word of its entry. */
void play_call(player *p, const json_t *call);

/* Opens the device by the budget and the limits of a script. */
void play_open(player *p, const json_t *script, uint64_t serial);

#endif

/* A telephone line between two ends, in real time, with noise and hits. A tool of the tests alone.
 *
 *   line END END SEED NOISE HITS FROM TO
 *
 * An END is modem:LINK, a class 1 modem of spandsp on a terminal, to which a symbolic link LINK is made; send:FILE or
 * receive:FILE, a fax machine of spandsp that sends a TIFF file, or receives one. A machine that sends dials after five
 * seconds.
 * NOISE is white noise, so many dB below full scale, or 0 for none; HITS is how many bursts of loud noise a minute there
 * are, each of 2 to 30 ms; SEED draws both. They are on the line from FROM to TO, in seconds after the answer, so that
 * they meet the page and not what is agreed before it. What one end says the other hears a tenth of a second later: efax asks for
 * silence before it listens, and else would miss an answer that comes at once. The line ends once a call is over, and
 * after five minutes.
 */
#define _GNU_SOURCE
#include <fcntl.h>
#include <math.h>
#include <pty.h>
#include <signal.h>
#include <stdint.h>
#include <stdio.h>
#include <stdlib.h>
#include <string.h>
#include <sys/prctl.h>
#include <sys/stat.h>
#include <termios.h>
#include <time.h>
#include <unistd.h>
#include <spandsp.h>

enum { RATE = 8000, STEP_MS = 20, STEP = RATE * STEP_MS / 1000, RING_MS = 4000, DIAL_MS = 5000, LONGEST_MS = 300000 };
enum { DELAY = 5 }; /* in steps */
enum { XON = 0x11, XOFF = 0x13 };
enum kind { MODEM, SENDER, RECEIVER };

struct end {
    enum kind kind;
    struct end *other;
    t31_state_t *modem;
    fax_state_t *machine;
    int terminal, is_held, is_ringing, is_off_hook;
    long next_ring;
    int16_t said[DELAY + 1][STEP]; /* what is on its way, a step after the other */
};

static struct end ends[2];
static long now_ms, answered_ms, noise_from_ms, noise_to_ms;
static int is_answered;

static void need(int right, const char *what)
{
    if (!right) {
        perror(what);
        exit(1);
    }
}

/* Noise: xorshift by Marsaglia, and normal numbers by Box and Muller. */

static uint64_t state;

static double uniform(void)
{
    state ^= state << 13;
    state ^= state >> 7;
    state ^= state << 17;
    return (double)(state >> 11) / 9007199254740992.0;
}

static double normal(void)
{
    double first = uniform() + 1e-12, second = uniform();
    return sqrt(-2 * log(first)) * cos(2 * M_PI * second);
}

struct noise {
    double level, hits_a_sample;
    long hit_left;
};

static double noise_of(struct noise *noise)
{
    long since_ms = now_ms - answered_ms;
    double sum;
    if (since_ms < noise_from_ms || since_ms >= noise_to_ms)
        return 0;
    sum = noise->level > 0 ? noise->level * normal() : 0;
    if (noise->hits_a_sample <= 0)
        return sum;
    if (noise->hit_left <= 0 && uniform() < noise->hits_a_sample)
        noise->hit_left = RATE / 500 + (long)(uniform() * RATE * 28 / 1000);
    return noise->hit_left-- > 0 ? sum + 3000 * normal() : sum;
}

/* Calls. */

static void connect_ends(void)
{
    is_answered = 1;
    answered_ms = now_ms;
    for (int i = 0; i < 2; i++) {
        ends[i].is_ringing = 0;
        ends[i].is_off_hook = 1;
    }
}

static void dial(struct end *from)
{
    struct end *to = from->other;
    from->is_off_hook = 1;
    if (to->kind == MODEM) {
        to->is_ringing = 1;
        to->next_ring = now_ms;
    } else {
        connect_ends();
        if (from->kind == MODEM)
            t31_call_event(from->modem, AT_CALL_EVENT_CONNECTED);
    }
}

static void answer(struct end *at)
{
    connect_ends();
    t31_call_event(at->modem, AT_CALL_EVENT_ANSWERED);
    if (at->other->kind == MODEM)
        t31_call_event(at->other->modem, AT_CALL_EVENT_CONNECTED);
}

static void hang_up(struct end *at)
{
    at->is_off_hook = 0;
    at->other->is_ringing = 0;
}

/* Whether an end is in the call: what it said before it hung up still reaches the other one. */
static int is_in_call(const struct end *end)
{
    return is_answered && end->is_off_hook;
}

/* The modem's side of a terminal. */

static void put_bytes(struct end *to, const void *bytes, size_t length)
{
    const char *at = bytes;
    while (length > 0) {
        ssize_t done = write(to->terminal, at, length);
        if (done <= 0)
            return;
        at += done;
        length -= (size_t)done;
    }
}

static int told(at_state_t *none, void *end, const uint8_t *bytes, size_t length)
{
    (void)none;
    put_bytes(end, bytes, length);
    return 0;
}

static int controlled(t31_state_t *none, void *of, int what, const char *is_clear)
{
    struct end *end = of;
    uint8_t flow = is_clear ? XON : XOFF;
    (void)none;
    switch (what) {
    case AT_MODEM_CONTROL_CALL:
        dial(end);
        break;
    case AT_MODEM_CONTROL_ANSWER:
        answer(end);
        break;
    case AT_MODEM_CONTROL_HANGUP:
    case AT_MODEM_CONTROL_ONHOOK:
        hang_up(end);
        break;
    case AT_MODEM_CONTROL_OFFHOOK:
        end->is_off_hook = 1;
        break;
    case AT_MODEM_CONTROL_CTS:
        end->is_held = !is_clear;
        put_bytes(end, &flow, 1);
        break;
    }
    return 0;
}

static void take_bytes(struct end *from)
{
    char bytes[STEP];
    for (int i = 0; i < 4 && !from->is_held; i++) {
        ssize_t count = read(from->terminal, bytes, sizeof bytes);
        if (count <= 0)
            return;
        t31_at_rx(from->modem, bytes, (int)count);
    }
}

/* Ends. */

static void open_modem(struct end *end, const char *link)
{
    int other_side;
    struct termios raw;
    need(openpty(&end->terminal, &other_side, NULL, NULL, NULL) == 0, "openpty");
    tcgetattr(other_side, &raw);
    cfmakeraw(&raw);
    tcsetattr(other_side, TCSANOW, &raw);
    fcntl(end->terminal, F_SETFL, O_NONBLOCK);
    unlink(link);
    need(symlink(ttyname(other_side), link) == 0, link);
    need(chmod(ttyname(other_side), 0666) == 0, link);
    end->modem = t31_init(NULL, told, end, controlled, end, NULL, NULL);
    t31_set_transmit_on_idle(end->modem, 1);
}

static void open_machine(struct end *end, const char *file)
{
    t30_state_t *t30;
    end->machine = fax_init(NULL, end->kind == SENDER);
    fax_set_transmit_on_idle(end->machine, 1);
    t30 = fax_get_t30_state(end->machine);
    t30_set_ecm_capability(t30, 0);
    t30_set_supported_compressions(t30, T30_SUPPORT_T4_1D_COMPRESSION | T30_SUPPORT_T4_2D_COMPRESSION);
    if (end->kind == SENDER)
        t30_set_tx_file(t30, file, -1, -1);
    else
        t30_set_rx_file(t30, file, -1);
}

static void open_end(struct end *end, const char *word)
{
    const char *file = strchr(word, ':');
    if (file == NULL)
        file = word;
    file++;
    end->kind = word[0] == 'm' ? MODEM : word[0] == 's' ? SENDER : RECEIVER;
    if (end->kind == MODEM)
        open_modem(end, file);
    else
        open_machine(end, file);
}

static void ring(struct end *end)
{
    if (end->is_ringing && now_ms >= end->next_ring) {
        end->next_ring += RING_MS;
        t31_call_event(end->modem, AT_CALL_EVENT_ALERTING);
    }
}

static void speak(struct end *end, int16_t *sound)
{
    int count = 0;
    if (end->kind == MODEM) {
        take_bytes(end);
        ring(end);
        count = t31_tx(end->modem, sound, STEP);
    } else if (is_in_call(end)) {
        count = fax_tx(end->machine, sound, STEP);
    }
    if (!is_in_call(end))
        count = 0;
    memset(sound + count, 0, sizeof *sound * (size_t)(STEP - count));
}

static void hear(struct end *end, const int16_t *sound, struct noise *noise)
{
    int16_t heard[STEP];
    for (int i = 0; i < STEP; i++) {
        double sum = is_in_call(end) ? sound[i] + noise_of(noise) : 0;
        heard[i] = (int16_t)lrint(fmax(-32768, fmin(32767, sum)));
    }
    if (end->kind == MODEM)
        t31_rx(end->modem, heard, STEP);
    else if (is_in_call(end))
        fax_rx(end->machine, heard, STEP);
    if (end->kind != MODEM && is_in_call(end) && !t30_call_active(fax_get_t30_state(end->machine)))
        hang_up(end);
}

static void wait_until(const struct timespec *start, long ms)
{
    struct timespec at = {start->tv_sec + ms / 1000, start->tv_nsec + ms % 1000 * 1000000};
    at.tv_sec += at.tv_nsec / 1000000000;
    at.tv_nsec %= 1000000000;
    clock_nanosleep(CLOCK_MONOTONIC, TIMER_ABSTIME, &at, NULL);
}

/* Goes on until the call is over, and for a second more, in which the ends take what was said last. */
static void talk(struct noise noises[2])
{
    struct timespec start;
    long over_ms = LONGEST_MS;
    clock_gettime(CLOCK_MONOTONIC, &start);
    for (now_ms = 0; now_ms < over_ms; now_ms += STEP_MS) {
        long step = now_ms / STEP_MS;
        for (int i = 0; i < 2; i++)
            if (ends[i].kind == SENDER && now_ms == DIAL_MS)
                dial(&ends[i]);
        for (int i = 0; i < 2; i++)
            speak(&ends[i], ends[i].said[step % (DELAY + 1)]);
        for (int i = 0; i < 2; i++)
            hear(&ends[i], ends[1 - i].said[(step + 1) % (DELAY + 1)], &noises[i]);
        if (is_answered && !is_in_call(&ends[0]) && !is_in_call(&ends[1]) && over_ms == LONGEST_MS)
            over_ms = now_ms + 1000;
        wait_until(&start, now_ms);
    }
}

int main(int argc, char **argv)
{
    struct noise noises[2] = {{0, 0, 0}, {0, 0, 0}};
    need(argc == 8, "usage: line END END SEED NOISE HITS FROM TO");
    prctl(PR_SET_PDEATHSIG, SIGTERM);
    state = 88172645463325252ULL ^ (strtoull(argv[3], NULL, 10) * 0x9E3779B97F4A7C15ULL);
    noise_from_ms = atol(argv[6]) * 1000;
    noise_to_ms = atol(argv[7]) * 1000;
    for (int i = 0; i < 2; i++) {
        noises[i].level = atof(argv[4]) > 0 ? 32767 * pow(10, -atof(argv[4]) / 20) : 0;
        noises[i].hits_a_sample = atof(argv[5]) / 60 / RATE;
        ends[i].other = &ends[1 - i];
        open_end(&ends[i], argv[1 + i]);
    }
    talk(noises);
    for (int i = 0; i < 2; i++)
        if (ends[i].machine != NULL)
            fax_free(ends[i].machine);
    return 0;
}

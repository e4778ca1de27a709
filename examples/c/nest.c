/* Nests the pieces of a job round by round through sigbrol.h. Reads the job text from standard input, tells the progress on standard
 * error, at the end what moves by hand would come to, how the rest is laid anew once half of the layout is under the knife and, where the
 * layout is clear, how far it can be pushed left and down and the length of its cut list, and prints the best layout and how the search
 * ended, as the program `nest` does in one go. */
#include <inttypes.h>
#include <stdio.h>
#include <stdlib.h>
#include <string.h>

#include "sigbrol.h"

#define ROUNDS 20
#define BUDGET 1000

/* Rounds in which the rest of a table that is half cut is laid anew. */
#define ROUNDS_OF_THE_REST 3

/* The side of a pixel in sixty-fourths of a millimetre: 1.5 mm. */
#define PITCH 96

/* What the search holds: the present layout and weights, the best layout so far with its plain sum, and the work of all rounds. */
typedef struct {
    uint16_t layout[SIGBROL_PIECES][3];
    uint32_t weights[SIGBROL_PAIRS(SIGBROL_PIECES)];
    uint16_t best[SIGBROL_PIECES][3];
    uint64_t best_sum;
    uint64_t trials;
    uint64_t moves;
} search;

/* Words for the descents to work in. They take the same memory round after round, and it need not be cleared. */
static uint64_t workspace[SIGBROL_WORKSPACE];

static const char *const end_names[] = {"clear", "settled", "spent"};

/* Ends the program where a call is refused. After a job has been read that is a mistake of this program, such as a wrong length. */
static void must(const char *call, sigbrol_reply reply)
{
    if (reply.number != SIGBROL_DONE) {
        fprintf(stderr, "%s refused: %" PRIu32 ", places %" PRIu32 " and %" PRIu32 "\n", call, reply.number, reply.first, reply.second);
        exit(EXIT_FAILURE);
    }
}

/* The plain sum of a layout. */
static uint64_t plain_sum(const sigbrol_job *job, uint16_t (*layout)[3])
{
    uint64_t sum = 0;
    must("sigbrol_plain_sum", sigbrol_plain_sum(SIGBROL_LENT(job), SIGBROL_PLACES(layout), job->count, &sum));
    return sum;
}

/* Makes the weight of each pair 1. */
static void fill_unit_weights(const sigbrol_job *job, uint32_t *weights)
{
    for (size_t pair = 0; pair < SIGBROL_PAIRS(job->count); pair++) {
        weights[pair] = 1;
    }
}

/* Fills the start layout. A job that is read with locks comes without placements: its locked pieces lie where a start of all pieces has
 * them. */
static void fill_start(const sigbrol_job *job, uint16_t (*layout)[3])
{
    static sigbrol_job all_free;
    all_free = *job;
    for (size_t piece = 0; piece < job->count; piece++) {
        all_free.table[piece][3] = SIGBROL_FREE;
    }
    must("sigbrol_start", sigbrol_start(SIGBROL_LENT(&all_free), layout, job->count));
    must("sigbrol_start", sigbrol_start(SIGBROL_LENT(job), layout, job->count));
}

/* The start layout with unit weights, which is the best one so far. */
static void begin(const sigbrol_job *job, search *s)
{
    fill_start(job, s->layout);
    fill_unit_weights(job, s->weights);
    memcpy(s->best, s->layout, sizeof s->best);
    s->best_sum = plain_sum(job, s->layout);
    s->trials = 0;
    s->moves = 0;
}

/* Whether two placed pieces conflict. Where their boxes lie further apart than the gap they do not, which spares most of the calls. */
static int conflict(const sigbrol_job *job, uint16_t (*layout)[3], size_t i, size_t k)
{
    for (int axis = 0; axis < 2; axis++) {
        /* Columns and rows of a box change places at 90 and 270 degrees. */
        int i_side = job->table[i][layout[i][0] % 180 == 0 ? axis : 1 - axis];
        int k_side = job->table[k][layout[k][0] % 180 == 0 ? axis : 1 - axis];
        int i_from = layout[i][1 + axis], k_from = layout[k][1 + axis], gap = (int)job->gap;
        if (i_from + i_side + gap <= k_from || k_from + k_side + gap <= i_from) {
            return 0;
        }
    }
    uint8_t shares = 0;
    must("sigbrol_shares_pixel", sigbrol_shares_pixel(SIGBROL_LENT(job), SIGBROL_PLACES(layout), job->count, i, k, &shares));
    return shares;
}

/* Raises the weight of each pair that conflicts by 1; the largest weight stays. */
static void raise_weights(const sigbrol_job *job, search *s)
{
    size_t pair = 0;
    for (size_t i = 0; i < job->count; i++) {
        for (size_t k = i + 1; k < job->count; k++, pair++) {
            if (s->weights[pair] < SIGBROL_WEIGHT && conflict(job, s->layout, i, k)) {
                s->weights[pair]++;
            }
        }
    }
}

/* One round: a descent from the present layout, the best layout kept. Gives how the descent ended. */
static uint8_t run_round(const sigbrol_job *job, search *s, int number)
{
    uint8_t end = 0;
    uint64_t weighted = 0, trials = 0, moves = 0;
    must("sigbrol_descent", sigbrol_descent(SIGBROL_LENT(job), s->layout, job->count, s->weights, SIGBROL_PAIRS(job->count), BUDGET,
                                            workspace, SIGBROL_WORKSPACE, &end, &weighted, &trials, &moves));
    s->trials += trials;
    s->moves += moves;

    uint64_t sum = plain_sum(job, s->layout);
    if (sum < s->best_sum) {
        s->best_sum = sum;
        memcpy(s->best, s->layout, sizeof s->best);
    }
    fprintf(stderr, "round %d: %s, weighted sum %" PRIu64 ", plain sum %" PRIu64 ", %" PRIu64 " trials, %" PRIu64 " moves\n", number,
            end_names[end], weighted, sum, trials, moves);
    return end;
}

/* Tells how many lines the knife follows and how long they are together, step by step. A coordinate is a multiple of 1/64 mm, so that
 * the sum is exact, and no more than 15 digits are needed for it. */
static void tell_cut_list(const sigbrol_job *job, uint16_t (*layout)[3])
{
    size_t room = SIGBROL_CUT_LINES(job->rows, job->columns), count = 0;
    uint16_t(*lines)[4] = malloc(room * sizeof *lines);
    if (lines == NULL) {
        perror("cut list");
        exit(EXIT_FAILURE);
    }
    must("sigbrol_cut_lines", sigbrol_cut_lines(SIGBROL_LENT(job), SIGBROL_PLACES(layout), job->count, lines, room, &count));

    uint8_t word = SIGBROL_STEP_LIFT;
    double x = 0, y = 0, length = 0;
    for (uint64_t step = 0; word != SIGBROL_STEP_DONE; step++) {
        double from_x = x, from_y = y;
        must("sigbrol_line_step", sigbrol_line_step(SIGBROL_LINES(lines), count, PITCH, step, &word, &x, &y));
        if (word == SIGBROL_STEP_CUT) {
            /* One of the two is 0. */
            length += (x - from_x) + (y - from_y);
        }
    }
    free(lines);
    fprintf(stderr, "cut list: %zu lines, %.15g mm\n", count, length);
}

/* Tells how many pixels the pieces of a clear layout slide when everything is pushed left and down, on a copy, and the used length before and
 * after. What is pushed together passes the check too. */
static void tell_compaction(const sigbrol_job *job, uint16_t (*layout)[3], size_t used)
{
    uint16_t pushed[SIGBROL_PIECES][3];
    uint64_t slid = 0;
    size_t pushed_used = 0;
    memcpy(pushed, layout, sizeof pushed);
    must("sigbrol_compact", sigbrol_compact(SIGBROL_LENT(job), pushed, job->count, &slid));
    must("sigbrol_check", sigbrol_check(SIGBROL_LENT(job), SIGBROL_PLACES(pushed), job->count));
    must("sigbrol_used_length", sigbrol_used_length(SIGBROL_LENT(job), SIGBROL_PLACES(pushed), job->count, &pushed_used));
    fprintf(stderr, "compaction: %" PRIu64 " pixels slid, used length %zu before, %zu after\n", slid, used, pushed_used);
}

/* Tells how many pieces of the best layout could be dragged one column to the left, each alone, at no higher plain sum, and the least used
 * length after such a move or none. Nothing is moved. */
static void tell_moves(const sigbrol_job *job, search *s, size_t used)
{
    uint32_t weights[SIGBROL_PAIRS(SIGBROL_PIECES)];
    fill_unit_weights(job, weights);
    size_t pieces = 0, least = used;
    for (size_t piece = 0; piece < job->count; piece++) {
        uint16_t turn = s->best[piece][0], x = s->best[piece][1], y = s->best[piece][2];
        if (x == 0) {
            continue;
        }
        uint64_t moved_sum = 0;
        size_t moved_used = 0;
        must("sigbrol_preview", sigbrol_preview(SIGBROL_LENT(job), SIGBROL_PLACES(s->best), job->count, weights,
                                                SIGBROL_PAIRS(job->count), piece, turn, x - 1, y, &moved_sum, &moved_used));
        if (moved_sum <= s->best_sum) {
            pieces++;
            least = moved_used < least ? moved_used : least;
        }
    }
    fprintf(stderr, "preview: %zu of %zu pieces can go one column left, used length %zu at best\n", pieces, job->count, least);
}

/* Locks every piece of a layout that begins left of a column: from the cutter's station, since the planner's may not. */
static void lock_left_of(sigbrol_job *job, uint16_t (*layout)[3], size_t knife)
{
    for (size_t piece = 0; piece < job->count; piece++) {
        if (layout[piece][1] < knife) {
            sigbrol_reply reply = sigbrol_set_lock(SIGBROL_LENT_TO_LOCK(job), piece, SIGBROL_PLANNER);
            if (reply.number != SIGBROL_NOT_THE_CUTTER) {
                fprintf(stderr, "the planner's station is not refused\n");
                exit(EXIT_FAILURE);
            }
            must("sigbrol_set_lock", sigbrol_set_lock(SIGBROL_LENT_TO_LOCK(job), piece, SIGBROL_CUTTER));
        }
    }
}

/* Tells how the rest is laid anew once the knife is at the middle of the used length: the pieces that begin left of it are locked, in a copy
 * of the job, the free ones are stacked anew, and a guided run finds places for them. What is locked stays where it lies. */
static void tell_half_cut(const sigbrol_job *job, search *s, size_t used)
{
    static sigbrol_job half;
    uint16_t layout[SIGBROL_PIECES][3];
    uint32_t weights[SIGBROL_PAIRS(SIGBROL_PIECES)];
    uint64_t sum = 0, trials = 0, moves = 0;
    half = *job;
    memcpy(layout, s->best, sizeof layout);
    size_t first = layout[0][1], locked = 0;
    for (size_t piece = 0; piece < job->count; piece++) {
        first = layout[piece][1] < first ? layout[piece][1] : first;
    }
    lock_left_of(&half, layout, first + (used + 1) / 2);
    must("sigbrol_start", sigbrol_start(SIGBROL_LENT(&half), layout, half.count));
    fill_unit_weights(&half, weights);
    must("sigbrol_guided_run",
         sigbrol_guided_run(SIGBROL_LENT(&half), layout, half.count, weights, SIGBROL_PAIRS(half.count), ROUNDS_OF_THE_REST, BUDGET,
                            workspace, SIGBROL_WORKSPACE, &sum, &trials, &moves));

    for (size_t piece = 0; piece < half.count; piece++) {
        if (half.table[piece][3] == SIGBROL_LOCKED) {
            locked++;
            if (memcmp(layout[piece], s->best[piece], sizeof layout[piece]) != 0) {
                fprintf(stderr, "piece %zu is locked and was moved\n", piece);
                exit(EXIT_FAILURE);
            }
        }
    }
    must("sigbrol_used_length", sigbrol_used_length(SIGBROL_LENT(&half), SIGBROL_PLACES(layout), half.count, &used));
    fprintf(stderr,
            "half cut: %zu of %zu pieces locked, the rest laid anew: plain sum %" PRIu64 ", %" PRIu64 " trials, %" PRIu64
            " moves, used length %zu\n",
            locked, half.count, sum, trials, moves, used);
}

/* Prints the best layout and the last line. A layout that is called clear has passed the check before. */
static void print_best(const sigbrol_job *job, search *s)
{
    size_t used = 0;
    must("sigbrol_used_length", sigbrol_used_length(SIGBROL_LENT(job), SIGBROL_PLACES(s->best), job->count, &used));
    tell_moves(job, s, used);
    tell_half_cut(job, s, used);
    if (s->best_sum == 0) {
        must("sigbrol_check", sigbrol_check(SIGBROL_LENT(job), SIGBROL_PLACES(s->best), job->count));
        tell_compaction(job, s->best, used);
        tell_cut_list(job, s->best);
    }
    uint8_t text[SIGBROL_LAYOUT_TEXT];
    size_t written = 0;
    must("sigbrol_write_layout",
         sigbrol_write_layout(SIGBROL_LENT(job), SIGBROL_PLACES(s->best), job->count, text, sizeof text, &written));
    fwrite(text, 1, written, stdout);
    printf("end,%s,%" PRIu64 ",%" PRIu64 ",%" PRIu64 ",%zu\n", s->best_sum == 0 ? "clear" : "open", s->best_sum, s->trials, s->moves,
           used);
}

/* Reads the job from standard input. A refusal is printed as the output, and the job's buffers are as they were. */
static int read_job(sigbrol_job *job)
{
    /* One byte more than a job text may have, so that a longer input is seen as such. */
    static uint8_t text[SIGBROL_TEXT + 1];
    size_t length = fread(text, 1, sizeof text, stdin);
    if (ferror(stdin)) {
        perror("standard input");
        exit(EXIT_FAILURE);
    }
    if (length > SIGBROL_TEXT) {
        printf("refused,%d,0\n", SIGBROL_WRONG_LENGTH);
        return 0;
    }
    sigbrol_reply reply = sigbrol_read_job(text, length, job->table, SIGBROL_PIECES, job->pixels, SIGBROL_PIXELS, &job->rows,
                                           &job->columns, &job->count, &job->gap);
    if (reply.number != SIGBROL_DONE) {
        printf("refused,%" PRIu32 ",%" PRIu32 "\n", reply.number, reply.first);
        return 0;
    }
    return 1;
}

int main(void)
{
    static sigbrol_job job;
    static search s;
    if (read_job(&job)) {
        begin(&job, &s);
        for (int number = 1; number <= ROUNDS; number++) {
            if (run_round(&job, &s, number) == SIGBROL_CLEAR) {
                break;
            }
            raise_weights(&job, &s);
        }
        print_best(&job, &s);
    }
    if (fflush(stdout) != 0 || ferror(stdout)) {
        perror("standard output");
        return EXIT_FAILURE;
    }
    return EXIT_SUCCESS;
}

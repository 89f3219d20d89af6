/* Plays a script on the C library, as the program `pool` plays it, and looks at all that the library tells.
 *
 *     play SETTINGS SCRIPT [CUT [each]]
 *
 * Writes the journal to standard output. The object with the id n has a token of its own, and where a token comes out it must be that of
 * the object, and must come out where the answer says so and nowhere else. What is answered must be what the entry's line says. After each
 * step the numbers of steps that the library tells must be the same, and what is told of a refusal must be true of it. A step that finishes
 * what was begun must ask for no memory, a line for no more than once, and a cut twice at most. It ends with status 0; or with status 3
 * and a line on standard error for settings or a script that can't be taken, as `pool` has it; or with status 4 where something was told
 * wrongly.
 *
 * With a number CUT that isn't 0 the journal is cut each time that it has so many entries and one more is to come, and is written as its
 * segments, one behind the other.
 *
 * With `each` the script is played again for each allocation of the library's, which is refused then; what was refused for want of memory is
 * tried again, and the same must be written. It is linked with --wrap=malloc and --wrap=realloc. */
#include <inttypes.h>
#include <stdio.h>
#include <stdlib.h>
#include <string.h>

#include "zuphinka.h"

enum { WRONG = 4, FAULT = 3, WORDS = 6 };

/* Of the run that is played: how many allocations there were, and which one is refused; how many entries were cut off. */
static uint64_t allocations, refused, dropped;

void *__real_malloc(size_t size);
void *__real_realloc(void *block, size_t size);
void *__wrap_malloc(size_t size);
void *__wrap_realloc(void *block, size_t size);

void *__wrap_malloc(size_t size) { return ++allocations == refused ? NULL : __real_malloc(size); }

void *__wrap_realloc(void *block, size_t size) { return ++allocations == refused ? NULL : __real_realloc(block, size); }

static void check(bool holds, const char *what) {
  if (holds) return;
  fprintf(stderr, "play: %s", what);
  if (refused) fprintf(stderr, ", with allocation %" PRIu64 " refused", refused);
  fprintf(stderr, "\n");
  exit(WRONG);
}

/* What is written, kept until the run ends. */
struct text {
  char *bytes;
  size_t length, room;
};

static struct text out;

static void flush(void) {
  if (out.length) fwrite(out.bytes, 1, out.length, stdout);
  check(fflush(stdout) == 0, "what isn't written");
}

static void fault(const char *what) {
  flush();
  fprintf(stderr, "pool: %s\n", what);
  exit(FAULT);
}

static void append(struct text *text, const char *bytes, size_t length) {
  if (text->room - text->length < length) {
    text->room = 2 * (text->room + length);
    text->bytes = __real_realloc(text->bytes, text->room);
    check(text->bytes, "no memory for what is written");
  }
  memcpy(text->bytes + text->length, bytes, length);
  text->length += length;
}

static bool same(const char *bytes, size_t length, const struct text *text) {
  return length == text->length && (length == 0 || memcmp(bytes, text->bytes, length) == 0);
}

static void fault_at(unsigned long line, const char *what) {
  char text[64];
  snprintf(text, sizeof text, "line %lu: %s", line, what);
  fault(text);
}

/* The token of an object, which nobody follows. */
static void *token(uint64_t id) { return (void *)(uintptr_t)(16 * id + 1); }

/* ---- a line of a script */

static const struct {
  const char *word;
  uint32_t code;
  bool number, outcome;
} inputs[] = {
    {"borrow", ZUPHINKA_INPUT_BORROW, true, false},
    {"ready", ZUPHINKA_INPUT_READY, true, true},
    {"return", ZUPHINKA_INPUT_RETURN, true, false},
    {"park", ZUPHINKA_INPUT_PARK, true, true},
    {"invalidate", ZUPHINKA_INPUT_INVALIDATE, true, false},
    {"use", ZUPHINKA_INPUT_USE, true, false},
    {"add", ZUPHINKA_INPUT_ADD, false, false},
    {"fill", ZUPHINKA_INPUT_FILL, false, false},
    {"added", ZUPHINKA_INPUT_ADDED, true, true},
    {"evict", ZUPHINKA_INPUT_EVICT, false, false},
    {"evictnext", ZUPHINKA_INPUT_EVICT_NEXT, false, false},
    {"tested", ZUPHINKA_INPUT_TESTED, true, true},
    {"reclaimnext", ZUPHINKA_INPUT_RECLAIM_NEXT, false, false},
    {"clear", ZUPHINKA_INPUT_CLEAR, false, false},
    {"clearnext", ZUPHINKA_INPUT_CLEAR_NEXT, false, false},
    {"destroyed", ZUPHINKA_INPUT_DESTROYED, true, false},
    {"close", ZUPHINKA_INPUT_CLOSE, false, false},
};

static const char *const outcomes[] = {"good", "makefail", "createfail", "activatefail", "testfail", "passivatefail"};

static bool read_number(const char *word, uint64_t most, uint64_t *number) {
  *number = 0;
  if (!*word || (*word == '0' && word[1])) return false;
  for (; *word; word++) {
    if (*word < '0' || *word > '9') return false;
    uint64_t digit = (uint64_t)(*word - '0');
    if (*number > (most - digit) / 10) return false;
    *number = 10 * *number + digit;
  }
  return true;
}

static bool read_outcome(const char *word, uint32_t *outcome) {
  for (size_t n = 0; n < sizeof outcomes / sizeof *outcomes; n++) {
    if (strcmp(word, outcomes[n]) == 0) {
      *outcome = (uint32_t)(ZUPHINKA_OUTCOME_GOOD + n);
      return true;
    }
  }
  return false;
}

static bool read_reclaim(const char *word, uint32_t *input) {
  *input = strcmp(word, "borrow") == 0 ? ZUPHINKA_INPUT_RECLAIM_ON_BORROW : ZUPHINKA_INPUT_RECLAIM_FOR_MAINTENANCE;
  return strcmp(word, "borrow") == 0 || strcmp(word, "maintain") == 0;
}

static bool read_input(char *words[], size_t count, struct zuphinka_request *request) {
  if (strcmp(words[0], "reclaim") == 0) return count == 2 && read_reclaim(words[1], &request->input);
  for (size_t n = 0; n < sizeof inputs / sizeof *inputs; n++) {
    if (strcmp(words[0], inputs[n].word) != 0) continue;
    request->input = inputs[n].code;
    if (count != 1u + inputs[n].number + inputs[n].outcome) return false;
    if (inputs[n].number && !read_number(words[1], UINT64_MAX, &request->number)) return false;
    return !inputs[n].outcome || read_outcome(words[2], &request->outcome);
  }
  return false;
}

/* Cuts a line without its line feed at each space. */
static bool read_request(char *line, struct zuphinka_request *request) {
  char *words[WORDS];
  size_t count = 0;
  for (char *word = line; word; count++) {
    if (count == WORDS) return false;
    words[count] = word;
    word = strchr(word, ' ');
    if (word) *word++ = 0;
  }
  uint64_t caller;
  *request = (struct zuphinka_request){0};
  if (count < 3 || !read_number(words[0], UINT32_MAX, &caller) || !read_number(words[1], UINT64_MAX, &request->at)) return false;
  request->caller = (uint32_t)caller;
  return read_input(words + 2, count - 2, request);
}

/* ---- what the library tells */

struct state {
  uint64_t steps, room;
  struct zuphinka_tally counts;
};

static struct state state_of(struct zuphinka *pool) {
  struct state state;
  memset(&state, 0, sizeof state);
  check(zuphinka_steps(pool, &state.steps) == ZUPHINKA_STATUS_DONE, "the steps aren't told");
  check(zuphinka_room(pool, &state.room) == ZUPHINKA_STATUS_DONE, "the room isn't told");
  check(zuphinka_counts(pool, &state.counts) == ZUPHINKA_STATUS_DONE, "the counts aren't told");
  check(state.counts.steps == dropped + state.steps, "two numbers of steps");
  check(!zuphinka_is_low(pool, state.room) && zuphinka_is_low(pool, state.room + 1) == (state.steps > 0), "a journal that is low or isn't");
  check(state.counts.created ==
            state.counts.idle + state.counts.lent + state.counts.reserved + state.counts.destroyed + state.counts.reclaimed,
        "the counts don't add up");
  return state;
}

static bool is_keeping(uint32_t answer) { return answer == ZUPHINKA_ANSWER_PARKED || answer == ZUPHINKA_ANSWER_KEPT; }

static bool is_giving(uint32_t answer) {
  return answer == ZUPHINKA_ANSWER_TAKE || answer == ZUPHINKA_ANSWER_TEST || answer == ZUPHINKA_ANSWER_DESTROY_IDLE;
}

static bool is_finishing(uint32_t answer, uint32_t input) {
  return is_keeping(answer) || answer == ZUPHINKA_ANSWER_LENT || answer == ZUPHINKA_ANSWER_CHECK || answer == ZUPHINKA_ANSWER_DESTROY ||
         answer == ZUPHINKA_ANSWER_DESTROY_IDLE || answer == ZUPHINKA_ANSWER_FREED || answer == ZUPHINKA_ANSWER_RECLAIMED ||
         (answer == ZUPHINKA_ANSWER_COUNT && input == ZUPHINKA_INPUT_CLOSE);
}

static bool is_carrying(const struct zuphinka_request *request) {
  bool carries = request->input == ZUPHINKA_INPUT_PARK || request->input == ZUPHINKA_INPUT_ADDED || request->input == ZUPHINKA_INPUT_TESTED;
  return carries && request->outcome == ZUPHINKA_OUTCOME_GOOD;
}

/* The token that comes out is that of the idle object, or the one that was handed in and isn't kept. */
static void check_token(const struct zuphinka_request *request, const struct zuphinka_reply *reply) {
  bool comes = is_giving(reply->answer) || (is_carrying(request) && !is_keeping(reply->answer));
  check(reply->has_object == comes, "a token comes out where none should, or none where one should");
  if (!comes)
    check(!reply->object, "a token where none comes out");
  else
    check(reply->object == token(is_giving(reply->answer) ? reply->number : request->number), "the token of another object");
}

/* Takes a step; what has no memory has changed nothing, finishes nothing, and is tried again. */
static uint32_t step(struct zuphinka *pool, const struct zuphinka_request *request, struct zuphinka_reply *reply) {
  struct state before = state_of(pool);
  struct zuphinka_reply untouched;
  memset(&untouched, 0x5a, sizeof untouched);
  memcpy(reply, &untouched, sizeof untouched);
  uint64_t asked = allocations;
  uint32_t status = zuphinka_step(pool, request, reply);
  bool is_asking = allocations != asked;
  struct state after = state_of(pool);
  if (status == ZUPHINKA_STATUS_DONE) {
    check(after.steps == before.steps + 1, "a step without an entry");
    check(!is_asking || !is_finishing(reply->answer, request->input), "a step that finishes asked for memory");
    check_token(request, reply);
    return status;
  }
  check(memcmp(&before, &after, sizeof before) == 0, "a refused step that changed the pool");
  check(memcmp(reply, &untouched, sizeof untouched) == 0, "a refused step that has a reply");
  if (status != ZUPHINKA_STATUS_OUT_OF_MEMORY) return status;
  check(refused != 0, "memory was wanting");
  status = zuphinka_step(pool, request, reply);
  if (status == ZUPHINKA_STATUS_DONE) check(!is_finishing(reply->answer, request->input), "a step that finishes was refused");
  return status;
}

static const struct {
  const char *word;
  bool number;
} answers[] = {[ZUPHINKA_ANSWER_TAKE] = {"take", true},
               [ZUPHINKA_ANSWER_MAKE] = {"make", true},
               [ZUPHINKA_ANSWER_WAIT] = {"wait", false},
               [ZUPHINKA_ANSWER_EXHAUSTED] = {"exhausted", false},
               [ZUPHINKA_ANSWER_TIMED_OUT] = {"timeout", false},
               [ZUPHINKA_ANSWER_LENT] = {"lent", false},
               [ZUPHINKA_ANSWER_CHECK] = {"check", false},
               [ZUPHINKA_ANSWER_PARKED] = {"parked", false},
               [ZUPHINKA_ANSWER_KEPT] = {"kept", false},
               [ZUPHINKA_ANSWER_KEPT_IDLE] = {"keptidle", true},
               [ZUPHINKA_ANSWER_DESTROY] = {"destroy", false},
               [ZUPHINKA_ANSWER_DESTROY_IDLE] = {"destroyidle", true},
               [ZUPHINKA_ANSWER_TEST] = {"test", true},
               [ZUPHINKA_ANSWER_FREED] = {"freed", false},
               [ZUPHINKA_ANSWER_GONE] = {"gone", false},
               [ZUPHINKA_ANSWER_NOTED] = {"noted", false},
               [ZUPHINKA_ANSWER_COUNT] = {"count", true},
               [ZUPHINKA_ANSWER_RECLAIMED] = {"reclaimed", true},
               [ZUPHINKA_ANSWER_NOTHING] = {"nothing", false},
               [ZUPHINKA_ANSWER_ENOUGH] = {"enough", false},
               [ZUPHINKA_ANSWER_NO_PLACE] = {"noplace", false},
               [ZUPHINKA_ANSWER_REFUSED] = {"refused", false}};

static const char *const causes[] = {[ZUPHINKA_CAUSE_CLOSED] = " closed",
                                     [ZUPHINKA_CAUSE_NOT_LENT] = " notlent",
                                     [ZUPHINKA_CAUSE_NOT_HELD] = " notheld",
                                     [ZUPHINKA_CAUSE_BAD_OUTCOME] = " badoutcome"};

/* The reply says what the line of its entry ends in. */
static void check_answer(const struct zuphinka_reply *reply, const char *line, uint64_t size) {
  char end[64], number[32] = "";
  check(reply->answer >= ZUPHINKA_ANSWER_TAKE && reply->answer <= ZUPHINKA_ANSWER_REFUSED, "a code of an answer that is none");
  check(reply->cause <= ZUPHINKA_CAUSE_BAD_OUTCOME && (reply->cause != 0) == (reply->answer == ZUPHINKA_ANSWER_REFUSED), "a cause that is none");
  if (answers[reply->answer].number)
    snprintf(number, sizeof number, " %" PRIu64, reply->number);
  else
    check(!reply->number, "a number where none is answered");
  int length = snprintf(end, sizeof end, " = %s%s%s\n", answers[reply->answer].word, number, reply->cause ? causes[reply->cause] : "");
  check(length > 0 && (uint64_t)length < size && memcmp(line + size - length, end, (size_t)length) == 0, "a reply that isn't that of the line");
}

typedef uint32_t telling(struct zuphinka *, uint64_t, char *, size_t, uint64_t *);

/* The line that is told at a position, and its size; 0 where there is none. What is refused is asked for again. */
static uint64_t line_at(telling *tell, struct zuphinka *pool, uint64_t position, char line[ZUPHINKA_LONGEST_LINE]) {
  char untouched[ZUPHINKA_LONGEST_LINE], other[ZUPHINKA_LONGEST_LINE];
  uint64_t size = 0, told = 0, asked = allocations;
  memset(untouched, 'x', sizeof untouched);
  memcpy(line, untouched, sizeof untouched);
  memcpy(other, untouched, sizeof untouched);
  uint32_t status = tell(pool, position, line, ZUPHINKA_LONGEST_LINE, &size);
  check(allocations - asked <= 1, "a line that asked for memory twice");
  if (status == ZUPHINKA_STATUS_OUT_OF_MEMORY) {
    check(refused != 0 && size == 0 && memcmp(line, untouched, sizeof untouched) == 0, "a refused line that has a text");
    status = tell(pool, position, line, ZUPHINKA_LONGEST_LINE, &size);
  }
  if (status == ZUPHINKA_STATUS_NO_ENTRY) {
    check(size == 0 && memcmp(line, untouched, sizeof untouched) == 0, "a text of no line");
    return 0;
  }
  check(status == ZUPHINKA_STATUS_DONE && size > 0 && size <= ZUPHINKA_LONGEST_LINE && line[size - 1] == '\n', "no line");
  check(memcmp(line + size, untouched, ZUPHINKA_LONGEST_LINE - size) == 0, "a line that writes behind its end");
  status = tell(pool, position, other, size - 1, &told);
  if (status == ZUPHINKA_STATUS_OUT_OF_MEMORY) status = tell(pool, position, other, size - 1, &told);
  check(status == ZUPHINKA_STATUS_BUFFER_TOO_SMALL && told == size && memcmp(other, untouched, sizeof untouched) == 0,
        "a line that fits into no buffer");
  return size;
}

/* Appends the line of the entry that a reply is of, or only looks at it. */
static void see_entry(struct zuphinka *pool, uint64_t position, const struct zuphinka_reply *reply, bool is_written) {
  char line[ZUPHINKA_LONGEST_LINE];
  uint64_t size = line_at(zuphinka_line, pool, position, line);
  check(size > 0, "no line of an entry");
  check_answer(reply, line, size);
  if (is_written) append(&out, line, size);
}

/* Appends all lines that are told, and gives how many. */
static uint64_t append_lines(telling *tell, struct zuphinka *pool, struct text *text) {
  char line[ZUPHINKA_LONGEST_LINE];
  uint64_t count = 0;
  for (uint64_t size; (size = line_at(tell, pool, count, line)) > 0; count++) append(text, line, size);
  return count;
}

/* ---- segments */

/* Cuts the journal. A cut that is refused has changed nothing. */
static void cut(struct zuphinka *pool) {
  struct state before = state_of(pool);
  uint64_t asked = allocations;
  uint32_t status = zuphinka_cut(pool);
  check(allocations - asked <= 2, "a cut that asked for memory more than twice");
  if (status == ZUPHINKA_STATUS_OUT_OF_MEMORY) {
    struct state after = state_of(pool);
    check(refused != 0 && memcmp(&before, &after, sizeof before) == 0, "a refused cut that changed the pool");
    status = zuphinka_cut(pool);
  }
  check(status == ZUPHINKA_STATUS_DONE, "a cut that isn't made");
  dropped += before.steps;
  struct state after = state_of(pool);
  check(after.steps == 0 && after.room == before.room + before.steps, "a cut that leaves entries");
  check(memcmp(&before.counts, &after.counts, sizeof before.counts) == 0, "a cut that changed the counts");
}

/* Writes the entries behind the base that was written from `begins` on, and that must be told as it was. */
static void write_entries(struct zuphinka *pool, size_t begins) {
  struct text again = {0};
  append_lines(zuphinka_base, pool, &again);
  check(same(out.bytes + begins, out.length - begins, &again), "a base that isn't as it was");
  free(again.bytes);
  struct state state = state_of(pool);
  check(append_lines(zuphinka_line, pool, &out) == state.steps, "another number of entries");
}

/* ---- the run */

static char *read_file(const char *path, size_t *length) {
  FILE *file = fopen(path, "rb");
  if (!file) fault("cannot open a file");
  static char chunk[4096];
  char *bytes = __real_malloc(1);
  *length = 0;
  for (size_t more; (more = fread(chunk, 1, sizeof chunk, file)) > 0; *length += more) {
    bytes = __real_realloc(bytes, *length + more + 1);
    memcpy(bytes + *length, chunk, more);
  }
  fclose(file);
  bytes[*length] = 0;
  return bytes;
}

/* The bytes of the control character that begins here, U+0000 to U+001F and U+007F in one, U+0080 to U+009F in two; 0 where none does. */
static size_t control_at(const struct text *key, size_t n) {
  const unsigned char *at = (const unsigned char *)key->bytes + n;
  if (*at < 32 || *at == 127) return 1;
  return n + 1 < key->length && at[0] == 0xc2 && at[1] < 0xa0 ? 2 : 0;
}

/* Appends a key as it is told on one line: where it has a control character, these and backslashes stand as in TOML. */
static void append_key(struct text *text, const struct text *key) {
  static const char letters[] = {['\b'] = 'b', ['\t'] = 't', ['\n'] = 'n', ['\f'] = 'f', ['\r'] = 'r', ['\\'] = '\\'};
  bool escapes = false;
  for (size_t n = 0; n < key->length; n++) escapes |= control_at(key, n) != 0;
  for (size_t n = 0; n < key->length; n++) {
    unsigned char byte = (unsigned char)key->bytes[n];
    char shown[8] = {(char)byte};
    size_t controls = control_at(key, n);
    if (escapes && (controls || byte == '\\')) {
      n += controls == 2;
      if (byte < sizeof letters && letters[byte])
        snprintf(shown, sizeof shown, "\\%c", letters[byte]);
      else
        snprintf(shown, sizeof shown, "\\u%04X", (unsigned char)key->bytes[n]);
    }
    append(text, shown, strlen(shown));
  }
}

/* What is told of settings, with the key that is at fault. */
static uint32_t tell_settings(const char *text, size_t length, struct zuphinka_setup *settings, struct text *key) {
  struct zuphinka_setup untouched;
  uint64_t size = 0;
  char none = 'x';
  memset(&untouched, 0x5a, sizeof untouched);
  memcpy(settings, &untouched, sizeof untouched);
  uint32_t status = zuphinka_settings(text, length, settings, &none, 0, &size);
  if (status == ZUPHINKA_STATUS_OUT_OF_MEMORY) {
    check(refused != 0 && size == 0, "a refused text that has a key");
    status = zuphinka_settings(text, length, settings, &none, 0, &size);
  }
  if (status == ZUPHINKA_STATUS_DONE) return status;
  *key = (struct text){.bytes = __real_malloc(size + 2), .length = size};
  check(key->bytes, "no memory for a key");
  memset(key->bytes, 'x', size + 2);
  uint32_t again = zuphinka_settings(text, length, settings, key->bytes, size + 1, &size);
  if (again == ZUPHINKA_STATUS_OUT_OF_MEMORY) again = zuphinka_settings(text, length, settings, key->bytes, size + 1, &size);
  check(again == status && size == key->length && key->bytes[size] == 'x', "another key");
  check(none == 'x' && memcmp(settings, &untouched, sizeof untouched) == 0, "settings of a text that has a fault");
  return status;
}

static void fault_in(uint32_t status, const struct text *key) {
  static const char *const words[] = {[ZUPHINKA_STATUS_NOT_TEXT] = "settings: not TOML",
                                      [ZUPHINKA_STATUS_NOT_TOML] = "settings: not TOML",
                                      [ZUPHINKA_STATUS_UNKNOWN_KEY] = "settings: unknown key ",
                                      [ZUPHINKA_STATUS_WRONG_TYPE] = "settings: wrong type ",
                                      [ZUPHINKA_STATUS_OUT_OF_RANGE] = "settings: out of range "};
  struct text line = {0};
  append(&line, words[status], strlen(words[status]));
  append_key(&line, key);
  append(&line, "", 1);
  fault(line.bytes);
}

static void open_pool(struct zuphinka *pool, const char *path) {
  struct zuphinka_setup settings;
  struct text key = {0};
  size_t length;
  char *text = read_file(path, &length);
  uint32_t told = tell_settings(text, length, &settings, &key);
  uint32_t status = zuphinka_open(pool, text, length);
  if (status == ZUPHINKA_STATUS_OUT_OF_MEMORY) {
    check(refused != 0 && !pool->at, "a refused pool that is open");
    status = zuphinka_open(pool, text, length);
  }
  check(status == told, "settings that are told and not taken, or taken and not told");
  if (status == ZUPHINKA_STATUS_DONE) check(zuphinka_open(pool, text, length) == ZUPHINKA_STATUS_ALREADY_OPEN, "a pool that is opened twice");
  free(text);
  if (status == ZUPHINKA_STATUS_DONE) {
    check(state_of(pool).room + 1 == settings.journal_limit, "a journal with another limit");
    return;
  }
  check(!pool->at, "a refused pool that is open");
  check(status >= ZUPHINKA_STATUS_NOT_TEXT && status <= ZUPHINKA_STATUS_OUT_OF_RANGE, "a status of settings that is none");
  fault_in(status, &key);
}

/* An empty handle has a status for each call. */
static void check_empty(struct zuphinka *pool) {
  struct zuphinka_request request = {.input = ZUPHINKA_INPUT_ADD};
  struct zuphinka_reply reply = {0};
  struct zuphinka_tally counts = {0};
  uint64_t number = 7;
  char text[1] = {'x'};
  check(zuphinka_step(pool, &request, &reply) == ZUPHINKA_STATUS_NOT_OPEN && !reply.answer, "a step of no pool");
  check(zuphinka_counts(pool, &counts) == ZUPHINKA_STATUS_NOT_OPEN && !counts.steps, "counts of no pool");
  check(zuphinka_steps(pool, &number) == ZUPHINKA_STATUS_NOT_OPEN && number == 7, "steps of no pool");
  check(zuphinka_room(pool, &number) == ZUPHINKA_STATUS_NOT_OPEN && number == 7, "room of no pool");
  check(zuphinka_line(pool, 0, text, 1, &number) == ZUPHINKA_STATUS_NOT_OPEN && number == 7 && text[0] == 'x', "a line of no pool");
  check(zuphinka_base(pool, 0, text, 1, &number) == ZUPHINKA_STATUS_NOT_OPEN && number == 7 && text[0] == 'x', "a base of no pool");
  check(zuphinka_cut(pool) == ZUPHINKA_STATUS_NOT_OPEN && !pool->at, "a cut of no pool");
  check(!zuphinka_is_low(pool, UINT64_MAX), "a low journal of no pool");
  zuphinka_drop(pool);
  check(!pool->at, "a pool from nothing");
}

/* Each status has a text of its own. */
static void check_texts(void) {
  for (uint32_t status = 0; status <= ZUPHINKA_STATUS_OUT_OF_RANGE; status++) {
    const char *text = zuphinka_status_text(status);
    for (uint32_t other = status + 1; other <= ZUPHINKA_STATUS_OUT_OF_RANGE + 1; other++) {
      check(*text && strcmp(text, zuphinka_status_text(other)) != 0, "two statuses with one text");
    }
  }
}

/* Codes that are none are refused, and change nothing. */
static void check_codes(struct zuphinka *pool) {
  const struct zuphinka_request requests[] = {{.input = 0},
                                              {.input = ZUPHINKA_INPUT_CLOSE + 1},
                                              {.input = ZUPHINKA_INPUT_READY},
                                              {.input = ZUPHINKA_INPUT_PARK, .outcome = ZUPHINKA_OUTCOME_PASSIVATE_FAILED + 1}};
  struct state before = state_of(pool);
  for (size_t n = 0; n < sizeof requests / sizeof *requests; n++) {
    struct zuphinka_reply reply = {0};
    check(zuphinka_step(pool, &requests[n], &reply) == ZUPHINKA_STATUS_BAD_REQUEST && !reply.answer, "a bad request that is answered");
  }
  struct state after = state_of(pool);
  check(memcmp(&before, &after, sizeof before) == 0, "a bad request that changed the pool");
}

/* Takes the step of a line of the script. */
static void play_line(struct zuphinka *pool, char *text, unsigned long line, bool is_written) {
  struct zuphinka_request request;
  struct zuphinka_reply reply;
  if (!read_request(text, &request)) fault_at(line, "not a line");
  if (is_carrying(&request)) request.object = token(request.number);
  uint32_t status = step(pool, &request, &reply);
  if (status == ZUPHINKA_STATUS_JOURNAL_FULL) fault_at(line, "journal full");
  check(status == ZUPHINKA_STATUS_DONE, "a step that isn't taken");
  see_entry(pool, line - 1 - dropped, &reply, is_written);
}

static void play(struct zuphinka *pool, char *script, size_t length, uint64_t every) {
  unsigned long line = 1;
  size_t begins = out.length;
  if (every) append_lines(zuphinka_base, pool, &out);
  for (char *at = script; at < script + length; line++) {
    char *end = memchr(at, '\n', (size_t)(script + length - at));
    if (!end) fault_at(line, "truncated");
    if (memchr(at, 0, (size_t)(end - at))) fault_at(line, "not a line");
    *end = 0;
    if (every && line - 1 - dropped == every) {
      write_entries(pool, begins);
      cut(pool);
      begins = out.length;
      append_lines(zuphinka_base, pool, &out);
    }
    play_line(pool, at, line, !every);
    at = end + 1;
  }
  if (every) write_entries(pool, begins);
  uint64_t size = 7;
  char text[1];
  check(zuphinka_line(pool, line - 1 - dropped, text, 1, &size) == ZUPHINKA_STATUS_NO_ENTRY && size == 7, "a line of no entry");
}

static void run(char **arguments, uint64_t every) {
  struct zuphinka pool = {0};
  allocations = dropped = 0;
  check_empty(&pool);
  open_pool(&pool, arguments[1]);
  check_codes(&pool);
  size_t length;
  char *script = read_file(arguments[2], &length);
  play(&pool, script, length, every);
  free(script);
  zuphinka_drop(&pool);
  check_empty(&pool);
}

/* Plays the script with each allocation refused in turn. */
static void run_each(char **arguments, uint64_t every) {
  struct text wanted = out;
  for (refused = 1;; refused++) {
    out = (struct text){0};
    run(arguments, every);
    check(same(wanted.bytes, wanted.length, &out), "another journal");
    free(out.bytes);
    if (refused > allocations) break;
  }
  check(refused > 1, "no allocation");
  free(wanted.bytes);
}

int main(int count, char **arguments) {
  uint64_t every = 0;
  bool is_each = count == 5 && strcmp(arguments[4], "each") == 0;
  bool is_read = count <= 3 || read_number(arguments[3], UINT64_MAX, &every);
  if (count < 3 || count > 5 || is_each != (count == 5) || !is_read) fault("wrong arguments");
  check_texts();
  check(zuphinka_version() == ZUPHINKA_VERSION_NUMBER, "a library of another version than the header");
  run(arguments, every);
  flush();
  if (is_each)
    run_each(arguments, every);
  else
    free(out.bytes);
  return 0;
}

#include "sessions.h"
#include "log.h"
#include "owner_only.h"
#include "option_words.h"

#include <arpa/inet.h>
#include <stdlib.h>
#include <string.h>
#include <sys/stat.h>

enum { WORDS = 9, LINE = 320 }; /* the last word may be left out */

/* A line of the text, with the hash of its name, or of its key. */
struct place { uint64_t hash; size_t at; };

struct sessions {
    const char *path;
    char *text;            /* the file, each of whose lines ends by a newline */
    size_t size;
    struct place *places;  /* by the hashes of names */
    size_t count;
    unsigned char has_shard[CARRIER_SHARDS];
    struct stat read, seen; /* what the file was when it was read, and at the last look */
    unsigned users;
};

/* ---- A line */

/* The value of a digit of a key, with no branch on it. *are_bad becomes 1 where it is none. */
static unsigned value_of(char digit, unsigned *are_bad)
{
    unsigned number = (unsigned char)digit - (unsigned)'0';
    unsigned letter = ((unsigned char)digit | 0x20u) - (unsigned)'a';
    unsigned is_number = 0u - (number < 10), is_letter = 0u - (letter < 6);
    *are_bad |= ~(is_number | is_letter) & 1u;
    return (number & is_number) | ((letter + 10) & is_letter);
}

static int read_key(const char *digits, struct session *it, uint8_t key[32])
{
    unsigned are_bad = 0;
    size_t i;
    it->key_len = it->etype == 17 ? 16 : 32;
    if (strlen(digits) != 2 * it->key_len)
        return 0;
    for (i = 0; i < it->key_len; i++)
        key[i] = (uint8_t)(value_of(digits[2 * i], &are_bad) << 4
                               | value_of(digits[2 * i + 1], &are_bad));
    return !are_bad;
}

static int read_address(const char *text, struct krbrelay_address *address)
{
    memset(address, 0, sizeof *address);
    address->kind = 2;
    address->len = 4;
    return inet_pton(AF_INET, text, address->bytes) == 1;
}

static int read_mode(const char *word, uint32_t *mode)
{
    *mode = strcmp(word, "safe") == 0 ? KRBRELAY_SAFE : KRBRELAY_PRIV;
    return *mode == KRBRELAY_SAFE || strcmp(word, "priv") == 0;
}

static int is_of_name(char it)
{
    return (it >= 'a' && it <= 'z') || (it >= 'A' && it <= 'Z') || (it >= '0' && it <= '9')
           || it == '-' || it == '_';
}

int sessions_may_have(const char *name)
{
    size_t len = 0;
    while (is_of_name(name[len]))
        len++;
    return name[len] == 0 && len > 0 && len < CARRIER_NAME;
}

static int read_name(const char *word, char name[CARRIER_NAME])
{
    if (!sessions_may_have(word))
        return 0;
    strcpy(name, word);
    return 1;
}

/* The words of a line, each of which ends by a zero then, and how many there are; 0 if that are too
 * many. */
static int split(char *line, char *words[WORDS])
{
    static const char space[] = " \t\r";
    char *rest = NULL, *word;
    int count = 0;
    for (word = strtok_r(line, space, &rest); word != NULL; word = strtok_r(NULL, space, &rest)) {
        if (count == WORDS)
            return 0;
        words[count++] = word;
    }
    return count;
}

/* The first word that is wrong. */
enum wrong {
    WRONG_NONE, WRONG_LINE, WRONG_COUNT, WRONG_NAME, WRONG_SHARD, WRONG_ETYPE, WRONG_MODE, WRONG_KEY, WRONG_FIRST,
    WRONG_FROM, WRONG_TO, WRONG_BACK
};

static const char *const wrong_texts[] = {
    [WRONG_LINE] = "the line has more than 319 bytes, or a zero byte",
    [WRONG_COUNT] = "a line is NAME SHARD ETYPE MODE KEY FIRST FROM TO [BACK]: no comment, no empty line",
    [WRONG_NAME] = "NAME has 1 to 31 letters, digits, '-' and '_'",
    [WRONG_SHARD] = "SHARD is a number from 0 to 4095",
    [WRONG_ETYPE] = "ETYPE is 17 or 18",
    [WRONG_MODE] = "MODE is safe or priv",
    [WRONG_KEY] = "KEY has 32 hexadecimal digits of type 17, and 64 of type 18",
    [WRONG_FIRST] = "FIRST is a number from 0 to 4294967295",
    [WRONG_FROM] = "FROM is an IPv4 address, as 10.0.0.1",
    [WRONG_TO] = "TO is an IPv4 address, as 10.0.0.2",
    [WRONG_BACK] = "BACK has as many hexadecimal digits as KEY"
};

/* What isn't a key, in the order of a line. */
static enum wrong read_numbers(char *const words[WORDS], struct session *it)
{
    uint64_t shard, etype, first;
    if (!read_name(words[0], it->name))
        return WRONG_NAME;
    if (!read_number(words[1], 0, CARRIER_SHARDS - 1, &shard))
        return WRONG_SHARD;
    if (!read_number(words[2], 17, 18, &etype))
        return WRONG_ETYPE;
    if (!read_mode(words[3], &it->mode))
        return WRONG_MODE;
    if (!read_number(words[5], 0, UINT32_MAX, &first))
        return WRONG_FIRST;
    it->shard = (unsigned)shard;
    it->etype = (int32_t)etype;
    it->first = (uint32_t)first;
    return WRONG_NONE;
}

static enum wrong read_words(char *const words[WORDS], int count, struct session *it)
{
    enum wrong wrong = count < WORDS - 1 ? WRONG_COUNT : read_numbers(words, it);
    if (wrong != WRONG_NONE)
        return wrong;
    it->has_back = count == WORDS ? 1 : 0;
    if (!read_key(words[4], it, it->key))
        return WRONG_KEY;
    if (!read_address(words[6], &it->from))
        return WRONG_FROM;
    if (!read_address(words[7], &it->to))
        return WRONG_TO;
    return it->has_back && !read_key(words[8], it, it->back) ? WRONG_BACK : WRONG_NONE;
}

/* Reads the line that stands at a place of the text. */
static enum wrong read_line(const struct sessions *s, size_t at, struct session *it)
{
    const char *end = memchr(s->text + at, '\n', s->size - at);
    size_t len = (size_t)(end - s->text) - at;
    char line[LINE], *words[WORDS];
    enum wrong wrong;
    memset(it, 0, sizeof *it);
    if (len >= sizeof line || memchr(s->text + at, 0, len) != NULL)
        return WRONG_LINE;
    memcpy(line, s->text + at, len);
    line[len] = 0;
    wrong = read_words(words, split(line, words), it);
    explicit_bzero(line, sizeof line);
    return wrong;
}

/* ---- Lines by name, and by key */

static uint64_t hash_of(const void *bytes, size_t len)
{
    const uint8_t *at = bytes;
    uint64_t hash = UINT64_C(14695981039346656037); /* FNV-1a */
    for (; len > 0; len--)
        hash = (hash ^ *at++) * UINT64_C(1099511628211);
    return hash;
}

static int by_hash(const void *a, const void *b)
{
    uint64_t one = ((const struct place *)a)->hash, other = ((const struct place *)b)->hash;
    return (one > other) - (one < other);
}

static int is_same_key(const struct session *one, const uint8_t *key, const struct session *other,
                       const uint8_t *others)
{
    return one->key_len == other->key_len && memcmp(key, others, one->key_len) == 0;
}

/* Whether two lines have a key in common, or one has the same one twice. */
static int have_same_key(const struct session *one, const struct session *other, int is_one_line)
{
    if (is_one_line)
        return one->has_back && is_same_key(one, one->key, one, one->back);
    return is_same_key(one, one->key, other, other->key)
           || (one->has_back && is_same_key(one, one->back, other, other->key))
           || (other->has_back && is_same_key(one, one->key, other, other->back))
           || (one->has_back && other->has_back && is_same_key(one, one->back, other, other->back));
}

static size_t line_of(const struct sessions *s, size_t at)
{
    size_t line = 1, i;
    for (i = 0; i < at; i++)
        line += s->text[i] == '\n';
    return line;
}

static void report_repeated(const struct sessions *s, size_t one, size_t other, int is_key)
{
    log_fact(LEVEL_ERROR, "session_repeated", field_text("file", s->path),
             field_number("line", line_of(s, one > other ? one : other)),
             field_number("before", line_of(s, one > other ? other : one)),
             field_text("same", is_key ? "key" : "name"),
             field_text("text", "give each session a name and a key of its own"));
}

/* Whether two lines of one hash have the same name, or key. */
static int is_repeated(const struct sessions *s, const struct place *one,
                       const struct place *other, int is_key)
{
    struct session a, b;
    int is_same = read_line(s, one->at, &a) == WRONG_NONE && read_line(s, other->at, &b) == WRONG_NONE
                  && (is_key ? have_same_key(&a, &b, one->at == other->at)
                             : strcmp(a.name, b.name) == 0);
    explicit_bzero(&a, sizeof a);
    explicit_bzero(&b, sizeof b);
    if (is_same)
        report_repeated(s, one->at, other->at, is_key);
    return is_same;
}

/* Sorts places by their hashes, unless two lines have the same name, or key. */
static int sort(const struct sessions *s, struct place *places, size_t count, int is_key)
{
    size_t i, other;
    qsort(places, count, sizeof *places, by_hash);
    for (i = 0; i < count; i++)
        for (other = i + 1; other < count && places[other].hash == places[i].hash; other++)
            if (is_repeated(s, &places[i], &places[other], is_key))
                return 0;
    return 1;
}

/* Reports what is wrong in the line at this place, if anything is: 1 if nothing is. */
static int is_fine_line(const struct sessions *s, size_t at, enum wrong wrong)
{
    if (wrong != WRONG_NONE)
        log_fact(LEVEL_ERROR, "session_malformed", field_text("file", s->path),
                 field_number("line", line_of(s, at)), field_text("text", wrong_texts[wrong]));
    return wrong == WRONG_NONE;
}

/* Checks each line, and notes its name and its keys, of which *count is how many there are. */
static int read_lines(struct sessions *s, struct place *keys, size_t *count)
{
    struct session it;
    size_t at = 0;
    int is_fine = 1;
    while (at < s->size && is_fine) {
        is_fine = is_fine_line(s, at, read_line(s, at, &it));
        s->places[s->count] = (struct place){ hash_of(it.name, strlen(it.name)), at };
        s->has_shard[it.shard] = 1;
        s->count++;
        keys[(*count)++] = (struct place){ hash_of(it.key, it.key_len), at };
        if (it.has_back)
            keys[(*count)++] = (struct place){ hash_of(it.back, it.key_len), at };
        at = (size_t)((char *)memchr(s->text + at, '\n', s->size - at) - s->text) + 1;
    }
    explicit_bzero(&it, sizeof it);
    return is_fine;
}

static int sort_lines(struct sessions *s)
{
    size_t lines = line_of(s, s->size), count = 0;
    struct place *keys = calloc(2 * lines, sizeof *keys);
    int is_fine;
    s->places = calloc(lines, sizeof *s->places);
    is_fine = keys != NULL && s->places != NULL && read_lines(s, keys, &count)
              && sort(s, keys, count, 1) && sort(s, s->places, s->count, 0);
    if (keys != NULL) /* they say something of keys */
        explicit_bzero(keys, 2 * lines * sizeof *keys);
    free(keys);
    return is_fine;
}

/* ---- The file */

struct sessions *sessions_empty(void)
{
    struct sessions *s = calloc(1, sizeof *s);
    if (s != NULL)
        s->users = 1;
    else
        log_system("out_of_memory", "sessions");
    return s;
}

struct sessions *sessions_read(const char *path)
{
    struct sessions *s = sessions_empty();
    if (s == NULL)
        return NULL;
    s->path = path;
    s->text = owner_only_read(path, &s->size, &s->read);
    if (s->text != NULL && sort_lines(s)) {
        if (s->count > 0)
            return s;
        log_fact(LEVEL_ERROR, "sessions_missing", field_text("file", path),
                 field_text("text", "give each session a line"));
    }
    sessions_forget(s);
    return NULL;
}

static int is_same(const struct stat *one, const struct stat *other)
{
    return one->st_dev == other->st_dev && one->st_ino == other->st_ino
           && one->st_size == other->st_size && one->st_mode == other->st_mode
           && memcmp(&one->st_mtim, &other->st_mtim, sizeof one->st_mtim) == 0;
}

struct sessions *sessions_read_again(struct sessions *s)
{
    struct stat is;
    struct sessions *again;
    int has_settled;
    if (s->path == NULL || stat(s->path, &is) != 0 || is_same(&is, &s->read))
        return NULL;
    has_settled = is_same(&is, &s->seen);
    s->seen = is;
    if (!has_settled)
        return NULL;
    s->read = is; /* if it can't be used, it is looked at again once it has changed again */
    again = sessions_read(s->path);
    if (again != NULL)
        log_fact(LEVEL_INFO, "sessions_read_again", field_text("file", s->path),
                 field_number("sessions", again->count));
    return again;
}

int sessions_find(const struct sessions *s, const char *name, struct session *it)
{
    const struct place wanted = { hash_of(name, strlen(name)), 0 };
    const struct place *end, *at;
    memset(it, 0, sizeof *it);
    if (s->count == 0)
        return 0;
    end = s->places + s->count;
    at = bsearch(&wanted, s->places, s->count, sizeof *at, by_hash);
    while (at != NULL && at > s->places && at[-1].hash == wanted.hash)
        at--;
    for (; at != NULL && at < end && at->hash == wanted.hash; at++)
        if (read_line(s, at->at, it) == WRONG_NONE && strcmp(it->name, name) == 0)
            return 1;
    return 0;
}

int sessions_have_shard(const struct sessions *s, unsigned shard)
{
    return s->has_shard[shard];
}

size_t sessions_count(const struct sessions *s)
{
    return s->count;
}

void sessions_at(const struct sessions *s, size_t place, struct session *it)
{
    if (read_line(s, s->places[place].at, it) != WRONG_NONE)
        memset(it, 0, sizeof *it); /* never: each line was checked */
}

struct sessions *sessions_share(struct sessions *s)
{
    __atomic_fetch_add(&s->users, 1, __ATOMIC_SEQ_CST);
    return s;
}

void sessions_forget(struct sessions *s)
{
    if (s == NULL || __atomic_sub_fetch(&s->users, 1, __ATOMIC_SEQ_CST) > 0)
        return;
    owner_only_forget(s->text, s->size);
    free(s->places);
    free(s);
}

void answer_text(enum krbrelay_answer answer, char text[KRBRELAY_TEXT_SIZE])
{
    size_t size;
    if (krbrelay_answer_text(answer, text, KRBRELAY_TEXT_SIZE, &size) != KRBRELAY_OK)
        text[0] = 0;
}

void report_answer(const char *event, const char *name, uint64_t number,
                   enum krbrelay_answer answer)
{
    char text[KRBRELAY_TEXT_SIZE];
    answer_text(answer, text);
    log_fact(LEVEL_ERROR, event, field_text("session", name), field_number("number", number),
             field_number("answer", (uint64_t)answer), field_text("text", text));
}

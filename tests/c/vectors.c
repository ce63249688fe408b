/* Runs the conformance vectors of the folder `vectors`, in the format of docs/VECTORS.md. It runs each line of `check`,
 * and each line of `build` that doesn't read standard input, through the header. If there is a reader, it also runs the
 * line octet by octet. It runs blocks and answers to reset in every two pieces too. It cuts values at each octet, and
 * searches for the fewest octets that complete them by the decoders alone, to compare with scard_least. The folder is
 * the first word, or ./vectors.
 */
#include "check.h"

#define LONGEST_LINE 8192
#define MOST_WORDS 16
#define LONGEST_MESSAGE 131072
#define LONGEST_CUT 64

/* A line: its words after the program's name, without the options, and the text that has to come, as the line has it.
 */
struct row {
    char *words[MOST_WORDS];
    size_t count;
    int ifs;
    int number;
    const char *text;
};

/* The text of an answer, as a line has it. */
static char said[2 * LONGEST_LINE];

/* Decodes the octets of a word into a separate block. */
static struct octets of_word(const char *word)
{
    return of_hex(strcmp(word, "none") == 0 || strcmp(word, "\\e") == 0 ? "" : word);
}

/* Adds a text to the answer. */
static void say(const char *text)
{
    strncat(said, text, sizeof said - strlen(said) - 1);
}

/* Adds octets to the answer in hexadecimal, or `none`, and the end of their line. */
static void say_octets(const uint8_t *octets, size_t count)
{
    char digits[3];
    size_t place;
    for (place = 0; place < count; place++) {
        snprintf(digits, sizeof digits, "%02X", octets[place]);
        say(digits);
    }
    say(count == 0 ? "none\\n" : "\\n");
}

/* Adds the line of a verdict. */
static void say_verdict(struct scard_verdict v, int codec)
{
    say(v.status == SCARD_DUPLICATE ? "refused: Duplicate" : line_of(v, codec));
    say("\\n");
}

/* Feeds a chain to a receiver of the longest messages. */
static struct scard_verdict chain_of(struct octets octets, int ifs, int number)
{
    static uint8_t message[LONGEST_MESSAGE];
    struct scard_lent_receiver receiver;
    struct scard_verdict v = scard_lent_receiver_begin(&receiver, (uint8_t)ifs, (uint8_t)number, sizeof message);
    if (v.status == SCARD_OK) {
        v = scard_lent_receiver_feed(&receiver, message, sizeof message, octets.at, octets.count);
    }
    return v.status == SCARD_MORE ? scard_lent_receiver_finish(&receiver, message, sizeof message) : v;
}

#ifndef WITHOUT_HANDLES
/* Opens the reader of a codec. Returns ARGUMENT if the codec has none. */
static struct scard_verdict open_reader(int codec, const struct row *row, struct scard_handle *reader)
{
    struct scard_verdict none = {SCARD_ARGUMENT, 0, 0};
    switch (codec) {
    case SCARD_CODEC_ATR:
        return scard_atr_reader_open(reader);
    case SCARD_CODEC_BLOCK:
        return scard_block_reader_open(reader, (uint8_t)row->ifs);
    case SCARD_CODEC_CHAIN:
        return scard_receiver_open(reader, (uint8_t)row->ifs, (uint8_t)row->number, LONGEST_MESSAGE);
    case SCARD_CODEC_TLV:
        return scard_tlv_check_open(reader, SCARD_TLV_LARGEST);
    default:
        return none;
    }
}

/* Checks that the reader of a codec, if it has one, says the same of octets that come one by one. */
static void check_reader(int codec, const struct row *row, struct octets octets, struct scard_verdict wanted)
{
    struct scard_handle reader = SCARD_HANDLE_EMPTY;
    struct scard_verdict v = {SCARD_MORE, 0, 0};
    size_t place = 0;
    if (open_reader(codec, row, &reader).status != SCARD_OK) {
        return;
    }
    while (v.status == SCARD_MORE && place < octets.count) {
        v = scard_reader_feed(&reader, octets.at + place, 1);
        place++;
    }
    if (v.status == SCARD_MORE) {
        v = scard_reader_finish(&reader);
    }
    v.place = v.status == SCARD_OK ? place : v.place;
    CHECK(v.status == wanted.status && v.place == wanted.place && v.reason == wanted.reason);
    scard_close(&reader);
}
#endif

/* Checks that a reader of a block or of an answer to reset, whose state is here, says the same of octets in pieces of
 * this length. The first piece has another length.
 */
static void check_pieces(int codec, const struct row *row, struct octets octets, size_t first, size_t length,
                         struct scard_verdict wanted)
{
    struct scard_lent_block_reader block;
    struct scard_lent_atr_reader atr;
    struct scard_verdict v = {SCARD_OK, 0, 0};
    size_t place = 0, piece = first;
    scard_lent_atr_reader_begin(&atr);
    if (codec == SCARD_CODEC_BLOCK) {
        v = scard_lent_block_reader_begin(&block, (uint8_t)row->ifs);
    }
    if (v.status == SCARD_OK) {
        v.status = SCARD_MORE;
    }
    while (v.status == SCARD_MORE && place < octets.count) {
        piece = piece < octets.count - place ? piece : octets.count - place;
        v = codec == SCARD_CODEC_BLOCK ? scard_lent_block_reader_feed(&block, octets.at + place, piece)
                                       : scard_lent_atr_reader_feed(&atr, octets.at + place, piece);
        v.place += v.status == SCARD_OK ? place : 0;
        place += piece;
        piece = length;
    }
    if (v.status == SCARD_MORE) {
        v = codec == SCARD_CODEC_BLOCK ? scard_lent_block_reader_finish(&block) : scard_lent_atr_reader_finish(&atr);
    }
    CHECK(v.status == wanted.status && v.place == wanted.place && v.reason == wanted.reason);
}

/* Checks the same octet by octet, and in every two pieces. */
static void check_kept(int codec, const struct row *row, struct octets octets, struct scard_verdict wanted)
{
    size_t first;
    if (codec != SCARD_CODEC_ATR && codec != SCARD_CODEC_BLOCK) {
        return;
    }
    check_pieces(codec, row, octets, 1, 1, wanted);
    for (first = 0; first <= octets.count; first++) {
        check_pieces(codec, row, octets, first, octets.count, wanted);
    }
}

/* Returns the verdict of a codec's decoder. */
static struct scard_verdict verdict_of_row(int codec, const struct row *row, struct octets octets)
{
    return codec == SCARD_CODEC_CHAIN ? chain_of(octets, row->ifs, row->number)
                                      : verdict_of_codec(codec, octets, (uint8_t)row->ifs);
}

/* Checks how many more octets must come at least, for octets that end early. By the decoder alone: no octet brings a
 * value nearer by more than one, some octet brings it nearer by one, and it is whole when no octet is missing.
 */
static void check_next(int codec, const struct row *row, struct octets octets)
{
    size_t least = scard_least((uint8_t)codec, octets.at, octets.count), nearer = 0;
    struct octets longer = {(uint8_t *)malloc(octets.count + 1), octets.count + 1};
    int next;
    CHECK(longer.at != NULL && least > 0);
    if (octets.count > 0) {
        memcpy(longer.at, octets.at, octets.count);
    }
    for (next = 0; next < 256; next++) {
        struct scard_verdict v;
        longer.at[octets.count] = (uint8_t)next;
        v = verdict_of_row(codec, row, longer);
        if (v.status != SCARD_AT) {
            size_t left = scard_least((uint8_t)codec, longer.at, longer.count);
            CHECK((v.status == SCARD_OK) == (left == 0));
            CHECK(left + 1 >= least);
            nearer += left + 1 == least;
        }
    }
    CHECK(nearer > 0);
    free(longer.at);
}

/* Checks the same after each octet of a value, and that the rest of the value is no shorter. */
static void check_least(int codec, const struct row *row, struct octets octets, struct scard_verdict whole)
{
    size_t count = whole.status == SCARD_OK ? 0 : octets.count;
    if (whole.status == SCARD_AT || whole.place > LONGEST_CUT) {
        return;
    }
    for (; count <= whole.place; count++) {
        struct octets front = {octets.at, count};
        struct scard_verdict v = verdict_of_row(codec, row, front);
        size_t least = scard_least((uint8_t)codec, octets.at, count);
        CHECK(v.status == SCARD_SHORT || (v.status == SCARD_OK && least == 0));
        CHECK(whole.status != SCARD_OK || least <= whole.place - count);
        if (v.status == SCARD_SHORT) {
            check_next(codec, row, front);
        }
    }
}

/* Makes the answer to `check KIND HEX`. */
static void check_kind(const struct row *row)
{
    static const char *const kinds[] = {"", "atr", "block", "chain", "command", "response", "tlv", "dol"};
    struct octets octets = of_word(row->words[2]);
    struct scard_verdict v;
    int codec = 0;
    while (codec < 8 && strcmp(kinds[codec], row->words[1]) != 0) {
        codec++;
    }
    v = verdict_of_row(codec, row, octets);
    say_verdict(v, codec);
    check_least(codec, row, octets, v);
    check_kept(codec, row, octets, v);
#ifndef WITHOUT_HANDLES
    check_reader(codec, row, octets, v);
#endif
    free(octets.at);
}

/* Makes the answer to `build chain IFS NUMBER HEX`. Each block ends after its length, header and LRC. */
static void cut(const struct row *row)
{
    struct octets message = of_word(row->words[4]);
    uint8_t out[LONGEST_LINE];
    struct scard_verdict v = scard_chain_cut(message.at, message.count, (uint8_t)atoi(row->words[2]),
                                             (uint8_t)atoi(row->words[3]), out, sizeof out);
    size_t place = 0;
    while (v.status == SCARD_OK && place < v.place) {
        say_octets(out + place, (size_t)out[place + 2] + 4);
        place += (size_t)out[place + 2] + 4;
    }
    free(message.at);
}

/* Makes the answer to `build tidy HEX`. */
static void tidy(const struct row *row)
{
    struct octets octets = of_word(row->words[2]);
    uint8_t out[LONGEST_LINE];
    struct scard_verdict v = scard_tlv_tidy(octets.at, octets.count, SCARD_TLV_LARGEST, out, sizeof out);
    if (v.status == SCARD_OK) {
        say_octets(out, v.place);
    } else {
        say_verdict(v, SCARD_CODEC_TLV);
    }
    free(octets.at);
}

/* Decodes the known value of a word F:TAG:VALUE. Its octets go to `value`. */
static struct scard_known known_of(char *word, struct octets *value)
{
    struct scard_known known;
    char *tag = strchr(word, ':') + 1;
    char *text = strchr(tag, ':') + 1;
    struct octets octets;
    memset(&known, 0, sizeof known);
    text[-1] = 0;
    octets = of_word(tag);
    known.tag.count = (uint8_t)octets.count;
    if (octets.count > 0) {
        memcpy(known.tag.octets, octets.at, octets.count < 3 ? octets.count : 3);
    }
    free(octets.at);
    *value = of_word(text);
    known.format = *word == 'n' ? SCARD_NUMERIC : *word == 'c' ? SCARD_COMPRESSED_NUMERIC : SCARD_OTHER;
    known.value = value->at;
    known.count = value->count;
    return known;
}

/* Makes the answer to `build fill DOL F:TAG:VALUE..`. */
static void fill(const struct row *row)
{
    struct octets list = of_word(row->words[2]), values[MOST_WORDS];
    struct scard_known known[MOST_WORDS];
    uint8_t out[LONGEST_LINE];
    struct scard_verdict v = scard_dol_check(list.at, list.count);
    size_t count = 0;
    /* a refused list is refused whatever words follow it */
    while (v.status == SCARD_OK && count + 3 < row->count) {
        known[count] = known_of(row->words[count + 3], &values[count]);
        count++;
    }
    if (v.status == SCARD_OK) {
        v = scard_dol_fill(list.at, list.count, known, count, out, sizeof out);
    }
    if (v.status == SCARD_OK) {
        say_octets(out, v.place);
    } else {
        say_verdict(v, SCARD_CODEC_DOL);
    }
    while (count > 0) {
        free(values[--count].at);
    }
    free(list.at);
}

/* Makes the answers of calls that write tidy forms and filled lists. Returns whether the line has such a call. */
static int with_objects(const struct row *row)
{
    if (row->count == 3 && strcmp(row->words[1], "tidy") == 0) {
        tidy(row);
        return 1;
    }
    if (row->count >= 3 && strcmp(row->words[1], "fill") == 0) {
        fill(row);
        return 1;
    }
    return 0;
}

/* Reads the number after an option, in the same word or the next. Returns 0 if the word is another one. */
static int takes(const char *option, char **word, int *number)
{
    size_t length = strlen(option);
    if (strncmp(*word, option, length) != 0) {
        return 0;
    }
    *word = (*word)[length] == '=' ? *word + length + 1 : strtok(NULL, " ");
    *number = *word == NULL ? 0 : atoi(*word);
    return 1;
}

/* Reads a line. The row has no words if the line is a remark, or nothing that the library answers. */
static struct row row_of(char *line)
{
    struct row row;
    char *input = strchr(line, '\t');
    char *status = input == NULL ? NULL : strchr(input + 1, '\t');
    char *word;
    memset(&row, 0, sizeof row);
    row.ifs = 254;
    if (*line == '#' || status == NULL || strncmp(status, "\t2\t", 3) == 0 || strncmp(input, "\t-\t", 3) != 0) {
        return row;
    }
    row.text = status + 3;
    *input = 0;
    for (word = strtok(line, " "); word != NULL && row.count < MOST_WORDS; word = strtok(NULL, " ")) {
        if (!takes("--ifs", &word, &row.ifs) && !takes("--number", &word, &row.number)) {
            row.words[row.count++] = word;
        }
    }
    return row;
}

/* Checks that the library says what a line has. Returns whether the library answers such a line. */
static int try_line(const char *file, int number, char *line)
{
    struct row row = row_of(line);
    said[0] = 0;
    if (row.count == 3 && strcmp(row.words[0], "check") == 0) {
        check_kind(&row);
    } else if (row.count == 5 && strcmp(row.words[0], "build") == 0 && strcmp(row.words[1], "chain") == 0) {
        cut(&row);
    } else if (row.count == 0 || strcmp(row.words[0], "build") != 0 || !with_objects(&row)) {
        return 0;
    }
    CHECK(strcmp(said, row.text) == 0);
    if (strcmp(said, row.text) != 0) {
        fprintf(stderr, "%s: line %d: %s\n", file, number, said);
    }
    return 1;
}

/* Checks each line of a file. Returns how many lines the library answers. */
static int try_file(const char *folder, const char *name)
{
    static char line[LONGEST_LINE];
    char path[1024];
    int number = 0, tried = 0;
    FILE *file;
    snprintf(path, sizeof path, "%s/%s", folder, name);
    file = fopen(path, "r");
    CHECK(file != NULL);
    while (file != NULL && fgets(line, sizeof line, file) != NULL) {
        size_t length = strlen(line);
        CHECK(length > 0 && line[length - 1] == '\n');
        line[length > 0 ? length - 1 : 0] = 0;
        tried += try_line(name, ++number, line);
    }
    if (file != NULL) {
        fclose(file);
    }
    return tried;
}

int main(int count, char **words)
{
    static const char *const names[] = {"atr", "atr.changes", "block", "block.changes", "chain", "chain.changes",
                                        "command", "command.changes", "response", "response.changes",
                                        "tlv", "tlv.changes", "dol", "dol.changes", "build"};
    size_t name;
    for (name = 0; name < sizeof names / sizeof names[0]; name++) {
        int tried = try_file(count > 1 ? words[1] : "vectors", names[name]);
        CHECK(tried > 0);
        printf("%s: %d lines\n", names[name], tried);
    }
    return verdict_of_checks("vectors");
}

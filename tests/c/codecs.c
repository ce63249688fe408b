/* Examples of each codec, through the header. */
#include "check.h"

static int reads(int codec, uint8_t ifs, const char *text, const char *wanted)
{
    struct octets octets = of_hex(text);
    struct scard_verdict v = verdict_of_codec(codec, octets, ifs);
    if (codec == SCARD_CODEC_ATR && strcmp(line_of(scard_atr_check(octets.at, octets.count), codec), wanted) != 0) {
        v.status = 9;
    }
    free(octets.at);
    if (strcmp(line_of(v, codec), wanted) != 0) {
        fprintf(stderr, "%s: %s, not %s\n", text, line_of(v, codec), wanted);
        return 0;
    }
    return 1;
}

/* Returns whether a call refuses its arguments, whatever the room. */
static int is_refused(struct scard_verdict v)
{
    return v.status == SCARD_ARGUMENT && v.place == 0;
}

static void atrs(void)
{
    static const char *const rows[][2] = {
        {"3B00", "ok 2 octets"},
        {"3F00", "ok 2 octets"},
        {"3A", "refused at 0: BadTs"},
        {"", "short at 0"},
        {"3B8F8001804F0CA000000306030001000000006AFF", "ok 20 octets"},
        {"3B80810001", "ok 5 octets"},
        {"3B808131204555", "ok 7 octets"},
        {"3B808131204554", "refused at 6: BadTck"},
        {"3B8081312045", "short at 6"},
        {"3BFF112233F1445566F1778899F1", "refused at 13: TooLong"},
        {"3BFF112233F1445566F177889971", "short at 14"},
        {"3BFF000000F1000000F1000000710000000000000000000000000000000000008E", "ok 33 octets"}};
    static const struct {
        const char *atr;
        int fault;
        uint8_t ifsc, bwi, cwi;
    } params[] = {{"3B808131204555", SCARD_T1_USABLE, 32, 4, 5},
                  {"3B00", SCARD_T1_NO_T1, 9, 9, 9},
                  {"3B808111FFEF", SCARD_T1_RESERVED_IFSC, 9, 9, 9},
                  {"3B8081410141", SCARD_T1_CRC, 9, 9, 9}};
    size_t row;
    for (row = 0; row < sizeof rows / sizeof rows[0]; row++) {
        struct octets octets = of_hex(rows[row][0]);
        struct scard_atr atr;
        uint8_t again[33];
        CHECK(reads(SCARD_CODEC_ATR, 0, rows[row][0], rows[row][1]));
        if (scard_atr_decode(octets.at, octets.count, &atr).status == SCARD_OK) {
            struct scard_verdict v = scard_atr_encode(&atr, again, sizeof again);
            CHECK(v.status == SCARD_OK && memcmp(again, octets.at, v.place) == 0);
            CHECK(scard_atr_encode(&atr, again, v.place - 1).place == v.place);
        }
        free(octets.at);
    }
    for (row = 0; row < sizeof params / sizeof params[0]; row++) {
        struct octets octets = of_hex(params[row].atr);
        struct scard_atr atr;
        struct scard_t1 t1 = {9, 9, 9};
        CHECK(scard_atr_decode(octets.at, octets.count, &atr).status == SCARD_OK);
        CHECK(scard_atr_t1_params(&atr, &t1) == params[row].fault);
        CHECK(t1.ifsc == params[row].ifsc && t1.bwi == params[row].bwi && t1.cwi == params[row].cwi);
        free(octets.at);
    }
}

static void atr_fields(void)
{
    static const struct {
        const char *atr;
        uint16_t fi, di;
    } rates[] = {{"3B1097", 512, 64}, {"3B107A", 0, 0}, {"3B00", 372, 1}};
    struct octets octets = of_hex("3B8F8001804F0CA000000306030001000000006A");
    struct scard_atr atr;
    struct scard_rates got;
    uint8_t buffer[33];
    size_t row;
    CHECK(scard_atr_decode(octets.at, octets.count, &atr).status == SCARD_OK);
    CHECK(atr.convention == 0 && atr.first.has_ta == 0 && atr.indicated_count == 2);
    CHECK(atr.indicated[0].protocol == 0 && atr.indicated[1].protocol == 1);
    CHECK(is_hex(atr.historical, atr.historical_count, "804F0CA00000030603000100000000"));
    CHECK(atr.has_tck == 1 && atr.tck == 0x6A);
    free(octets.at);
    atr.indicated_count = 32;
    CHECK(strcmp(line_of(scard_atr_encode(&atr, buffer, sizeof buffer), 1), "argument 0") == 0);
    CHECK(scard_atr_rates(&atr, &got) == SCARD_ARGUMENT);
    atr.indicated_count = 2;
    atr.historical_count = 16;
    CHECK(scard_atr_rates(&atr, &got) == SCARD_ARGUMENT);
    memset(&atr, 0, sizeof atr);
    atr.indicated_count = 1;
    atr.indicated[0].protocol = 1;
    CHECK(scard_atr_encode(&atr, buffer, sizeof buffer).place == 4 && is_hex(buffer, 4, "3B800181"));
    atr.indicated[0].protocol = 16;
    CHECK(is_refused(scard_atr_encode(&atr, buffer, sizeof buffer)));
    for (row = 0; row < sizeof rates / sizeof rates[0]; row++) {
        octets = of_hex(rates[row].atr);
        CHECK(scard_atr_decode(octets.at, octets.count, &atr).status == SCARD_OK);
        CHECK(scard_atr_rates(&atr, &got) == SCARD_OK && got.fi == rates[row].fi && got.di == rates[row].di);
        free(octets.at);
    }
}

static void blocks(void)
{
    static const char *const rows[][2] = {{"00000500A4040000A5", "ok 9 octets"},
                                          {"00000500A4040000A4", "refused at 8: BadLrc"},
                                          {"0000", "short at 2"},
                                          {"00820082", "ok 4 octets"},
                                          {"008300", "refused at 1: BadPcb"},
                                          {"008001", "refused at 2: BadLen"},
                                          {"0000FF", "refused at 2: BadLen"},
                                          {"00C101FE3E", "ok 5 octets"},
                                          {"00C101FF", "refused at 3: BadIfs"},
                                          {"00C10100", "refused at 3: BadIfs"}};
    struct octets octets = of_hex("00000500A4040000A5");
    struct scard_block block;
    uint8_t out[SCARD_BLOCK_ROOM], size = 0xFE;
    struct scard_verdict v;
    size_t row;
    for (row = 0; row < sizeof rows / sizeof rows[0]; row++) {
        CHECK(reads(SCARD_CODEC_BLOCK, 254, rows[row][0], rows[row][1]));
    }
    CHECK(reads(SCARD_CODEC_BLOCK, 32, "000021", "refused at 2: OverIfs"));
    CHECK(reads(SCARD_CODEC_BLOCK, 0, "000021", "argument 0"));
    CHECK(reads(SCARD_CODEC_BLOCK, 255, "000021", "argument 0"));
    CHECK(scard_block_decode(octets.at, octets.count, 254, &block).status == SCARD_OK);
    CHECK(block.nad == 0 && block.pcb == 0 && block.inf_len == 5);
    CHECK(is_hex(octets.at + block.inf_place, block.inf_len, "00A4040000"));
    v = scard_block_i(0, 0, false, octets.at + 3, 5, out, sizeof out);
    CHECK(v.status == SCARD_OK && is_hex(out, v.place, "00000500A4040000A5"));
    v = scard_block_encode(0, 0, octets.at + 3, 5, out, sizeof out);
    CHECK(v.status == SCARD_OK && is_hex(out, v.place, "00000500A4040000A5"));
    CHECK(strcmp(line_of(scard_block_i(0, 0, false, octets.at, 5, out, 8), 2), "argument 9") == 0);
    CHECK(scard_block_i(0, 2, false, octets.at, 5, out, sizeof out).status == SCARD_ARGUMENT);
    v = scard_block_r(0, 0, SCARD_FAULT_OTHER, out, sizeof out);
    CHECK(v.status == SCARD_OK && is_hex(out, v.place, "00820082"));
    CHECK(scard_block_r(0, 0, 3, out, sizeof out).status == SCARD_ARGUMENT);
    v = scard_block_s_request(0, SCARD_S_IFS, &size, 1, out, sizeof out);
    CHECK(v.status == SCARD_OK && is_hex(out, v.place, "00C101FE3E"));
    v = scard_block_s_response(0, SCARD_S_IFS, &size, 1, out, sizeof out);
    CHECK(v.status == SCARD_OK && is_hex(out, v.place, "00E101FE1E"));
    CHECK(scard_block_s_request(0, SCARD_S_IFS, NULL, 0, out, sizeof out).status == SCARD_ARGUMENT);
    CHECK(scard_block_encode(0, 0x83, NULL, 0, out, sizeof out).status == SCARD_ARGUMENT);
    CHECK(scard_lrc(octets.at, octets.count) == 0 && scard_lrc(octets.at, octets.count - 1) == 0xA5);
    free(octets.at);
}

/* Fields that no block of their kind can have, and some that it can have. */
static void fields(void)
{
    static const uint8_t most[255] = {0}, reserved = 0xFF, none = 0;
    uint8_t out[SCARD_BLOCK_ROOM];
    CHECK(scard_block_i(0, 0, false, most, 254, out, sizeof out).place == SCARD_BLOCK_ROOM);
    CHECK(is_refused(scard_block_i(0, 0, false, most, 255, out, sizeof out)));
    CHECK(is_refused(scard_block_encode(0, 0x60, most, 255, out, sizeof out)));
    CHECK(is_refused(scard_block_encode(0, 0xC1, &reserved, 1, out, sizeof out)));
    CHECK(is_refused(scard_block_encode(0, 0xC1, NULL, 0, out, sizeof out)));
    CHECK(is_refused(scard_block_s_request(0, SCARD_S_IFS, &reserved, 1, out, sizeof out)));
    CHECK(is_refused(scard_block_s_request(0, SCARD_S_IFS, &none, 1, out, sizeof out)));
    CHECK(is_refused(scard_block_s_request(0, SCARD_S_RESYNCH, &none, 1, out, sizeof out)));
    CHECK(scard_block_s_response(0, SCARD_S_ABORT, NULL, 0, out, sizeof out).place == 4);
    CHECK(is_refused(scard_block_s_response(0, SCARD_S_WTX, NULL, 0, out, sizeof out)));
}

/* The parts of each of the 18 PCBs. All other octets are none, and each octet of the struct is written. */
static void pcbs(void)
{
    static const uint8_t rows[][6] = {
        {0x00, SCARD_BLOCK_I, 0, 0, 0, 0},
        {0x20, SCARD_BLOCK_I, 0, 1, 0, 0},
        {0x40, SCARD_BLOCK_I, 1, 0, 0, 0},
        {0x60, SCARD_BLOCK_I, 1, 1, 0, 0},
        {0x80, SCARD_BLOCK_R, 0, 0, SCARD_FAULT_FREE, 0},
        {0x81, SCARD_BLOCK_R, 0, 0, SCARD_FAULT_REDUNDANCY, 0},
        {0x82, SCARD_BLOCK_R, 0, 0, SCARD_FAULT_OTHER, 0},
        {0x90, SCARD_BLOCK_R, 1, 0, SCARD_FAULT_FREE, 0},
        {0x91, SCARD_BLOCK_R, 1, 0, SCARD_FAULT_REDUNDANCY, 0},
        {0x92, SCARD_BLOCK_R, 1, 0, SCARD_FAULT_OTHER, 0},
        {0xC0, SCARD_BLOCK_S_REQUEST, 0, 0, 0, SCARD_S_RESYNCH},
        {0xC1, SCARD_BLOCK_S_REQUEST, 0, 0, 0, SCARD_S_IFS},
        {0xC2, SCARD_BLOCK_S_REQUEST, 0, 0, 0, SCARD_S_ABORT},
        {0xC3, SCARD_BLOCK_S_REQUEST, 0, 0, 0, SCARD_S_WTX},
        {0xE0, SCARD_BLOCK_S_RESPONSE, 0, 0, 0, SCARD_S_RESYNCH},
        {0xE1, SCARD_BLOCK_S_RESPONSE, 0, 0, 0, SCARD_S_IFS},
        {0xE2, SCARD_BLOCK_S_RESPONSE, 0, 0, 0, SCARD_S_ABORT},
        {0xE3, SCARD_BLOCK_S_RESPONSE, 0, 0, 0, SCARD_S_WTX}};
    static const uint8_t none[6] = {0, SCARD_BLOCK_NONE, 0, 0, 0, 0};
    size_t row;
    int octet;
    for (octet = 0; octet < 256; octet++) {
        const uint8_t *wanted = none;
        struct scard_pcb pcb;
        memset(&pcb, 0xA5, sizeof pcb);
        for (row = 0; row < sizeof rows / sizeof rows[0]; row++) {
            wanted = rows[row][0] == octet ? rows[row] : wanted;
        }
        scard_block_parts((uint8_t)octet, &pcb);
        CHECK(pcb.kind == wanted[1] && pcb.number == wanted[2] && pcb.more == wanted[3]);
        CHECK(pcb.fault == wanted[4] && pcb.about == wanted[5]);
    }
}

static void chains(void)
{
    struct octets message = of_hex("00A4040000");
    uint8_t out[17];
    struct scard_verdict v = scard_chain_cut(message.at, message.count, 2, 0, out, sizeof out);
    CHECK(v.status == SCARD_OK && is_hex(out, v.place, "00200200A4860060020400660000010001"));
    CHECK(strcmp(line_of(scard_chain_cut(message.at, message.count, 2, 0, out, 16), 3), "argument 17") == 0);
    v = scard_chain_block(message.at, message.count, 2, 2, 1, out, sizeof out);
    CHECK(v.status == SCARD_OK && is_hex(out, v.place, "006002040066"));
    v = scard_chain_block(message.at, message.count, 4, 2, 0, out, sizeof out);
    CHECK(v.status == SCARD_OK && is_hex(out, v.place, "0000010001"));
    v = scard_chain_block(message.at, message.count, 5, 2, 0, out, sizeof out);
    CHECK(v.status == SCARD_OK && is_hex(out, v.place, "00000000"));
    CHECK(scard_chain_block(message.at, message.count, 6, 2, 1, out, sizeof out).status == SCARD_ARGUMENT);
    v = scard_chain_cut(NULL, 0, 254, 1, out, sizeof out);
    CHECK(v.status == SCARD_OK && is_hex(out, v.place, "00400040"));
    CHECK(scard_chain_cut(message.at, message.count, 255, 0, out, sizeof out).status == SCARD_ARGUMENT);
    free(message.at);
}

/* Checks that a call with too small a buffer for a command says how much room is needed, and leaves the buffer. */
static void less_room(const struct scard_command *command, struct octets octets)
{
    size_t room, at;
    for (room = 0; room < octets.count; room++) {
        uint8_t out[64];
        struct scard_verdict v;
        memset(out, 0x55, sizeof out);
        v = scard_command_encode(command, octets.at + command->data_place, command->data_len, out, room);
        CHECK(v.status == SCARD_ARGUMENT && v.place == octets.count);
        for (at = 0; at < sizeof out; at++) {
            CHECK(out[at] == 0x55);
        }
    }
}

static void commands(void)
{
    static const struct {
        const char *octets;
        uint8_t shape;
        uint32_t le;
        size_t place, len;
    } rows[] = {{"00A40400", SCARD_CASE_1, 0, 4, 0},
                {"00B0000000", SCARD_CASE_2_SHORT, 256, 4, 0},
                {"00B00000000000", SCARD_CASE_2_LONG, 65536, 4, 0},
                {"00A4040007A000000004101000", SCARD_CASE_4_SHORT, 256, 5, 7},
                {"00A4040008A000000004101000", SCARD_CASE_3_SHORT, 0, 5, 8},
                {"00D600000000020102", SCARD_CASE_3_LONG, 0, 7, 2},
                {"00D6000000000201020000", SCARD_CASE_4_LONG, 65536, 7, 2}};
    size_t row;
    for (row = 0; row < sizeof rows / sizeof rows[0]; row++) {
        struct octets octets = of_hex(rows[row].octets);
        struct scard_command c;
        uint8_t out[64];
        struct scard_verdict v;
        CHECK(scard_command_decode(octets.at, octets.count, &c).status == SCARD_OK);
        CHECK(c.cla == 0 && c.ins == octets.at[1] && c.shape == rows[row].shape);
        CHECK(c.le == rows[row].le && c.has_le == (rows[row].le != 0));
        CHECK(c.data_place == rows[row].place && c.data_len == rows[row].len);
        v = scard_command_encode(&c, octets.at + c.data_place, c.data_len, out, sizeof out);
        CHECK(v.status == SCARD_OK && is_hex(out, v.place, rows[row].octets));
        less_room(&c, octets);
        c.shape = 8;
        CHECK(scard_command_encode(&c, NULL, 0, out, sizeof out).status == SCARD_ARGUMENT);
        free(octets.at);
    }
    CHECK(reads(SCARD_CODEC_COMMAND, 0, "00B000000000", "short at 6"));
    CHECK(reads(SCARD_CODEC_COMMAND, 0, "00B0000000000000", "refused at 7: Trailing"));
    CHECK(reads(SCARD_CODEC_COMMAND, 0, "", "short at 0"));
    CHECK(reads(SCARD_CODEC_COMMAND, 0, "00A4040007A00000000410100000", "refused at 13: Trailing"));
    CHECK(reads(SCARD_CODEC_COMMAND, 0, "00D60000000002010200", "short at 10"));
    CHECK(reads(SCARD_CODEC_COMMAND, 0, "00D600000000020102000000", "refused at 11: Trailing"));
    CHECK(reads(SCARD_CODEC_COMMAND, 0, "00D60000000000AA", "refused at 7: Trailing"));
}

/* Bodies that the short and the extended form have a length for, and bodies that they have none for. */
static void bodies(void)
{
    static const struct {
        uint8_t shape;
        size_t len;
        uint32_t le;
        size_t wanted; /* the length of the command, or 0 if there is none */
    } rows[] = {{SCARD_CASE_2_SHORT, 0, 0, 0},     {SCARD_CASE_2_SHORT, 0, 256, 5},   {SCARD_CASE_2_SHORT, 0, 257, 0},
                {SCARD_CASE_2_LONG, 0, 0, 0},      {SCARD_CASE_2_LONG, 0, 65536, 7},  {SCARD_CASE_2_LONG, 0, 65537, 0},
                {SCARD_CASE_3_SHORT, 0, 0, 0},     {SCARD_CASE_3_SHORT, 255, 0, 260}, {SCARD_CASE_3_SHORT, 256, 0, 0},
                {SCARD_CASE_3_SHORT, 65535, 0, 0}, {SCARD_CASE_3_LONG, 0, 0, 0},      {SCARD_CASE_3_LONG, 255, 0, 262},
                {SCARD_CASE_3_LONG, 256, 0, 263},  {SCARD_CASE_3_LONG, 65535, 0, 65542},
                {SCARD_CASE_3_LONG, 65536, 0, 0}};
    uint8_t *data = (uint8_t *)calloc(65536, 1);
    struct scard_command c;
    size_t row;
    memset(&c, 0, sizeof c);
    for (row = 0; row < sizeof rows / sizeof rows[0]; row++) {
        struct scard_verdict v;
        c.shape = rows[row].shape;
        c.le = rows[row].le;
        v = scard_command_encode(&c, data, rows[row].len, NULL, 0);
        CHECK(v.status == SCARD_ARGUMENT && v.place == rows[row].wanted);
    }
    free(data);
}

/* Checks that a call with too small a buffer for a response says how much room is needed, and leaves the buffer. */
static void cut_responses(void)
{
    static const uint8_t field[] = {0xAA, 0xBB};
    size_t room;
    for (room = 0; room < 4; room++) {
        uint8_t out[4] = {0x55, 0x55, 0x55, 0x55};
        struct scard_verdict v = scard_response_encode(field, sizeof field, 0x90, 0, out, room);
        CHECK(v.status == SCARD_ARGUMENT && v.place == 4 && is_hex(out, 4, "55555555"));
    }
}

static void responses(void)
{
    struct octets octets = of_hex("AABB9000");
    struct scard_response r;
    uint8_t out[8];
    uint8_t *long_one = (uint8_t *)calloc(65539, 1);
    struct scard_verdict v;
    CHECK(scard_response_decode(octets.at, octets.count, &r).status == SCARD_OK);
    CHECK(r.data_len == 2 && r.sw1 == 0x90 && r.sw2 == 0);
    v = scard_response_encode(octets.at, 2, 0x90, 0, out, sizeof out);
    CHECK(v.status == SCARD_OK && is_hex(out, v.place, "AABB9000"));
    CHECK(reads(SCARD_CODEC_RESPONSE, 0, "90", "short at 1"));
    CHECK(strcmp(line_of(scard_response_decode(long_one, 65539, &r), SCARD_CODEC_RESPONSE),
                 "refused at 65538: TooLong") == 0);
    CHECK(scard_response_decode(long_one, 65538, &r).status == SCARD_OK && r.data_len == 65536);
    CHECK(strcmp(line_of(scard_response_encode(long_one, 65537, 0x90, 0, out, sizeof out), 5), "argument 0") == 0);
    CHECK(scard_status_class(0x61, 0x10) == SCARD_CLASS_NORMAL);
    CHECK(scard_status_class(0x62, 0x83) == SCARD_CLASS_WARNING);
    CHECK(scard_status_class(0x64, 0x00) == SCARD_CLASS_EXECUTION);
    CHECK(scard_status_class(0x6A, 0x82) == SCARD_CLASS_CHECKING);
    CHECK(scard_status_class(0x91, 0x01) == SCARD_CLASS_PROPRIETARY);
    CHECK(scard_status_class(0x60, 0x00) == SCARD_CLASS_INVALID);
    CHECK(scard_status_class(0x70, 0x00) == SCARD_CLASS_INVALID);
    free(long_one);
    free(octets.at);
}

static int tidies(const char *text, const char *wanted)
{
    struct octets octets = of_hex(text);
    uint8_t *out = (uint8_t *)malloc(octets.count);
    struct scard_verdict v = scard_tlv_tidy(octets.at, octets.count, SCARD_TLV_LARGEST, out, octets.count);
    int same = v.status == SCARD_OK && is_hex(out, v.place, wanted);
    free(out);
    free(octets.at);
    return same;
}

static void objects(void)
{
    static const char *const levels = "701E701C701A70187016701470127010700E700C700A70087006700470027000";
    static const char *const rows[][2] = {{"6F108407A0000000041010A505BF0C025000", "ok 18 octets"},
                                          {"70035A0201", "refused at 3: Overrun"},
                                          {"70035A82", "refused at 3: Overrun"},
                                          {"70029F", "refused at 2: Overrun"},
                                          {"5A80", "refused at 1: LengthForm"},
                                          {"9F80", "refused at 1: TagSecond"},
                                          {"9F8180", "refused at 2: TagLong"},
                                          {"5A02", "short at 2"},
                                          {"00005A81011200", "ok 7 octets"},
                                          {"", "ok 0 octets"}};
    struct octets octets = of_hex("5A82FFFD");
    char deep[80];
    size_t row;
    for (row = 0; row < sizeof rows / sizeof rows[0]; row++) {
        CHECK(reads(SCARD_CODEC_TLV, 0, rows[row][0], rows[row][1]));
    }
    CHECK(reads(SCARD_CODEC_TLV, 0, levels, "ok 32 octets"));
    snprintf(deep, sizeof deep, "7020%s", levels);
    CHECK(reads(SCARD_CODEC_TLV, 0, deep, "refused at 32: TooDeep"));
    CHECK(strcmp(line_of(scard_tlv_check(octets.at, 4, 65536), SCARD_CODEC_TLV), "refused at 3: TooLong") == 0);
    octets.at[3] = 0xFC;
    CHECK(strcmp(line_of(scard_tlv_check(octets.at, 4, 65536), SCARD_CODEC_TLV), "short at 4") == 0);
    CHECK(scard_tlv_check(octets.at, 4, SCARD_TLV_LARGEST + 1).status == SCARD_ARGUMENT);
    free(octets.at);
    CHECK(tidies("00005A81011200", "5A0112"));
    CHECK(tidies("7081045A820000", "70025A00"));
    CHECK(tidies("", ""));
    CHECK(reads(SCARD_CODEC_DOL, 0, "9F02065F2A029A03", "ok 8 octets"));
    CHECK(reads(SCARD_CODEC_DOL, 0, "00", "refused at 0: TagZero"));
    CHECK(reads(SCARD_CODEC_DOL, 0, "9F02", "short at 2"));
}

static void texts(void)
{
    static const uint8_t octets[] = {0x00, 0xA4};
    uint8_t out[4];
    char text[4];
    struct scard_verdict v = scard_hex_decode("00a4", 4, out, sizeof out);
    CHECK(v.status == SCARD_OK && is_hex(out, v.place, "00A4"));
    CHECK(strcmp(line_of(scard_hex_decode("0", 1, out, sizeof out), SCARD_CODEC_HEX), "refused at 1: Odd") == 0);
    CHECK(strcmp(line_of(scard_hex_decode("0G", 2, out, sizeof out), SCARD_CODEC_HEX), "refused at 1: Digit") == 0);
    CHECK(strcmp(line_of(scard_hex_decode("00a4", 4, out, 1), SCARD_CODEC_HEX), "argument 2") == 0);
    CHECK(strcmp(line_of(scard_hex_decode("", 0, NULL, 0), SCARD_CODEC_HEX), "ok 0 octets") == 0);
    v = scard_hex_encode(octets, 2, text, sizeof text);
    CHECK(v.status == SCARD_OK && v.place == 4 && memcmp(text, "00A4", 4) == 0);
    CHECK(strcmp(line_of(scard_hex_encode(octets + 1, 1, text, 1), SCARD_CODEC_HEX), "argument 2") == 0);
    CHECK(memcmp(text, "00A4", 4) == 0);
    CHECK(strcmp(line_of(scard_hex_decode("FFxF", 4, out, sizeof out), SCARD_CODEC_HEX), "refused at 2: Digit") == 0);
    CHECK(strcmp(line_of(scard_hex_decode("FF/:@G`g", 8, out, 0), SCARD_CODEC_HEX), "refused at 2: Digit") == 0);
    CHECK(is_hex(out, 2, "00A4"));
    CHECK(strcmp(scard_reason_name(SCARD_CODEC_CHAIN, SCARD_CHAIN_TOO_MANY_BLOCKS), "TooManyBlocks") == 0);
    CHECK(strcmp(scard_reason_name(SCARD_CODEC_DOL, 4), "") == 0);
    CHECK(strcmp(scard_reason_name(9, 1), "") == 0 && strcmp(scard_reason_name(1, 10), "") == 0);
}

/* How many more octets must come at least. */
static const struct need {
    uint8_t codec;
    const char *text;
    size_t least;
} needs[] = {
    { SCARD_CODEC_ATR, "", 2 },
    { SCARD_CODEC_ATR, "3B", 1 },
    { SCARD_CODEC_ATR, "3BF5", 9 }, /* TA1, TB1, TC1, TD1, five historical bytes */
    { SCARD_CODEC_ATR, "3B80", 1 }, /* TD1 */
    { SCARD_CODEC_ATR, "3B8001", 1 }, /* TCK */
    { SCARD_CODEC_ATR, "3B808131", 3 }, /* TA3, TB3 and TCK */
    { SCARD_CODEC_ATR, "3B00", 0 },
    { SCARD_CODEC_BLOCK, "", 4 },
    { SCARD_CODEC_BLOCK, "00C1", 3 }, /* LEN, a size, LRC */
    { SCARD_CODEC_BLOCK, "00C0", 2 },
    { SCARD_CODEC_BLOCK, "000005", 6 },
    { SCARD_CODEC_BLOCK, "00820082", 0 },
    { SCARD_CODEC_CHAIN, "0000", 2 },
    { SCARD_CODEC_CHAIN, "0020", 6 }, /* and a block without a field */
    { SCARD_CODEC_CHAIN, "00200200A486", 4 },
    { SCARD_CODEC_CHAIN, "00200200A4860040", 2 },
    { SCARD_CODEC_COMMAND, "00A4", 2 },
    { SCARD_CODEC_COMMAND, "00A40400", 0 },
    { SCARD_CODEC_COMMAND, "00A4040007A0", 6 },
    { SCARD_CODEC_COMMAND, "00B000000000", 1 },
    { SCARD_CODEC_COMMAND, "00D6000000000201", 1 },
    { SCARD_CODEC_COMMAND, "00D6000000000201020000", 0 },
    { SCARD_CODEC_COMMAND, "00D60000000002010200", 1 }, /* the second octet of Le */
    { SCARD_CODEC_RESPONSE, "", 2 },
    { SCARD_CODEC_RESPONSE, "90", 1 },
    { SCARD_CODEC_TLV, "5A", 1 },
    { SCARD_CODEC_TLV, "9F", 2 },
    { SCARD_CODEC_TLV, "9F81", 2 },
    { SCARD_CODEC_TLV, "5A82", 2 },
    { SCARD_CODEC_TLV, "5A8201", 257 }, /* one octet of the length, and 256 of the value */
    { SCARD_CODEC_TLV, "6F108407A000", 12 }, /* the rest of 6F, not of 84 */
    { SCARD_CODEC_TLV, "9F00", 0 }, /* refused */
    { SCARD_CODEC_DOL, "9F", 2 },
    { SCARD_CODEC_DOL, "9F02", 1 },
    { SCARD_CODEC_DOL, "9F0206", 0 },
    { SCARD_CODEC_HEX, "30", 0 },
    { 0, "", 0 },
    { 255, "", 0 },
};

static void leasts(void)
{
    size_t i;

    for (i = 0; i < sizeof needs / sizeof *needs; i++) {
        struct octets octets = of_hex(needs[i].text);
        CHECK(scard_least(needs[i].codec, octets.at, octets.count) == needs[i].least);
        free(octets.at);
    }
}

int main(void)
{
    atrs();
    atr_fields();
    blocks();
    pcbs();
    fields();
    chains();
    commands();
    bodies();
    responses();
    cut_responses();
    objects();
    texts();
    leasts();
    return verdict_of_checks("codecs");
}

/* What bench/filter.sh holds `filter` against: a plain C program that does the same.
 *
 *     plain_filter SCRIPT CAPTURE
 *
 * It writes the report that `apf_run filter SCRIPT CAPTURE` writes, byte for byte, with one write call a line. Nothing
 * of it is proved. SCRIPT is as in docs/SCRIPT.md, CAPTURE as in docs/CAPTURE.md, little-endian and with microseconds.
 * The machine is that of docs/MACHINE.md, policy and programs are those of docs/POLICY.md, the lines those of
 * docs/REPORT.md. Where input is wrong, or the first program doesn't fit, it ends with status 1. */
#include <stdbool.h>
#include <stdint.h>
#include <stdio.h>
#include <stdlib.h>
#include <string.h>
#include <unistd.h>

enum {
    MEMORY = 128,     /* bytes of the counters' memory */
    MOST_CODE = 8192, /* bytes of a device, and so more than any code has */
    MOST_DENIED = 32, SLOTS = 8, MOST_RECORDS = 10, MOST_FRAME = 262144, MOST_ITEMS = 4096, MOST_LABELS = 64,
    SHORTEST_RECORD = 70, LONGEST_RECORD = 1514,
    MOST_LIFETIMES = 1 + (LONGEST_RECORD - SHORTEST_RECORD) / 8, /* the router's and one for each 8 bytes of options */
    MOST_SECTIONS = 3 + MOST_LIFETIMES,
};

/* ---- the counters, by their numbers from 1 on */

#define EACH_COUNTER(X) \
    X(TOTAL_PACKETS) X(PASSED_ARP) X(PASSED_ARP_NON_IPV4) X(PASSED_ARP_UNKNOWN) X(PASSED_ARP_UNICAST_REPLY) \
    X(PASSED_DHCP) X(PASSED_IPV4) X(PASSED_IPV4_UNICAST) X(PASSED_IPV6_NON_ICMP) X(PASSED_IPV6_UNICAST_NON_ICMP) \
    X(PASSED_IPV6_ICMP) X(PASSED_NON_IP_UNICAST) X(DROPPED_802_3_FRAME) X(DROPPED_ETHERTYPE_DENIED) \
    X(DROPPED_ETH_BROADCAST) X(DROPPED_ARP_REPLY_SPA_NO_HOST) X(DROPPED_GARP_REPLY) X(DROPPED_ARP_OTHER_HOST) \
    X(DROPPED_IPV4_L2_BROADCAST) X(DROPPED_IPV4_BROADCAST_ADDR) X(DROPPED_IPV4_BROADCAST_NET) \
    X(DROPPED_IPV4_MULTICAST) X(DROPPED_IPV4_KEEPALIVE_ACK) X(DROPPED_IPV6_ROUTER_SOLICITATION) \
    X(DROPPED_IPV6_MULTICAST_NA) X(DROPPED_IPV6_MULTICAST) X(DROPPED_RA) \
    X(DROPPED_IPV4_NATT_KEEPALIVE)
#define COUNTER(name) name,
#define COUNTER_NAME(name) #name,

enum counter { NO_COUNTER, EACH_COUNTER(COUNTER) COUNTERS };

static const char *const NAMES[COUNTERS] = {"none", EACH_COUNTER(COUNTER_NAME)};

/* ---- numbers and bytes */

static const char DIGITS[] = "0123456789abcdef";

static void fail(const char *why) {
    fprintf(stderr, "plain_filter: %s\n", why);
    exit(1);
}

static inline uint32_t big(const uint8_t *at, uint32_t width) {
    switch (width) {
    case 0: return 0;
    case 1: return at[0];
    case 2: return (uint32_t)at[0] << 8 | at[1];
    default: return (uint32_t)at[0] << 24 | (uint32_t)at[1] << 16 | (uint32_t)at[2] << 8 | at[3];
    }
}

/* Writes a number, and gives the place behind it. */
static inline uint8_t *put_big(uint8_t *at, uint32_t width, uint32_t value) {
    for (uint32_t left = width; left-- > 0;) *at++ = (uint8_t)(value >> 8 * left);
    return at;
}

static inline uint32_t little(const uint8_t *at) {
    return at[0] | (uint32_t)at[1] << 8 | (uint32_t)at[2] << 16 | (uint32_t)at[3] << 24;
}

/* The contents of a file. A zero stands behind them. */
static uint8_t *contents(const char *name, size_t *size) {
    FILE *file = fopen(name, "rb");
    if (!file || fseek(file, 0, SEEK_END)) fail("a file can't be opened");
    *size = (size_t)ftell(file);
    rewind(file);
    uint8_t *bytes = malloc(*size + 1);
    if (!bytes || fread(bytes, 1, *size, file) != *size) fail("a file can't be read");
    bytes[*size] = 0;
    fclose(file);
    return bytes;
}

/* ---- lines of the report, each made here and written whole */

static char line[2 * MOST_CODE + 512];
static size_t line_length;

static inline void text(const char *words) {
    size_t length = strlen(words);
    memcpy(line + line_length, words, length);
    line_length += length;
}

static void decimal(uint64_t number) {
    char digits[20];
    size_t left = sizeof digits;
    do digits[--left] = (char)('0' + number % 10);
    while (number /= 10);
    memcpy(line + line_length, digits + left, sizeof digits - left);
    line_length += sizeof digits - left;
}

static inline void put(const char *words, uint64_t number) { text(words), decimal(number); }

static void hexadecimal(const uint8_t *bytes, size_t count) {
    char *out = line + line_length;
    for (size_t i = 0; i < count; i++) {
        *out++ = DIGITS[bytes[i] >> 4];
        *out++ = DIGITS[bytes[i] & 15];
    }
    line_length += 2 * count;
}

static void end_line(void) {
    line[line_length++] = '\n';
    for (size_t done = 0; done < line_length;) {
        ssize_t more = write(STDOUT_FILENO, line + done, line_length - done);
        if (more < 0) fail("the report can't be written");
        done += (size_t)more;
    }
    line_length = 0;
}

/* ---- the script */

struct config {
    uint8_t mac[6];
    uint32_t capacity, start;
    bool drop_802_3;
    uint32_t denied;
    uint16_t deny[MOST_DENIED];
};

/* What an answer to a keepalive holds: its source and destination, and the first 12 bytes of its segment. */
struct keepalive { uint8_t ends[8], opening[12]; };

struct event {
    uint32_t time;
    enum { MULTICAST, DOZE, ADDRESS, KEEPALIVE_ADD, KEEPALIVE_REMOVE } kind;
    bool on; /* is switched on, or is an address */
    uint32_t ip, prefix, slot;
    struct keepalive sent;
};

struct script { struct config config; struct event *events; size_t count; };

/* What is left of a text. A zero stands at its end. */
struct reader { const uint8_t *at, *end; };

/* Goes over the lines that are empty or comments. False at the end. */
static bool more_lines(struct reader *r) {
    while (r->at < r->end && (*r->at == '\n' || *r->at == '#')) {
        const uint8_t *feed = memchr(r->at, '\n', (size_t)(r->end - r->at));
        r->at = feed ? feed + 1 : r->end;
    }
    return r->at < r->end;
}

static void end_of_line(struct reader *r) {
    if (r->at < r->end && *r->at++ != '\n') fail("a line of the script doesn't end");
}

/* Goes over these words, if they are next. */
static bool next_is(struct reader *r, const char *words) {
    size_t length = strlen(words);
    if (strncmp((const char *)r->at, words, length)) return false;
    r->at += length;
    return true;
}

static void expect(struct reader *r, const char *words) {
    if (!next_is(r, words)) fail("a line of the script is of another form");
}

static uint32_t number(struct reader *r, uint32_t most) {
    const uint8_t *first = r->at;
    uint64_t value = 0;
    for (; *r->at >= '0' && *r->at <= '9' && value <= most; r->at++) value = 10 * value + (*r->at - '0');
    if (r->at == first || (*first == '0' && r->at > first + 1) || value > most) fail("a number of the script is wrong");
    return (uint32_t)value;
}

static uint32_t hex_digits(struct reader *r, int count) {
    uint32_t value = 0;
    for (; count-- > 0; r->at++) {
        const char *digit = *r->at ? strchr(DIGITS, *r->at) : NULL;
        if (!digit) fail("a digit of the script is wrong");
        value = value << 4 | (uint32_t)(digit - DIGITS);
    }
    return value;
}

static bool on_or_off(struct reader *r) {
    if (next_is(r, "on")) return true;
    expect(r, "off");
    return false;
}

static uint32_t ip_address(struct reader *r) {
    uint32_t ip = number(r, 255);
    for (int part = 1; part < 4; part++) {
        expect(r, ".");
        ip = ip << 8 | number(r, 255);
    }
    return ip;
}

/* Reads an end of a connection. */
static void endpoint(struct reader *r, uint8_t *ip, uint8_t *port) {
    expect(r, " ");
    put_big(ip, 4, ip_address(r));
    expect(r, ":");
    put_big(port, 2, number(r, 65535));
}

static void begin_line(struct reader *r, const char *words) {
    if (!more_lines(r)) fail("the script is cut");
    expect(r, words);
}

static struct config read_config(struct reader *r) {
    struct config c = {0};
    begin_line(r, "apf 1"), end_of_line(r);
    begin_line(r, "mac ");
    for (int i = 0; i < 6; i++) {
        if (i) expect(r, ":");
        c.mac[i] = (uint8_t)hex_digits(r, 2);
    }
    end_of_line(r);
    begin_line(r, "capacity "), c.capacity = number(r, MOST_CODE), end_of_line(r);
    if (c.capacity < MEMORY) fail("the capacity is too small");
    begin_line(r, "start "), c.start = number(r, UINT32_MAX), end_of_line(r);
    begin_line(r, "drop802 "), c.drop_802_3 = on_or_off(r), end_of_line(r);
    begin_line(r, "deny ");
    bool more = !next_is(r, "none");
    for (; more; more = next_is(r, ",")) {
        if (c.denied == MOST_DENIED) fail("too many ethertypes are denied");
        c.deny[c.denied++] = (uint16_t)hex_digits(r, 4);
    }
    end_of_line(r);
    return c;
}

static struct event read_event(struct reader *r) {
    struct event e = {0};
    expect(r, "at ");
    e.time = number(r, UINT32_MAX);
    if (next_is(r, " multicast ")) {
        e.kind = MULTICAST;
        e.on = on_or_off(r);
    } else if (next_is(r, " doze ")) {
        e.kind = DOZE;
        e.on = on_or_off(r);
    } else if (next_is(r, " address ")) {
        e.kind = ADDRESS;
        e.on = !next_is(r, "none");
        if (e.on) e.ip = ip_address(r), expect(r, "/"), e.prefix = number(r, 255);
    } else if (next_is(r, " keepalive add ")) {
        e.kind = KEEPALIVE_ADD;
        e.slot = number(r, UINT32_MAX);
        endpoint(r, e.sent.ends + 4, e.sent.opening + 2);
        endpoint(r, e.sent.ends, e.sent.opening);
        expect(r, " ");
        put_big(e.sent.opening + 8, 4, number(r, UINT32_MAX) + 1);
        expect(r, " ");
        put_big(e.sent.opening + 4, 4, number(r, UINT32_MAX));
    } else {
        expect(r, " keepalive remove ");
        e.kind = KEEPALIVE_REMOVE;
        e.slot = number(r, UINT32_MAX);
    }
    end_of_line(r);
    return e;
}

static void read_script(const char *name, struct script *s) {
    size_t size, room = 0;
    uint8_t *bytes = contents(name, &size);
    struct reader r = {bytes, bytes + size};
    s->config = read_config(&r);
    for (uint32_t before = s->config.start; more_lines(&r); before = s->events[s->count++].time) {
        if (s->count == room) s->events = realloc(s->events, (room = 2 * room + 64) * sizeof *s->events);
        if (!s->events) fail("out of memory");
        s->events[s->count] = read_event(&r);
        if (s->events[s->count].time < before) fail("an event is out of order");
    }
    free(bytes);
}

/* ---- the state */

struct state {
    bool multicast, doze, has_address;
    uint32_t ip, prefix;
    bool held[SLOTS];
    struct keepalive keepalives[SLOTS];
};

enum change { CHANGED, SAME, BAD_PREFIX, SLOT_RANGE, SLOT_IN_USE, SLOT_EMPTY };

static const char *const REFUSALS[] = {"", "", " prefix ", " slot-range ", " slot-in-use ", " slot-empty "};

static enum change switched(bool *setting, bool on) {
    if (*setting == on) return SAME;
    *setting = on;
    return CHANGED;
}

/* Makes a change. Where it is refused, or the state is so already, nothing changes. */
static enum change change(struct state *s, const struct event *e) {
    switch (e->kind) {
    case MULTICAST: return switched(&s->multicast, e->on);
    case DOZE: return switched(&s->doze, e->on);
    case ADDRESS:
        if (e->prefix > 32) return BAD_PREFIX;
        if (s->has_address == e->on && s->ip == e->ip && s->prefix == e->prefix) return SAME;
        s->has_address = e->on;
        s->ip = e->ip;
        s->prefix = e->prefix;
        return CHANGED;
    default:
        if (e->slot >= SLOTS) return SLOT_RANGE;
        if (s->held[e->slot] != (e->kind == KEEPALIVE_REMOVE)) return s->held[e->slot] ? SLOT_IN_USE : SLOT_EMPTY;
        s->held[e->slot] = e->kind == KEEPALIVE_ADD;
        s->keepalives[e->slot] = e->sent;
        return CHANGED;
    }
}

/* ---- records of router advertisements */

struct span { uint32_t at, size; };

/* An advertisement that was seen, its lifetimes, and the sections, which are what another one has to be equal in. */
struct record {
    uint64_t id;
    uint32_t length, seen, least, weight, lifetime_count, section_count;
    struct span lifetimes[MOST_LIFETIMES], sections[MOST_SECTIONS];
    uint8_t bytes[LONGEST_RECORD];
};

static bool is_candidate(const uint8_t *frame, uint32_t length) {
    return length >= 55 && frame[12] == 0x86 && frame[13] == 0xdd && frame[20] == 58 && frame[54] == 134;
}

static void add_section(struct record *r, uint32_t from, uint32_t to) {
    if (from == to) return;
    r->sections[r->section_count++] = (struct span){from, to - from};
    r->weight += 12 + to - from;
}

/* Adds a lifetime, and the section before it. Gives the place behind it. */
static uint32_t add_lifetime(struct record *r, uint32_t from, uint32_t at, uint32_t size) {
    uint32_t value = big(r->bytes + at, size);
    add_section(r, from, at);
    r->lifetimes[r->lifetime_count++] = (struct span){at, size};
    r->weight += 12;
    if (value < r->least) r->least = value;
    return at + size;
}

/* Reads a candidate: NULL, or why it is no record. Then `at` is the option that is at fault. */
static const char *read_record(struct record *r, const uint8_t *frame, uint32_t length, uint32_t now, uint32_t *at) {
    if (length < SHORTEST_RECORD) return "bad short";
    if (length > LONGEST_RECORD) return "bad too-long";
    memcpy(r->bytes, frame, length);
    r->length = length;
    r->seen = now;
    r->least = UINT32_MAX;
    r->weight = 29;
    r->lifetime_count = r->section_count = 0;
    add_section(r, 0, 15);  /* up to the flow label */
    add_section(r, 18, 56); /* up to the checksum */
    uint32_t from = add_lifetime(r, 58, 60, 2), size;
    for (*at = SHORTEST_RECORD; *at < length; *at += size) {
        uint8_t kind = frame[*at];
        if (length - *at < 2) return "bad cut-option ";
        size = 8u * frame[*at + 1];
        if (size == 0) return "bad zero-option ";
        if (length - *at < size) return "bad cut-option ";
        if (kind == 3 && size < 16) return "bad short-option ";
        if (kind == 3 || kind == 24 || kind == 25 || kind == 31) from = add_lifetime(r, from, *at + 4, 4);
        if (kind == 3) from = add_lifetime(r, from, *at + 8, 4);
    }
    add_section(r, from, length);
    return NULL;
}

static bool matches(const struct record *r, const uint8_t *frame, uint32_t length) {
    if (length != r->length) return false;
    for (const struct span *s = r->sections; s < r->sections + r->section_count; s++)
        if (memcmp(frame + s->at, r->bytes + s->at, s->size)) return false;
    return true;
}

static uint32_t remaining(const struct record *r, uint32_t now) {
    uint32_t elapsed = now > r->seen ? now - r->seen : 0;
    return r->least > elapsed ? r->least - elapsed : 0;
}

/* ---- the machine */

enum op {
    LDB = 1, LDH, LDW, LDBX, LDHX, LDWX, ADD, MUL, DIV, AND, OR, SH, LI, JMP, JEQ, JNE, JGT, JLT, JSET, JNEBS, EXT,
    LDDW, STDW,
};

/* `next` is the place behind it. */
struct instruction { uint32_t op, reg, width, first, second, count, next; const uint8_t *bytes; };

/* `counter` is the last counter but TOTAL_PACKETS that was stored. */
struct outcome { bool passes; uint32_t steps, counter; };

struct machine {
    uint32_t regs[2], slots[16], n, length;
    const uint8_t *frame;
    uint8_t *memory;
    struct outcome outcome;
};

/* Whether it compares with a number. */
static inline bool has_second(uint32_t op, uint32_t reg) { return op >= JEQ && op <= JSET && reg == 0; }

/* Reads the instruction at a place: false where there is none. */
static inline bool decode(const uint8_t *code, uint32_t n, uint32_t place, struct instruction *i) {
    static const uint8_t WIDTHS[4] = {0, 1, 2, 4};
    uint32_t first = code[place], width = WIDTHS[first >> 1 & 3], at = place + 1 + width;
    i->op = first >> 3;
    i->reg = first & 1;
    i->width = width;
    bool two = has_second(i->op, i->reg);
    if (i->op == 0 || i->op > STDW || at + (two || i->op == JNEBS ? width : 0) > n) return false;
    i->first = big(code + place + 1, width);
    if (two) {
        i->second = big(code + at, width);
        at += width;
    } else if (i->op == JNEBS) {
        i->count = big(code + at, width);
        at += width;
        if (i->count > n - at) return false;
        i->bytes = code + at;
        at += i->count;
    }
    i->next = at;
    return true;
}

static bool extended(struct machine *m, uint32_t r, uint32_t u) {
    uint32_t kept = m->regs[0];
    if (u < 16) m->regs[r] = m->slots[u];
    else if (u < 32) m->slots[u - 16] = m->regs[r];
    else if (u == 32) m->regs[r] = ~m->regs[r];
    else if (u == 33) m->regs[r] = 0 - m->regs[r];
    else if (u == 34) m->regs[0] = m->regs[1], m->regs[1] = kept;
    else if (u == 35) m->regs[r] = m->regs[1 - r];
    else return false;
    return true;
}

static bool access_memory(struct machine *m, uint32_t op, uint32_t r, uint32_t v) {
    uint32_t at = m->regs[1 - r] + v;
    if (at >> 31) at += m->n + MEMORY;
    if (at < m->n || (uint64_t)at + 4 > m->n + MEMORY) return false;
    uint8_t *word = m->memory + (at - m->n);
    if (op == LDDW) {
        m->regs[r] = big(word, 4);
        return true;
    }
    put_big(word, 4, m->regs[r]);
    uint32_t counter = (m->n + MEMORY - at) / 4;
    if (counter != TOTAL_PACKETS) m->outcome.counter = counter;
    return true;
}

static uint32_t shifted(uint32_t value, int32_t by) {
    return by >= 32 || by <= -32 ? 0 : by > 0 ? value << by : value >> -by;
}

/* Does an instruction: false for a fault, which changes nothing. */
static inline bool step(struct machine *m, const struct instruction *i, uint32_t *place) {
    uint32_t r = i->reg, u = i->first, *r0 = &m->regs[0];
    uint32_t v = i->width == 1 ? (uint32_t)(int8_t)u : i->width == 2 ? (uint32_t)(int16_t)u : u;
    uint32_t x = r ? m->regs[1] : u, y = r ? m->regs[1] : i->second;
    bool jumps = false;
    switch (i->op) {
    case LDB: case LDH: case LDW: case LDBX: case LDHX: case LDWX: {
        uint32_t width = 1u << (i->op - 1) % 3, at = i->op > LDW ? u + m->regs[1] : u;
        if ((uint64_t)at + width > m->length) return false;
        m->regs[r] = big(m->frame + at, width);
        break;
    }
    case ADD: *r0 += x; break;
    case MUL: *r0 *= x; break;
    case DIV:
        if (x == 0) return false;
        *r0 /= x;
        break;
    case AND: *r0 &= x; break;
    case OR: *r0 |= x; break;
    case SH: *r0 = shifted(*r0, (int32_t)(r ? m->regs[1] : v)); break;
    case LI: m->regs[r] = v; break;
    case JMP: jumps = true; break;
    case JEQ: jumps = *r0 == y; break;
    case JNE: jumps = *r0 != y; break;
    case JGT: jumps = *r0 > y; break;
    case JLT: jumps = *r0 < y; break;
    case JSET: jumps = (*r0 & y) != 0; break;
    case JNEBS:
        if (r || i->count == 0 || (uint64_t)*r0 + i->count > m->length) return false;
        jumps = memcmp(m->frame + *r0, i->bytes, i->count) != 0;
        break;
    case EXT:
        if (!extended(m, r, u)) return false;
        break;
    default:
        if (!access_memory(m, i->op, r, v)) return false;
    }
    *place = jumps ? i->next + u : i->next;
    return true;
}

/* Runs a code of n bytes on a frame of more than 14. */
static struct outcome run(const uint8_t *code, uint32_t n, uint8_t *memory, const uint8_t *frame, uint32_t length,
                          uint32_t age) {
    struct machine m = {.n = n, .length = length, .frame = frame, .memory = memory, .outcome = {true, 0, NO_COUNTER}};
    struct instruction i = {0};
    uint32_t place = 0;
    m.slots[11] = n;
    m.slots[12] = n + MEMORY;
    m.slots[13] = frame[14] >> 4 == 4 ? 4 * (frame[14] & 15u) : 0;
    m.slots[14] = length;
    m.slots[15] = age;
    for (; place < n && m.outcome.steps < n; m.outcome.steps++)
        if (!decode(code, n, place, &i) || !step(&m, &i, &place)) return m.outcome;
    m.outcome.passes = place != n + 1;
    return m.outcome;
}

/* ---- items of a program, in their order */

enum { PASS = -2, DROP = -1, COUNT_AND_PASS = 0, COUNT_AND_DROP = 1 }; /* where jumps go; labels are numbered from 0 */

struct item {
    enum { FIXED, JUMP, LABEL } kind;
    uint32_t op, reg, width;
    uint32_t number;      /* the first immediate, or the second one of a jump */
    int to;               /* the label */
    uint32_t count;
    const uint8_t *bytes; /* what JNEBS compares */
};

/* Those of the program that is being made. */
static struct item items[MOST_ITEMS];
static uint32_t item_count;
static int labels;

static void add(struct item item) {
    if (item_count == MOST_ITEMS) fail("a program has too many items");
    items[item_count++] = item;
}

static void fixed(enum op op, uint32_t reg, uint32_t width, uint32_t number) {
    add((struct item){.kind = FIXED, .op = op, .reg = reg, .width = width, .number = number});
}

/* Loads a field of the frame, or a place in it, or the counter to be raised, or the length of the IPv4 header. */
static void load(enum op op, uint32_t at) { fixed(op, 0, 1, at); }
static void load_place(uint32_t at) { fixed(LI, 0, 1, at); }
static void will_count(enum counter counter) { fixed(LI, 1, 1, 256 - 4 * counter); }
static void header_length(uint32_t reg) { fixed(EXT, reg, 1, 13); }

static void jump(int to) { add((struct item){.kind = JUMP, .op = JMP, .to = to}); }

static void jump_if(enum op op, uint32_t number, int to) {
    add((struct item){.kind = JUMP, .op = op, .number = number, .to = to});
}

static void jump_if_r1(enum op op, int to) { add((struct item){.kind = JUMP, .op = op, .reg = 1, .to = to}); }

static void jump_unless(const uint8_t *bytes, uint32_t count, int to) {
    add((struct item){.kind = JUMP, .op = JNEBS, .bytes = bytes, .count = count, .to = to});
}

static int new_label(void) { return labels++; }
static void label(int to) { add((struct item){.kind = LABEL, .to = to}); }

/* The same, with the counter that is raised where the frame passes or is dropped. */
static void pass_if(enum op op, uint32_t number, enum counter c) { will_count(c), jump_if(op, number, COUNT_AND_PASS); }
static void drop_if(enum op op, uint32_t number, enum counter c) { will_count(c), jump_if(op, number, COUNT_AND_DROP); }
static void pass_unless(const uint8_t *bytes, uint32_t count, enum counter c) {
    will_count(c), jump_unless(bytes, count, COUNT_AND_PASS);
}

static void pass(enum counter c) { will_count(c), jump(COUNT_AND_PASS); }
static void drop(enum counter c) { will_count(c), jump(COUNT_AND_DROP); }

/* ---- the policy's questions, as items */

static const uint8_t BROADCAST[6] = {0xff, 0xff, 0xff, 0xff, 0xff, 0xff};
static const uint8_t ETHERNET_AND_IPV4[6] = {0, 1, 8, 0, 6, 4};
static const uint8_t LINK_GROUPS[15] = {0xff, 2}; /* ff02::/120 */

static void ask_link(const struct config *c) {
    load(LDH, 12);
    if (c->drop_802_3) drop_if(JLT, 0x600, DROPPED_802_3_FRAME);
    will_count(DROPPED_ETHERTYPE_DENIED);
    for (uint32_t i = 0; i < c->denied; i++) jump_if(JEQ, c->deny[i], COUNT_AND_DROP);
}

static void ask_arp(const struct state *s) {
    int over = new_label(), request = new_label();
    load(LDH, 12), jump_if(JNE, 0x806, over);
    load_place(14), pass_unless(ETHERNET_AND_IPV4, 6, PASSED_ARP_NON_IPV4);
    load(LDH, 20), jump_if(JEQ, 1, request), pass_if(JNE, 2, PASSED_ARP_UNKNOWN);
    load(LDW, 28), drop_if(JEQ, 0, DROPPED_ARP_REPLY_SPA_NO_HOST);
    load_place(0), pass_unless(BROADCAST, 6, PASSED_ARP_UNICAST_REPLY);
    label(request);
    load(LDW, 38);
    if (s->has_address) drop_if(JNE, s->ip, DROPPED_ARP_OTHER_HOST);
    else drop_if(JEQ, 0, DROPPED_GARP_REPLY);
    pass(PASSED_ARP);
    label(over);
}

static void ask_dhcp(const struct config *c) {
    int over = new_label();
    load(LDB, 23), jump_if(JNE, 17, over);
    load(LDH, 20), jump_if(JSET, 0x1fff, over);
    header_length(1), load(LDHX, 16), jump_if(JNE, 68, over);
    header_length(0), fixed(ADD, 0, 1, 50), jump_unless(c->mac, 6, over);
    pass(PASSED_DHCP);
    label(over);
}

static void ask_ip4_destination(const struct state *s) {
    load(LDB, 30), fixed(AND, 0, 1, 0xf0), drop_if(JEQ, 0xe0, DROPPED_IPV4_MULTICAST);
    load(LDW, 30), drop_if(JEQ, 0xffffffff, DROPPED_IPV4_BROADCAST_ADDR);
    if (s->has_address && s->prefix < 31) drop_if(JEQ, s->ip | UINT32_MAX >> s->prefix, DROPPED_IPV4_BROADCAST_NET);
}

static uint32_t keepalive_count(const struct state *s) {
    uint32_t count = 0;
    for (int slot = 0; slot < SLOTS; slot++) count += s->held[slot];
    return count;
}

static void ask_keepalives(const struct state *s) {
    int over = new_label();
    if (keepalive_count(s) == 0) return;
    load(LDB, 23), jump_if(JNE, 6, over);
    for (int slot = 0; slot < SLOTS; slot++) {
        if (!s->held[slot]) continue;
        int next = new_label();
        load_place(26), jump_unless(s->keepalives[slot].ends, 8, next);
        header_length(1), load(LDBX, 26), fixed(DIV, 0, 1, 4), fixed(ADD, 1, 0, 0);
        fixed(LDH, 1, 1, 16), jump_if_r1(JNE, next);
        header_length(0), fixed(ADD, 0, 1, 14), jump_unless(s->keepalives[slot].opening, 12, next);
        drop(DROPPED_IPV4_KEEPALIVE_ACK);
        label(next);
    }
    label(over);
}

/* A datagram of one byte, ff, from the port 4500. */
static void ask_natt(void) {
    int over = new_label();
    load(LDB, 23), jump_if(JNE, 17, over);
    load(LDH, 20), jump_if(JSET, 0x1fff, over);
    header_length(1), load(LDHX, 14), jump_if(JNE, 4500, over);
    load(LDHX, 18), jump_if(JNE, 9, over);
    load(LDBX, 22), jump_if(JNE, 0xff, over);
    drop(DROPPED_IPV4_NATT_KEEPALIVE);
    label(over);
}

static void ask_ip4(const struct config *c, const struct state *s) {
    int over = new_label();
    load(LDH, 12), jump_if(JNE, 0x800, over);
    if (s->multicast) ask_dhcp(c), ask_ip4_destination(s);
    ask_keepalives(s);
    ask_natt();
    if (s->multicast) {
        load_place(0), pass_unless(BROADCAST, 6, PASSED_IPV4_UNICAST);
        drop(DROPPED_IPV4_L2_BROADCAST);
    } else {
        pass(PASSED_IPV4);
    }
    label(over);
}

/* Where multicast is filtered, what isn't ICMPv6 is judged by its destination, and so is an echo request in doze. */
static void ask_ip6_destination(const struct state *s) {
    int message = new_label(), destination = new_label();
    load(LDB, 20);
    if (!s->multicast) {
        pass_if(JNE, 58, PASSED_IPV6_NON_ICMP);
        return;
    }
    if (s->doze) {
        jump_if(JNE, 58, destination);
        load(LDB, 54), jump_if(JNE, 128, message);
        label(destination);
    } else {
        jump_if(JEQ, 58, message);
    }
    will_count(DROPPED_IPV6_MULTICAST), load(LDB, 38), jump_if(JEQ, 0xff, COUNT_AND_DROP);
    pass(PASSED_IPV6_UNICAST_NON_ICMP);
    label(message);
}

static void ask_record(const struct record *r, uint32_t hold) {
    int over = new_label();
    fixed(EXT, 0, 1, 15), jump_if(JGT, hold, over);      /* the age */
    fixed(EXT, 0, 1, 14), jump_if(JNE, r->length, over); /* the frame's length */
    for (const struct span *s = r->sections; s < r->sections + r->section_count; s++)
        fixed(LI, 0, 2, s->at), jump_unless(r->bytes + s->at, s->size, over);
    for (const struct span *s = r->lifetimes; s < r->lifetimes + r->lifetime_count; s++)
        fixed(s->size == 2 ? LDH : LDW, 0, 2, s->at), jump_if(JLT, hold, over);
    drop(DROPPED_RA);
    label(over);
}

static void ask_ip6(const struct state *s, struct record *const *records, uint32_t kept, uint32_t now) {
    int over = new_label(), other = new_label();
    load(LDH, 12), jump_if(JNE, 0x86dd, over);
    ask_ip6_destination(s);
    load(LDB, 54), drop_if(JEQ, 133, DROPPED_IPV6_ROUTER_SOLICITATION), jump_if(JNE, 136, other);
    load_place(38), will_count(DROPPED_IPV6_MULTICAST_NA), jump_unless(LINK_GROUPS, 15, other), jump(COUNT_AND_DROP);
    label(other);
    for (uint32_t i = 0; i < kept; i++) ask_record(records[i], remaining(records[i], now) / 6);
    pass(PASSED_IPV6_ICMP);
    label(over);
}

/* Raises the counter at a distance from R1. */
static void raise_counter(uint8_t distance) {
    fixed(LDDW, 0, 1, distance), fixed(ADD, 0, 1, 1), fixed(STDW, 0, 1, distance);
}

/* ---- codes */

static uint32_t least_width(uint32_t value) { return value == 0 ? 0 : value < 256 ? 1 : value < 65536 ? 2 : 4; }

/* Writes the code of the items at the end of some room, from the last item to the first, so that it is known how far
 * each jump goes: of the widths that hold that and what is compared it has the least. Gives the code's size. */
static uint32_t assemble(uint8_t *room, uint32_t size) {
    uint32_t left = size, distances[MOST_LABELS]; /* of the labels from the end */
    while (item_count > 0) {
        const struct item *it = &items[--item_count];
        uint32_t here = size - left, width = it->width, first = it->number;
        if (it->kind == LABEL) {
            distances[it->to] = here;
            continue;
        }
        if (it->kind == JUMP) {
            uint32_t other = least_width(it->op == JNEBS ? it->count : it->number);
            first = it->to == PASS ? here : it->to == DROP ? here + 1 : here - distances[it->to];
            width = least_width(first);
            if (width < other) width = other;
        }
        bool two = has_second(it->op, it->reg);
        uint32_t length = 1 + width + (two || it->op == JNEBS ? width : 0) + it->count;
        if (length > left) fail("a program is too long");
        left -= length;
        uint8_t *at = room + left;
        *at++ = (uint8_t)(it->op << 3 | (width == 4 ? 3 : width) << 1 | it->reg);
        at = put_big(at, width, first);
        if (two) put_big(at, width, it->number);
        if (it->op == JNEBS) memcpy(put_big(at, width, it->count), it->bytes, it->count);
    }
    return size - left;
}

static uint32_t generate(const struct config *c, const struct state *s, struct record *const *records, uint32_t kept,
                         uint32_t now, uint8_t *room) {
    labels = COUNT_AND_DROP + 1;
    raise_counter(252); /* TOTAL_PACKETS, from the memory's end */
    ask_link(c);
    ask_arp(s);
    ask_ip4(c, s);
    ask_ip6(s, records, kept, now);
    load_place(0), pass_unless(BROADCAST, 6, PASSED_NON_IP_UNICAST);
    drop(DROPPED_ETH_BROADCAST);
    label(COUNT_AND_PASS), raise_counter(0), jump(PASS);
    label(COUNT_AND_DROP), raise_counter(0), jump(DROP);
    return assemble(room, MOST_CODE);
}

/* ---- the filter */

struct filter {
    struct config config;
    struct state state;
    struct record *records[MOST_RECORDS], *spare;
    uint32_t record_count;
    uint64_t added;
    uint32_t clock;
    uint64_t number; /* of the install, and then its second, the least hold of its records, and how many it has */
    uint32_t at, hold, kept;
    uint32_t size;   /* of its code, which is at the end of the room */
    uint8_t room[MOST_CODE];
    uint8_t memory[MEMORY];
    uint64_t frames, passed;
};

static void move_clock(struct filter *f, uint32_t now) {
    if (now > f->clock) f->clock = now;
}

static uint32_t base(const struct config *c, const struct state *s) {
    return 600 + 9 * c->denied + 80 * keepalive_count(s);
}

static void drop_expired(struct filter *f) {
    uint32_t left = 0;
    for (uint32_t i = 0; i < f->record_count; i++) {
        if (remaining(f->records[i], f->clock) > 0) f->records[left++] = f->records[i];
        else free(f->records[i]);
    }
    f->record_count = left;
}

/* Makes a program of as many first records as have room, and tells it. */
static void install(struct filter *f, uint64_t number) {
    uint32_t room = f->config.capacity - MEMORY - base(&f->config, &f->state);
    drop_expired(f);
    f->number = number;
    f->at = f->clock;
    f->hold = UINT32_MAX;
    for (f->kept = 0; f->kept < f->record_count && f->records[f->kept]->weight <= room; f->kept++) {
        uint32_t hold = remaining(f->records[f->kept], f->clock) / 6;
        if (hold < f->hold) f->hold = hold;
        room -= f->records[f->kept]->weight;
    }
    f->size = generate(&f->config, &f->state, f->records, f->kept, f->clock, f->room);
    put("gen ", number), put(" at ", f->at), put(" size ", f->size);
    text(f->kept == f->record_count ? " left none" : " left ");
    for (uint32_t i = f->kept; i < f->record_count; i++) put(i > f->kept ? "," : "", f->records[i]->id);
    text(" code ");
    hexadecimal(f->room + MOST_CODE - f->size, f->size);
    end_line();
}

static void update(struct filter *f, const struct event *e) {
    struct state new = f->state;
    enum change result = change(&new, e);
    uint32_t need = base(&f->config, &new), limit = f->config.capacity - MEMORY;
    move_clock(f, e->time);
    if (result == SAME) {
        put("same at ", f->clock), end_line();
    } else if (result != CHANGED) {
        put("refused at ", f->clock), put(REFUSALS[result], result == BAD_PREFIX ? e->prefix : e->slot), end_line();
    } else if (need > limit) {
        put("kept at ", f->clock), put(" need ", need), put(" limit ", limit), end_line();
    } else {
        f->state = new;
        install(f, f->number + 1);
    }
}

/* The record that was seen again goes to the front. */
static void refresh(struct filter *f, uint32_t place) {
    struct record *old = f->records[place];
    bool ends = f->kept > 0 && (uint64_t)f->at + f->hold < (uint64_t)f->clock + 30;
    f->spare->id = old->id;
    memmove(f->records + 1, f->records, place * sizeof *f->records);
    f->records[0] = f->spare;
    f->spare = old;
    put(ends ? "refreshed " : "match ", f->records[0]->id), end_line();
    if (ends) install(f, f->number + 1);
}

static struct record *new_record(void) {
    struct record *r = malloc(sizeof *r);
    if (!r) fail("out of memory");
    return r;
}

static void add_record(struct filter *f) {
    f->spare->id = ++f->added;
    f->records[f->record_count++] = f->spare;
    f->spare = new_record();
    put("new ", f->added), end_line();
    install(f, f->number + 1);
}

static void learn(struct filter *f, const uint8_t *frame, uint32_t length) {
    uint32_t option = 0, place = 0;
    const char *refusal = read_record(f->spare, frame, length, f->clock, &option);
    put("ra ", f->frames), text(" ");
    if (refusal) {
        text(refusal);
        if (option > 0) decimal(option);
        end_line();
        return;
    }
    drop_expired(f);
    while (place < f->record_count && !matches(f->records[place], frame, length)) place++;
    if (place < f->record_count) refresh(f, place);
    else if (f->record_count < MOST_RECORDS && f->spare->least > 0) add_record(f);
    else text(f->record_count == MOST_RECORDS ? "full" : "zero"), end_line();
}

static void take_frame(struct filter *f, uint32_t now, const uint8_t *frame, uint32_t length) {
    struct outcome end = {true, 0, NO_COUNTER};
    move_clock(f, now);
    uint32_t age = f->clock - f->at;
    if (length > 14) end = run(f->room + MOST_CODE - f->size, f->size, f->memory, frame, length, age);
    f->frames++;
    f->passed += end.passes;
    put("frame ", f->frames), put(" gen ", f->number), put(" age ", age);
    text(end.passes ? " pass " : " drop "), text(NAMES[end.counter]), put(" steps ", end.steps), end_line();
    if (end.passes && is_candidate(frame, length)) learn(f, frame, length);
}

static void write_totals(const struct filter *f) {
    for (int k = 1; k < COUNTERS; k++) {
        uint32_t value = big(f->memory + MEMORY - 4 * k, 4);
        if (value) text("counter "), text(NAMES[k]), put(" ", value), end_line();
    }
    put("total frames ", f->frames), put(" passed ", f->passed), put(" dropped ", f->frames - f->passed);
    put(" programs ", f->number + 1), end_line();
}

int main(int count, char **words) {
    static struct script script;
    static struct filter filter;
    if (count != 3) fail("usage: plain_filter SCRIPT CAPTURE");
    read_script(words[1], &script);
    filter.config = script.config;
    filter.clock = script.config.start;
    filter.spare = new_record();
    if (base(&filter.config, &filter.state) > filter.config.capacity - MEMORY) fail("the capacity is too small");
    install(&filter, 0);

    size_t size, taken = 0;
    const uint8_t *capture = contents(words[2], &size);
    if (size < 24 || little(capture) != 0xa1b2c3d4 || little(capture + 4) != 0x40002 || little(capture + 20) != 1)
        fail("the capture is of another form");
    for (size_t at = 24; at < size;) {
        if (size - at < 16) fail("the capture is cut");
        uint32_t second = little(capture + at), length = little(capture + at + 8);
        if (length > MOST_FRAME || size - at - 16 < length) fail("the capture is cut");
        while (taken < script.count && script.events[taken].time <= second) update(&filter, &script.events[taken++]);
        take_frame(&filter, second, capture + at + 16, length);
        at += 16 + (size_t)length;
    }
    while (taken < script.count) update(&filter, &script.events[taken++]);
    write_totals(&filter);
    return 0;
}

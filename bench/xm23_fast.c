/*
 * An interpreter of the same rules in C, written for speed and proved by nobody: the yardstick of 'make bench', which
 * compiles it with gcc -O2 and holds it against the oracle before it is timed.
 *
 * In a quiet stretch (awake, PC even, no CEX block open, no line to accept, no event due) a step is its instruction
 * alone, so one countdown is all that is tested. What can end the stretch leaves it: an odd PC, SETPRI, SETCC, CEX, a
 * store to the vectors, a fault, SVC. Handlers are reached by the word's ten leading bits, and flags are kept apart
 * from the PSW until somebody asks for it. A store to a device is looked at before it is done: one that the log has no
 * room for leaves the stretch, and the events of its step are taken back. Open frames are counted where one is pushed or
 * pulled.
 */
#include <stddef.h>
#include <stdint.h>
#include <string.h>

uint64_t xm23_fast_run(uint8_t *memory, size_t memory_len, uint8_t *record, size_t record_len, const uint8_t *events,
                       size_t events_len, uint8_t *log, size_t log_len, uint32_t *deepest, uint64_t n);

enum { C = 1, Z = 2, N = 4, SLP = 8, V = 16, FLT = 256 };
enum { IE = 1, INPUT = 2, DBA = 4, OF = 8, ENA = 16 };
enum { LR = 5, SP = 6, PC = 7, DEVICES = 16, VECTORS = 0xFFC0 };

/* Why a stretch of instructions ended: to be looked at again, a store that the log has no room for, a fault 8, 9 or 10,
 * or SVC to vector code - TRAP. */
enum { LOOK = 0, FULL = 1, TRAP = 16 };

#define unlikely(x) __builtin_expect(!!(x), 0)

struct machine {
    uint16_t r[8];
    unsigned psw, cex, lines, halted, full; /* lines: eight counts of four bits, device 0 lowest */
    uint8_t *mem;
    uint8_t *log, *log_end; /* where the next record goes, and where the log ends */
    uint32_t end;           /* the step count at the end of the stretch */
    uint32_t open, deepest; /* frames of this run, and the most of them together */
};

static unsigned two(const uint8_t *p)
{
    uint16_t x;
    memcpy(&x, p, 2);
    return x;
}

static uint32_t four(const uint8_t *p)
{
    uint32_t x;
    memcpy(&x, p, 4);
    return x;
}

static void put_two(uint8_t *p, unsigned value)
{
    uint16_t x = (uint16_t)value;
    memcpy(p, &x, 2);
}

/* ---- devices */

static unsigned load_device(uint8_t *mem, unsigned a, int byte)
{
    unsigned v = byte ? mem[a] : two(mem + a);
    if (!(a & 1))
        mem[a] &= (uint8_t)~(DBA | OF);
    return v;
}

static void store_device_byte(uint8_t *mem, unsigned a, unsigned v)
{
    if (a & 1) {
        mem[a] = (uint8_t)v;
        if (!(mem[a - 1] & INPUT))
            mem[a - 1] &= (uint8_t)~DBA;
    } else {
        mem[a] = (uint8_t)((mem[a] & ~(IE | ENA)) | (v & (IE | ENA)));
    }
}

/* Adds a record of a byte that an output device shows on a step; 0 where there is no room. */
static int show(struct machine *m, unsigned device, unsigned byte, uint32_t count)
{
    uint8_t *at = m->log;
    if (at == m->log_end)
        return 0;
    memcpy(at, &count, 4);
    at[4] = (uint8_t)device;
    at[5] = (uint8_t)byte;
    at[6] = at[7] = 0;
    m->log = at + 8;
    return 1;
}

/* Stores and logs; 0, and nothing done, where the log has no room. `left` steps follow this one in the stretch. */
static int store_device(struct machine *m, unsigned a, unsigned v, int byte, uint32_t left)
{
    unsigned data = byte ? v & 0xFF : v >> 8;
    if ((!byte || a & 1) && (m->mem[a & ~1u] & (ENA | INPUT)) == ENA && !show(m, a / 2, data, m->end - left - 1))
        return 0;
    store_device_byte(m->mem, a, v & 0xFF);
    if (!byte)
        store_device_byte(m->mem, a + 1, v >> 8);
    return 1;
}

static void event_on(struct machine *m, const uint8_t *e)
{
    uint8_t *at = m->mem + 2 * e[4], status = at[0];
    if (!(status & ENA))
        return;
    if (status & INPUT)
        at[1] = e[5];
    at[0] = (uint8_t)(status | DBA | (status & DBA ? OF : 0));
    if (status & IE)
        m->lines += (m->lines >> 4 * e[4] & 15) < 15 ? 1u << 4 * e[4] : 0;
}

/* ---- entry and return */

static unsigned vector_priority(const uint8_t *mem, unsigned v)
{
    return mem[VECTORS + 4 * v] >> 5;
}

/* The best waiting line if its priority is above the level, else 8. */
static unsigned line_above(const struct machine *m, unsigned level)
{
    unsigned best = 8;
    for (unsigned lines = m->lines; lines;) {
        unsigned d = (unsigned)__builtin_ctz(lines) / 4, p = vector_priority(m->mem, d);
        lines &= ~(15u << 4 * d);
        if (p > level) {
            level = p;
            best = d;
        }
    }
    return best;
}

static void push(struct machine *m, unsigned value)
{
    m->r[SP] = (uint16_t)(m->r[SP] - 2);
    put_two(m->mem + (m->r[SP] & 0xFFFE), value);
}

static unsigned pull(struct machine *m)
{
    unsigned value = two(m->mem + (m->r[SP] & 0xFFFE));
    m->r[SP] = (uint16_t)(m->r[SP] + 2);
    return value;
}

static void start_handler(struct machine *m, unsigned psw, unsigned pc, unsigned previous, unsigned flt)
{
    m->psw = (psw & 0x00F7) | previous << 13 | (m->psw & FLT) | flt;
    m->r[LR] = 0xFFFF;
    m->r[PC] = (uint16_t)pc;
    m->cex = 0;
}

static void enter(struct machine *m, unsigned v, unsigned flt)
{
    unsigned psw = two(m->mem + VECTORS + 4 * v), pc = two(m->mem + VECTORS + 4 * v + 2);
    push(m, m->r[PC]);
    push(m, m->r[LR]);
    push(m, m->psw);
    push(m, m->cex);
    m->open++;
    if (m->open > m->deepest)
        m->deepest = m->open;
    start_handler(m, psw, pc, m->psw >> 5 & 7, flt);
}

static void leave(struct machine *m)
{
    unsigned d = line_above(m, m->psw >> 13);
    if (d < 8) {
        m->lines -= 1u << 4 * d;
        start_handler(m, two(m->mem + VECTORS + 4 * d), two(m->mem + VECTORS + 4 * d + 2), m->psw >> 13, 0);
        return;
    }
    m->cex = pull(m) & 0x7F;
    m->psw = pull(m) & 0xE1F7;
    m->r[LR] = (uint16_t)pull(m);
    m->r[PC] = (uint16_t)pull(m);
    m->open -= m->open > 0;
}

/* A fault; with FLT set the machine halts as it was before the instruction. */
static void fault(struct machine *m, unsigned v, unsigned pc, unsigned cex)
{
    if (m->psw & FLT) {
        m->r[PC] = (uint16_t)pc;
        m->cex = cex;
        m->halted = 1;
    } else {
        enter(m, v, FLT);
    }
}

/* ---- instructions */

/* Which of the sixteen combinations of V, N, Z and C (V highest) meet each condition of CEX. */
static const uint16_t conditions[16] = {0xCCCC, 0x3333, 0xAAAA, 0x5555, 0xF0F0, 0x0F0F, 0xFF00, 0x00FF,
                                        0x2222, 0xDDDD, 0xF00F, 0x0FF0, 0x3003, 0xCFFC, 0xFFFF, 0x0000};

static int holds(unsigned condition, unsigned psw)
{
    return conditions[condition] >> ((psw & 7) | (psw >> 1 & 8)) & 1;
}

/* Decimal sum of `digits` digits, with the carry out above them. */
static unsigned decimal(unsigned a, unsigned b, unsigned carry, unsigned digits)
{
    unsigned sum = 0;
    for (unsigned i = 0; i < 4 * digits; i += 4) {
        unsigned d = (a >> i & 15) + (b >> i & 15) + carry;
        carry = d > 9;
        sum |= ((d - 10 * carry) & 15) << i;
    }
    return sum | carry << 4 * digits;
}

static const uint16_t constants[8] = {0, 1, 2, 4, 8, 16, 32, 0xFFFF};

#define TWICE(x) x, x
#define ALU(op) &&op##_rw, &&op##_rb, &&op##_cw, &&op##_cb
#define PAIRS8(x) x##_w, x##_b, x##_w, x##_b, x##_w, x##_b, x##_w, x##_b
#define PAIRS64(x) PAIRS8(x), PAIRS8(x), PAIRS8(x), PAIRS8(x), PAIRS8(x), PAIRS8(x), PAIRS8(x), PAIRS8(x)
#define PAIRS256(x) PAIRS64(x), PAIRS64(x), PAIRS64(x), PAIRS64(x)
#define MODES(op)                                                                                                      \
    &&op##_w0, &&op##_b0, &&op##_wi, &&op##_bi, &&op##_wd, &&op##_bd, &&op##_w0, &&op##_b0, &&op##_w0, &&op##_b0,     \
        &&op##_wI, &&op##_bI, &&op##_wD, &&op##_bD, &&op##_w0, &&op##_b0

#define S (w >> 3 & 7)
#define D (w & 7)

/* The next instruction of the stretch. R7 reads as the address after it. */
#define NEXT                                                                                                           \
    do {                                                                                                               \
        if (unlikely(left == 0))                                                                                       \
            goto end;                                                                                                  \
        left--;                                                                                                        \
        w = two(mem + pc);                                                                                             \
        pc = (uint16_t)(pc + 2);                                                                                       \
        r[PC] = (uint16_t)pc;                                                                                          \
        goto *at[w >> 6];                                                                                              \
    } while (0)

/* Writes a register, as an instruction does, and goes on. */
#define PUT(d, value)                                                                                                  \
    do {                                                                                                               \
        r[d] = (uint16_t)(value);                                                                                      \
        if (unlikely((d) == PC))                                                                                       \
            goto jumped;                                                                                               \
        NEXT;                                                                                                          \
    } while (0)
#define PUT_BYTE(d, value) PUT(d, (r[d] & 0xFF00) | ((value) & 0xFF))
#define KEEP(d, value) NEXT

/* The four forms of an operation: source a register or a constant, word or byte. */
#define FORMS(op, body)                                                                                                \
    op##_rw: { unsigned d = D, a = r[d], b = r[S]; body(0, PUT) }                                                      \
    op##_rb: { unsigned d = D, a = r[d] & 0xFF, b = r[S] & 0xFF; body(8, PUT_BYTE) }                                   \
    op##_cw: { unsigned d = D, a = r[d], b = constants[S]; body(0, PUT) }                                              \
    op##_cb: { unsigned d = D, a = r[d] & 0xFF, b = constants[S] & 0xFF; body(8, PUT_BYTE) }

/* Flags of a result with its sign moved to bit 15: `up` is 8 for a byte. */
#define ZN(x, up) (fz = (x) << up & 0xFFFF, fn = (x) << up)
#define SUM(carry, up, put, other)                                                                                     \
    unsigned b1 = (other), sum = a + b1 + (carry);                                                                     \
    fc = sum >> (16 - up) & 1;                                                                                         \
    fv = ((a ^ sum) & (b1 ^ sum)) << up;                                                                               \
    ZN(sum, up);                                                                                                       \
    put(d, sum);
#define NOT(b, up) ((b) ^ (0xFFFFu >> up))
#define DO_ADD(up, put) SUM(0, up, put, b)
#define DO_ADDC(up, put) SUM(fc, up, put, b)
#define DO_SUB(up, put) SUM(1, up, put, NOT(b, up))
#define DO_SUBC(up, put) SUM(fc, up, put, NOT(b, up))
#define DO_CMP(up, put) (void)d; SUM(1, up, KEEP, NOT(b, up))
#define DO_DADD(up, put) a = decimal(a, b, fc, up ? 2 : 4); fc = a >> (16 - up); fz = a << up & 0xFFFF; put(d, a);
#define DO_XOR(up, put) a ^= b; ZN(a, up); put(d, a);
#define DO_AND(up, put) a &= b; ZN(a, up); put(d, a);
#define DO_OR(up, put) a |= b; ZN(a, up); put(d, a);
#define DO_BIT(up, put) (void)d; a &= b; ZN(a, up); NEXT;
/* The bit that the operand names; none above the width. */
#define NAMED(b, up) ((b) < 16u - (up) ? 1u << (b) : 0u)
#define DO_BIC(up, put) a &= ~NAMED(b, up); fz = a; put(d, a);
#define DO_BIS(up, put) a |= NAMED(b, up); fz = 1; put(d, a);

/* LD and ST with an adjustment `by`, before the access or after it. */
#define LOAD(name, by, before, byte)                                                                                   \
    name: {                                                                                                            \
        unsigned s = S, d = D, a = (uint16_t)(r[s] + (before ? by : 0)), v;                                            \
        if (unlikely(!byte && (a & 1)))                                                                                \
            goto odd;                                                                                                  \
        if (unlikely(a < DEVICES))                                                                                     \
            v = load_device(mem, a, byte);                                                                             \
        else                                                                                                           \
            v = byte ? mem[a] : two(mem + a);                                                                          \
        if (by)                                                                                                        \
            r[s] = (uint16_t)(r[s] + by);                                                                              \
        r[d] = (uint16_t)(byte ? (r[d] & 0xFF00) | v : v);                                                             \
        if (unlikely(d == PC || (by && s == PC)))                                                                      \
            goto jumped;                                                                                               \
        NEXT;                                                                                                          \
    }
#define WRITE(a, v, byte)                                                                                              \
    do {                                                                                                               \
        if (unlikely(a < DEVICES)) {                                                                                   \
            if (!store_device(m, a, v, byte, left))                                                                    \
                goto full;                                                                                             \
        } else if (byte)                                                                                               \
            mem[a] = (uint8_t)v;                                                                                       \
        else                                                                                                           \
            put_two(mem + a, v);                                                                                       \
    } while (0)
#define STORE(name, by, before, byte)                                                                                  \
    name: {                                                                                                            \
        unsigned d = D, a = (uint16_t)(r[d] + (before ? by : 0)), v = r[S];                                            \
        if (unlikely(!byte && (a & 1)))                                                                                \
            goto odd;                                                                                                  \
        WRITE(a, v, byte);                                                                                             \
        if (by)                                                                                                        \
            r[d] = (uint16_t)(r[d] + by);                                                                              \
        if (unlikely(by && d == PC))                                                                                   \
            goto moved;                                                                                                \
        if (unlikely(a >= VECTORS))                                                                                    \
            goto look;                                                                                                 \
        NEXT;                                                                                                          \
    }
#define ALL_MODES(do, op)                                                                                              \
    do(op##_w0, 0, 0, 0) do(op##_b0, 0, 0, 1) do(op##_wi, 2, 0, 0) do(op##_bi, 1, 0, 1) do(op##_wd, -2, 0, 0)         \
    do(op##_bd, -1, 0, 1) do(op##_wI, 2, 1, 0) do(op##_bI, 1, 1, 1) do(op##_wD, -2, 1, 0) do(op##_bD, -1, 1, 1)

#define BRANCH(taken)                                                                                                  \
    do {                                                                                                               \
        if (taken) {                                                                                                   \
            pc = (uint16_t)(pc + (int16_t)(w << 6) / 32);                                                              \
            cex = 0;                                                                                                   \
        }                                                                                                              \
        NEXT;                                                                                                          \
    } while (0)

/* The PSW with the flags put in, and the flags taken out of it. */
#define PACK (psw = (psw & ~(unsigned)(C | Z | N | V)) | fc | (fz ? 0 : Z) | (fn >> 13 & N) | (fv >> 11 & V))
#define UNPACK (fc = psw & C, fz = ~psw & Z, fn = psw << 13, fv = psw << 11)

/* Executes up to `left` instructions, the first one whatever CEX says, and gives how many are left undone. */
static uint32_t execute(struct machine *m, uint32_t left, unsigned *code)
{
    static const void *const at[1024] = {
        [0x000 ... 0x07F] = &&bl,
        [0x080 ... 0x08F] = &&beq,
        [0x090 ... 0x09F] = &&bne,
        [0x0A0 ... 0x0AF] = &&bc,
        [0x0B0 ... 0x0BF] = &&bnc,
        [0x0C0 ... 0x0CF] = &&bn,
        [0x0D0 ... 0x0DF] = &&bge,
        [0x0E0 ... 0x0EF] = &&blt,
        [0x0F0 ... 0x0FF] = &&bra,
        [0x100] = ALU(add),
        ALU(addc),
        ALU(sub),
        ALU(subc),
        ALU(dadd),
        ALU(cmp),
        ALU(xor),
        ALU(and),
        ALU(or),
        ALU(bit),
        ALU(bic),
        ALU(bis),
        [0x130] = &&mov_w,
        &&mov_b,
        TWICE(&&swap),
        &&one_w,
        &&one_b,
        &&setpri_svc,
        &&setcc_clrcc,
        [0x138 ... 0x13F] = &&illegal,
        [0x140 ... 0x14F] = &&cex,
        [0x150 ... 0x15F] = &&illegal,
        [0x160] = MODES(ld),
        [0x170] = MODES(st),
        [0x180 ... 0x19F] = &&movl,
        [0x1A0 ... 0x1BF] = &&movlz,
        [0x1C0 ... 0x1DF] = &&movls,
        [0x1E0 ... 0x1FF] = &&movh,
        [0x200] = PAIRS256(&&ldr),
        [0x300] = PAIRS256(&&str),
    };
    uint8_t *const mem = m->mem;
    uint16_t *const r = m->r;
    unsigned pc = r[PC], psw = m->psw, cex = m->cex, w, fc, fz, fn, fv;

    UNPACK;
    *code = LOOK;
    NEXT;

bl:
    r[LR] = (uint16_t)pc;
    pc = (uint16_t)(pc + (int16_t)(w << 3) / 4);
    cex = 0;
    NEXT;
beq:
    BRANCH(fz == 0);
bne:
    BRANCH(fz != 0);
bc:
    BRANCH(fc);
bnc:
    BRANCH(!fc);
bn:
    BRANCH(fn & 0x8000);
bge:
    BRANCH(!((fn ^ fv) & 0x8000));
blt:
    BRANCH((fn ^ fv) & 0x8000);
bra:
    BRANCH(1);

    FORMS(add, DO_ADD)
    FORMS(addc, DO_ADDC)
    FORMS(sub, DO_SUB)
    FORMS(subc, DO_SUBC)
    FORMS(dadd, DO_DADD)
    FORMS(cmp, DO_CMP)
    FORMS(xor, DO_XOR)
    FORMS(and, DO_AND)
    FORMS(or, DO_OR)
    FORMS(bit, DO_BIT)
    FORMS(bic, DO_BIC)
    FORMS(bis, DO_BIS)

mov_w:
    PUT(D, r[S]);
mov_b:
    PUT_BYTE(D, r[S]);
swap: {
    unsigned s = S, d = D, a = r[s];
    r[s] = r[d];
    r[d] = (uint16_t)a;
    if (unlikely(d == PC || s == PC))
        goto jumped;
    NEXT;
}
one_w: {
    unsigned d = D, a = r[d];
    switch (S) {
    case 0:
    case 1:
        a = a >> 1 | (S ? fc << 15 : a & 0x8000);
        fc = r[d] & 1;
        ZN(a, 0);
        PUT(d, a);
    case 2:
        a ^= 0xFFFF;
        ZN(a, 0);
        PUT(d, a);
    case 3:
        PUT(d, a << 8 | a >> 8);
    case 4:
        PUT(d, (int8_t)a);
    default:
        goto illegal;
    }
}
one_b: {
    unsigned d = D, a = r[d] & 0xFF;
    switch (S) {
    case 0:
    case 1:
        a = a >> 1 | (S ? fc << 7 : a & 0x80);
        fc = r[d] & 1;
        ZN(a, 8);
        PUT_BYTE(d, a);
    case 2:
        a ^= 0xFF;
        ZN(a, 8);
        PUT_BYTE(d, a);
    case 3:
        PUT(d, r[d] << 8 | r[d] >> 8);
    case 4:
        PUT(d, (int8_t)a);
    default:
        goto illegal;
    }
}
setpri_svc:
    if (w & 0x20) {
        if (w & 0x10)
            goto illegal;
        *code = TRAP + (w & 15);
        goto end;
    }
    if (w & 0x18)
        goto illegal;
    if ((w & 7) > (psw >> 5 & 7)) {
        *code = 10;
        goto end;
    }
    psw = (psw & ~0xE0u) | (w & 7) << 5;
    goto look;
setcc_clrcc:
    PACK;
    if (w & 0x20)
        psw &= ~(w & 31);
    else
        psw |= w & ((psw & 0xE0) == 0xE0 ? 31 - SLP : 31);
    UNPACK;
    if (psw & SLP)
        goto look;
    NEXT;
cex:
    PACK;
    cex = (unsigned)holds(w >> 6 & 15, psw) << 6 | (w & 63);
    goto look;

    ALL_MODES(LOAD, ld)
    ALL_MODES(STORE, st)

movl:
    PUT(D, (r[D] & 0xFF00) | (w >> 3 & 0xFF));
movlz:
    PUT(D, w >> 3 & 0xFF);
movls:
    PUT(D, 0xFF00 | (w >> 3 & 0xFF));
movh:
    PUT(D, (r[D] & 0xFF) | (w << 5 & 0xFF00));
ldr_w: {
    unsigned a = (unsigned)(r[S] + ((int16_t)(w << 2) >> 9)) & 0xFFFF;
    if (unlikely(a & 1))
        goto odd;
    PUT(D, unlikely(a < DEVICES) ? load_device(mem, a, 0) : two(mem + a));
}
ldr_b: {
    unsigned a = (unsigned)(r[S] + ((int16_t)(w << 2) >> 9)) & 0xFFFF;
    PUT_BYTE(D, unlikely(a < DEVICES) ? load_device(mem, a, 1) : mem[a]);
}
str_w: {
    unsigned a = (unsigned)(r[D] + ((int16_t)(w << 2) >> 9)) & 0xFFFF, v = r[S];
    if (unlikely(a & 1))
        goto odd;
    WRITE(a, v, 0);
    if (unlikely(a >= VECTORS))
        goto look;
    NEXT;
}
str_b: {
    unsigned a = (unsigned)(r[D] + ((int16_t)(w << 2) >> 9)) & 0xFFFF, v = r[S];
    WRITE(a, v, 1);
    if (unlikely(a >= VECTORS))
        goto look;
    NEXT;
}
illegal:
    *code = 8;
    goto end;
odd:
    *code = 9;
    goto end;
full:
    *code = FULL;
    left++;
    pc = (uint16_t)(pc - 2);
    goto end;
jumped:
    pc = r[PC];
    cex = 0;
    if (!(pc & 1))
        NEXT;
    goto end;
moved:
    pc = r[PC];
    cex = 0;
look:
end:
    PACK;
    m->psw = psw;
    m->cex = cex;
    r[PC] = (uint16_t)pc;
    return left;
}

/* Up to `left` steps that execute, the state being awake with PC even; gives how many are left undone. */
static uint32_t instructions(struct machine *m, uint32_t left)
{
    unsigned cex = m->cex, code, pc;
    if (unlikely(cex & 0x3F)) {
        unsigned first = cex & 0x38;
        m->cex -= first ? 8 : 1;
        if (!(cex & 0x40) == !!first) {
            m->r[PC] = (uint16_t)(m->r[PC] + 2);
            return left - 1;
        }
        pc = m->r[PC];
        m->end -= left - 1;
        left -= 1 - execute(m, 1, &code);
    } else {
        left = execute(m, left, &code);
        pc = (unsigned)m->r[PC] - 2;
        cex = m->cex;
    }
    if (code == LOOK)
        return left;
    if (code == FULL) {
        m->cex = cex;
        m->full = 1;
        return left;
    }
    if (code < TRAP)
        fault(m, code, pc, cex);
    else if (vector_priority(m->mem, code - TRAP) > (m->psw >> 5 & 7))
        enter(m, code - TRAP, 0);
    else
        fault(m, 10, pc, cex);
    return left;
}

/* Points 2 to 7 of 01, up to `left` steps with no event due; gives how many are left undone. */
static uint32_t steps(struct machine *m, uint32_t left)
{
    unsigned d;
    if (unlikely(m->r[PC] == 0xFFFF && !(m->psw & SLP))) {
        leave(m);
        return left - 1;
    }
    if (m->lines && (d = line_above(m, m->psw >> 5 & 7)) < 8) {
        m->lines -= 1u << 4 * d;
        enter(m, d, 0);
        return left - 1;
    }
    if (m->psw & SLP)
        return 0;
    if (unlikely(m->r[PC] & 1)) {
        fault(m, 9, m->r[PC], m->cex);
        return left - 1;
    }
    return instructions(m, left);
}

/* ---- the call */

static unsigned refusal(size_t memory_len, const uint8_t *record, size_t record_len, const uint8_t *events,
                        size_t events_len, size_t log_len, uint64_t n)
{
    size_t i;
    unsigned devices = 0;
    if (memory_len != 65536)
        return 1;
    if (n > 1000000)
        return 2;
    if (record_len != 32)
        return 3;
    if (four(record + 22) + n > 0xFFFFFFFF)
        return 2;
    if (record[17] & 0x1E || record[18] > 127 || record[19] || record[21] > 1)
        return 4;
    if (record[20] || record[30] || record[31])
        return 4;
    if (events_len % 8 || events_len > 32768)
        return 5;
    for (i = 0; i < events_len; i += 8)
        if (events[i + 4] > 7 || events[i + 6] || events[i + 7])
            return 6;
    for (i = 8; i < events_len; i += 8)
        if (four(events + i) < four(events + i - 8))
            return 7;
    for (i = 0; i < events_len; i += 8) { /* a bit for each device that the step has had */
        if (i && four(events + i) != four(events + i - 8))
            devices = 0;
        if (devices >> events[i + 4] & 1)
            return 13;
        devices |= 1u << events[i + 4];
    }
    return log_len % 8 ? 9 : 0;
}

/* Runs the stretches; gives how many of `left` steps are undone. */
static uint32_t run(struct machine *m, const uint8_t *events, size_t events_len, uint32_t *count, uint32_t left)
{
    size_t next = 0;
    while (next < events_len && four(events + next) < *count)
        next += 8;
    while (left && !m->halted && !m->full) {
        uint32_t stretch = left, undone, first = *count;
        unsigned lines = m->lines;
        uint8_t devices[DEVICES];
        memcpy(devices, m->mem, DEVICES);
        for (; next < events_len && four(events + next) == *count; next += 8)
            event_on(m, events + next);
        if (next < events_len && four(events + next) - *count < stretch)
            stretch = four(events + next) - *count;
        m->end = *count + stretch;
        undone = steps(m, stretch);
        *count += stretch - undone;
        left -= stretch - undone;
        if (m->full && *count == first) { /* the events of the step that is not taken */
            memcpy(m->mem, devices, DEVICES);
            m->lines = lines;
        }
    }
    return left;
}

uint64_t xm23_fast_run(uint8_t *memory, size_t memory_len, uint8_t *record, size_t record_len, const uint8_t *events,
                       size_t events_len, uint8_t *log, size_t log_len, uint32_t *deepest, uint64_t n)
{
    unsigned refused = refusal(memory_len, record, record_len, events, events_len, log_len, n);
    struct machine m;
    uint32_t count, left, i;
    if (refused)
        return refused;
    for (i = 0; i < 8; i++)
        m.r[i] = (uint16_t)two(record + 2 * i);
    m.psw = two(record + 16);
    m.cex = two(record + 18);
    m.lines = four(record + 26);
    m.halted = record[21];
    m.full = 0;
    m.mem = memory;
    m.log = log;
    m.log_end = log + log_len;
    m.open = m.deepest = 0;
    count = four(record + 22);
    left = run(&m, events, events_len, &count, (uint32_t)n);
    for (i = 0; i < 8; i++)
        put_two(record + 2 * i, m.r[i]);
    put_two(record + 16, m.psw);
    put_two(record + 18, m.cex);
    record[21] = (uint8_t)m.halted;
    memcpy(record + 22, &count, 4);
    memcpy(record + 26, &m.lines, 4);
    *deepest = m.deepest;
    return (uint64_t)(m.log - log) / 8 << 40 | (n - left) << 16 | (m.full ? 2u : m.halted) << 8;
}

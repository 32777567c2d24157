/* Instructions and words: xm23_decode, xm23_encode, their macros; the version and the sentences. */
#include "host.h"

/* The word decodes to the instruction, and the instruction encodes to the word. */
static void both(const char *what, uint16_t word, uint64_t instruction)
{
    uint32_t reply = xm23_encode(instruction);
    same(what, xm23_decode(word), instruction);
    same(what, XM23_REFUSAL(reply), XM23_ACCEPTED);
    same(what, XM23_ENCODED(reply), word);
    same(what, reply & 0xFF00, 0);
}

static void refused(const char *what, uint64_t instruction)
{
    uint32_t reply = xm23_encode(instruction);
    same(what, XM23_REFUSAL(reply), XM23_REFUSED_INSTRUCTION);
    same(what, reply, 8);
}

static uint64_t made(unsigned format, unsigned a, unsigned b, unsigned c, unsigned d, unsigned e)
{
    return XM23_PUT_FIELD(0, format) + XM23_PUT_FIELD(1, a) + XM23_PUT_FIELD(2, b) + XM23_PUT_FIELD(3, c) +
           XM23_PUT_FIELD(4, d) + XM23_PUT_FIELD(5, e);
}

/* A word of each format. */
static void accepted_instructions(void)
{
    both("bl", 0x1FFE, made(XM23_FORMAT_BL, 0, 0, 0, 0, 0) + XM23_PUT_OFFSET(-2));
    both("bra", 0x3FFF, made(XM23_FORMAT_BRANCH, XM23_BRANCH_RA, 0, 0, 0, 0) + XM23_PUT_OFFSET(-1));
    both("sub.b", 0x42CB, made(XM23_FORMAT_ALU, XM23_ALU_SUB, XM23_CONSTANT, XM23_BYTE_FORM, 1, 3));
    both("mov", 0x4C2F, made(XM23_FORMAT_MOV, XM23_WORD_FORM, 5, 7, 0, 0));
    both("swap", 0x4C93, made(XM23_FORMAT_SWAP, 2, 3, 0, 0, 0));
    both("swap, bit 6", 0x4CD3, made(XM23_FORMAT_SWAP, 2, 3, 1, 0, 0));
    both("rrc.b", 0x4D4C, made(XM23_FORMAT_UNARY, XM23_UNARY_RRC, XM23_BYTE_FORM, 4, 0, 0));
    both("swpb", 0x4D1E, made(XM23_FORMAT_SWPB, 6, 0, 0, 0, 0));
    both("swpb, bit 6", 0x4D5E, made(XM23_FORMAT_SWPB, 6, 1, 0, 0, 0));
    both("sxt", 0x4D21, made(XM23_FORMAT_SXT, 1, 0, 0, 0, 0));
    both("sxt, bit 6", 0x4D61, made(XM23_FORMAT_SXT, 1, 1, 0, 0, 0));
    both("setpri", 0x4D83, made(XM23_FORMAT_SETPRI, 3, 0, 0, 0, 0));
    both("svc", 0x4DAF, made(XM23_FORMAT_SVC, 15, 0, 0, 0, 0));
    both("setcc", 0x4DC8, made(XM23_FORMAT_SETCC, XM23_FLAG_SLP, 0, 0, 0, 0));
    both("clrcc", 0x4DF1, made(XM23_FORMAT_CLRCC, XM23_FLAG_V + XM23_FLAG_C, 0, 0, 0, 0));
    both("cex", 0x53CA, made(XM23_FORMAT_CEX, XM23_CEX_FL, 1, 2, 0, 0));
    both("ld.b", 0x5ADA, made(XM23_FORMAT_LD, 1, 0, 1, XM23_BYTE_FORM, 3) + XM23_PUT_FIELD(6, 2));
    both("st", 0x5F16, made(XM23_FORMAT_ST, 1, 1, 0, XM23_WORD_FORM, 2) + XM23_PUT_FIELD(6, 6));
    both("movh", 0x7D50, made(XM23_FORMAT_MOVIMM, XM23_MOVIMM_MOVH, 0xAA, 0, 0, 0));
    both("ldr", 0xA00A, made(XM23_FORMAT_LDR, XM23_WORD_FORM, 1, 2, 0, 0) + XM23_PUT_OFFSET(-64));
    both("str.b", 0xDFE5, made(XM23_FORMAT_STR, XM23_BYTE_FORM, 4, 5, 0, 0) + XM23_PUT_OFFSET(63));
}

static void refused_instructions(void)
{
    refused("illegal", made(XM23_FORMAT_ILLEGAL, 0, 0, 0, 0, 0));
    refused("unknown format", made(XM23_FORMAT_STR + 1, 0, 0, 0, 0, 0));
    refused("operation 12", made(XM23_FORMAT_ALU, XM23_ALU_BIS + 1, 0, 0, 0, 0));
    refused("register 8", made(XM23_FORMAT_MOV, 0, 8, 0, 0, 0));
    refused("width 2", made(XM23_FORMAT_UNARY, XM23_UNARY_SRA, 2, 0, 0, 0));
    refused("priority 8", made(XM23_FORMAT_SETPRI, 8, 0, 0, 0, 0));
    refused("vector 16", made(XM23_FORMAT_SVC, 16, 0, 0, 0, 0));
    refused("offset 512", made(XM23_FORMAT_BRANCH, 0, 0, 0, 0, 0) + XM23_PUT_OFFSET(512));
    refused("offset -65", made(XM23_FORMAT_LDR, 0, 0, 0, 0, 0) + XM23_PUT_OFFSET(-65));
    refused("unused byte", made(XM23_FORMAT_SWPB, 0, 0, 1, 0, 0));
    refused("ignored bit 2 of swap", made(XM23_FORMAT_SWAP, 0, 0, 2, 0, 0));
    refused("ignored bit 2 of swpb", made(XM23_FORMAT_SWPB, 0, 2, 0, 0, 0));
    refused("ignored bit 2 of sxt", made(XM23_FORMAT_SXT, 0, 2, 0, 0, 0));
    refused("offset where there is none", made(XM23_FORMAT_SXT, 0, 0, 0, 0, 0) + XM23_PUT_OFFSET(1));
    refused("all ones", UINT64_MAX);
}

/* The library is of the header's version. */
static void version(void)
{
    same("version", xm23_version(), XM23_VERSION);
    same("major", xm23_version() >> 16, XM23_VERSION_MAJOR);
    same("minor", xm23_version() >> 8 & 0xFF, XM23_VERSION_MINOR);
    same("patch", xm23_version() & 0xFF, XM23_VERSION_PATCH);
}

/* Every refusal has a sentence of its own; scripts/refusals.py holds the manuals to them. */
static void sentences(void)
{
    static const unsigned refusals[] = {
        XM23_ACCEPTED,           XM23_REFUSED_MEMORY,      XM23_REFUSED_STEPS,
        XM23_REFUSED_RECORD,     XM23_REFUSED_RECORD_BITS, XM23_REFUSED_EVENTS,
        XM23_REFUSED_EVENT_FIELDS, XM23_REFUSED_EVENT_ORDER, XM23_REFUSED_INSTRUCTION,
        XM23_REFUSED_EVENT_TWINS, XM23_REFUSED_STACK,      XM23_REFUSED_LOG,
        XM23_REFUSED_SREC_FORM,  XM23_REFUSED_SREC_CHECKSUM, XM23_REFUSED_SREC_ROOM,
        XM23_REFUSED_SOURCE_FORM, XM23_REFUSED_SOURCE_NAME, XM23_REFUSED_SOURCE_VALUE,
        XM23_REFUSED_JOURNAL,    XM23_REFUSED_BACK,        XM23_REFUSED_JUDGE,
    };
    const char *const none = xm23_refusal_text(0xFF);
    size_t i, j;
    for (i = 0; i < sizeof refusals / sizeof *refusals; i++) {
        const char *const text = xm23_refusal_text(refusals[i]);
        same("a sentence", strcmp(text, none) != 0, 1);
        for (j = 0; j < i; j++)
            same("a sentence of its own", strcmp(text, xm23_refusal_text(refusals[j])) != 0, 1);
    }
    same("no refusal", (uint64_t)strcmp(xm23_refusal_text(UINT_MAX), none), 0);
    for (i = XM23_FOUND_START; i <= XM23_FOUND_FOREIGN; i++)
        for (j = 0; j <= i; j++)
            same("a finding's own sentence",
                 strcmp(xm23_finding_text((unsigned)i), xm23_finding_text(j ? (unsigned)j - 1 : UINT_MAX)) != 0, 1);
    same("no finding", (uint64_t)strcmp(xm23_finding_text(UINT_MAX), xm23_finding_text(9)), 0);
}

/* The macros take a reply apart. */
static void parts(void)
{
    uint64_t branch = xm23_decode(0x3C05), back = xm23_decode(0x3FFF), load = xm23_decode(0x5ADA);
    same("format", XM23_FORMAT(branch), XM23_FORMAT_BRANCH);
    same("condition", XM23_FIELD(branch, 1), XM23_BRANCH_RA);
    same("offset", (uint64_t)XM23_OFFSET(branch), 5);
    same("negative offset", (uint64_t)-XM23_OFFSET(back), 1);
    same("sixth field", XM23_FIELD(load, 6), 2);
    same("illegal word", xm23_decode(0x4E00), XM23_FORMAT_ILLEGAL);
    same("current priority", XM23_PSW_CURRENT(0x60E0), 7);
    same("previous priority", XM23_PSW_PREVIOUS(0x60E0), 3);
    same("true count", XM23_CEX_STATE_TRUE(0x5A), 3);
    same("false count", XM23_CEX_STATE_FALSE(0x5A), 2);
    same("condition held", 0x5A & XM23_CEX_STATE_HELD, XM23_CEX_STATE_HELD);
}

void instruction_calls(void)
{
    version();
    sentences();
    accepted_instructions();
    refused_instructions();
    parts();
}

/* The subcommands, and what --help says of each. */
#include <stdio.h>
#include <string.h>
#include <unistd.h>

#include "desk.h"
#include "sound.h"

const struct subcommand subcommands[] = {
    {"run", "xm23 run [-l] [-n STEP] [PAPER] PROGRAM", "run a program under a paper and print the line of the sheet",
     "Runs PROGRAM under PAPER and prints the line of the sheet: reason, steps, R0 to R7, PSW, CEX, lines and depth,\n"
     "or R and the number of a refusal. On a terminal, or with -l, a legend follows, what the output devices showed,\n"
     "and of a PAPER with awards the points of each, what was found where it is not met, and the total. Without a\n"
     "PAPER the program starts with memory zero and SP $0800, and takes at most 1,000,000 steps.\n"
     "\n"
     "A PAPER is a text (man 5 xm23). A PROGRAM is S-records, or a source where its name ends in .asm, or a folder of\n"
     "such files: those that end in .s19 or .asm, nine at most, in the order of their names. The PC is that of\n"
     "program.*, else of the first; no two may state a byte.\n"
     "\n"
     "  -l       legend, screen text and awards too, wherever the line goes\n"
     "  -n STEP  the line as it is before the step of that count; no line is expected then\n"
     "\n"
     "Status 1: PROGRAM is refused, PAPER has a mistake, another line was expected, the points are not enough to\n"
     "pass, or the run does not come to STEP.\n",
     xm23_desk_run},
    {"mark", "xm23 mark [-Ls] [-j N] [-o DIR] PAPER PROGRAM.. | xm23 mark [-Ls] [-j N] [-o DIR] -0 PAPER",
     "run every program of a sitting and write results and pages",
     "Runs each PROGRAM under PAPER, and writes the folder DIR\n"
     "  results.csv      a row for each: name, line or refusal, what is wrong, steps, depth, screen text, agreement\n"
     "                   with the expected line, SHA-256 of program and paper, whether its handlers are sound and\n"
     "                   its application undisturbed; of a PAPER with awards the points of each, the total, and\n"
     "                   whether it is enough to pass; which others it is alike, as 'xm23 copies' finds them\n"
     "  index.html       the same as a table, with a link to each page\n"
     "  pages/           a page for each program\n"
     "  SHA256SUMS       digests of all these files: sha256sum -c SHA256SUMS\n"
     "Programs are S-records, or sources where their names end in .asm, or folders of such files ('xm23 run --help');\n"
     "one that cannot be read or loaded is a row, and so is a link, a pipe or a device, itself or in a folder, which\n"
     "is not opened, and what a link in the folders of its name leads to; folders with which all names begin may be\n"
     "links. Everything behind PAPER is a name.\n"
     "\n"
     "A program may have 1 MiB, all its files together, and may take 10 seconds of processor time and 512 MiB of\n"
     "memory. What passes that is a row that says so, and the others are marked.\n"
     "\n"
     "DIR is written beside its place, and put there when it is whole. An earlier marking is then removed; nothing is\n"
     "taken over from it. Any other folder that is there, or an earlier marking that somebody changed, is left alone.\n"
     "Stopped in the middle, what was there is as it was: give the same command again. The same files give the same\n"
     "bytes.\n"
     "\n"
     "Handlers are judged ('xm23 sound --help') where PAPER has events and at most 100,000 steps, or an award for\n"
     "that, and with -s always, at 0.03 s of processor time for a million steps of a program. Else the two cells are\n"
     "'not judged'.\n"
     "\n"
     "  -L       follow links\n"
     "  -s       judge the handlers, whatever PAPER has\n"
     "  -j N     so many at a time, 1 to 64 (the number of processors)\n"
     "  -o DIR   where the results go (marks)\n"
     "  -0       the names of the programs from standard input, a zero byte behind each: find .. -print0\n"
     "\n"
     "Status 0: every program ran, closed as expected where a line is, and passed where PAPER says who does. 1: some\n"
     "did not, or PAPER has a mistake.\n"
     "3: a program could not be marked, as its row says; or PAPER cannot be read, or DIR cannot be written.\n",
     xm23_desk_mark},
    {"report", "xm23 report [-s] [-a STEP] [-o PAGE] PAPER PROGRAM",
     "write the page of one run, with 1,024 of its steps to walk through",
     "Runs PROGRAM under PAPER and writes a page of HTML: the line, the points and what was found for each award, the\n"
     "closing state beside the expected one, the screen, a picture of the whole run, whether the handlers were sound,\n"
     "and the last 1,024 steps to walk forwards and backwards: registers, instruction, what it wrote, stack with its\n"
     "frames, screen so far, who wrote a byte.\n"
     "Where the last steps change nothing but the step count, as BRA to itself, the walk shows those before them, and\n"
     "the page says so. Without scripts, and in print, it has the picture, the closing state and the last 32 steps.\n"
     "It is whole by itself.\n"
     "\n"
     "  -a STEP   the 1,024 steps around the one of that count instead, and the machine before it\n"
     "  -s        judge the handlers, whatever PAPER has, as mark -s does\n"
     "  -o PAGE   write there instead of to standard output\n"
     "\n"
     "Status 1: PROGRAM is refused, PAPER has a mistake, the run has no such STEP, another line was expected, or the\n"
     "points are not enough to pass. Of a mistake and of no such STEP there is no page.\n",
     xm23_desk_report},
    {"back", "xm23 back [-a STEP] [-n STEPS] [-w BYTE] PAPER PROGRAM",
     "go back from the close or from any step, as far as the step that wrote a byte",
     "Runs PROGRAM under PAPER and prints its last steps, the newest first: step, PC, word, instruction, what it\n"
     "left, and the label of a source that it is at or behind; then the state before the last of those printed.\n"
     "\n"
     "  -a STEP   from the step of that count on, and not from the last\n"
     "  -n STEPS  so many steps, 1 to 1,024 (16)\n"
     "  -w BYTE   as far as the step that wrote the byte: of the whole run, or of the STEPS of -n. Where more than\n"
     "            1,024 steps lie between, that step and 15 behind it. BYTE is an address, base sixteen, or a name\n"
     "            that a source of PROGRAM or PAPER gives; what is both is the name, with a $ before it the address\n"
     "\n"
     "Status 1: PROGRAM is refused, PAPER has a mistake, the run has no such STEP, or none of the steps wrote the\n"
     "byte.\n",
     xm23_desk_back},
    {"events", "xm23 events [-c] PAPER PROGRAM", "tell what became of each event of a paper",
     "Runs PROGRAM under PAPER and prints a row for each event of PAPER: its line there, step, device and byte;\n"
     "'taken', or why not: 'ENA clear', 'before the start', 'after the end'; of one taken whether it was an overrun,\n"
     "and its interrupt: 'IE clear', 'count full' (lost), 'accepted' or 'chained' and the step, or 'waits'. Of a\n"
     "device's events that wait the oldest is entered first. Totals follow.\n"
     "\n"
     "  -c    rows of CSV instead, without totals\n"
     "\n"
     "Status 1: PROGRAM is refused, or PAPER has a mistake.\n",
     xm23_desk_events},
    {"sound", "xm23 sound PAPER PROGRAM", "tell whether the handlers of a program were sound",
     "Runs PROGRAM under PAPER, judges its handlers, and prints a line for each kind of breach that there is, of each\n"
     "the first, in the order of their steps: a fault; a return with no frame open; SVC in a device's handler; a\n"
     "handler that changed R0 to R4, SP or its frame, with what was held and what is found; one that never returned;\n"
     "a start asleep, halted or with a line waiting. And what the application could notice: it set SLP, it read a\n"
     "device register, or a byte that a handler or its entry wrote last, which is lawful and blames no handler.\n"
     "Where there is none: 'sound: the program ended as it would have with no events', which is proved.\n"
     "\n"
     "Status 0: sound. 1: something is found, PROGRAM is refused, or PAPER has a mistake.\n",
     xm23_desk_sound},
    {"line", "xm23 line [FIELD..]", "tell what each field of a printed line says",
     "Prints a line of the sheet, as 'xm23 run' and print_state print it, with its legend: what each field is and\n"
     "says. The line is that of the words FIELD.., or, without any, the first of standard input.\n"
     "\n"
     "Status 1: it is no line of the sheet.\n",
     xm23_desk_line},
    {"copies", "xm23 copies [-L] [-o PAGE] PAPER PROGRAM..", "find programs of a sitting that are alike",
     "Compares each PROGRAM with every other and prints a line for each group with the same words, for each with the\n"
     "same words but for registers, and for each pair that shares runs of 12 words and more: how many words, the\n"
     "names, and where the longest run is. Words whose ignored bit is set, which the assembler leaves 0, come first,\n"
     "where two programs have one and the word before or behind it alike. Words count at whatever address. These\n"
     "count for nothing: words that PAPER lays, runs that PAPER has, runs that more than a quarter of the programs\n"
     "have (more than 8, of many more than 64), runs of less than four different words. Programs are read as\n"
     "'xm23 mark' reads them.\n"
     "\n"
     "What is alike may have an honest reason: a person decides.\n"
     "\n"
     "  -L        follow links\n"
     "  -o PAGE   write a page of HTML too: groups, pairs, and of the first 24 pairs both listings side by side\n"
     "\n"
     "Status 0: nothing is alike. 1: something is, or PAPER has a mistake. 3: a program could not be compared, as a\n"
     "message says, PAPER cannot be read, or PAGE cannot be written.\n",
     xm23_desk_copies},
    {"asm", "xm23 asm [-l] [-o FILE] [-s START] SOURCE", "assemble a source to S-records, or to a listing",
     "Assembles SOURCE (docs/FORMATS.md has the language) and writes the bytes that it states as S-records. A source\n"
     "at fault is told as 'SOURCE:LINE: R17: ..', with a hint where one is found, and nothing is written. A name that\n"
     "stands alone on its line and that nothing uses is told too: it may be an instruction that is misspelt.\n"
     "\n"
     "  -l        a listing instead: address, word, line number and line, as far as END, and where it starts\n"
     "  -o FILE   write there instead of to standard output\n"
     "  -s START  where the program starts, the PC of S9: a name, number or expression of the source (the place of\n"
     "            its first instruction)\n",
     xm23_desk_asm},
    {"dis", "xm23 dis [-o FILE] PROGRAM", "list a program, instruction by instruction",
     "Prints a source of the bytes that PROGRAM, a file or a folder, names: a statement for each word, a lone byte\n"
     "as BYTE, with address and word in a comment; a word that the assembler has no notation for as WORD, with what\n"
     "the machine takes it for. The comment at END has the PC, as 'xm23 asm -s' takes it with a $ before it.\n"
     "\n"
     "  -o FILE  write there instead\n",
     xm23_desk_dis},
    {"paper", "xm23 paper [-o FILE] PAPER", "print a paper as it was understood, every event and byte written out",
     "Reads PAPER and prints it as it was understood: the lines 'every', 'type' and 'source' as the events and bytes\n"
     "that they come to, names as their numbers, without comments. What is printed is a paper that stands alone, and\n"
     "read again it is the same. (On a terminal bytes of a title that are not printable are shown as \\xHH.)\n"
     "\n"
     "  -o FILE  write there instead of to standard output\n"
     "\n"
     "Status 1: PAPER has a mistake, or a source that it brings.\n",
     xm23_desk_paper},
    {"check", "xm23 check PAPER [MODEL]", "look a paper over before its sitting, with the setter's own solution",
     "Reads PAPER and prints a line for each thing to look at: no 'expect' and no 'award'; events before the start or\n"
     "behind the last step; events on devices with ENA clear or without a vector; a 'use' of a device whose vector\n"
     "'stack' does not know. Events of one line are one finding.\n"
     "\n"
     "With MODEL, a program, its run is looked at: events that come behind a halt, find ENA clear, are overruns, are\n"
     "lost or wait at the close, or ask for a handler with no vector; bytes of MODEL over which PAPER lays others;\n"
     "names in its sources that stand alone and that nothing uses; a line that is not the expected one; points that\n"
     "it does not get; what 'sound' finds of its handlers; a handler that holds more stack bytes than its 'use', or\n"
     "all together more than the figure of 'stack'. Below the findings stand its line, its points and the stack bytes.\n"
     "\n"
     "Status 0: nothing found. 1: something, or MODEL is refused, or PAPER has a mistake.\n",
     xm23_desk_check},
    {"stack", "xm23 stack PAPER [PROGRAM]", "tell the stack bytes that a paper's handlers can need",
     "Prints the stack bytes that the handlers of the devices with a line 'use DEVICE BYTES' can need together,\n"
     "above the priority of the line 'priority P' (0). The vectors are PAPER's, and those of PROGRAM where PAPER has\n"
     "none.\n"
     "\n"
     "Status 1: PROGRAM is refused, PAPER has a mistake or no use, or nobody states the vector of a device with one.\n",
     xm23_desk_stack},
    {"card", "xm23 card [-o FILE]", "write the reference card, for a screen and for A4",
     "Writes the reference card as one page of HTML: bits, words, flags and an example of each operation.\n"
     "\n"
     "  -o FILE  write there instead of to standard output\n",
     xm23_desk_card},
    {NULL, NULL, NULL, NULL, NULL},
};

/* ---- bad usage */

static int tell_usage(const char *name)
{
    for (const struct subcommand *s = subcommands; s->name; s++)
        if (strcmp(s->name, name) == 0)
            fprintf(stderr, "usage: %s ('xm23 %s --help' says more)\n", s->usage, s->name);
    return USAGE;
}

int wrong_option(const char *name, int option, const char *what)
{
    if (option == ':')
        say_text("%s: -%c has no value behind it", name, optopt);
    else if (option == '?' && optopt == '-')
        say_text("%s: no option begins with -- but --help, which stands directly behind '%s'", name, name);
    else if (option == '?')
        say_text("%s: -%c is no option", name, optopt);
    else
        say_text("%s: -%c '%s' %s", name, option, optarg, what);
    return tell_usage(name);
}

const char *late_option(const char *word)
{
    return word[0] == '-' ? ": options stand before all other words" : "";
}

int wrong_words(const char *name, int many, char **words, int most)
{
    if (many > most)
        say_text("%s: '%s' is one word too many%s", name, words[most], late_option(words[most]));
    else if (many)
        say_text("%s: a name is missing behind '%s'", name, words[many - 1]);
    else
        say_text("%s: no file is named", name);
    return tell_usage(name);
}

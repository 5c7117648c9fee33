/* Sessions: by run_one in this process, by libacl in this process (libacl.c), and by the program aclctl. First that all print
   alike, then how long each takes and how much memory. The words are the program and a folder for files. */
#define _GNU_SOURCE
#include <fcntl.h>
#include <sched.h>
#include <spawn.h>
#include <stdint.h>
#include <stdio.h>
#include <stdlib.h>
#include <string.h>
#include <sys/resource.h>
#include <sys/wait.h>
#include <unistd.h>
#include "../timing.h"

/* The static library bench_run. */
size_t run_prints(const uint8_t *setup, size_t setup_length, const char *texts, size_t texts_length, const size_t *lengths,
                  size_t count, char *printed, size_t room);
size_t libacl_prints(const char *text, size_t length, char *printed, size_t room);

enum { MOST = 1048576, ROOM = 16 * MOST, SESSIONS = 64 };

extern char **environ;
static const char *program, *folder;
static char setup_file[256];

static const char setup[] =
    "domain = \"example.org\"\numask = \"022\"\n"
    "[root]\nowner = \"root\"\ngroup = \"root\"\nmode = \"755\"\nstyle = \"posix\"\n"
    "[[user]]\nname = \"root\"\nuid = 0\ngroups = [\"root\"]\n"
    "[[user]]\nname = \"alice\"\nuid = 1000\ngroups = [\"staff\"]\n"
    "[[user]]\nname = \"bob\"\nuid = 1001\ngroups = [\"staff\", \"ops\"]\n"
    "[[user]]\nname = \"carol\"\nuid = 1002\ngroups = [\"guest\"]\n"
    "[[group]]\nname = \"root\"\ngid = 0\n[[group]]\nname = \"staff\"\ngid = 50\n"
    "[[group]]\nname = \"ops\"\ngid = 60\n[[group]]\nname = \"guest\"\ngid = 70\n";

static void fail(const char *what)
{
    fprintf(stderr, "bench: %s\n", what);
    exit(1);
}

/* The commands on one file, which is made at the first visit: a list of five entries, an answer to each kind of question, and
   a mode. Of the mixed kind every fourth file has NFSv4 lists, and the others are translated. Every fiftieth visit has faults. */
enum kind { MIXED, POSIX };

static size_t visit(char *out, int session, unsigned nth, unsigned files, enum kind kind)
{
    char *end = out, path[64];
    unsigned file = nth % files, user = 3000 + nth % 7;
    sprintf(path, "/s%d/file%u", session, file);
    if (nth < files) end += sprintf(end, "create file %s alice 640\n", path);
    if (kind == MIXED && file % 4 == 3) {
        end += sprintf(end, "set %s nfs4 A::OWNER@:rwatTcCy,A::%u:rwx,D:g:70001:wa,A:g:60:rx,A::EVERYONE@:rt\n", path, user);
        end += sprintf(end, "check %s %u rw\ncheck4 %s bob rx\nget %s\nchmod %s 640\nget %s\n", path, user, path, path, path, path);
    } else {
        const char *set = nth % 2 ? "set %s access user::rw-,user:%u:rw-,group::r--,mask::rw-,other::---\n" : "set %s access u::rw,u:%u:rw,g::r,m::rw,o::-\n";
        end += sprintf(end, set, path, user);
        end += sprintf(end, "check %s %u rw\nget %s\nchmod %s 640\ncheck %s bob r\n", path, user, path, path, path);
        end += sprintf(end, kind == MIXED ? "translate %s\n" : "get %s\n", path);
    }
    if (nth % 50 == 49) end += sprintf(end, "# faults\nset %s access u::rw,u:1:r,g::r,o::-\nget /nowhere\n\nmake it\n", path);
    return end - out;
}

/* A session over as many files, in a folder of its own. It has as many lines, or where none are told as many bytes, of which
   the last may be a comment. */
static size_t write_session(char *text, int session, unsigned files, enum kind kind, size_t lines)
{
    char visited[1024];
    size_t length = sprintf(text, "create dir /s%d alice 755\n", session), count = 1;
    for (unsigned nth = 0;; nth++) {
        size_t more = visit(visited, session, nth, files, kind);
        if (length + more > MOST) break;
        for (size_t i = 0; i < more; i++) {
            if (lines && count == lines) return length;
            text[length++] = visited[i];
            count += visited[i] == '\n';
        }
    }
    if (length < MOST) {
        memset(text + length, '#', MOST - length);
        text[MOST - 1] = '\n';
    }
    return MOST;
}

static void write_file(const char *name, const char *bytes, size_t length)
{
    FILE *file = fopen(name, "wb");
    if (!file || fwrite(bytes, 1, length, file) != length || fclose(file)) fail("a session can't be written");
}

/* Files of sessions: their names, as words of the program. */
struct files { int count; char names[SESSIONS][256]; };

static struct files make_files(const char *what, int count, unsigned files, enum kind kind, size_t lines)
{
    static char text[MOST];
    struct files made = {.count = count};
    for (int i = 0; i < count; i++) {
        size_t length = write_session(text, i, files, kind, lines);
        snprintf(made.names[i], sizeof made.names[i], "%s/%s%d", folder, what, i);
        write_file(made.names[i], text, length);
    }
    return made;
}

static struct files make_faults(int count)
{
    static char text[MOST];
    struct files made = {.count = count};
    for (size_t i = 0; i < MOST; i += 2) text[i] = 'x', text[i + 1] = '\n';
    for (int i = 0; i < count; i++) {
        snprintf(made.names[i], sizeof made.names[i], "%s/faults%d", folder, i);
        write_file(made.names[i], text, MOST);
    }
    return made;
}

/* Runs the program on the sessions and waits for it. It may run on processor 0 alone; its answers go to the file. */
static struct took run_program(const struct files *sessions, int journal, int one_processor, const char *to)
{
    const char *words[SESSIONS + 6] = {program, "run", "--setup", setup_file};
    int count = 4, status;
    if (journal) words[count++] = "--journal";
    for (int i = 0; i < sessions->count; i++) words[count++] = sessions->names[i];
    posix_spawn_file_actions_t actions;
    posix_spawn_file_actions_init(&actions);
    posix_spawn_file_actions_addopen(&actions, 1, to, O_WRONLY | O_CREAT | O_TRUNC, 0600);
    cpu_set_t all, one;
    sched_getaffinity(0, sizeof all, &all);
    CPU_ZERO(&one);
    CPU_SET(0, &one);
    struct rusage used;
    pid_t child;
    if (one_processor) sched_setaffinity(0, sizeof one, &one);
    double start = now();
    if (posix_spawn(&child, program, &actions, NULL, (char *const *)words, environ)) fail("the program can't be started");
    if (wait4(child, &status, 0, &used) != child || !WIFEXITED(status) || WEXITSTATUS(status)) fail("the program failed");
    double wall = (now() - start) / 1e6;
    if (one_processor) sched_setaffinity(0, sizeof all, &all);
    posix_spawn_file_actions_destroy(&actions);
    double processor = used.ru_utime.tv_sec * 1e3 + used.ru_utime.tv_usec / 1e3 + used.ru_stime.tv_sec * 1e3 + used.ru_stime.tv_usec / 1e3;
    return (struct took){wall, processor, used.ru_maxrss * 1024.0 / 1e6};
}

/* Sessions in memory, one behind the other, and room for what they print. */
struct held { char *texts, *printed; size_t length, lengths[SESSIONS]; int count; };

static struct held hold(const struct files *sessions)
{
    struct held held = {malloc((size_t)MOST * sessions->count), malloc((size_t)ROOM * sessions->count), 0, {0}, sessions->count};
    if (!held.texts || !held.printed) abort();
    for (int i = 0; i < sessions->count; i++) {
        FILE *file = fopen(sessions->names[i], "rb");
        if (!file) fail("a session can't be read");
        held.lengths[i] = fread(held.texts + held.length, 1, MOST, file);
        held.length += held.lengths[i];
        fclose(file);
    }
    return held;
}

static size_t by_run_one(const struct held *held)
{
    size_t length = run_prints((const uint8_t *)setup, sizeof setup - 1, held->texts, held->length, held->lengths, held->count,
                               held->printed, (size_t)ROOM * held->count);
    if (!length) fail("run_one failed");
    return length;
}

static size_t by_libacl(const struct held *held)
{
    size_t length = libacl_prints(held->texts, held->lengths[0], held->printed, ROOM);
    if (!length) fail("libacl's session failed");
    return length;
}

/* Does the work in a process of its own, so that its memory and its threads aren't this one's. */
#define ALONE(work)                                                                      \
    do {                                                                                 \
        fflush(stdout);                                                                  \
        int ended;                                                                       \
        pid_t made = fork();                                                             \
        if (made == 0) { work; fflush(stdout); _exit(0); }                               \
        if (made < 0 || waitpid(made, &ended, 0) != made || ended) fail("a part failed"); \
    } while (0)

static void same(const char *ours, size_t length, const char *theirs, size_t their_length, const char *what)
{
    if (length == their_length && !memcmp(ours, theirs, length)) return;
    size_t at = 0;
    while (at < length && at < their_length && ours[at] == theirs[at]) at++;
    size_t from = at > 200 ? at - 200 : 0;
    fprintf(stderr, "bench: %s differ at byte %zu:\n%.*s\nand\n%.*s\n", what, at, (int)(length - from < 400 ? length - from : 400),
            ours + from, (int)(their_length - from < 400 ? their_length - from : 400), theirs + from);
    exit(1);
}

/* What the program prints is what run_one prints of each session; of several, each behind its line. Sessions work in folders of
   their own, so it is the same on one tree as on a tree each. */
static void compare_program(const struct files *sessions)
{
    struct held held = hold(sessions);
    char *printed = malloc((size_t)ROOM * sessions->count), *wanted = malloc((size_t)ROOM * sessions->count), to[256], *end = wanted;
    snprintf(to, sizeof to, "%s/printed", folder);
    const char *text = held.texts;
    for (int i = 0; i < held.count; i++) {
        if (held.count > 1) end += sprintf(end, "session %d\n", i);
        size_t length = run_prints((const uint8_t *)setup, sizeof setup - 1, text, held.lengths[i], &held.lengths[i], 1, end, ROOM);
        if (!length) fail("run_one failed");
        end += length, text += held.lengths[i];
    }
    for (int one = 0; one < 2; one++) {
        run_program(sessions, 0, one, to);
        FILE *file = fopen(to, "rb");
        size_t length = file ? fread(printed, 1, (size_t)ROOM * sessions->count, file) : 0;
        same(wanted, end - wanted, printed, length, "run_one and the program");
        fclose(file);
    }
}

static void compare_libacl(const struct files *session)
{
    struct held ours = hold(session), theirs = hold(session);
    size_t length = by_run_one(&ours);
    same(ours.printed, length, theirs.printed, by_libacl(&theirs), "run_one and libacl");
}

/* A row: of some turns the least and the middle time until the end, and the least of processors. */
static void row(const char *what, struct turns *turns, double bytes)
{
    sort(turns);
    printf("| %s | %.2f | %.2f | %.2f | ", what, least(turns), middle(turns), least_processor(turns));
    if (bytes > 0) printf("%.0f |  |\n", bytes / least(turns) / 1e3);
    else printf(" |  |\n");
    fflush(stdout);
}

static void peak_row(const char *what, const struct files *sessions, int journal)
{
    struct took took = run_program(sessions, journal, 0, "/dev/null");
    printf("| %s | %.0f | | %.0f | | %.1f |\n", what, took.wall, took.processor, took.peak);
    fflush(stdout);
}

static void time_one(const struct files *mixed)
{
    struct held held = hold(mixed);
    struct turns turns = {0};
    IN_TURNS ADD_TURN(&turns, by_run_one(&held));
    row("1 MiB of mixed commands, run_one", &turns, held.length);
}

static void time_libacl(const struct files *posix)
{
    struct held held = hold(posix);
    struct turns ours = {0}, theirs = {0};
    IN_TURNS {
        ADD_TURN(&theirs, by_libacl(&held));
        ADD_TURN(&ours, by_run_one(&held));
    }
    row("1 MiB of POSIX commands, libacl", &theirs, held.length);
    row("1 MiB of POSIX commands, run_one", &ours, held.length);
    printf("| libacl's time over run_one's | %.1f | %.1f | %.1f | | |\n", least(&theirs) / least(&ours), middle(&theirs) / middle(&ours),
           least_processor(&theirs) / least_processor(&ours));
}

/* What one took over what the other took in the same turn. */
static struct took over(struct took ours, struct took theirs)
{
    return (struct took){ours.wall / theirs.wall, ours.processor / theirs.processor, 0};
}

/* Many sessions: one after the other, each by a run of the program, and all by one run, on all processors and on one. A ratio is
   that of two runs in the same turn. */
static void time_many(const char *what, const struct files *sessions)
{
    char name[128];
    struct held held = hold(sessions);
    struct turns alone = {0}, each = {0}, all = {0}, one = {0}, all_over_each = {0}, one_over_each = {0};
    IN_TURNS {
        ADD_TURN(&alone, by_run_one(&held));
        struct took sum = {0};
        for (int j = 0; j < sessions->count; j++) {
            struct files single = {.count = 1};
            memcpy(single.names[0], sessions->names[j], sizeof single.names[0]);
            struct took took = run_program(&single, 0, 0, "/dev/null");
            sum.wall += took.wall, sum.processor += took.processor;
        }
        struct took on_all = run_program(sessions, 0, 0, "/dev/null"), on_one = run_program(sessions, 0, 1, "/dev/null");
        add_turn(&each, sum), add_turn(&all, on_all), add_turn(&one, on_one);
        add_turn(&all_over_each, over(on_all, sum)), add_turn(&one_over_each, over(on_one, sum));
    }
    sprintf(name, "%s, run_one one after the other", what), row(name, &alone, held.length);
    sprintf(name, "%s, a run of the program for each, one after the other", what), row(name, &each, held.length);
    sprintf(name, "%s, one run of the program", what), row(name, &all, held.length);
    sprintf(name, "%s, one run of the program on one processor", what), row(name, &one, held.length);
    sprintf(name, "%s, one run's time over a run for each", what), row(name, &all_over_each, 0);
    sprintf(name, "%s, the same on one processor", what), row(name, &one_over_each, 0);
}

static void time_start(const struct files *small)
{
    struct turns turns = {0};
    IN_TURNS add_turn(&turns, run_program(small, 0, 0, "/dev/null"));
    row("a session of ten lines, the program from start to end", &turns, 0);
}

/* A kind of command: what it is called, whether it is about nodes of the NFSv4 style, and its line about a file. */
struct command { const char *what; int is_nfs4; const char *line; };

static const struct command commands[] = {
    {"create", 0, "create file /made%u alice 640\n"},
    {"set, a POSIX list of five entries", 0, "set /file%u access u::rw,u:3001:rw,g::r,m::rw,o::-\n"},
    {"the same, written in full", 0, "set /file%u access user::rw-,user:3001:rw-,group::r--,mask::rw-,other::---\n"},
    {"set, an NFSv4 list of five entries", 1, "set /file%u nfs4 A::OWNER@:rwatTcCy,A::3001:rwx,D:g:70001:wa,A:g:60:rx,A::EVERYONE@:rt\n"},
    {"get, of the POSIX list", 0, "get /file%u\n"},
    {"get, of the NFSv4 list", 1, "get /file%u\n"},
    {"chmod, of the POSIX list", 0, "chmod /file%u 640\n"},
    {"chmod, of the NFSv4 list", 1, "chmod /file%u 640\n"},
    {"check, by the POSIX list", 0, "check /file%u bob r\n"},
    {"check4, by the NFSv4 list", 1, "check4 /file%u bob rx\n"},
    {"translate", 0, "translate /file%u\n"},
    {"a line that is no command", 0, "x\n"},
};

/* How many files are asked about, one after the other; and how many commands are counted. */
enum { FILES = 64, COMMANDS = 3968 };

/* Files with lists of five entries, and then so many times the command. */
static struct files write_commands(const struct command *command, int times)
{
    static char text[MOST];
    char *end = text;
    struct files made = {.count = 1};
    for (unsigned file = 0; file < FILES; file++) {
        end += sprintf(end, "create file /file%u alice 640\n", file);
        end += sprintf(end, commands[command->is_nfs4 ? 3 : 1].line, file);
    }
    for (int nth = 0; nth < times; nth++) end += sprintf(end, command->line, command == commands ? nth : nth % FILES);
    snprintf(made.names[0], sizeof made.names[0], "%s/commands", folder);
    write_file(made.names[0], text, end - text);
    return made;
}

/* How many instructions the program takes for one session, by callgrind. */
static double instructions(const struct files *session)
{
    char command[1024], line[256];
    double collected = 0;
    snprintf(command, sizeof command, "valgrind --tool=callgrind --callgrind-out-file=/dev/null '%s' run --setup '%s' '%s' 2>&1 >/dev/null",
             program, setup_file, session->names[0]);
    FILE *told = popen(command, "r");
    while (told && fgets(line, sizeof line, told)) {
        char *at = strstr(line, "Collected : ");
        if (at) collected = strtod(at + strlen("Collected : "), NULL);
    }
    if (!told || pclose(told) || !collected) fail("callgrind failed");
    return collected;
}

/* Instructions for each kind of command: what many of them take beyond none of them; and for a session of 1 MiB. */
static void count_instructions(const struct files *mixed)
{
    if (system("valgrind --version > /dev/null 2>&1")) {
        printf("\nno valgrind: instructions aren't counted\n");
        return;
    }
    printf("\n| command | instructions |\n|---|---|\n");
    for (size_t i = 0; i < sizeof commands / sizeof *commands; i++) {
        struct files none = write_commands(&commands[i], 0);
        double before = instructions(&none);
        struct files some = write_commands(&commands[i], COMMANDS);
        printf("| %s | %.0f |\n", commands[i].what, (instructions(&some) - before) / COMMANDS);
        fflush(stdout);
    }
    printf("| 1 MiB of mixed commands, all in all | %.0f |\n", instructions(mixed));
}

int main(int count, char **words)
{
    if (count < 3) fail("the words are the program and a folder");
    program = words[1], folder = words[2];
    snprintf(setup_file, sizeof setup_file, "%s/setup.toml", folder);
    write_file(setup_file, setup, sizeof setup - 1);
    struct files mixed = make_files("mixed", 1, 3900, MIXED, 0), posix = make_files("posix", 1, 3900, POSIX, 0);
    if (count > 3 && words[3][0] == 'i') {
        count_instructions(&mixed);
        return 0;
    }
    if (count > 3) {
        /* For a profile: one of the works alone, over and over. */
        struct held held = hold(words[3][0] == 'm' ? &mixed : &posix);
        for (int i = 0; i < 100; i++) words[3][0] == 'l' ? by_libacl(&held) : by_run_one(&held);
        return 0;
    }
    struct files four = make_files("four", 4, 1000, MIXED, 0), many = make_files("many", SESSIONS, 60, MIXED, 1000);
    struct files wide = make_files("wide", SESSIONS, 60, MIXED, 0), faults = make_faults(SESSIONS);
    struct files small = make_files("small", 1, 10, MIXED, 10);
    struct files longest = {.count = 1};
    memcpy(longest.names[0], faults.names[0], sizeof longest.names[0]);
    ALONE(compare_libacl(&posix));
    ALONE(compare_program(&mixed));
    ALONE(compare_program(&posix));
    ALONE(compare_program(&four));
    ALONE(compare_program(&many));
    ALONE(compare_program(&small));
    ALONE(compare_program(&longest));
    printf("run_one prints what libacl's program and ours do\n\n");
    printf("| work | least ms | middle ms | processor ms | MB a second | peak MB |\n|---|---|---|---|---|---|\n");
    ALONE(time_one(&mixed));
    ALONE(time_libacl(&posix));
    ALONE(time_many("four sessions of 1 MiB", &four));
    ALONE(time_many("64 sessions of 1000 lines", &many));
    time_start(&small);
    peak_row("1 MiB of mixed commands, the program", &mixed, 0);
    peak_row("524,288 lines `x`, the program", &longest, 0);
    peak_row("524,288 lines `x` with --journal", &longest, 1);
    peak_row("64 sessions of 1 MiB of mixed commands", &wide, 0);
    peak_row("64 sessions of 524,288 lines `x`", &faults, 0);
    peak_row("64 sessions of 524,288 lines `x` with --journal", &faults, 1);
    count_instructions(&mixed);
    return 0;
}

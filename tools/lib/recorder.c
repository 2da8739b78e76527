/* Preloaded before libc_malloc_debug.so.0, it has glibc's mtrace write one log a process, into files of its own:
   $RECORD_FOLDER/NAME.PID.log, or NAME.PID-2.log and so on where a program of that name took the process over.

   mtrace writes to a stream that this file opens for it, which passes whole lines on, each by one write. So nothing waits
   in a buffer when the process forks, is killed, or is replaced, and a child begins a log of its own with nothing of its
   parent's in it. $MALLOC_TRACE must be set, to anything, since mtrace asks for it. */
#define _GNU_SOURCE
#include <dlfcn.h>
#include <errno.h>
#include <fcntl.h>
#include <mcheck.h>
#include <pthread.h>
#include <stdio.h>
#include <stdlib.h>
#include <string.h>
#include <sys/stat.h>
#include <sys/types.h>
#include <unistd.h>

enum { MOST_TRIES = 1000, LOW_NUMBER = 600 };

static char folder[3072], path[4096];
static int file = -1;
static dev_t device;
static ino_t inode;
static pid_t owner;
/* Volatile, since mtrace is declared not to call back. */
static volatile int is_opening;

/* What came of a line whose end has yet to come. mtrace locks its stream for a line, so one thread at a time writes it. */
static char pending[8192];
static size_t length;

/* Takes a file whose number is out of the way of the program's own. */
static void use(int opened)
{
	struct stat told;
	int moved = fcntl(opened, F_DUPFD_CLOEXEC, LOW_NUMBER);
	if (moved >= 0) {
		close(opened);
		opened = moved;
	}
	file = opened;
	fstat(file, &told);
	device = told.st_dev;
	inode = told.st_ino;
}

/* A log that no other process, and no earlier program of this one, has begun. */
static void begin(void)
{
	owner = getpid();
	length = 0;
	file = -1;
	for (int try = 1; file < 0 && try < MOST_TRIES; try++) {
		char number[16] = "";
		if (try > 1) snprintf(number, sizeof number, "-%d", try);
		snprintf(path, sizeof path, "%s/%s.%d%s.log", folder, program_invocation_short_name, (int)owner, number);
		int opened = open(path, O_WRONLY | O_CREAT | O_EXCL | O_APPEND | O_CLOEXEC, 0666);
		if (opened >= 0) use(opened);
		else if (errno != EEXIST) return;
	}
}

/* Whether the number is still the log's: a program may close every file that it finds open, and open others. */
static int is_ours(void)
{
	struct stat told;
	return file >= 0 && !fstat(file, &told) && told.st_dev == device && told.st_ino == inode;
}

static void put(const char *text, size_t size)
{
	if (!is_ours()) {
		int opened = open(path, O_WRONLY | O_APPEND | O_CLOEXEC);
		if (opened < 0) return;
		use(opened);
	}
	while (size) {
		ssize_t part = write(file, text, size);
		if (part < 0 && errno != EINTR) return;
		if (part > 0) text += part, size -= part;
	}
}

/* The stream's writes: parts of lines. A child made by vfork shares this memory, and is passed over. */
static ssize_t take(void *unused, const char *text, size_t size)
{
	int before = errno;
	(void)unused;
	if (owner != getpid()) return size;
	for (size_t at = 0; at < size; at++) {
		if (length < sizeof pending) pending[length++] = text[at];
		if (text[at] != '\n') continue;
		pending[length - 1] = '\n';
		put(pending, length);
		length = 0;
	}
	errno = before;
	return size;
}

/* The C library's own, found before the program runs, since a child mustn't look for them. */
static FILE *(*real_fopen)(const char *, const char *);
static int (*real_setvbuf)(FILE *, char *, int, size_t);
static void (*real_exit)(int);

static void find_real(void)
{
	if (real_exit) return;
	*(void **)&real_fopen = dlsym(RTLD_NEXT, "fopen");
	*(void **)&real_setvbuf = dlsym(RTLD_NEXT, "setvbuf");
	*(void **)&real_exit = dlsym(RTLD_NEXT, "_exit");
}

/* mtrace opens its stream by this. */
FILE *fopen(const char *name, const char *mode)
{
	find_real();
	return is_opening ? fopencookie(NULL, "w", (cookie_io_functions_t){ .write = take }) : real_fopen(name, mode);
}

/* And gives it a buffer by this, which it doesn't get. */
int setvbuf(FILE *stream, char *buffer, int mode, size_t size)
{
	find_real();
	return is_opening ? real_setvbuf(stream, NULL, _IONBF, 0) : real_setvbuf(stream, buffer, mode, size);
}

static void begin_in_child(void)
{
	int before = errno;
	if (file >= 0 && is_ours()) close(file);
	begin();
	put("= Start\n", 8);
	errno = before;
}

__attribute__((constructor)) static void start(void)
{
	const char *asked = secure_getenv("RECORD_FOLDER");
	find_real();
	if (!asked || strlen(asked) >= sizeof folder) return;
	strcpy(folder, asked);
	begin();
	if (file < 0) return;
	pthread_atfork(NULL, NULL, begin_in_child);
	is_opening = 1;
	mtrace();
	is_opening = 0;
}

/* The log ends here: what comes later is of a process that is ending. */
static void end(void)
{
	if (file < 0 || owner != getpid()) return;
	put("= End\n", 6);
	owner = 0;
}

__attribute__((destructor)) static void stop(void)
{
	end();
}

/* Many shells and forked children leave by this, past all destructors. */
void _exit(int status)
{
	end();
	find_real();
	real_exit(status);
	__builtin_unreachable();
}

void _Exit(int status)
{
	_exit(status);
}

/*
 * Runs a bundle on the kernel of this host, and writes its trace: a process for each simulated one, with the folder of the tree as its root.
 * It is run by root.  A process waits for its turn in shared memory, so it makes no system call that its program does not make, except that
 * getdents and wait make several, and that a process with "stdio" or without a pledge yields the processor while it waits.
 * The trace has no lines NAMI, PLDG and UNVL, and no numbers of nodes and sizes of directories, which a kernel does not show so.
 */
#ifdef __linux__
#define _GNU_SOURCE
#include <sys/prctl.h>
#include <sys/syscall.h>
#endif

#include <sys/types.h>
#include <sys/mman.h>
#include <sys/resource.h>
#include <sys/stat.h>
#include <sys/wait.h>

#include <dirent.h>
#include <err.h>
#include <errno.h>
#include <fcntl.h>
#include <limits.h>
#include <sched.h>
#include <signal.h>
#include <stdio.h>
#include <stdlib.h>
#include <string.h>
#include <time.h>
#include <unistd.h>

#include "machine.h"

#ifdef __linux__
/* Stand-ins, so that the rest can be tried on Linux. */
static int pledge(const char *promises, const char *execpromises) { (void)promises; (void)execpromises; return 0; }
static int unveil(const char *path, const char *permissions) { (void)path; (void)permissions; return 0; }
#endif

#define PROCESSES	64
#define DESCRIPTORS	16
#define BUFFER		4096
#define OPENED		4096
#define NAME		256

enum outcome { OK, ERROR, BLOCKED, EXIT, KILLED };

/* What the processes and the controller share: whose turn it is, the result of the last step, and the last name that each open file listed. */
struct shared {
	volatile int	 turn;
	int		 step;
	int		 outcome, value, error, program, line;
	int		 operand[3];
	int		 count;		/* of bytes of a GIO line, or -1 */
	unsigned char	 data[BUFFER];
	int		 processes;
	pid_t		 host[PROCESSES];
	int		 is_live[PROCESSES], is_waited[PROCESSES];
	int		 opened;
	char		 listed[OPENED][NAME + 1];
};

static struct shared	*shared;

/* A process. */
static int		 own, program, line, has_yield = 1;
static int		 reg[8], open_file[DESCRIPTORS], is_marked[DESCRIPTORS];
static unsigned char	 buffer[BUFFER];

/* The errors of pvsim, by their names. */
static const struct { int host, number; const char *name; } errors[] = {
	{ EPERM, 1, "EPERM" }, { ENOENT, 2, "ENOENT" }, { E2BIG, 7, "E2BIG" }, { ENOEXEC, 8, "ENOEXEC" }, { EBADF, 9, "EBADF" }, { ECHILD, 10, "ECHILD" },
	{ EACCES, 13, "EACCES" }, { EFAULT, 14, "EFAULT" }, { EBUSY, 16, "EBUSY" }, { EEXIST, 17, "EEXIST" }, { EXDEV, 18, "EXDEV" },
	{ ENOTDIR, 20, "ENOTDIR" }, { EISDIR, 21, "EISDIR" }, { EINVAL, 22, "EINVAL" }, { ENFILE, 23, "ENFILE" }, { EMFILE, 24, "EMFILE" },
	{ ETXTBSY, 26, "ETXTBSY" }, { EFBIG, 27, "EFBIG" }, { ENOSPC, 28, "ENOSPC" }, { EAGAIN, 35, "EAGAIN" }, { ELOOP, 62, "ELOOP" },
	{ ENAMETOOLONG, 63, "ENAMETOOLONG" }, { ENOTEMPTY, 66, "ENOTEMPTY" }, { ENOSYS, 78, "ENOSYS" }
};

static int
number_of(int error)
{
	size_t at;

	for (at = 0; at < sizeof(errors) / sizeof(errors[0]); at++)
		if (errors[at].host == error)
			return errors[at].number;
	return error;
}

static const char *
name_of(int number)
{
	size_t at;

	for (at = 0; at < sizeof(errors) / sizeof(errors[0]); at++)
		if (errors[at].number == number)
			return errors[at].name;
	return "unknown";
}

/* ---- calls: each returns the value, or -1 with errno */

static int
list(int descriptor)
{
	static char names[65536];
	char *least = NULL, *last;
	long got = 0, at;
	struct stat status;

	if (fstat(descriptor, &status) == -1)
		return -1;
	if (S_ISDIR(status.st_mode) && lseek(descriptor, 0, SEEK_SET) == -1)
		return -1;
	last = shared->listed[descriptor >= 0 && descriptor < DESCRIPTORS ? open_file[descriptor] : 0];
	shared->count = 0;
	for (;;) {
#ifdef __linux__
		got = syscall(SYS_getdents64, descriptor, names, sizeof(names));
#else
		got = getdents(descriptor, names, sizeof(names));
#endif
		if (got <= 0)
			break;
		for (at = 0; at < got;) {
#ifdef __linux__
			struct dirent64 *entry = (struct dirent64 *)(names + at);
#else
			struct dirent *entry = (struct dirent *)(names + at);
#endif
			char *name = entry->d_name;

			at += entry->d_reclen;
			if (entry->d_ino == 0 || strcmp(name, ".") == 0 || strcmp(name, "..") == 0 || (*last && strcmp(name, last) <= 0))
				continue;
			if (least == NULL || strcmp(name, (char *)shared->data) < 0) {
				strcpy((char *)shared->data, name);
				least = (char *)shared->data;
			}
		}
	}
	if (got == -1)
		return -1;
	if (least != NULL) {
		shared->count = strlen(least);
		strcpy(last, least);
	}
	return shared->count;
}

static int
wait_for_least(void)
{
	int at, status, is_blocked = 0;
	pid_t ended;

	for (at = 1; at <= shared->processes; at++) {
		if (shared->is_waited[at])
			continue;
		ended = waitpid(shared->host[at], &status, WNOHANG);
		if (ended == shared->host[at]) {
			int code = WIFEXITED(status) ? WEXITSTATUS(status) << 8 : WTERMSIG(status) | (WCOREDUMP(status) ? 128 : 0);

			shared->is_waited[at] = 1;
			memset(shared->data, 0, 4);
			shared->data[0] = code & 255;
			shared->data[1] = code >> 8;
			shared->count = 4;
			return at;
		}
		is_blocked |= ended == 0;
	}
	if (is_blocked)
		shared->outcome = BLOCKED;
	else
		errno = ECHILD;
	return is_blocked ? 0 : -1;
}

static int
number_of_process(pid_t host)
{
	int at;

	for (at = 1; at <= shared->processes; at++)
		if (shared->host[at] == host)
			return at;
	return 0;
}

static int
fork_process(void)
{
	int number = shared->processes + 1;
	pid_t child = fork();

	if (child == -1)
		return -1;
	if (child == 0) {
		own = number;
		reg[0] = reg[1] = 0;
		while (shared->turn != own)
			if (has_yield)
				sched_yield();
		return -2;
	}
	shared->host[number] = child;
	shared->is_live[number] = 1;
	shared->processes = number;
	return number;
}

/* The tree has texts, so a file that can be executed gives ENOEXEC; the table of the bundle says which of these load a program. */
static int
execute(const char *path)
{
	char *none[] = { NULL };
	int at, descriptor;

	execve(path, none, none);
	if (errno != ENOEXEC)
		return -1;
	for (at = 0; at < load_count && loads[at].step != shared->step; at++)
		continue;
	if (at == load_count)
		return -1;
	program = loads[at].program;
	line = 0;
	memset(reg, 0, sizeof(reg));
	memset(buffer, 0, sizeof(buffer));
	for (descriptor = 0; descriptor < DESCRIPTORS; descriptor++)
		if (is_marked[descriptor]) {
			close(descriptor);
			is_marked[descriptor] = 0;
		}
	return 0;
}

static int
note_opened(int descriptor, int flags)
{
	if (descriptor >= 0 && descriptor < DESCRIPTORS) {
		open_file[descriptor] = ++shared->opened % OPENED;
		shared->listed[open_file[descriptor]][0] = 0;
		is_marked[descriptor] = (flags & O_CLOEXEC) != 0;
	}
	return descriptor;
}

static int
note_duplicate(int from, int descriptor)
{
	if (descriptor >= 0 && descriptor < DESCRIPTORS && from != descriptor) {
		open_file[descriptor] = open_file[from];
		is_marked[descriptor] = 0;
	}
	return descriptor;
}

static int
facts(int answer, const struct stat *status, int length)
{
	if (answer == -1)
		return -1;
	memset(shared->data, 0, 8);
	shared->data[0] = S_ISDIR(status->st_mode) ? 1 : S_ISLNK(status->st_mode) ? 4 : status->st_mode & 0100 ? 3 : 2;
	if (!S_ISDIR(status->st_mode)) {
		off_t size = length >= 0 ? length : status->st_size;

		shared->data[4] = size & 255;
		shared->data[5] = size >> 8 & 255;
		shared->data[6] = size >> 16 & 255;
		shared->data[7] = size >> 24 & 255;
	}
	shared->count = 8;
	return 0;
}

/* A name above the machine's limit is one above the host's: what was added to it is not shown. */
static int
shorten(char *text, int length)
{
	while (length > 255 && text[length - 1] == '~')
		length--;
	return length;
}

static int
read_link(const char *path)
{
	char text[PATH_MAX];
	int length = readlink(path, text, sizeof(text));

	if (length == -1)
		return -1;
	length = shorten(text, length);
	memcpy(shared->data, text, length);
	return shared->count = length;
}

static int
transfer(int is_write, int descriptor, int count)
{
	int is_range = count >= 0 && count <= BUFFER, got;

	got = is_write ? write(descriptor, buffer, is_range ? count : 0) : read(descriptor, shared->data, is_range ? count : 0);
	if (!is_range && (got != -1 || errno != EBADF)) {
		errno = EINVAL;
		return -1;
	}
	if (got == -1)
		return -1;
	if (is_write)
		memcpy(shared->data, buffer, count);
	return shared->count = got;
}

static int
call(const struct instruction *it, const int *n)
{
	const char *path = it->argument[0].bytes, *other = it->argument[1].bytes;
	struct stat status;

	switch (it->operation) {
	case OP_FORK: return fork_process();
	case OP_WAIT: return wait_for_least();
	case OP_GETPID: return number_of_process(getpid());
	case OP_GETPPID: return number_of_process(getppid());
	case OP_PLEDGE:
		if (pledge(path, other) == -1)
			return -1;
		if (path != NULL)
			has_yield = strstr(path, "stdio") != NULL;
		return 0;
	case OP_UNVEIL: return unveil(path, other);
	case OP_EXECVE: return execute(path);
	case OP_OPEN: return note_opened(open(path, n[1], 0644), n[1]);
	case OP_OPENAT:
		return note_opened(openat(it->argument[0].kind == WORD ? AT_FDCWD : n[0], other, n[2], 0644), n[2]);
	case OP_CLOSE:
		if (close(n[0]) == -1)
			return -1;
		is_marked[n[0]] = 0;
		return 0;
	case OP_DUP: return note_duplicate(n[0], dup(n[0]));
	case OP_DUP2: return note_duplicate(n[0], dup2(n[0], n[1]));
	case OP_READ: return transfer(0, n[0], n[1]);
	case OP_WRITE: return transfer(1, n[0], n[1]);
	case OP_LSEEK: return lseek(n[0], n[1], n[2]);
	case OP_FSTAT: return facts(fstat(n[0], &status), &status, -1);
	case OP_FTRUNCATE: return ftruncate(n[0], n[1]);
	case OP_GETDENTS: return list(n[0]);
	case OP_FCHDIR: return fchdir(n[0]);
	case OP_CHDIR: return chdir(path);
	case OP_STAT: return facts(stat(path, &status), &status, -1);
	case OP_LSTAT: return facts(lstat(path, &status), &status, -1);
	case OP_READLINK: return read_link(path);
	case OP_MKDIR: return mkdir(path, 0755);
	case OP_RMDIR: return rmdir(path);
	case OP_UNLINK: return unlink(path);
	case OP_SYMLINK: return symlink(path, other);
	case OP_LINK: return linkat(AT_FDCWD, path, AT_FDCWD, other, AT_SYMLINK_FOLLOW);
	case OP_RENAME: return rename(path, other);
	default: errx(1, "%s is no call", it->name);
	}
}

/* ---- a process */

static void
compute(const struct instruction *it)
{
	const struct argument *a = it->argument;
	long long sum;
	int is_jump = it->operation == OP_JMP, target = a[it->arguments - 1].number;

	switch (it->operation) {
	case OP_SET: reg[a[0].number] = a[1].number; break;
	case OP_ADD:
		sum = (long long)reg[a[0].number] + a[1].number;
		reg[a[0].number] = sum > INT_MAX ? INT_MAX : sum < INT_MIN ? INT_MIN : sum;
		break;
	case OP_PUT: memcpy(buffer, a[0].bytes, a[0].number); break;
	case OP_PEEK: reg[a[0].number] = buffer[a[1].number]; break;
	case OP_JZ: is_jump = reg[a[0].number] == 0; break;
	case OP_JNZ: is_jump = reg[a[0].number] != 0; break;
	case OP_JNEG: is_jump = reg[a[0].number] < 0; break;
	default: break;
	}
	if (is_jump)
		line = target - 1;
}

static const struct instruction last_line = { OP_EXIT, "exit", 1, { { NUMBER, "0", NULL, 0 } } };

/* One step: what it is goes into the shared memory first, since the call can kill the process. */
static void
step(void)
{
	const struct instruction *it = line < programs[program].lines ? &programs[program].line[line] : &last_line;
	int at, value, was = line;

	shared->program = program;
	shared->line = line++;
	if (it->operation <= OP_JNEG) {
		compute(it);
		return;
	}
	for (at = 0; at < it->arguments; at++)
		shared->operand[at] = it->argument[at].kind == REGISTER ? reg[it->argument[at].number] : it->argument[at].number;
	shared->count = -1;
	if (it->operation == OP_EXIT) {
		shared->outcome = EXIT;
		_exit(shared->operand[0] & 255);
	}
	shared->outcome = KILLED;
	shared->error = 0;
	value = call(it, shared->operand);
	if (value == -2)	/* the child of a fork, whose turn it is */
		return step();
	if (shared->outcome == BLOCKED) {
		line = was;
		return;
	}
	shared->outcome = value == -1 ? ERROR : OK;
	shared->value = value;
	shared->error = value == -1 ? number_of(errno) : 0;
	if (it->operation == OP_EXECVE && value == 0)
		return;
	if (shared->count > 0 && value != -1 && it->operation != OP_WRITE)
		memcpy(buffer, shared->data, shared->count);
	reg[0] = value;
	reg[1] = shared->error;
}

static void
serve(const char *folder)
{
	struct rlimit none = { 0, 0 }, files = { DESCRIPTORS, DESCRIPTORS };
	int descriptor;

	own = 1;
#ifdef __linux__
	prctl(PR_SET_CHILD_SUBREAPER, 1, 0, 0, 0);
#endif
	if (chroot(folder) == -1 || chdir("/") == -1)
		_exit(126);
	umask(0);
	for (descriptor = 0; descriptor < 256; descriptor++)
		close(descriptor);
	setrlimit(RLIMIT_CORE, &none);
	setrlimit(RLIMIT_NOFILE, &files);
	for (;;) {
		while (shared->turn != own)
			if (has_yield)
				sched_yield();
		step();
		__sync_synchronize();
		shared->turn = 0;
	}
}

/* ---- the controller */

static void
make_entry(const char *folder, const struct entry *it)
{
	char path[PATH_MAX], other[PATH_MAX];
	FILE *file;

	snprintf(path, sizeof(path), "%s%s", folder, it->path);
	if (it->kind == 'd' ? mkdir(path, 0755) : it->kind == 'l' ? symlink(it->bytes, path) : 0)
		err(1, "%s", path);
	if (it->kind == 'n') {
		snprintf(other, sizeof(other), "%s%s", folder, it->bytes);
		if (linkat(AT_FDCWD, other, AT_FDCWD, path, 0) == -1)
			err(1, "%s", path);
	} else if (it->kind == 'f' || it->kind == 'x') {
		if ((file = fopen(path, "w")) == NULL || fwrite(it->bytes, 1, it->length, file) != (size_t)it->length || fclose(file) != 0 ||
		    chmod(path, it->kind == 'x' ? 0755 : 0644) == -1)
			err(1, "%s", path);
	}
}

/* Whether a process has ended, by ps(1): it need not be a child of this one. */
static int
has_ended(pid_t host)
{
	char words[64], state[16] = "";
	FILE *ps;

	snprintf(words, sizeof(words), "ps -o stat= -p %d 2>/dev/null", (int)host);
	if ((ps = popen(words, "r")) == NULL)
		err(1, "ps");
	if (fgets(state, sizeof(state), ps) == NULL)
		state[0] = 0;
	pclose(ps);
	return state[0] == 0 || strchr(state, 'Z') != NULL;
}

static void
sleep_for(long nanoseconds)
{
	struct timespec time = { 0, nanoseconds };

	nanosleep(&time, NULL);
}

/* Gives a process its turn, and returns when it has made its step or has ended. */
static void
give_turn(int number)
{
	int waited = 0;

	shared->outcome = OK;
	shared->step++;
	__sync_synchronize();
	shared->turn = number;
	while (shared->turn != 0) {
		sched_yield();
		if (++waited < 2000)
			continue;
		sleep_for(2000000);
		if (shared->outcome != OK && has_ended(shared->host[number])) {
			shared->is_live[number] = 0;
			shared->turn = 0;
		}
	}
}

static void
print_call(int number, const struct instruction *it)
{
	int at;

	printf("%5d CALL  %s(", number, it->name);
	for (at = 0; at < it->arguments; at++) {
		const struct argument *a = &it->argument[at];

		printf("%s", at ? ", " : "");
		if (a->kind == TEXT || a->kind == WORD)
			printf("%s", a->shown);
		else
			printf("%d", shared->operand[at]);
	}
	printf(")\n");
}

static void
print_step(int number)
{
	const struct program *text = &programs[shared->program];
	const struct instruction *it = shared->line < text->lines ? &text->line[shared->line] : &last_line;
	int at;

	if (it->operation <= OP_JNEG)
		return;
	print_call(number, it);
	if (shared->count >= 0 && shared->outcome == OK) {
		printf("%5d GIO   %s %d%s", number, it->operation == OP_WRITE ? "wrote" : "read", shared->count, shared->count ? " " : "");
		for (at = 0; at < shared->count; at++)
			printf("%02x", shared->data[at]);
		printf("\n");
	}
	if (shared->outcome == OK)
		printf("%5d RET   %s %d\n", number, it->name, shared->value);
	else if (shared->outcome == ERROR)
		printf("%5d RET   %s -1 errno %d %s\n", number, it->name, shared->error, name_of(shared->error));
	else if (shared->outcome == BLOCKED)
		printf("%5d WAIT  blocked\n", number);
	else if (shared->outcome == KILLED)
		printf("%5d PSIG  SIGABRT\n", number);
}

int
main(int argc, char *argv[])
{
	int at, steps;
	pid_t first;

	if (argc != 2)
		errx(2, "usage: %s folder", argv[0]);
	shared = mmap(NULL, sizeof(*shared), PROT_READ | PROT_WRITE, MAP_ANON | MAP_SHARED, -1, 0);
	if (shared == MAP_FAILED)
		err(1, "mmap");
	for (at = 0; at < entry_count; at++)
		make_entry(argv[1], &entries[at]);
	shared->processes = shared->is_live[1] = 1;
	fflush(stdout);
	if ((first = fork()) == -1)
		err(1, "fork");
	if (first == 0)
		serve(argv[1]);
	shared->host[1] = first;
	for (at = 0; at < turn_count; at++)
		for (steps = 0; steps < turns[at].steps; steps++) {
			int number = turns[at].process;

			if (number < 1 || number > shared->processes || !shared->is_live[number]) {
				printf("%5d GONE  no such process\n", number);
				continue;
			}
			give_turn(number);
			print_step(number);
		}
	fflush(stdout);
	for (at = shared->processes; at >= 1; at--)
		if (shared->is_live[at] && shared->host[at] > 1)
			kill(shared->host[at], SIGKILL);
	return 0;
}

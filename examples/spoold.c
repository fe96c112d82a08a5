/* spoold DIR: a small daemon for docs/FROM-A-REAL-PROGRAM.md. It reads DIR/conf and opens the log DIR/log. A worker that it forks writes a
 * message to a temporary file in DIR/queue, and moves the file to DIR/queue/1. Then the daemon writes a line to the log. */
#include <err.h>
#include <fcntl.h>
#include <stdio.h>
#include <stdlib.h>
#include <string.h>
#include <sys/stat.h>
#include <sys/wait.h>
#include <unistd.h>

static void work(const char *directory)
{
	char temporary[1024], name[1024];
	int file;

	snprintf(temporary, sizeof(temporary), "%s/queue/new.XXXXXX", directory);
	snprintf(name, sizeof(name), "%s/queue/1", directory);
	if ((file = mkstemp(temporary)) == -1)
		err(1, "%s", temporary);
	if (write(file, "a message\n", 10) != 10 || fchmod(file, 0640) == -1)
		err(1, "%s", temporary);
	close(file);
	if (rename(temporary, name) == -1)
		err(1, "%s", name);
	_exit(0);
}

int main(int argc, char **argv)
{
	char path[1024], text[100];
	int conf, log, status;
	pid_t worker;

	if (argc != 2)
		errx(2, "usage: spoold DIR");
	snprintf(path, sizeof(path), "%s/log", argv[1]);
	if ((log = open(path, O_WRONLY | O_APPEND | O_CREAT, 0644)) == -1)
		err(1, "%s", path);
	snprintf(path, sizeof(path), "%s/conf", argv[1]);
	if ((conf = open(path, O_RDONLY)) == -1 || read(conf, text, sizeof(text)) == -1)
		err(1, "%s", path);
	close(conf);
	if ((worker = fork()) == -1)
		err(1, "fork");
	if (worker == 0)
		work(argv[1]);
	if (waitpid(worker, &status, 0) == -1)
		err(1, "wait");
	if (write(log, "spooled\n", 8) != 8)
		err(1, "log");
	return 0;
}

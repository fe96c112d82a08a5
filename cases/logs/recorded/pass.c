/* A parent passes the descriptor of a file to its child by a socket, and both use the file in ways that a source does not have: a shared mapping, and a mode. */
#include <sys/types.h>
#include <sys/mman.h>
#include <sys/socket.h>
#include <sys/stat.h>
#include <sys/wait.h>

#include <err.h>
#include <fcntl.h>
#include <string.h>
#include <unistd.h>

union control {
	struct cmsghdr	 header;
	char		 bytes[CMSG_SPACE(sizeof(int))];
};

static struct msghdr
message(struct iovec *byte, union control *control)
{
	struct msghdr it;

	memset(&it, 0, sizeof(it));
	memset(control, 0, sizeof(*control));
	it.msg_iov = byte;
	it.msg_iovlen = 1;
	it.msg_control = control->bytes;
	it.msg_controllen = sizeof(control->bytes);
	return it;
}

static void
pass(int socket, int descriptor)
{
	char letter = 'x';
	struct iovec byte = { &letter, 1 };
	union control control;
	struct msghdr it = message(&byte, &control);
	struct cmsghdr *header = CMSG_FIRSTHDR(&it);

	header->cmsg_len = CMSG_LEN(sizeof(int));
	header->cmsg_level = SOL_SOCKET;
	header->cmsg_type = SCM_RIGHTS;
	memcpy(CMSG_DATA(header), &descriptor, sizeof(int));
	if (sendmsg(socket, &it, 0) == -1)
		err(1, "sendmsg");
}

static int
receive(int socket)
{
	char letter;
	int descriptor;
	struct iovec byte = { &letter, 1 };
	union control control;
	struct msghdr it = message(&byte, &control);

	if (recvmsg(socket, &it, 0) == -1)
		err(1, "recvmsg");
	memcpy(&descriptor, CMSG_DATA(CMSG_FIRSTHDR(&it)), sizeof(int));
	return descriptor;
}

int
main(void)
{
	int sockets[2], file;
	char *bytes, text[8];

	if (socketpair(AF_UNIX, SOCK_STREAM, 0, sockets) == -1 || (file = open("a", O_RDWR)) == -1)
		err(1, "a");
	if (fork() == 0) {
		close(file);
		file = receive(sockets[1]);
		return read(file, text, sizeof(text)) == -1;
	}
	if (fchmod(file, 0600) == -1 || (bytes = mmap(NULL, 4, PROT_READ | PROT_WRITE, MAP_SHARED, file, 0)) == MAP_FAILED)
		err(1, "mmap");
	pass(sockets[0], file);
	close(file);
	bytes[0] = 'O';
	wait(NULL);
	return 0;
}

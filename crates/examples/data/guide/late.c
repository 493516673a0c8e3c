/* msgd: prints the messages of the day. The parent asks; a worker in capability mode reads them. */
#include <sys/types.h>
#include <sys/capsicum.h>
#include <sys/socket.h>
#include <sys/stat.h>
#include <err.h>
#include <fcntl.h>
#include <stdio.h>
#include <string.h>
#include <time.h>
#include <unistd.h>

static void limit(int fd, cap_rights_t *rights) {
	if (cap_rights_limit(fd, rights) < 0) err(1, "cap_rights_limit");
}

/* Sends a descriptor over a socket (*fd), or takes one from it, with one byte (SCM_RIGHTS, unix(4)). */
static void pass(int sock, int *fd, int sends) {
	_Alignas(struct cmsghdr) char room[CMSG_SPACE(sizeof(int))];
	char byte = 0;
	struct iovec io = { .iov_base = &byte, .iov_len = 1 };
	struct msghdr m = { .msg_iov = &io, .msg_iovlen = 1, .msg_control = room, .msg_controllen = sizeof(room) };
	struct cmsghdr *c = (struct cmsghdr *)room;
	*c = (struct cmsghdr){ .cmsg_len = CMSG_LEN(sizeof(int)), .cmsg_level = SOL_SOCKET, .cmsg_type = SCM_RIGHTS };
	if (sends) memcpy(CMSG_DATA(c), fd, sizeof(int));
	if ((sends ? sendmsg(sock, &m, 0) : recvmsg(sock, &m, 0)) != 1) err(1, "pass");
	if (sends) return;
	if (m.msg_controllen < CMSG_LEN(sizeof(int)) || c->cmsg_type != SCM_RIGHTS || c->cmsg_len != CMSG_LEN(sizeof(int)))
		errx(1, "no descriptor came");
	memcpy(fd, CMSG_DATA(c), sizeof(int));
}

static void worker(int sock, int log) {
	cap_rights_t r;
	char byte;
	int msgs, fd;
	struct stat st;
	limit(sock, cap_rights_init(&r, CAP_RECV, CAP_SEND));
	limit(log, cap_rights_init(&r, CAP_WRITE));
	if (cap_enter() < 0) err(1, "cap_enter");
	pass(sock, &msgs, 0);
	time_t now = time(NULL);
	if (localtime(&now) == NULL) err(1, "localtime");
	while (read(sock, &byte, 1) == 1) {                     /* a request: n for the new message */
		fd = openat(msgs, byte == 'n' ? "new" : "today", O_RDONLY);
		if (fd >= 0) {
			if (fstat(fd, &st) < 0) err(1, "fstat");
			for (off_t left = st.st_size; left > 0 && read(fd, &byte, 1) == 1; left--)
				if (write(sock, &byte, 1) != 1) err(1, "write");
			close(fd);
			if (write(log, "+", 1) != 1) err(1, "write");
		}
		if (write(sock, "", 1) != 1) err(1, "write");   /* 0 ends an answer */
	}
}

int main(void) {
	cap_rights_t r;
	int pair[2], msgs, logs, log, request;
	char byte;
	if ((logs = open("/var/log", O_RDONLY | O_DIRECTORY)) < 0) err(1, "/var/log");
	limit(logs, cap_rights_init(&r, CAP_LOOKUP, CAP_WRITE));
	if ((log = openat(logs, "msgd", O_WRONLY | O_APPEND)) < 0) err(1, "/var/log/msgd");
	close(logs);
	if ((msgs = open("/var/msgs", O_RDONLY | O_DIRECTORY)) < 0) err(1, "/var/msgs");
	if (socketpair(AF_UNIX, SOCK_SEQPACKET, 0, pair) < 0) err(1, "socketpair");
	switch (fork()) {
	case -1: err(1, "fork");
	case 0: close(pair[0]); close(msgs); worker(pair[1], log); _exit(0);
	}
	close(pair[1]);
	close(log);
	limit(msgs, cap_rights_init(&r, CAP_READ, CAP_FSTAT, CAP_LOOKUP));
	pass(pair[0], &msgs, 1);
	close(msgs);
	while ((request = getchar()) != EOF) {
		byte = request;
		if (write(pair[0], &byte, 1) != 1) err(1, "write");
		while (read(pair[0], &byte, 1) == 1 && byte != 0) putchar(byte);
	}
}

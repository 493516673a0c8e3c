/* terminal KEYS PROGRAM [ARGUMENT ..]: plays a terminal. It runs the program with a socket for its input and output, types a key each
   fifth of a second, ends the input and prints what came. */
#include <sys/socket.h>
#include <sys/wait.h>
#include <err.h>
#include <stdio.h>
#include <unistd.h>

int main(int argc, char **argv) {
	int pair[2];
	char byte;
	if (argc < 3) errx(2, "terminal KEYS PROGRAM [ARGUMENT ..]");
	if (socketpair(AF_UNIX, SOCK_STREAM, 0, pair) < 0) err(1, "socketpair");
	switch (fork()) {
	case -1: err(1, "fork");
	case 0:
		dup2(pair[1], 0);
		dup2(pair[1], 1);
		close(pair[0]);
		close(pair[1]);
		execvp(argv[2], argv + 2);
		err(1, "%s", argv[2]);
	}
	close(pair[1]);
	for (const char *key = argv[1]; *key != 0; key++) {
		usleep(200000);
		if (write(pair[0], key, 1) != 1) err(1, "write");
	}
	usleep(200000);
	shutdown(pair[0], SHUT_WR);
	while (read(pair[0], &byte, 1) == 1) putchar(byte);
	wait(NULL);
}

/* A bundle of pvsim as data: machine.c runs it on the kernel of this host. */

enum kind { TEXT, NUMBER, REGISTER, WORD };

struct argument {
	enum kind	 kind;
	const char	*shown;		/* as a trace has it */
	const char	*bytes;		/* of a text; NULL for null */
	int		 number;	/* the length of a text, a number, a register, or flags */
};

enum operation {
	OP_SET, OP_ADD, OP_PUT, OP_PEEK, OP_JMP, OP_JZ, OP_JNZ, OP_JNEG, OP_FORK, OP_WAIT, OP_GETPID, OP_GETPPID, OP_EXIT, OP_PLEDGE, OP_UNVEIL,
	OP_EXECVE, OP_OPEN, OP_OPENAT, OP_CLOSE, OP_DUP, OP_DUP2, OP_READ, OP_WRITE, OP_LSEEK, OP_FSTAT, OP_FTRUNCATE, OP_GETDENTS, OP_FCHDIR,
	OP_CHDIR, OP_STAT, OP_LSTAT, OP_READLINK, OP_MKDIR, OP_RMDIR, OP_UNLINK, OP_SYMLINK, OP_LINK, OP_RENAME
};

struct instruction {
	enum operation	 operation;
	const char	*name;
	int		 arguments;
	struct argument	 argument[3];
};

struct program {
	int				 lines;
	const struct instruction	*line;
};

struct entry {
	char		 kind;		/* d, f, x, l, or n for another name of a file */
	const char	*path;
	const char	*bytes;		/* of a file or a link, or the path of the file */
	int		 length;
};

struct turn {
	int	 process;
	int	 steps;
};

/* An execve that succeeds, by the number of its step from 1, and the program that it loads. */
struct load {
	int	 step;
	int	 program;
};

extern const struct program	 programs[];	/* the first is /init */
extern const struct entry	 entries[];
extern const struct turn	 turns[];
extern const struct load	 loads[];
extern const int		 entry_count, turn_count, load_count;

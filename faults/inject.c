/* inject: runs a program and has one of its system calls fail, counted over all its threads.
 *
 *   inject MARK CALL[,CALL..] WHAT FIRST[~MS] PROGRAM [ARGUMENT..]
 *
 * CALL   the name of a call, or futex%N: with N as its operation
 * WHAT   a number: the call is not made, and fails with this errno; half, one: its third argument, a length, is halved, or 1, and it is made, but for a
 *        datagram that is sent, of which no system sends a part; top: brk is asked for where the heap ends, as the system answers where it has no memory; none: nothing is done to it
 * FIRST  which of these calls is meant, from 1 on; 0 is none. ~MS: and all within so many milliseconds after it
 * MARK   a file of 64 bytes, which who started this shares: byte 0 is the step at which he is; of the numbers of 8 bytes that at 8 is how many calls there
 *        were, at 16 how many failed, at 24 when the first did (CLOCK_MONOTONIC, in nanoseconds), at 32 at which step, from 1 on
 *
 * The status is the program's, 128 and the signal that ended it, or 250 to 253 where it could not be run. The calls are caught by seccomp, so that all others run
 * at full speed. */
#define _GNU_SOURCE
#include <errno.h>
#include <fcntl.h>
#include <linux/audit.h>
#include <linux/filter.h>
#include <linux/seccomp.h>
#include <signal.h>
#include <stddef.h>
#include <stdint.h>
#include <stdio.h>
#include <stdlib.h>
#include <string.h>
#include <sys/mman.h>
#include <sys/prctl.h>
#include <sys/ptrace.h>
#include <sys/syscall.h>
#include <sys/user.h>
#include <sys/wait.h>
#include <time.h>
#include <unistd.h>

#define CALL(name) {#name, SYS_##name}
static const struct { const char *name; int number; } calls[] = {
  CALL(accept4), CALL(accept), CALL(recvfrom), CALL(sendto), CALL(epoll_wait), CALL(epoll_pwait), CALL(epoll_ctl), CALL(epoll_create1), CALL(eventfd2), CALL(read),
  CALL(readv), CALL(write), CALL(writev), CALL(openat), CALL(close), CALL(mmap), CALL(munmap), CALL(mprotect), CALL(mremap), CALL(brk), CALL(madvise),
  CALL(clone3), CALL(clone), CALL(futex), CALL(socket), CALL(bind), CALL(listen), CALL(setsockopt), CALL(getsockname), CALL(ioctl), CALL(fcntl), CALL(fstat),
  CALL(newfstatat), CALL(lseek), CALL(statx), CALL(clock_nanosleep), CALL(nanosleep), CALL(sched_yield), CALL(getrandom), CALL(sched_getaffinity), CALL(prlimit64),
};
enum { MOST = 8, STEP = 0, COUNT = 1, FAILED = 2, WHEN = 3, WHERE = 4 };

struct meant { int number, operation; };
static struct meant meant[MOST];
static int kinds;
static int64_t *mark;

static int64_t now(void) {
  struct timespec t;
  clock_gettime(CLOCK_MONOTONIC, &t);
  return t.tv_sec * 1000000000LL + t.tv_nsec;
}

/* Reads which calls are meant; false where one has no such name. */
static int reads(char *names) {
  for (char *name = strtok(names, ","); name; name = strtok(0, ",")) {
    char *operation = strchr(name, '%');
    if (operation) *operation++ = 0;
    size_t at = 0;
    while (at < sizeof calls / sizeof *calls && strcmp(calls[at].name, name)) at++;
    if (at == sizeof calls / sizeof *calls || kinds == MOST) return 0;
    meant[kinds++] = (struct meant){calls[at].number, operation ? atoi(operation) : -1};
  }
  return kinds > 0;
}

/* Becomes the program, of which each call that is meant stops. */
static void run(char **words) {
  struct sock_filter code[2 * MOST + 2];
  int size = 0;
  code[size++] = (struct sock_filter)BPF_STMT(BPF_LD | BPF_W | BPF_ABS, offsetof(struct seccomp_data, nr));
  for (int i = 0; i < kinds; i++) {
    code[size++] = (struct sock_filter)BPF_JUMP(BPF_JMP | BPF_JEQ | BPF_K, meant[i].number, 0, 1);
    code[size++] = (struct sock_filter)BPF_STMT(BPF_RET | BPF_K, SECCOMP_RET_TRACE);
  }
  code[size++] = (struct sock_filter)BPF_STMT(BPF_RET | BPF_K, SECCOMP_RET_ALLOW);
  struct sock_fprog all = {size, code};
  prctl(PR_SET_PDEATHSIG, SIGKILL);
  ptrace(PTRACE_TRACEME, 0, 0, 0);
  raise(SIGSTOP);
  prctl(PR_SET_NO_NEW_PRIVS, 1, 0, 0, 0);
  if (prctl(PR_SET_SECCOMP, SECCOMP_MODE_FILTER, &all)) _exit(251);
  execvp(words[0], words);
  _exit(252);
}

/* Where the heap ends, or begins where there is none yet. */
static unsigned long heap_end(pid_t pid) {
  char path[64], line[512];
  unsigned long from, to, found = 0;
  snprintf(path, sizeof path, "/proc/%d/maps", pid);
  FILE *maps = fopen(path, "r");
  while (maps && fgets(line, sizeof line, maps))
    if (strstr(line, "[heap]") && sscanf(line, "%lx-%lx", &from, &to) == 2) found = to;
  if (maps) fclose(maps);
  if (found) return found;
  static char all[4096];
  snprintf(path, sizeof path, "/proc/%d/stat", pid);
  FILE *stat = fopen(path, "r");
  if (!stat) return 0;
  all[fread(all, 1, sizeof all - 1, stat)] = 0;
  fclose(stat);
  char *word = strtok(strrchr(all, ')') + 1, " ");
  for (int field = 3; word && field < 47; field++) word = strtok(0, " ");
  return word ? strtoul(word, 0, 10) : 0;
}

/* Does to a call what is wanted. */
static void fail(pid_t thread, pid_t pid, struct user_regs_struct *r, const char *what) {
  if (!strcmp(what, "half") && r->rdx > 1) r->rdx /= 2;
  else if (!strcmp(what, "one") && r->rdx > 1) r->rdx = 1;
  else if (!strcmp(what, "top")) r->orig_rax = -1, r->rax = heap_end(pid);
  else if (atoi(what)) r->orig_rax = -1, r->rax = -atoi(what);
  ptrace(PTRACE_SETREGS, thread, 0, r);
}

static int is_meant(const struct user_regs_struct *r, const char *what) {
  if (r->orig_rax == SYS_sendto && r->r8 && (!strcmp(what, "half") || !strcmp(what, "one"))) return 0;
  for (int i = 0; i < kinds; i++)
    if (meant[i].number == (int)r->orig_rax && (meant[i].operation < 0 || meant[i].operation == (int)(r->rsi & 0x7f))) return 1;
  return 0;
}

int main(int count, char **words) {
  char *rest;
  if (count < 6 || !reads(words[2])) {
    fprintf(stderr, "usage: inject MARK CALLS WHAT FIRST[~MS] PROGRAM ..\n");
    return 250;
  }
  const char *what = words[3];
  int64_t first = strtoll(words[4], &rest, 10), span = *rest == '~' ? atoll(rest + 1) * 1000000 : 0;
  int file = open(words[1], O_RDWR), status;
  mark = file < 0 ? MAP_FAILED : mmap(0, 64, PROT_READ | PROT_WRITE, MAP_SHARED, file, 0);
  if (mark == MAP_FAILED) return 250;
  close(file);
  pid_t pid = fork();
  if (!pid) run(words + 5);
  waitpid(pid, &status, 0);
  ptrace(PTRACE_SETOPTIONS, pid, 0, PTRACE_O_TRACECLONE | PTRACE_O_TRACESECCOMP | PTRACE_O_TRACEEXEC | PTRACE_O_EXITKILL);
  ptrace(PTRACE_CONT, pid, 0, 0);
  signal(SIGINT, SIG_IGN);
  signal(SIGTERM, SIG_IGN);
  for (int runs = 0;;) {
    pid_t thread = waitpid(-1, &status, __WALL);
    if (thread < 0) return 253;
    if (WIFEXITED(status) || WIFSIGNALED(status)) {
      if (thread == pid) return WIFEXITED(status) ? WEXITSTATUS(status) : 128 + WTERMSIG(status);
      continue;
    }
    int signal = WSTOPSIG(status), event = status >> 16;
    struct user_regs_struct r;
    if (event == PTRACE_EVENT_EXEC) runs = 1;
    if (event == PTRACE_EVENT_SECCOMP && runs && !ptrace(PTRACE_GETREGS, thread, 0, &r) && is_meant(&r, what)) {
      int64_t number = ++mark[COUNT];
      if (first && number >= first && (number == first || (span && now() < mark[WHEN] + span))) {
        if (!mark[FAILED]++) mark[WHEN] = now(), mark[WHERE] = 1 + *(volatile unsigned char *)mark;
        fail(thread, pid, &r, what);
      }
    }
    /* that a thread is there, or an event, is none of the program's own signals */
    int is_own = !event && signal != SIGTRAP && !(signal == SIGSTOP && thread != pid);
    ptrace(PTRACE_CONT, thread, 0, is_own ? signal : 0);
  }
}

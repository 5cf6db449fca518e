// Runs a command, and writes as the last line of the error stream its status (or the number of the signal that ended
// it, below 0), its processor time in seconds, and its most memory in bytes. The system counts what a process was
// before it became the command as memory of the command, so Python does not start it itself.
#include <stdio.h>
#include <sys/resource.h>
#include <sys/wait.h>
#include <unistd.h>

static double seconds_of(struct timeval t) { return t.tv_sec + 1e-6 * t.tv_usec; }

int main(int argc, char **argv) {
  if (argc < 2) return 2;
  pid_t child = fork();
  if (child == 0) {
    execvp(argv[1], argv + 1);
    _exit(127);
  }
  int ended;
  struct rusage usage;
  if (child < 0 || wait4(child, &ended, 0, &usage) != child) return 2;
  fprintf(stderr, "\n%d %.6f %ld\n", WIFEXITED(ended) ? WEXITSTATUS(ended) : -WTERMSIG(ended),
          seconds_of(usage.ru_utime) + seconds_of(usage.ru_stime), usage.ru_maxrss * 1024);
  return 0;
}

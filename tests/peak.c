/* peak FILE COMMAND..: runs a command and writes into the file its processor time in microseconds and the most memory that
 * it had, in kilobytes. The exit status is the command's, 128 and more where a signal ended it. */
#include <stdio.h>
#include <sys/resource.h>
#include <sys/types.h>
#include <sys/wait.h>
#include <unistd.h>

int main(int count, char **words) {
  struct rusage used;
  int status;
  pid_t child;
  FILE *file;
  if (count < 3) return 2;
  child = fork();
  if (child < 0) return 2;
  if (child == 0) {
    execvp(words[2], words + 2);
    _exit(127);
  }
  if (wait4(child, &status, 0, &used) < 0) return 2;
  file = fopen(words[1], "w");
  if (!file) return 2;
  fprintf(file, "%ld %ld\n",
          (used.ru_utime.tv_sec + used.ru_stime.tv_sec) * 1000000L + used.ru_utime.tv_usec + used.ru_stime.tv_usec,
          used.ru_maxrss);
  fclose(file);
  return WIFSIGNALED(status) ? 128 + WTERMSIG(status) : WEXITSTATUS(status);
}

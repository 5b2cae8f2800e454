/* Declared for sources that name them, and not defined: there are no signals. */
#ifndef LIBRARY_SIGNAL_H
#define LIBRARY_SIGNAL_H
typedef unsigned long sigset_t;
int sigprocmask(int how, const sigset_t *set, sigset_t *old);
int sigfillset(sigset_t *set);
int sigemptyset(sigset_t *set);
int sigaddset(sigset_t *set, int number);
#endif

/* Linked into an unproved program: a run-time check that fails ends it by a signal, and this tells
   so, with the launcher's own status. */
long write(int, const void *, unsigned long);
void _exit(int);
void (*signal(int, void (*)(int)))(int);

static void stop(int number) {
    static const char said[] = "bale: a run-time check failed, or the program could not go on: what was written is no answer\n";
    (void)number;
    (void)!write(2, said, sizeof said - 1);
    _exit(70);
}

__attribute__((constructor)) static void begin(void) {
    static const int numbers[] = {4 /* SIGILL */, 5 /* SIGTRAP */, 6 /* SIGABRT */, 7 /* SIGBUS */, 8 /* SIGFPE */, 11 /* SIGSEGV */};
    for (unsigned k = 0; k < sizeof numbers / sizeof *numbers; k++)
        signal(numbers[k], stop);
}

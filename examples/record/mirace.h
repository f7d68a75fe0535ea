/* A window of a program that is recorded: MIRACE_BEGIN() opens it, and MIRACE_END() closes it, as often as one likes.
   In a program that uses one of them the window is closed at first. Plain accesses are recorded in the window alone.
   All that orders threads is recorded everywhere. In a program that is built without the recorder both do nothing. */
#ifndef MIRACE_H
#define MIRACE_H
#ifdef __cplusplus
extern "C" {
#endif
void mirace_begin(void) __attribute__((weak));
void mirace_end(void) __attribute__((weak));
static const char mirace_window_is_used __attribute__((section("mirace_window"), used)) = 1;
#ifdef __cplusplus
}
#endif
#define MIRACE_BEGIN() do { if (mirace_begin) mirace_begin(); } while (0)
#define MIRACE_END() do { if (mirace_end) mirace_end(); } while (0)
#endif

/* Where memory is gone, OCaml ends by a signal, if it isn't told how: with status 4 now, and the message of it. */
#include <stdarg.h>
#include <unistd.h>
#include <caml/misc.h>
#include <caml/mlvalues.h>
#include <caml/unixsupport.h>

static void end(char *message, va_list words)
{
    static const char said[] = "judge: out of memory\n";
    ssize_t written = write(2, said, sizeof said - 1);
    (void)written;
    _exit(4);
}

value judge_ends_with_4(value unit)
{
    caml_fatal_error_hook = end;
    return unit;
}

/* The number of an error that Unix names. */
value judge_number_of(value error)
{
    return Val_int(code_of_unix_error(error));
}

/*
 * The commands, one file each, and what they share: statuses and errors.
 */
#ifndef COMMANDS_H
#define COMMANDS_H

/* The statuses of every command. "No" is that votes are refused, or that two
 * sheets differ. */
enum { STATUS_DONE = 0, STATUS_NO = 1, STATUS_TROUBLE = 2 };

/* argv[0] is the command's name. */
int command_console(int argc, char **argv);
int command_form(int argc, char **argv);
int command_show(int argc, char **argv);
int command_trace(int argc, char **argv);
int command_votes(int argc, char **argv);

/* Each prints one line or two on standard error, and gives STATUS_TROUBLE. The
 * name is the command's. */
int wrong_usage(const char *name, const char *what);
int trouble(const char *name, const char *what);

/* Gives STATUS_DONE if all that was printed has gone out. */
int finish_output(const char *name);

#endif

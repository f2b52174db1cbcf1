/* commands.h: what srec can be told to do. Each takes the options and operands that main.c has checked for number. */
#ifndef COMMANDS_H
#define COMMANDS_H

#include "options.h"
#include "status.h"

enum status run_check(const struct options *options);
enum status run_canon(const struct options *options);
enum status run_diff(const struct options *options);
enum status run_info(const struct options *options);
enum status run_where(const struct options *options);
enum status run_convert(const struct options *options);
enum status run_merge(const struct options *options);
enum status run_deal(const struct options *options);
enum status run_collect(const struct options *options);
enum status run_patch(const struct options *options);

#endif
